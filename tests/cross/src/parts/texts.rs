//! Contracts typed as text: whole ones with exactly enough lent, one byte less, more and nothing; damaged ones; every byte
//! in every place; and texts of all lengths.

use super::single::each_change;
use super::Share;
use crate::call::{Call, FromText};
use crate::chance::Chance;
use crate::runner::{Checked, Runner};
use crate::target::SHEET_LENGTH;
use crate::text::{chains, damaged, families, long_rows, nested, noise, rings, sprinkled, wide, with_blanks};
use crate::text::{Shape, DEEPEST};
use baseline::{LONGEST_SHEET, LONGEST_TEXT};

/// Texts of more bytes may take long, and are tried with fewer rooms.
const LARGE: usize = 100;

pub fn whole(runner: &mut Runner, chance: &mut Chance, share: Share) -> Checked {
    for _ in 0..share.of(300_000) {
        let text = some(chance);
        let text = if chance.one_in(3) { sprinkled(chance, text) } else { text };
        let room = chance.pick(&[LONGEST_SHEET, LONGEST_SHEET, 3000, 100, 0]);
        let mut call = FromText { text, room, null: chance.one_in(2) };
        let length = runner.check(&Call::FromText(call.clone()))?[SHEET_LENGTH] as usize;
        if length > 0 {
            let more = chance.between(1, 40);
            let rooms = [length, length - 1, chance.below(length), length + 1, 0, length + more];
            let few = call.text.len() > LARGE;
            for room in &rooms[..if few { 3 } else { 6 }] {
                call.room = *room;
                runner.check(&Call::FromText(call.clone()))?;
            }
        }
    }
    Ok(())
}

pub fn with_faults(runner: &mut Runner, chance: &mut Chance, share: Share) -> Checked {
    for _ in 0..share.of(80_000) {
        let text = some(chance);
        let text = if chance.one_in(3) { sprinkled(chance, text) } else { text };
        for _ in 0..10 {
            let (text, room) = (damaged(chance, &text), chance.pick(&[0, 30, 200, LONGEST_SHEET]));
            runner.check(&Call::FromText(FromText { text, room, null: chance.one_in(2) }))?;
        }
    }
    Ok(())
}

/// Each byte changed to every other value, and every byte behind each beginning.
pub fn single(runner: &mut Runner, chance: &mut Chance, share: Share) -> Checked {
    for _ in 0..share.of(60) {
        let text = small(chance);
        let text = if chance.one_in(4) { sprinkled(chance, text) } else { text };
        let (text, room) = (&text[..text.len().min(60)], chance.pick(&[0, 30, 200]));
        each_change(runner, text, |text| Call::FromText(FromText { text, room, null: false }))?;
        for length in 0..=text.len() {
            for byte in 0..=255 {
                let text = [&text[..length], &[byte]].concat();
                runner.check(&Call::FromText(FromText { text, room, null: false }))?;
            }
        }
    }
    Ok(())
}

/// Lengths at which 8 or 16 bits are not enough to count.
const LENGTHS: [usize; 10] = [511, 512, 513, 2118, 65_535, 65_536, 65_537, 65_541, 65_792, 131_080];

pub fn lengths(runner: &mut Runner, chance: &mut Chance, share: Share) -> Checked {
    for choice in 0..8 {
        let (text, room) = (vec![b'0'; choice & 1], 11 * (choice >> 1 & 1));
        runner.check(&Call::FromText(FromText { text, room, null: choice >> 2 == 1 }))?;
    }
    for _ in 0..share.of(1_000) {
        for length in 0..=300 {
            let (text, room) = (of_length(chance, length), chance.pick(&[0, 64, 2118]));
            runner.check(&Call::FromText(FromText { text, room, null: chance.one_in(2) }))?;
        }
    }
    for _ in 0..share.of(100) {
        for length in LENGTHS {
            let (text, room) = (of_length(chance, length), chance.pick(&[0, 2118, 70_000]));
            runner.check(&Call::FromText(FromText { text, room, null: chance.one_in(2) }))?;
        }
    }
    Ok(())
}

/// A text of this length, most often one that the grammar derives.
fn of_length(chance: &mut Chance, length: usize) -> Vec<u8> {
    match chance.below(8) {
        0 => chance.bytes(length),
        1 => noise(chance, length),
        2 => vec![b' '; length],
        3 | 4 if length > 7 => {
            let chain = wide(chance, length);
            with_blanks(chance, chain, length)
        }
        _ => {
            let mut text = small(chance);
            text.truncate(length);
            let behind = length > 1000 || chance.one_in(2);
            if behind {
                text.resize(length, b' ');
            }
            with_blanks(chance, text, length)
        }
    }
}

fn small(chance: &mut Chance) -> Vec<u8> {
    let shape = Shape::small(chance);
    shape.text(chance)
}

/// A text of the right form, or nearly: small, large, too deep, with any variable; or at the limits of states, ready sets
/// and lengths.
fn some(chance: &mut Chance) -> Vec<u8> {
    match chance.below(80) {
        0..40 => small(chance),
        40..48 => Shape { any_variable: chance.pick(&[2, 4, 8]), ..Shape::small(chance) }.text(chance),
        48..60 => Shape::large(chance).text(chance),
        60..64 => Shape { depth: DEEPEST + 1, ..Shape::large(chance) }.text(chance),
        64..69 => rings(chance),
        69..72 => chains(chance),
        72..75 => nested(chance),
        75 => families(chance),
        76 | 77 => {
            let length = chance.between(1, LONGEST_TEXT + 2);
            wide(chance, length)
        }
        _ => long_rows(chance.pick(&[0, 1, 2, 3, 3, 3, 4]), chance.pick(&[0, 0, 0, 1])),
    }
}
