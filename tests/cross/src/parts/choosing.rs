//! Choosing sheets: valid ones with exactly enough lent, one byte less, more and nothing; edited ones; and bytes of all
//! lengths.

use super::Share;
use crate::call::{Call, FromChoosing};
use crate::chance::Chance;
use crate::choosing::{letters, rings, Choosing, Shape, CLOSING, END};
use crate::contract::every_action;
use crate::edit::edited;
use crate::runner::{Checked, Runner};
use baseline::LONGEST_SHEET;

pub fn valid(runner: &mut Runner, chance: &mut Chance, share: Share) -> Checked {
    for _ in 0..share.of(400_000) {
        let choosing = some(chance).bytes();
        let room = chance.pick(&[LONGEST_SHEET, LONGEST_SHEET, 3000, 100, 0]);
        let mut call = FromChoosing { choosing, room, null: chance.one_in(2) };
        let length = runner.check(&Call::FromChoosing(call.clone()))?[3] as usize;
        if length > 0 {
            let more = chance.between(1, 40);
            for room in [length, length - 1, length + 1, 0, length + more, chance.below(length)] {
                call.room = room;
                runner.check(&Call::FromChoosing(call.clone()))?;
            }
        }
    }
    Ok(())
}

pub fn edits(runner: &mut Runner, chance: &mut Chance, share: Share) -> Checked {
    for _ in 0..share.of(60_000) {
        let whole = some(chance).bytes();
        for _ in 0..10 {
            let (choosing, room) = (edited(chance, &whole), chance.pick(&[0, 30, 200, LONGEST_SHEET]));
            runner.check(&Call::FromChoosing(FromChoosing { choosing, room, null: chance.one_in(2) }))?;
        }
    }
    Ok(())
}

/// Lengths at which the trailer's offset of the index comes to its limits, or wraps.
const LENGTHS: [usize; 9] = [4197, 4198, 4199, 32_767, 65_535, 65_536, 65_542, 65_544, 131_080];

pub fn lengths(runner: &mut Runner, chance: &mut Chance, share: Share) -> Checked {
    for count in [0, 1, 2, 31, 32, 33, 64, 65, 255] {
        for n in [0, 1, 7, 8] {
            let (choosing, room) = (Choosing { n, rows: vec![END; count] }.bytes(), chance.pick(&[0, 11, 300]));
            runner.check(&Call::FromChoosing(FromChoosing { choosing, room, null: false }))?;
        }
    }
    for _ in 0..share.of(1_000) {
        for length in (0..=200).chain(LENGTHS) {
            let (choosing, room) = (noise(chance, length), chance.pick(&[0, 64, 2118, 70_000]));
            runner.check(&Call::FromChoosing(FromChoosing { choosing, room, null: chance.one_in(2) }))?;
        }
    }
    Ok(())
}

/// Bytes of which most are small numbers; but for one in eight, with a trailer that fits, modulo 65,536.
fn noise(chance: &mut Chance, length: usize) -> Vec<u8> {
    if length < 6 || chance.one_in(8) {
        return chance.bytes(length);
    }
    let small = [0, 0, 0, 1, 1, 1, 2, 3];
    let mut bytes: Vec<u8> = (0..length - 6).map(|_| chance.pick(&small)).collect();
    let count = chance.pick(&[1, 1, 2, 3, 32]);
    let offset = length.wrapping_sub(6 + 2 * usize::from(count));
    if let Some(entries) = bytes.get_mut(offset..) {
        entries.fill(0);
    }
    bytes.extend((offset as u16).to_le_bytes());
    bytes.extend([count, chance.below(8) as u8, 0, CLOSING]);
    bytes
}

/// A choosing sheet of the right form: small, large, or at the limits of states and ready sets.
fn some(chance: &mut Chance) -> Choosing {
    match chance.below(12) {
        0..6 => Shape::small(chance).choosing(chance),
        6 | 7 => Shape::large(chance).choosing(chance),
        8 => crowded(chance),
        9 => {
            let size = chance.pick(&[1, 3, 5, 6, 6, 6, 7, 12, 31]);
            changed(chance, letters(size))
        }
        10 => {
            let size = chance.pick(&[3, 16, 31, 32, 32, 32]);
            changed(chance, rings(size))
        }
        _ => {
            let mut choosing = letters(chance.pick(&[3, 6, 6, 7]));
            let (row, masks) = (chance.below(choosing.rows.len()), masks(chance, 7));
            choosing.crowd(row, &masks);
            changed(chance, choosing)
        }
    }
}

/// Up to 12 ready sets, of which most are different.
fn masks(chance: &mut Chance, n: u8) -> Vec<u16> {
    let count = chance.pick(&[1, 4, 7, 8, 8, 8, 9, 9, 10, 12]);
    (0..count).map(|_| chance.number() as u16 & every_action(n)).collect()
}

/// A small choosing sheet, one of whose rows chooses among many ready sets.
fn crowded(chance: &mut Chance) -> Choosing {
    let mut choosing = Shape::small(chance).choosing(chance);
    let (row, masks) = (chance.below(choosing.rows.len()), masks(chance, choosing.n));
    choosing.crowd(row, &masks);
    choosing.shuffled(chance)
}

/// Often with an action more, often in another order of rows.
fn changed(chance: &mut Chance, mut choosing: Choosing) -> Choosing {
    for _ in 0..chance.below(3) {
        choosing.also(chance);
    }
    if chance.one_in(2) {
        choosing.shuffled(chance)
    } else {
        choosing
    }
}
