//! Rows of sheets, whole and damaged, in both places and of both roles: by sheet numbers that there are and others, by
//! states that the sheets have and others.

use super::lengths::{claimed_sheet, sheet_of, SHEETS};
use super::noise::sheet_noise;
use super::single::each_change;
use super::Share;
use crate::call::{Call, Row};
use crate::chance::Chance;
use crate::contract::{Contract, Shape, CLIENT, SERVICE};
use crate::edit::edited;
use crate::runner::{Checked, Runner};
use crate::untidy::untidy;

/// Sheet numbers of which few are wrong.
const NUMBERS: [u8; 13] = [1, 1, 1, 1, 1, 2, 2, 2, 2, 2, 0, 3, 255];

/// A contract of either role, one in fifty large.
fn some(chance: &mut Chance) -> Contract {
    let shape = if chance.one_in(50) { Shape::large(chance) } else { Shape::small(chance) };
    let role = chance.pick(&[SERVICE, CLIENT]);
    shape.contract(chance, role)
}

/// The sheet of a contract with something wrong, most often.
fn broken(chance: &mut Chance, contract: &Contract) -> Vec<u8> {
    match chance.below(8) {
        0 => Vec::new(),
        1 => {
            let length = chance.below(60);
            sheet_noise(chance, length)
        }
        2 | 3 => untidy(chance, contract),
        _ => edited(chance, &contract.sheet()),
    }
}

/// A state of the contract, or one in four beyond it.
fn state_of(chance: &mut Chance, contract: &Contract) -> u8 {
    let count = contract.states.len();
    let beyond = chance.between(count, 255);
    let state = if chance.one_in(4) { chance.pick(&[count, beyond]) } else { chance.below(count) };
    state as u8
}

/// Every state of two sheets, the first that each has not, and others; one in two beside a sheet that may be broken.
pub fn whole(runner: &mut Runner, chance: &mut Chance, share: Share) -> Checked {
    for _ in 0..share.of(60_000) {
        let (one, other) = (some(chance), some(chance));
        let beside = if chance.one_in(2) { other.sheet() } else { broken(chance, &other) };
        let (first, second, sheet) = if chance.one_in(2) { (one.sheet(), beside, 1) } else { (beside, one.sheet(), 2) };
        let call = Row { first, second, sheet, state: 0, null: chance.one_in(2) };
        let count = one.states.len() as u8;
        let beyond = chance.between(count.into(), 255) as u8;
        for state in (0..=count).chain([63, 64, 255, beyond]) {
            runner.check(&Call::Row(Row { state, ..call.clone() }))?;
        }
        let (sheet, state) = (chance.pick(&NUMBERS), state_of(chance, &other));
        runner.check(&Call::Row(Row { sheet, state, ..call }))?;
    }
    Ok(())
}

pub fn damaged(runner: &mut Runner, chance: &mut Chance, share: Share) -> Checked {
    for _ in 0..share.of(80_000) {
        let (one, other) = (some(chance), some(chance));
        let (whole, first, second) = (one.sheet(), broken(chance, &one), broken(chance, &other));
        for (first, second) in [(&first, &second), (&first, &whole), (&whole, &second), (&second, &first)] {
            for _ in 0..2 {
                let (sheet, state) = (chance.pick(&NUMBERS), state_of(chance, &one));
                let (first, second, null) = (first.clone(), second.clone(), chance.one_in(2));
                runner.check(&Call::Row(Row { first, second, sheet, state, null }))?;
            }
        }
    }
    Ok(())
}

pub fn single(runner: &mut Runner, chance: &mut Chance, share: Share) -> Checked {
    for round in 0..share.of(60) {
        let role = [SERVICE, CLIENT][round % 2];
        let contract = Shape::small(chance).contract(chance, role);
        let count = contract.states.len();
        let (sheet, beside) = (contract.sheet(), some(chance).sheet());
        each_change(runner, &sheet, |changed| {
            let (state, null) = (chance.between(0, count) as u8, false);
            match round / 2 % 2 {
                0 => Call::Row(Row { first: changed, second: beside.clone(), sheet: 1, state, null }),
                _ => Call::Row(Row { first: beside.clone(), second: changed, sheet: 2, state, null }),
            }
        })?;
    }
    Ok(())
}

pub fn numbers(runner: &mut Runner, chance: &mut Chance, share: Share) -> Checked {
    for _ in 0..share.of(4) {
        let (first, second) = (some(chance).sheet(), some(chance).sheet());
        let mut call = Row { first, second, ..Row::default() };
        for sheet in 0..=255 {
            for state in 0..=255 {
                (call.sheet, call.state) = (sheet, state);
                runner.check(&Call::Row(call.clone()))?;
            }
        }
    }
    Ok(())
}

/// Sheets without bytes in each place, as pointers and as null; sheets of all lengths; full ones.
pub fn lengths(runner: &mut Runner, chance: &mut Chance, share: Share) -> Checked {
    let whole = some(chance).sheet();
    for choice in 0..8 {
        let chosen = |bit: usize| if choice >> bit & 1 == 1 { whole.clone() } else { Vec::new() };
        for sheet in [0, 1, 2, 3] {
            let (first, second, null) = (chosen(0), chosen(1), choice >> 2 == 1);
            runner.check(&Call::Row(Row { first, second, sheet, state: 0, null }))?;
        }
    }
    for length in (0..=200).chain(SHEETS) {
        for _ in 0..share.of(20) {
            let noise = if chance.one_in(2) { sheet_noise(chance, length) } else { claimed_sheet(chance, length) };
            everywhere(runner, chance, &noise, &whole, &[0, 1, 63, 64, 255])?;
        }
    }
    for count in [1, 2, 63, 64, 65, 66, 100, 127] {
        for n in [0, 1, 7] {
            let (sheet, last) = (sheet_of(chance, count, n), count as u8 - 1);
            everywhere(runner, chance, &sheet, &whole, &[0, last / 2, last, last + 1, 255])?;
        }
    }
    Ok(())
}

/// The bytes in each place, named and not named, with these states.
fn everywhere(runner: &mut Runner, chance: &mut Chance, bytes: &[u8], whole: &[u8], states: &[u8]) -> Checked {
    for (first, second) in [(bytes, whole), (whole, bytes)] {
        for sheet in [1, 2] {
            let (first, second, state) = (first.to_vec(), second.to_vec(), chance.pick(states));
            runner.check(&Call::Row(Row { first, second, sheet, state, null: chance.one_in(2) }))?;
        }
    }
    Ok(())
}
