//! Sheets and plans at the limits of length and count, and beyond them.

use super::Share;
use crate::call::{Call, Complies, Connect, Step};
use crate::chance::Chance;
use crate::contract::{trailer, Contract, Shape, MOST_READY, MOST_STATES, SERVICE};
use crate::runner::{Checked, Runner};

pub const SHEETS: [usize; 22] = [
    0, 1, 5, 6, 7, 8, 11, 255, 256, 2116, 2117, 2118, 2119, 2120, 4096, 32767, 32768, 65535, 65536, 65542, 65544,
    131080,
];

const PLANS: [usize; 14] = [0, 7, 8, 9, 12, 13, 65535, 65536, 65544, 536_583, 536_584, 536_585, 600_000, 1_048_576];

pub fn run(runner: &mut Runner, chance: &mut Chance, share: Share) -> Checked {
    for length in SHEETS {
        for _ in 0..share.of(60) {
            let bytes = claimed_sheet(chance, length);
            everywhere(runner, chance, bytes)?;
        }
    }
    for count in [1, 2, 63, 64, 65, 66, 100, 127] {
        for n in [0, 1, 7] {
            let sheet = sheet_of(chance, count, n);
            everywhere(runner, chance, sheet)?;
        }
    }
    for length in PLANS {
        for _ in 0..share.of(12) {
            let plan = claimed_plan(chance, length);
            stepped(runner, chance, &plan)?;
        }
    }
    for (count, moves) in
        [(1, 42), (1, 43), (2, 42), (4095, 0), (4096, 0), (4097, 0), (4096, 42), (4096, 43), (4097, 42)]
    {
        stepped(runner, chance, &full_plan(count, moves))?;
    }
    Ok(())
}

/// The bytes in each place that a sheet has.
fn everywhere(runner: &mut Runner, chance: &mut Chance, bytes: Vec<u8>) -> Checked {
    let other = Shape::small(chance).contract(chance, SERVICE).sheet();
    let k = chance.below(5) as u8;
    for (old, new) in [(&bytes, &other), (&other, &bytes), (&bytes, &bytes)] {
        let call = Connect::new(chance, k, old.clone(), new.clone(), 64, 300);
        runner.check(&Call::Connect(call))?;
        let null = chance.one_in(2);
        runner.check(&Call::Complies(Complies { client: old.clone(), service: new.clone(), null }))?;
    }
    Ok(())
}

/// Bytes with a trailer that claims an index which fits this length, modulo 65,536.
pub fn claimed_sheet(chance: &mut Chance, length: usize) -> Vec<u8> {
    let filling = chance.pick(&[0, 1, 0xFF]);
    let mut bytes = if chance.one_in(2) { vec![filling; length] } else { chance.bytes(length) };
    if length >= 6 {
        let count = chance.pick(&[0, 1, 2, 63, 64, 65, 255]);
        let offset = length.wrapping_sub(6 + 2 * usize::from(count)) as u16;
        let (n, role) = (chance.below(9) as u8, chance.below(3) as u8);
        bytes[length - 6..].copy_from_slice(&trailer(offset, count, n, role));
    }
    bytes
}

/// A sheet of so many states, as full as 2,118 bytes allow.
pub fn sheet_of(chance: &mut Chance, count: usize, n: u8) -> Vec<u8> {
    let shape = Shape { n, states: MOST_STATES, ready: MOST_READY, actions: 14 };
    let mut contract = Contract { n, role: SERVICE, states: Vec::new() };
    while contract.states.len() < count {
        contract.states.append(&mut shape.contract(chance, SERVICE).states);
    }
    contract.states.truncate(count);
    let count = count.min(255) as u8;
    contract.states.iter_mut().for_each(|state| state.after.iter_mut().for_each(|after| *after %= count));
    contract.sheet()
}

/// Bytes with a trailer that claims an index which fits this length, modulo 2 to the 32.
fn claimed_plan(chance: &mut Chance, length: usize) -> Vec<u8> {
    let filling = chance.pick(&[0, 1, 0xFF]);
    let mut bytes = if chance.one_in(2) { vec![filling; length] } else { chance.bytes(length) };
    if length >= 8 {
        let count = chance.pick(&[0, 1, 2, 4095, 4096, 4097, 65535u16]);
        let offset = length.wrapping_sub(8 + 4 * usize::from(count)) as u32;
        bytes[length - 8..length - 4].copy_from_slice(&offset.to_le_bytes());
        bytes[length - 4..length - 2].copy_from_slice(&count.to_le_bytes());
        bytes[length - 2..].copy_from_slice(&[chance.below(9) as u8, chance.below(5) as u8]);
    }
    bytes
}

/// A plan of so many states, with so many moves in each, all back to the start; more than 42 are too many.
fn full_plan(count: u32, moves: u8) -> Vec<u8> {
    let codes = (0..14).chain(16..30).chain(32..46).chain(46..).take(moves.into());
    let mut row = vec![moves];
    row.extend(codes.flat_map(|code| [code, 0, 0]));
    let mut plan = row.repeat(count as usize);
    let offset = plan.len() as u32;
    for state in 0..count {
        plan.extend((state * row.len() as u32).to_le_bytes());
    }
    plan.extend(offset.to_le_bytes());
    plan.extend((count as u16).to_le_bytes());
    plan.extend([7, 3]);
    plan
}

fn stepped(runner: &mut Runner, chance: &mut Chance, plan: &[u8]) -> Checked {
    for state in [0, 1, 4095, 4096, 65535] {
        let (code, null) = (chance.pick(&[0, 13, 14, 45, 46]), chance.one_in(2));
        runner.check(&Call::Step(Step { plan: plan.to_vec(), state, code, null }))?;
    }
    Ok(())
}
