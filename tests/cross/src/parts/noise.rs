//! Random bytes of all lengths 0 to 300, in each place; two in three with a trailer that fits, so that what
//! stands before it is read.

use super::{emitted, Share};
use crate::call::{Call, Complies, Connect, Step};
use crate::chance::Chance;
use crate::contract::{client_of, trailer, Shape, SERVICE};
use crate::runner::{Checked, Runner};

const LONGEST: usize = 300;

pub fn run(runner: &mut Runner, chance: &mut Chance, share: Share) -> Checked {
    for _ in 0..share.of(400) {
        let service = Shape::small(chance).contract(chance, SERVICE);
        let (sheet, client) = (service.sheet(), client_of(chance, &service).sheet());
        let plan = emitted(runner, chance, LONGEST)?;
        for length in 0..=LONGEST {
            let (null, k) = (chance.one_in(2), chance.below(5) as u8);
            for (old, new) in [(None, Some(&sheet)), (Some(&sheet), None), (None, None)] {
                let mut given = |valid: Option<&Vec<u8>>| valid.cloned().unwrap_or_else(|| sheet_noise(chance, length));
                let (old, new) = (given(old), given(new));
                let call = Connect::new(chance, k, old, new, 5, 64);
                runner.check(&Call::Connect(call))?;
            }
            let (first, second) = (sheet_noise(chance, length), sheet_noise(chance, length));
            runner.check(&Call::Complies(Complies { client: first, service: sheet.clone(), null }))?;
            runner.check(&Call::Complies(Complies { client: client.clone(), service: second, null }))?;
            let mut noisy = plan_noise(chance, length);
            if chance.one_in(8) {
                noisy.extend(&plan);
            }
            let (state, code) = (chance.below(4) as u16, chance.below(48) as u8);
            runner.check(&Call::Step(Step { plan: noisy, state, code, null }))?;
        }
    }
    Ok(())
}

/// Bytes of which most are small numbers.
fn small_bytes(chance: &mut Chance, length: usize) -> Vec<u8> {
    (0..length).map(|_| if chance.one_in(6) { chance.byte() } else { chance.pick(&[0, 0, 0, 1, 1, 2, 3]) }).collect()
}

pub fn sheet_noise(chance: &mut Chance, length: usize) -> Vec<u8> {
    if length < 8 || chance.one_in(3) {
        return chance.bytes(length);
    }
    let count = chance.between(1, ((length - 6) / 2).min(4));
    let offset = length - 6 - 2 * count;
    let mut bytes = small_bytes(chance, length - 6);
    bytes[offset..offset + 2].fill(0);
    bytes.extend(trailer(offset as u16, count as u8, chance.below(8) as u8, chance.below(2) as u8));
    bytes
}

fn plan_noise(chance: &mut Chance, length: usize) -> Vec<u8> {
    if length < 13 || chance.one_in(3) {
        return chance.bytes(length);
    }
    let count = chance.between(1, (length - 8) / 5);
    let offset = length - 8 - 4 * count;
    let mut bytes = small_bytes(chance, offset);
    let mut start = 0u32;
    for _ in 0..count {
        bytes.extend(start.to_le_bytes());
        start += 1 + 3 * u32::from(bytes.get(start as usize).copied().unwrap_or(0));
    }
    bytes.extend((offset as u32).to_le_bytes());
    bytes.extend((count as u16).to_le_bytes());
    bytes.extend([chance.below(8) as u8, chance.below(4) as u8]);
    bytes
}
