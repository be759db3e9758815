//! Pairs with many situations, up to the limit of 4,096 and beyond it, and as many rounds; large tables lent.

use super::Share;
use crate::call::{Call, Connect};
use crate::chance::Chance;
use crate::contract::{everything, ring, Shape};
use crate::runner::{Checked, Runner};
use crate::target::{LENGTH, MOST_RECORDS, SITUATIONS};
use baseline::LONGEST_PLAN;

/// Names and ranks with which every buffer is reached: (k+1) to the power 2n situations.
const BUFFERS: [(u8, u8); 16] = [
    (0, 3),
    (1, 0),
    (1, 1),
    (1, 2),
    (1, 3),
    (2, 1),
    (2, 2),
    (2, 3),
    (3, 1),
    (3, 2),
    (3, 3),
    (4, 1),
    (4, 2),
    (5, 1),
    (6, 1),
    (7, 1),
];

pub fn run(runner: &mut Runner, chance: &mut Chance, share: Share) -> Checked {
    for (n, k) in BUFFERS {
        let sheet = everything(n).sheet();
        let call = Connect::new(chance, k, sheet.clone(), sheet, MOST_RECORDS, LONGEST_PLAN);
        edges(runner, call)?;
    }
    for states in [1, 2, 7, 15, 31] {
        let (old, new) = ring(states);
        let call = Connect::new(chance, 0, old.sheet(), new.sheet(), 1024, 32_768);
        edges(runner, call)?;
    }
    let (old, new) = ring(63);
    let call = Connect::new(chance, 0, old.sheet(), new.sheet(), 4096, 0);
    runner.check(&Call::Connect(call))?;
    for _ in 0..share.of(8_000) {
        let shape = Shape::large(chance);
        let (old, new) = shape.pair(chance);
        let (k, records) = (chance.below(4) as u8, chance.pick(&[64, 1024, 1024, 4096, 4150, MOST_RECORDS]));
        let call = Connect::new(chance, k, old.sheet(), new.sheet(), records, 32_768);
        edges(runner, call)?;
    }
    Ok(())
}

/// The call, then with exactly enough lent, and with one less.
fn edges(runner: &mut Runner, call: Connect) -> Checked {
    let figures = runner.check(&Call::Connect(call.clone()))?;
    let (situations, length) = (figures[SITUATIONS] as usize, figures[LENGTH] as usize);
    if situations > 0 {
        runner.check(&Call::Connect(Connect { records: situations, ..call.clone() }))?;
        runner.check(&Call::Connect(Connect { records: situations - 1, ..call.clone() }))?;
    }
    if length > 0 {
        runner.check(&Call::Connect(Connect { room: length, ..call.clone() }))?;
        runner.check(&Call::Connect(Connect { room: length - 1, ..call }))?;
    }
    Ok(())
}
