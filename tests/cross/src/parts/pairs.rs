//! Valid pairs, with exactly enough lent, one less, more and nothing; some with a wrong role, other names or a
//! wrong rank.

use super::Share;
use crate::call::{Call, Connect};
use crate::chance::Chance;
use crate::contract::{client_of, Contract, Shape, SERVICE};
use crate::runner::{Checked, Runner};
use crate::target::{LENGTH, SITUATIONS};

const RECORDS: [usize; 10] = [0, 1, 2, 5, 16, 16, 64, 64, 64, 200];
const RANKS: [u8; 12] = [0, 0, 0, 1, 1, 1, 2, 2, 3, 3, 4, 255];

pub fn run(runner: &mut Runner, chance: &mut Chance, share: Share) -> Checked {
    for round in 0..share.of(400_000) {
        let medium = round % 16 == 0;
        let shape = if medium { Shape::medium(chance) } else { Shape::small(chance) };
        let (old, new) = pair(chance, &shape);
        let (k, records) = (chance.pick(&RANKS), if medium { 1024 } else { chance.pick(&RECORDS) });
        let room = if medium { 16_384 } else { 600 };
        let mut call = Connect::new(chance, k, old.sheet(), new.sheet(), records, room);
        let figures = runner.check(&Call::Connect(call.clone()))?;
        let (situations, length) = (figures[SITUATIONS] as usize, figures[LENGTH] as usize);
        if situations > 0 && chance.one_in(3) {
            for records in [situations, situations - 1] {
                runner.check(&Call::Connect(Connect { records, ..call.clone() }))?;
            }
        }
        if length > 0 {
            let more = chance.between(1, 40);
            for room in [length, length - 1, length + 1, 0, length + more, chance.below(length)] {
                call.room = room;
                runner.check(&Call::Connect(call.clone()))?;
            }
        }
    }
    Ok(())
}

/// Two services over the same names; or, one in six, something wrong with them.
fn pair(chance: &mut Chance, shape: &Shape) -> (Contract, Contract) {
    let (old, new) = shape.pair(chance);
    match chance.below(24) {
        0 => (client_of(chance, &old), new),
        1 => (old, client_of(chance, &new)),
        2 => (client_of(chance, &old), client_of(chance, &new)),
        3 => (old, Shape::small(chance).contract(chance, SERVICE)),
        _ => (old, new),
    }
}
