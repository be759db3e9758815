//! Every single-byte change of valid sheets, emitted plans and choosing sheets: each byte, to each of the 255 other
//! values.

use super::{emitted, Share};
use crate::call::{Call, Complies, Connect, FromChoosing, Step};
use crate::chance::Chance;
use crate::choosing;
use crate::contract::{client_of, Shape};
use crate::runner::{Checked, Runner};

pub fn sheets(runner: &mut Runner, chance: &mut Chance, share: Share) -> Checked {
    for round in 0..share.of(400) {
        let (old, new) = Shape::small(chance).pair(chance);
        let client = client_of(chance, &old).sheet();
        let (k, records) = (chance.below(4) as u8, chance.pick(&[2, 5, 16, 64]));
        let connect = Connect::new(chance, k, old.sheet(), new.sheet(), records, 200);
        let complies = Complies { client, service: old.sheet(), null: false };
        if round % 2 == 0 {
            each_change(runner, &connect.old, |old| Call::Connect(Connect { old, ..connect.clone() }))?;
            each_change(runner, &complies.client, |client| Call::Complies(Complies { client, ..complies.clone() }))?;
        } else {
            each_change(runner, &connect.new, |new| Call::Connect(Connect { new, ..connect.clone() }))?;
            each_change(runner, &complies.service, |service| Call::Complies(Complies { service, ..complies.clone() }))?;
        }
    }
    Ok(())
}

pub fn plans(runner: &mut Runner, chance: &mut Chance, share: Share) -> Checked {
    for _ in 0..share.of(400) {
        let plan = emitted(runner, chance, 160)?;
        let (count, first) = (usize::from(plan[plan.len() - 4]), plan[1]);
        each_change(runner, &plan, |plan| {
            let (state, code) = (chance.below(count) as u16, chance.pick(&[first, first, 0, 16, 32]));
            Call::Step(Step { plan, state, code, null: false })
        })?;
    }
    Ok(())
}

pub fn choosing_sheets(runner: &mut Runner, chance: &mut Chance, share: Share) -> Checked {
    for _ in 0..share.of(100) {
        let choosing = choosing::Shape::small(chance).choosing(chance).bytes();
        let room = chance.pick(&[0, 20, 100]);
        each_change(runner, &choosing, |choosing| Call::FromChoosing(FromChoosing { choosing, room, null: false }))?;
    }
    Ok(())
}

/// The call with each byte changed to every other value.
pub fn each_change(runner: &mut Runner, bytes: &[u8], mut call: impl FnMut(Vec<u8>) -> Call) -> Checked {
    for place in 0..bytes.len() {
        for value in (0..=255).filter(|value| *value != bytes[place]) {
            let mut changed = bytes.to_vec();
            changed[place] = value;
            runner.check(&call(changed))?;
        }
    }
    Ok(())
}
