//! Emitted plans: every state with every code that there is, some with every byte, and states that they have not.

use super::{emitted, Share};
use crate::call::{Call, Step};
use crate::chance::Chance;
use crate::runner::{Checked, Runner};

pub fn run(runner: &mut Runner, chance: &mut Chance, share: Share) -> Checked {
    for _ in 0..share.of(2_000) {
        let plan = emitted(runner, chance, 1024)?;
        let count = u16::from_le_bytes([plan[plan.len() - 4], plan[plan.len() - 3]]);
        let inside = chance.below(count.into()) as u16;
        let beyond = chance.pick(&[count + 1, 255, 256, 4095, 4096, 65535]);
        let named = (0..count).flat_map(|state| (0..46).map(move |code| (state, code)));
        let others = [inside, count, beyond].into_iter().flat_map(|state| (0..=255).map(move |code| (state, code)));
        let mut call = Step { plan, ..Step::default() };
        for (state, code) in named.chain(others) {
            (call.state, call.code) = (state, code);
            runner.check(&Call::Step(call.clone()))?;
        }
    }
    Ok(())
}
