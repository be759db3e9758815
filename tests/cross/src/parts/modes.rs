//! The same pair by each entry that connects and in each mode, and its plans checked in each: the modes often differ.

use super::Share;
use crate::call::{settled, Call, CheckPlan, Connect};
use crate::chance::Chance;
use crate::contract::ending_pair;
use crate::runner::{Checked, Runner};

pub fn run(runner: &mut Runner, chance: &mut Chance, share: Share) -> Checked {
    for _ in 0..share.of(100_000) {
        let (old, new) = ending_pair(chance);
        let (k, old, new) = (chance.between(1, 3) as u8, old.sheet(), new.sheet());
        let (records, room) = (chance.pick(&[3, 64, 64, 64]), chance.pick(&[60, 2000, 2000, 2000]));
        let call = Connect::new(chance, k, old.clone(), new.clone(), records, room);
        let other = settled(chance);
        for mode in [None, Some(0), Some(1), Some(other)] {
            let Some(plan) = runner.plan(&Call::Connect(Connect { mode, ..call.clone() }))? else {
                continue;
            };
            let check = CheckPlan::new(chance, old.clone(), new.clone(), plan, records);
            for mode in [0, other] {
                runner.check(&Call::CheckPlan(CheckPlan { mode, ..check.clone() }))?;
            }
        }
    }
    Ok(())
}
