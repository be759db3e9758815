//! Sheets and plans with one to three edits.

use super::{emitted, Share};
use crate::call::{Call, Complies, Connect, Step};
use crate::chance::Chance;
use crate::contract::{client_of, Shape};
use crate::edit::edited;
use crate::runner::{Checked, Runner};

pub fn run(runner: &mut Runner, chance: &mut Chance, share: Share) -> Checked {
    for _ in 0..share.of(120_000) {
        let (old, new) = Shape::small(chance).pair(chance);
        let client = client_of(chance, &old).sheet();
        let (old, new) = (old.sheet(), new.sheet());
        for _ in 0..4 {
            let k = chance.below(5) as u8;
            let (first, second) = (edited(chance, &old), edited(chance, &new));
            let records = chance.pick(&[1, 5, 16, 64]);
            for (old, new) in [(&first, &new), (&old, &second), (&first, &second)] {
                let call = Connect::new(chance, k, old.clone(), new.clone(), records, 200);
                runner.check(&Call::Connect(call))?;
            }
            let damaged = edited(chance, &client);
            for (client, service) in [(&damaged, &old), (&client, &first)] {
                let (client, service, null) = (client.clone(), service.clone(), chance.one_in(2));
                runner.check(&Call::Complies(Complies { client, service, null }))?;
            }
        }
    }
    for _ in 0..share.of(30_000) {
        let plan = emitted(runner, chance, 1024)?;
        for _ in 0..20 {
            let (plan, state, code) = (edited(chance, &plan), chance.below(6) as u16, chance.below(48) as u8);
            runner.check(&Call::Step(Step { plan, state, code, null: chance.one_in(2) }))?;
        }
    }
    Ok(())
}
