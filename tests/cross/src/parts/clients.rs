//! The client check on valid sheets: clients made for the service, for one like it and for none, in both orders
//! and with both roles.

use super::Share;
use crate::call::{Call, Complies};
use crate::chance::Chance;
use crate::contract::{client_of, Contract, Shape, CLIENT};
use crate::runner::{Checked, Runner};

pub fn run(runner: &mut Runner, chance: &mut Chance, share: Share) -> Checked {
    for round in 0..share.of(500_000) {
        let shape = if round % 50 == 0 { Shape::large(chance) } else { Shape::small(chance) };
        let (old, new) = shape.pair(chance);
        let client = match chance.below(3) {
            0 => client_of(chance, &old),
            1 => client_of(chance, &new),
            _ => shape.contract(chance, CLIENT),
        };
        both_orders(runner, chance, &client, &old)?;
        if chance.one_in(8) {
            both_orders(runner, chance, &old, &new)?;
            let other = Shape::small(chance).contract(chance, CLIENT);
            both_orders(runner, chance, &other, &old)?;
            both_orders(runner, chance, &other, &client)?;
        }
    }
    Ok(())
}

fn both_orders(runner: &mut Runner, chance: &mut Chance, one: &Contract, other: &Contract) -> Checked {
    let (one, other) = (one.sheet(), other.sheet());
    for (client, service) in [(one.clone(), other.clone()), (other, one)] {
        runner.check(&Call::Complies(Complies { client, service, null: chance.one_in(2) }))?;
    }
    Ok(())
}
