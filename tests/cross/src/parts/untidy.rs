//! Sheets with masks out of order, with forbidden bits, or both, in either place and in both; some of them edited.

use super::Share;
use crate::call::{Call, Complies, Connect};
use crate::chance::Chance;
use crate::contract::{client_of, Contract, Shape};
use crate::edit::edited;
use crate::runner::{Checked, Runner};
use crate::untidy::untidy;

pub fn run(runner: &mut Runner, chance: &mut Chance, share: Share) -> Checked {
    for _ in 0..share.of(160_000) {
        let (old, new) = Shape::small(chance).pair(chance);
        let client = client_of(chance, &old);
        let (first, second, other) = (left(chance, &old), left(chance, &new), left(chance, &client));
        let (old, new, client) = (old.sheet(), new.sheet(), client.sheet());
        for (old, new) in [(&first, &new), (&old, &second), (&first, &second)] {
            let k = chance.below(5) as u8;
            let call = Connect::new(chance, k, old.clone(), new.clone(), 16, 200);
            runner.check(&Call::Connect(call))?;
        }
        for (client, service) in [(&other, &old), (&client, &first), (&other, &first)] {
            let (client, service, null) = (client.clone(), service.clone(), chance.one_in(2));
            runner.check(&Call::Complies(Complies { client, service, null }))?;
        }
    }
    Ok(())
}

/// The contract's sheet, left untidy; one in six edited too.
fn left(chance: &mut Chance, contract: &Contract) -> Vec<u8> {
    let sheet = untidy(chance, contract);
    if chance.one_in(6) {
        edited(chance, &sheet)
    } else {
        sheet
    }
}
