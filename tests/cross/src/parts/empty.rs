//! Slices without bytes, as pointers and as null, in every place.

use super::Share;
use crate::call::{Call, Complies, Connect, FromChoosing, Step};
use crate::chance::Chance;
use crate::choosing::{Choosing, END};
use crate::contract::{client_of, everything};
use crate::runner::{Checked, Runner};

pub fn run(runner: &mut Runner, chance: &mut Chance, _: Share) -> Checked {
    let service = everything(1);
    let (sheet, client) = (service.sheet(), client_of(chance, &service).sheet());
    let ends = Choosing { n: 0, rows: vec![END] }.bytes();
    for choice in 0..64 {
        let chosen = |bit: usize, bytes: &[u8]| if choice >> bit & 1 == 1 { bytes.to_vec() } else { Vec::new() };
        let (old, new, plan) = (chosen(0, &sheet), chosen(1, &sheet), chosen(1, &[0; 20]));
        let (records, room, null) = (choice >> 2 & 1, 40 * (choice >> 3 & 1), choice >> 4 & 1 == 1);
        let k = 4 * (choice >> 5) as u8;
        for mode in [None, Some(0), Some(1), Some(255)] {
            let (old, new) = (old.clone(), new.clone());
            runner.check(&Call::Connect(Connect { mode, k, old, new, records, room, null, small: !null }))?;
        }
        runner.check(&Call::Step(Step { plan, state: 0, code: 0, null }))?;
        runner.check(&Call::Complies(Complies { client: chosen(0, &client), service: chosen(1, &sheet), null }))?;
        runner.check(&Call::FromChoosing(FromChoosing { choosing: chosen(0, &ends), room, null }))?;
    }
    Ok(())
}
