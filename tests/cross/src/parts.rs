//! The inputs, in parts. Each part draws from a sequence of its own.

mod by_hand;
mod choosing;
mod clients;
mod edits;
mod empty;
mod lengths;
mod many;
mod modes;
mod noise;
mod pairs;
mod rows;
mod single;
mod steps;
mod texts;
mod untidy;

use crate::call::{Call, Connect};
use crate::chance::Chance;
use crate::contract::Shape;
use crate::runner::{Checked, Runner};

/// How much of everything is run, in percent.
#[derive(Clone, Copy)]
pub struct Share(pub usize);

impl Share {
    /// So much of a count, but at least one.
    fn of(self, count: usize) -> usize {
        (count * self.0 / 100).max(1)
    }
}

type Part = fn(&mut Runner, &mut Chance, Share) -> Checked;

/// The parts, by name.
pub const PARTS: [(&str, Part); 30] = [
    ("nothing lent, nothing given", empty::run),
    ("lengths at and beyond the limits", lengths::run),
    ("random bytes of all lengths", noise::run),
    ("valid pairs", pairs::run),
    ("many situations", many::run),
    ("clients and services", clients::run),
    ("valid plans", steps::run),
    ("edited sheets and plans", edits::run),
    ("every byte of valid sheets changed", single::sheets),
    ("every byte of valid plans changed", single::plans),
    ("choosing sheets", choosing::valid),
    ("edited choosing sheets", choosing::edits),
    ("every byte of choosing sheets changed", single::choosing_sheets),
    ("choosing sheets of all lengths", choosing::lengths),
    ("untidy masks", untidy::run),
    ("plans edited by hand", by_hand::edited),
    ("checks of damaged sheets and plans", by_hand::damaged),
    ("every byte of checked plans changed", by_hand::single),
    ("checks with many pairs", by_hand::many),
    ("checks at and beyond the limits", by_hand::lengths),
    ("the same in each mode", modes::run),
    ("rows of sheets", rows::whole),
    ("rows of damaged sheets", rows::damaged),
    ("every byte of sheets with rows changed", rows::single),
    ("every sheet number and every state", rows::numbers),
    ("rows at and beyond the limits", rows::lengths),
    ("texts", texts::whole),
    ("damaged texts", texts::with_faults),
    ("every byte in every place of texts", texts::single),
    ("texts of all lengths", texts::lengths),
];

/// An emitted plan that is not trivial, of at most so many bytes.
fn emitted(runner: &mut Runner, chance: &mut Chance, most: usize) -> Checked<Vec<u8>> {
    loop {
        let (old, new) = Shape::small(chance).pair(chance);
        let k = chance.below(4) as u8;
        let call = Connect::new(chance, k, old.sheet(), new.sheet(), 64, 1024);
        match runner.plan(&Call::Connect(call))? {
            Some(plan) if (24..=most).contains(&plan.len()) => return Ok(plan),
            _ => {}
        }
    }
}
