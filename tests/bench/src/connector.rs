//! What is compared and timed: anything that connects.

use crate::product::Product;
use baseline::{Answer, Mode, Workspace};

/// The arguments of a call, the lent plan apart.
#[derive(Clone, Copy)]
pub struct Call<'a> {
    pub mode: Mode,
    pub k: u8,
    pub old: &'a [u8],
    pub new: &'a [u8],
    pub records: usize,
}

pub trait Connector {
    fn connect(&mut self, call: &Call, plan: &mut [u8]) -> Answer;

    /// Connects with a work table that is not zero, and says whether the lent records are as they are due
    /// afterwards. Work memory of one's own is always as it is due.
    fn tried(&mut self, call: &Call, plan: &mut [u8]) -> (Answer, bool) {
        (self.connect(call, plan), true)
    }
}

impl Connector for Workspace {
    fn connect(&mut self, call: &Call, plan: &mut [u8]) -> Answer {
        Workspace::connect(self, call.mode, call.k, call.old, call.new, call.records, plan)
    }
}

/// The baseline first, then the product.
pub fn connectors(records: usize) -> Vec<(&'static str, Box<dyn Connector>)> {
    vec![("baseline", Box::new(Workspace::new(records))), ("product", Box::new(Product::new(records)))]
}
