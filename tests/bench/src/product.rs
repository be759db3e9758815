//! The product as a connector.

use crate::connector::{Call, Connector};
use baseline::{Answer, Mode};
use product::{Lent, Table};

/// The product, and a table to lend.
pub struct Product {
    table: Table,
    /// Whether the table was filled with small numbers when it was last filled.
    small: bool,
}

impl Product {
    /// A product that up to so many records are lent.
    pub fn new(records: usize) -> Product {
        Product { table: Table::new(records), small: false }
    }
}

/// The product's answer as the baseline would give it.
pub fn answered(answer: &product::Answer) -> Answer {
    Answer {
        number: answer.number,
        sheet: answer.sheet,
        state: answer.state,
        offset: answer.offset,
        situations: answer.situations,
        states: answer.states,
        rounds: answer.rounds,
        length: answer.length,
    }
}

impl Connector for Product {
    fn connect(&mut self, call: &Call, plan: &mut [u8]) -> Answer {
        let (lent, Call { mode, k, old, new, .. }) = (Lent::records(call.records), *call);
        answered(&match mode {
            Mode::Paper => self.table.connect(&lent, k, old, new, plan),
            Mode::Settled => self.table.connect_mode(&lent, 1, k, old, new, plan),
        })
    }

    fn tried(&mut self, call: &Call, plan: &mut [u8]) -> (Answer, bool) {
        self.small = !self.small;
        let lent = Lent { small: self.small, ..Lent::records(call.records) };
        self.table.fill(&lent);
        let answer = self.connect(call, plan);
        (answer, self.table.is_as_due(&lent, answer.number))
    }
}
