//! Document 01's connecting, stepping and client check, and from document 02 the conversion of choosing sheets (request
//! 1/13), the check of edited plans (3/13), the settled mode of both (5/13), the row of a state (6/13) and contracts typed
//! as text (7/13), written from the documents and for speed: a third implementation, beside the crates and the reference
//! program. It shares nothing with them. The benchmark compares the crates with it, then measures them against it.
#![forbid(unsafe_code)]

mod choosing;
mod client;
mod connect;
mod edits;
mod family;
mod index;
mod numbering;
mod plan;
mod reach;
mod ready;
mod rounds;
mod row;
mod sheet;
mod situation;
mod term;
mod text;
mod written;

pub use choosing::convert;
pub use client::complies;
pub use connect::Workspace;
pub use edits::{Checker, Fault};
pub use plan::step;
pub use row::{row, row_refusal, Part};
pub use term::LONGEST_TEXT;
pub use text::{from_text, text_fault};

/// The length of the longest sheet.
pub const LONGEST_SHEET: usize = 2118;

/// The most situations that a call may reach, whatever is lent.
pub const MOST_SITUATIONS: usize = 4096;

/// The length of the longest plan: 4,096 rows of 42 moves.
pub const LONGEST_PLAN: usize = MOST_SITUATIONS * (1 + 42 * 3) + 4 * MOST_SITUATIONS + 8;

/// Which test a situation has to pass: document 01's, which is the paper's, or that with its second part (document 02,
/// request 5/13).
#[derive(Clone, Copy, Debug, PartialEq, Eq)]
pub enum Mode {
    Paper,
    Settled,
}

impl Mode {
    /// The mode that a byte names: 0 the paper's, any other the settled one.
    pub fn named(byte: u8) -> Mode {
        match byte {
            0 => Mode::Paper,
            _ => Mode::Settled,
        }
    }
}

/// What connecting answers: 0 or the refusal's number, the sheet, the state and the offset that it carries, the counts,
/// and the plan's length. The check of a plan answers no counts and no length.
#[derive(Clone, Copy, Debug, Default, PartialEq, Eq)]
pub struct Answer {
    pub number: u8,
    pub sheet: u8,
    pub state: u8,
    pub offset: u16,
    pub situations: u16,
    pub states: u16,
    pub rounds: u16,
    pub length: u32,
}

/// What reading a text answers: 0 or the refusal's number, the sheet and the state that it carries, and the length of the
/// sheet that was written.
#[derive(Clone, Copy, Debug, Default, PartialEq, Eq)]
pub struct SheetAnswer {
    pub number: u8,
    pub sheet: u8,
    pub state: u8,
    pub length: u16,
}

/// The number of a refusal, and what it carries: the sheet, and of 4 to 7 the state and the offset of the byte at fault.
/// All 0 where nothing is refused.
#[derive(Clone, Copy, Debug, Default, PartialEq, Eq)]
pub struct Refusal {
    pub number: u8,
    pub sheet: u8,
    pub state: u8,
    pub offset: u16,
}

impl Refusal {
    /// A refusal that carries nothing.
    pub(crate) fn bare(number: u8) -> Refusal {
        Refusal { number, ..Refusal::default() }
    }

    /// The refusal of a sheet, which is the first or the second.
    pub(crate) fn of(self, sheet: u8) -> Refusal {
        Refusal { sheet, ..self }
    }
}

impl From<Refusal> for Answer {
    fn from(refusal: Refusal) -> Answer {
        let Refusal { number, sheet, state, offset } = refusal;
        Answer { number, sheet, state, offset, ..Answer::default() }
    }
}
