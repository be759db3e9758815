//! The row of a state, of whichever of two sheets is named (document 02, request 6/13).

use crate::sheet::{read_states, word, State};
use crate::Refusal;

/// A part of one of two sheets: which one, where it begins there, and how many bytes it has.
#[derive(Clone, Copy, Debug, PartialEq, Eq)]
pub struct Part {
    pub sheet: u8,
    pub offset: u16,
    pub length: u16,
}

/// The part that comes with a refusal: of the first sheet, and empty.
const NOTHING: Part = Part { sheet: 1, offset: 0, length: 0 };

impl Part {
    /// The bytes of the part.
    pub fn of<'a>(&self, first: &'a [u8], second: &'a [u8]) -> &'a [u8] {
        let sheet = if self.sheet == 2 { second } else { first };
        &sheet[self.offset.into()..][..self.length.into()]
    }
}

/// The row of a state of the sheet with this number.
pub fn row(first: &[u8], second: &[u8], sheet: u8, state: u8) -> Part {
    find(first, second, sheet, state).unwrap_or(NOTHING)
}

/// Why there is no such row: one of refusals 8, 1 to 7 and 15, in this order.
pub fn row_refusal(first: &[u8], second: &[u8], sheet: u8, state: u8) -> Refusal {
    find(first, second, sheet, state).err().unwrap_or_default()
}

/// The other sheet is not looked at.
fn find(first: &[u8], second: &[u8], sheet: u8, state: u8) -> Result<Part, Refusal> {
    let named = match sheet {
        1 => first,
        2 => second,
        _ => return Err(Refusal::bare(8)),
    };
    let trailer = read_states(named, &mut [State::default()]).map_err(|refusal| refusal.of(sheet))?;
    if state >= trailer.count {
        return Err(Refusal::bare(15));
    }
    // A row ends where the next one begins, and the last one where the index does: that stands in the trailer, directly
    // behind the last entry.
    let entry = trailer.index + 2 * usize::from(state);
    let (offset, end) = (word(named[entry], named[entry + 1]), word(named[entry + 2], named[entry + 3]));
    Ok(Part { sheet, offset, length: end - offset })
}
