//! What the byte at fault in a refused sheet is (document 02, request 6/13).

use crate::call::Call;
use crate::loose::places_at;
use crate::target::{Figures, OFFSET};

#[derive(Clone, Copy, Debug, PartialEq, Eq)]
pub enum Byte {
    Entry,
    Missing,
    LeftOver,
    Count,
    MaskOutOfOrder,
    MaskWithBits,
    Successor,
}

/// All of them, in words.
pub const BYTES: [(Byte, &str); 7] = [
    (Byte::Entry, "an index entry"),
    (Byte::Missing, "a byte missing"),
    (Byte::LeftOver, "a byte left over"),
    (Byte::Count, "a count"),
    (Byte::MaskOutOfOrder, "a mask out of order"),
    (Byte::MaskWithBits, "a mask with a bit too many"),
    (Byte::Successor, "a successor"),
];

/// What a call was refused for, if it was for a row of a sheet. A byte missing stands where the index begins, as the entry
/// of state 0 does, which is wrong unless it is 0.
pub fn at_fault(call: &Call, figures: &Figures) -> Option<Byte> {
    let (number, state, offset) = (figures[0], figures[2] as usize, figures[OFFSET] as usize);
    let (index, row) = places_at(call.sheet(figures[1])?, state)?;
    match number {
        4 if offset < index => Some(Byte::LeftOver),
        4 if offset > index || state == 0 && row > 0 => Some(Byte::Entry),
        4 => Some(Byte::Missing),
        5 if offset == row => Some(Byte::Count),
        5 => Some(Byte::MaskOutOfOrder),
        6 => Some(Byte::MaskWithBits),
        7 => Some(Byte::Successor),
        _ => None,
    }
}

#[cfg(test)]
mod tests {
    use super::*;
    use crate::call::Row;
    use crate::target::{Baseline, Target};

    /// M1's new sheet with bytes changed: the row of state 0 has five bytes, that of state 1 three, then comes the index.
    #[test]
    fn every_byte_is_told_apart() {
        let mut baseline = Baseline::new();
        for (changes, byte) in [
            (&[][..], None),
            (&[(17, 0)], None),
            (&[(8, 1)], Some(Byte::Entry)),
            (&[(10, 6)], Some(Byte::Entry)),
            (&[(0, 4)], Some(Byte::Missing)),
            (&[(5, 8)], Some(Byte::Missing)),
            (&[(1, 1), (10, 4), (4, 1), (5, 0), (6, 0)], Some(Byte::LeftOver)),
            (&[(0, 9)], Some(Byte::Count)),
            (&[(5, 0)], Some(Byte::Count)),
            (&[(0, 2), (3, 3), (4, 0)], Some(Byte::MaskOutOfOrder)),
            (&[(7, 0x80)], Some(Byte::MaskWithBits)),
            (&[(4, 2)], Some(Byte::Successor)),
        ] {
            let mut second = vec![1, 3, 0, 1, 1, 1, 0, 0, 0, 0, 5, 0, 8, 0, 2, 2, 0, 0xC5];
            changes.iter().for_each(|(place, value)| second[*place] = *value);
            let call = Call::Row(Row { second, sheet: 2, ..Row::default() });
            let figures = baseline.answer(&call).figures;
            assert_eq!(at_fault(&call, &figures), byte, "{changes:?}: {figures:?}");
        }
    }
}
