//! A smaller input with the same fault: states, rows and their ends, ready sets, actions, moves and pieces of texts are
//! left out, bytes are cut and lowered, numbers lowered, one after the other, for as long as something can be.

use crate::call::{Call, Field};
use crate::loose::{index_of, Loose};
use crate::text::shorter;
use std::ops::Range;
use std::time::{Duration, Instant};

/// No longer than this is spent.
const PATIENCE: Duration = Duration::from_secs(20);

struct Search<'a> {
    best: Call,
    fails: &'a mut dyn FnMut(&Call) -> bool,
    until: Instant,
}

/// The smallest call found that still fails.
pub fn smallest(call: &Call, fails: &mut dyn FnMut(&Call) -> bool) -> Call {
    let mut search = Search { best: call.clone(), fails, until: Instant::now() + PATIENCE };
    while search.pass() {}
    search.best
}

impl Search<'_> {
    /// Tries to make every argument smaller, and says whether one became so.
    fn pass(&mut self) -> bool {
        let mut smaller = false;
        for field in 0..self.best.fields().len() {
            smaller |= self.leave_out(field);
            smaller |= self.cut(field, |bytes| bytes.len(), |bytes, piece| drop(bytes.drain(piece)));
            smaller |= self.cut(field, |sheet| index_of(sheet).unwrap_or(0), cut_rows);
            smaller |= self.lower_bytes(field);
            smaller |= self.lower(field);
        }
        smaller
    }

    fn in_time(&self) -> bool {
        Instant::now() < self.until
    }

    /// Takes the change over if the call still fails with it.
    fn accepts(&mut self, field: usize, change: impl FnOnce(&mut Field)) -> bool {
        if !self.in_time() {
            return false;
        }
        let mut call = self.best.clone();
        change(&mut call.fields()[field].1);
        let fails = (self.fails)(&call);
        if fails {
            self.best = call;
        }
        fails
    }

    fn bytes(&mut self, field: usize) -> Option<&mut Vec<u8>> {
        match self.best.fields().swap_remove(field).1 {
            Field::Bytes(bytes) => Some(bytes),
            _ => None,
        }
    }

    fn length(&mut self, field: usize) -> usize {
        self.bytes(field).map_or(0, |bytes| bytes.len())
    }

    /// Leaves out of a sheet, a plan, a choosing sheet or a text what can be left out.
    fn leave_out(&mut self, field: usize) -> bool {
        let mut smaller = false;
        while self.leaves_one_out(field).is_some() {
            smaller = true;
        }
        smaller
    }

    fn leaves_one_out(&mut self, field: usize) -> Option<()> {
        let take_apart = match self.best.fields()[field].0 {
            "text" => return self.leaves_piece_out(field),
            "plan" => Loose::plan,
            "choosing" => Loose::choosing,
            _ => Loose::sheet,
        };
        let loose = take_apart(self.bytes(field)?)?;
        let found = loose.edits().into_iter().any(|edit| {
            let without = if self.in_time() { loose.without(&edit) } else { None };
            without.is_some_and(|without| {
                self.accepts(field, |field| field.bytes().into_iter().for_each(|bytes| *bytes = without.bytes()))
            })
        });
        found.then_some(())
    }

    fn leaves_piece_out(&mut self, field: usize) -> Option<()> {
        let text = self.bytes(field)?.clone();
        let found = shorter(&text).any(|text| {
            self.accepts(field, |field| field.bytes().into_iter().for_each(|bytes| bytes.clone_from(&text)))
        });
        found.then_some(())
    }

    /// Cuts pieces out of so many of the first bytes, large ones first.
    fn cut(&mut self, field: usize, front: fn(&[u8]) -> usize, cut: fn(&mut Vec<u8>, Range<usize>)) -> bool {
        let before = self.length(field);
        let mut size = self.bytes(field).map_or(0, |bytes| front(bytes));
        while size > 0 {
            let mut at = 0;
            while at + size <= self.bytes(field).map_or(0, |bytes| front(bytes)) {
                let piece = at..at + size;
                let gone = self.accepts(field, |field| field.bytes().map_or((), |bytes| cut(bytes, piece)));
                at += if gone { 0 } else { size };
            }
            size /= 2;
        }
        self.length(field) < before
    }

    fn lower_bytes(&mut self, field: usize) -> bool {
        let mut smaller = false;
        for place in 0..self.length(field) {
            let byte = self.bytes(field).map_or(0, |bytes| bytes[place]);
            let mut lower = lower_than(byte.into()).into_iter();
            smaller |= lower.any(|value| {
                self.accepts(field, |field| field.bytes().into_iter().for_each(|bytes| bytes[place] = value as u8))
            });
        }
        smaller
    }

    fn lower(&mut self, field: usize) -> bool {
        let number = self.best.fields()[field].1.number().unwrap_or(0);
        let mut lower = lower_than(number).into_iter();
        lower.any(|value| self.accepts(field, |field| field.set(value).unwrap_or(())))
    }
}

/// Cuts a piece out of the rows of a sheet, whose index then begins that much earlier, as the trailer says.
fn cut_rows(sheet: &mut Vec<u8>, piece: Range<usize>) {
    let index = index_of(sheet).unwrap_or(0) - piece.len();
    sheet.drain(piece);
    let trailer = sheet.len() - 6;
    sheet[trailer..trailer + 2].copy_from_slice(&(index as u16).to_le_bytes());
}

/// Numbers to try instead of a number, all below it.
fn lower_than(number: usize) -> Vec<usize> {
    let mut lower = vec![0, 1, number / 2, number.saturating_sub(1)];
    lower.retain(|value| *value < number);
    lower.dedup();
    lower
}

#[cfg(test)]
mod tests {
    use super::*;
    use crate::call::{Complies, FromText, Step};

    #[test]
    fn what_matters_is_left() {
        let call = Step { plan: (0..100).collect(), state: 1000, code: 77, null: true };
        let small = smallest(&Call::Step(call), &mut |call| match call {
            Call::Step(step) => step.plan.contains(&50) && step.state >= 13,
            _ => false,
        });
        assert_eq!(small, Call::Step(Step { plan: vec![50], state: 13, code: 0, null: false }));
    }

    #[test]
    fn brackets_and_pieces_go_from_a_text() {
        let call = Call::FromText(FromText { text: b"((a.b)+((c))(+)0)".to_vec(), room: 99, null: true });
        let small = smallest(&call, &mut |call| match call {
            Call::FromText(FromText { text, .. }) => {
                text.contains(&b'c') && baseline::from_text(text, &mut [0; 99]).number == 0
            }
            _ => false,
        });
        assert_eq!(small, Call::FromText(FromText { text: b"c".to_vec(), room: 0, null: false }));
    }

    #[test]
    fn rows_go_though_an_index_entry_is_wrong() {
        let client = [&[7; 300][..], &[9, 9, 44, 1, 1, 7, 0, 0xC5]].concat();
        let call = Call::Complies(Complies { client, ..Complies::default() });
        let small = smallest(&call, &mut |call| match call {
            Call::Complies(Complies { client, .. }) => baseline::complies(client, &[]).0.number == 4,
            _ => false,
        });
        let client = vec![0, 0, 0, 0, 1, 0, 0, 0xC5];
        assert_eq!(small, Call::Complies(Complies { client, ..Complies::default() }));
    }
}
