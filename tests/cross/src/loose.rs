//! Sheets, plans and choosing sheets taken apart into rows, as index and trailer say, whether or not the rows are right;
//! so that a state, a ready set, an action or a move can be left out and all offsets still fit.

use crate::choosing::Row;
use std::ops::Range;

#[derive(Clone, Copy, PartialEq, Eq)]
enum Kind {
    Sheet,
    Plan,
    Choosing,
}

pub struct Loose {
    kind: Kind,
    rows: Vec<Vec<u8>>,
    /// What stands in the trailer behind the state count.
    rest: Vec<u8>,
}

/// What can be left out: states, or so many bytes at the end of a state's row, or in it a ready set, a move or a row that
/// it leads to, or an action.
pub enum Edit {
    States(Range<usize>),
    End(usize, usize),
    Part(usize, usize),
    Action(usize, usize),
}

fn number(bytes: &[u8]) -> usize {
    bytes.iter().rev().fold(0, |number, byte| number << 8 | usize::from(*byte))
}

impl Loose {
    pub fn sheet(bytes: &[u8]) -> Option<Loose> {
        let (body, trailer) = bytes.split_at_checked(bytes.len().checked_sub(6)?)?;
        let rows = rows_of(body, number(&trailer[..2]), number(&trailer[2..3]), 2)?;
        Some(Loose { kind: Kind::Sheet, rows, rest: trailer[3..].to_vec() })
    }

    pub fn plan(bytes: &[u8]) -> Option<Loose> {
        let (body, trailer) = bytes.split_at_checked(bytes.len().checked_sub(8)?)?;
        let rows = rows_of(body, number(&trailer[..4]), number(&trailer[4..6]), 4)?;
        Some(Loose { kind: Kind::Plan, rows, rest: trailer[6..].to_vec() })
    }

    pub fn choosing(bytes: &[u8]) -> Option<Loose> {
        Loose::sheet(bytes).map(|sheet| Loose { kind: Kind::Choosing, ..sheet })
    }

    pub fn bytes(&self) -> Vec<u8> {
        let (offset_width, count_width) = if self.kind == Kind::Plan { (4, 2) } else { (2, 1) };
        let (mut bytes, mut index) = (Vec::<u8>::new(), Vec::<u8>::new());
        for row in &self.rows {
            index.extend(&bytes.len().to_le_bytes()[..offset_width]);
            bytes.extend(row);
        }
        let offset = bytes.len();
        bytes.extend(index);
        bytes.extend(&offset.to_le_bytes()[..offset_width]);
        bytes.extend(&self.rows.len().to_le_bytes()[..count_width]);
        bytes.extend(&self.rest);
        bytes
    }

    /// All that can be left out, what is large first.
    pub fn edits(&self) -> Vec<Edit> {
        let mut edits = Vec::new();
        for size in halves(self.rows.len()) {
            edits.extend((0..self.rows.len() / size).map(|piece| Edit::States(piece * size..(piece + 1) * size)));
        }
        for (state, row) in self.rows.iter().enumerate() {
            edits.extend(halves(row.len()).map(|size| Edit::End(state, size)));
            let parts = match self.kind {
                Kind::Choosing => row.len(),
                _ => row.first().copied().unwrap_or(0).into(),
            };
            edits.extend((0..parts).map(|part| Edit::Part(state, part)));
            let actions = if self.kind == Kind::Plan { 0 } else { 15 };
            edits.extend((0..actions).map(|action| Edit::Action(state, action)));
        }
        edits
    }

    /// Without something; nothing if there is no such thing.
    pub fn without(&self, edit: &Edit) -> Option<Loose> {
        let mut rows = self.rows.clone();
        match edit {
            Edit::States(range) => {
                rows.drain(range.clone());
                rows.iter_mut().for_each(|row| *row = self.redirected(row, range));
            }
            Edit::End(state, size) => rows[*state].truncate(self.rows[*state].len() - size),
            Edit::Part(state, part) => rows[*state] = self.without_part(&rows[*state], *part)?,
            Edit::Action(state, action) => rows[*state] = self.without_action(&rows[*state], *action)?,
        }
        Some(Loose { kind: self.kind, rows, rest: self.rest.clone() })
    }

    /// A row that leads to the start instead of states left out, and to the others by their new numbers.
    fn redirected(&self, row: &[u8], gone: &Range<usize>) -> Vec<u8> {
        let after = |state: usize| match gone.contains(&state) {
            true => 0,
            false => state - if state < gone.end { 0 } else { gone.len() },
        };
        if self.kind == Kind::Choosing {
            return Row::read(row).map_or(row.to_vec(), |mut row| {
                row.lead(|other| after(other.into()) as u8);
                row.bytes()
            });
        }
        let parts = usize::from(row.first().copied().unwrap_or(0));
        let (first, step, width) = if self.kind == Kind::Sheet { (1 + 2 * parts, 1, 1) } else { (2, 3, 2) };
        let mut row = row.to_vec();
        for at in (first..row.len().saturating_sub(width - 1)).step_by(step) {
            let state = number(&row[at..at + width]);
            row[at..at + width].copy_from_slice(&after(state).to_le_bytes()[..width]);
        }
        row
    }

    fn without_part(&self, row: &[u8], part: usize) -> Option<Vec<u8>> {
        match self.kind {
            Kind::Sheet => without_mask(row, part),
            Kind::Plan => without_move(row, part),
            Kind::Choosing => Row::read(row)?.without_row(part).map(|row| row.bytes()),
        }
    }

    fn without_action(&self, row: &[u8], action: usize) -> Option<Vec<u8>> {
        match self.kind {
            Kind::Choosing => Row::read(row)?.without_action(action).map(|row| row.bytes()),
            _ => without_bit(row, 1 << action),
        }
    }
}

/// The half of a number, the half of that, and so on to 1.
fn halves(number: usize) -> impl Iterator<Item = usize> {
    std::iter::successors(Some(number / 2), |size| Some(size / 2)).take_while(|size| *size > 0)
}

/// The rows of a body whose index stands at an offset; nothing if it does not say where rows end.
fn rows_of(body: &[u8], offset: usize, count: usize, width: usize) -> Option<Vec<Vec<u8>>> {
    let (rows, index) = body.split_at_checked(offset)?;
    if index.len() != width * count {
        return None;
    }
    let mut starts: Vec<usize> = index.chunks_exact(width).map(number).collect();
    starts.push(rows.len());
    starts.windows(2).map(|ends| rows.get(ends[0]..ends[1]).map(<[u8]>::to_vec)).collect()
}

/// Where the index of a sheet begins, if that is before the trailer, which says so.
pub fn index_of(sheet: &[u8]) -> Option<usize> {
    let trailer = sheet.len().checked_sub(6)?;
    Some(number(&sheet[trailer..trailer + 2])).filter(|index| *index <= trailer)
}

/// Where the index of a sheet begins, and where the row of a state does, as trailer and index say.
pub fn places_at(sheet: &[u8], state: usize) -> Option<(usize, usize)> {
    let index = index_of(sheet)?;
    let entry = index + 2 * state;
    Some((index, number(sheet.get(entry..entry + 2)?)))
}

/// The ready sets of a state of a sheet, if they are where index and trailer say.
pub fn masks_at(sheet: &[u8], state: usize) -> Option<Vec<u16>> {
    let (index, row) = places_at(sheet, state)?;
    masks_of(sheet.get(row..index)?)
}

/// The ready sets of a sheet's row, if they are there.
fn masks_of(row: &[u8]) -> Option<Vec<u16>> {
    let masks = row.get(1..1 + 2 * usize::from(*row.first()?))?;
    Some(masks.chunks_exact(2).map(|mask| u16::from_le_bytes([mask[0], mask[1]])).collect())
}

/// The actions that ready sets have, ascending.
fn offered(masks: &[u16]) -> Vec<u16> {
    let all = masks.iter().fold(0, |all, mask| all | mask);
    (0..14).map(|action| 1 << action).filter(|action| all & action != 0).collect()
}

/// A sheet's row with other ready sets, whose actions it has successors for.
fn with_masks(row: &[u8], masks: Vec<u16>) -> Option<Vec<u8>> {
    let before = masks_of(row)?;
    let kept = offered(&masks);
    let successors = offered(&before).into_iter().zip(&row[1 + 2 * before.len()..]);
    let mut bytes = vec![masks.len() as u8];
    bytes.extend(masks.iter().flat_map(|mask| mask.to_le_bytes()));
    bytes.extend(successors.filter(|(action, _)| kept.contains(action)).map(|(_, successor)| *successor));
    Some(bytes)
}

fn without_mask(row: &[u8], part: usize) -> Option<Vec<u8>> {
    let mut masks = masks_of(row)?;
    masks.remove(part);
    with_masks(row, masks)
}

/// A plan's row without a move, if it is there.
fn without_move(row: &[u8], part: usize) -> Option<Vec<u8>> {
    let mut row = row.to_vec();
    let made = 1 + 3 * part..4 + 3 * part;
    row.get(made.clone())?;
    row.drain(made);
    row[0] -= 1;
    Some(row)
}

fn without_bit(row: &[u8], bit: u16) -> Option<Vec<u8>> {
    let before = masks_of(row)?;
    let mut masks: Vec<u16> = before.iter().map(|mask| mask & !bit).collect();
    if masks == before {
        return None;
    }
    masks.sort_unstable();
    masks.dedup();
    with_masks(row, masks)
}

#[cfg(test)]
mod tests {
    use super::*;

    #[test]
    fn bytes_are_put_together_again() {
        let sheet = [1, 3, 0, 1, 1, 1, 0, 0, 0, 0, 5, 0, 8, 0, 2, 2, 0, 0xC5];
        let plan = [1, 0, 1, 0, 0, 0, 0, 0, 0, 4, 0, 0, 0, 5, 0, 0, 0, 2, 0, 2, 0];
        assert_eq!(Loose::sheet(&sheet).map(|sheet| sheet.bytes()), Some(sheet.to_vec()));
        assert_eq!(Loose::plan(&plan).map(|plan| plan.bytes()), Some(plan.to_vec()));
    }

    #[test]
    fn ready_sets_are_found_by_their_state() {
        let sheet = [1, 3, 0, 1, 1, 2, 1, 0, 2, 1, 0, 0, 5, 0, 10, 0, 2, 2, 0, 0xC5];
        assert_eq!(masks_at(&sheet, 0), Some(vec![3]));
        assert_eq!(masks_at(&sheet, 1), Some(vec![1, 0x102]));
        assert_eq!(masks_at(&sheet[..sheet.len() - 1], 0), None);
    }

    #[test]
    fn a_row_an_action_and_a_successor_are_left_out() {
        let rows = [[0, 1, 2].as_slice(), &[1, 0, 0], &[1, 3, 0, 2, 0, 2, 1, 1]].concat();
        let bytes = [rows.as_slice(), &[0, 0, 3, 0, 6, 0], &[14, 0, 3, 2, 0, 0xC6]].concat();
        let whole = Loose::choosing(&bytes);
        assert_eq!(whole.as_ref().map(|sheet| sheet.bytes()), Some(bytes));
        let left = [Edit::States(1..2), Edit::Action(1, 1), Edit::Part(1, 0)];
        let left = left.iter().try_fold(whole.expect("rows"), |sheet, edit| sheet.without(edit));
        let rows = [0, 1, 1, 1, 1, 0, 1, 1, 0, 0, 3, 0, 8, 0, 2, 2, 0, 0xC6];
        assert_eq!(left.map(|sheet| sheet.bytes()), Some(rows.to_vec()));
    }

    #[test]
    fn the_end_of_a_row_is_left_out() {
        let sheet = Loose::sheet(&[1, 0, 0, 9, 9, 9, 9, 1, 0, 0, 0, 0, 7, 0, 10, 0, 2, 0, 0, 0xC5]).expect("rows");
        let sizes = sheet.edits().into_iter().filter_map(|edit| match edit {
            Edit::End(0, size) => Some(size),
            _ => None,
        });
        assert_eq!(sizes.collect::<Vec<_>>(), [3, 1]);
        let left = sheet.without(&Edit::End(0, 3)).and_then(|sheet| sheet.without(&Edit::End(0, 1)));
        let rows = [1, 0, 0, 1, 0, 0, 0, 0, 3, 0, 6, 0, 2, 0, 0, 0xC5];
        assert_eq!(left.map(|sheet| sheet.bytes()), Some(rows.to_vec()));
    }

    #[test]
    fn a_state_and_an_action_are_left_out() {
        let sheet = Loose::sheet(&[1, 3, 0, 1, 1, 1, 0, 0, 0, 0, 5, 0, 8, 0, 2, 2, 0, 0xC5]);
        let alone = sheet.and_then(|sheet| sheet.without(&Edit::States(1..2)));
        let alone = alone.and_then(|sheet| sheet.without(&Edit::Action(0, 1)));
        assert_eq!(alone.map(|sheet| sheet.bytes()), Some(vec![1, 1, 0, 0, 0, 0, 4, 0, 1, 2, 0, 0xC5]));
    }
}
