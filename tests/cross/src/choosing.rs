//! Choosing sheets (document 02, request 1/13): random ones, ones with many states or ready sets, rows taken apart.

use crate::chance::Chance;
use crate::contract::{every_action, ones};

pub const CLOSING: u8 = 0xC6;
pub const MOST_ROWS: usize = 32;
const MOST_UNDER: usize = 8;

/// The rows that internal moves lead to; or for each offered action, ascending, the rows that it leads to.
#[derive(Clone, Debug, PartialEq, Eq)]
pub enum Row {
    Hiding(Vec<u8>),
    Open(Vec<(u8, Vec<u8>)>),
}

#[derive(Clone, Debug)]
pub struct Choosing {
    pub n: u8,
    pub rows: Vec<Row>,
}

pub const END: Row = Row::Open(Vec::new());

/// Rows behind their count.
fn counted(rows: &[u8]) -> Vec<u8> {
    [&[rows.len() as u8], rows].concat()
}

/// The rows behind their count at the front, and the rest.
fn split(bytes: &[u8]) -> Option<(Vec<u8>, &[u8])> {
    let (&size, rest) = bytes.split_first()?;
    let (rows, rest) = rest.split_at_checked(size.into())?;
    Some((rows.to_vec(), rest))
}

impl Row {
    pub fn bytes(&self) -> Vec<u8> {
        match self {
            Row::Hiding(moves) => [vec![0], counted(moves)].concat(),
            Row::Open(offered) => {
                let mask = offered.iter().fold(0u16, |mask, (action, _)| mask | 1 << action);
                let lists = offered.iter().flat_map(|(_, rows)| counted(rows));
                [1].into_iter().chain(mask.to_le_bytes()).chain(lists).collect()
            }
        }
    }

    /// The row of these bytes, whether or not counts, order and numbers are right; nothing if they do not make one.
    pub fn read(bytes: &[u8]) -> Option<Row> {
        let (row, rest) = match *bytes {
            [0, ref rest @ ..] => split(rest).map(|(moves, rest)| (Row::Hiding(moves), rest))?,
            [1, low, high, ref rest @ ..] => {
                let (mut offered, mut rest) = (Vec::new(), rest);
                for action in ones(u16::from_le_bytes([low, high])) {
                    let rows;
                    (rows, rest) = split(rest)?;
                    offered.push((action as u8, rows));
                }
                (Row::Open(offered), rest)
            }
            _ => return None,
        };
        rest.is_empty().then_some(row)
    }

    /// The lists of rows that it leads to.
    pub fn lists(&mut self) -> Vec<&mut Vec<u8>> {
        match self {
            Row::Hiding(moves) => vec![moves],
            Row::Open(offered) => offered.iter_mut().map(|(_, rows)| rows).collect(),
        }
    }

    /// Without one of the rows that it leads to, counted through all lists; nothing if there are not so many.
    pub fn without_row(mut self, place: usize) -> Option<Row> {
        let (mut left, mut lists) = (place, self.lists().into_iter());
        let rows = loop {
            let rows = lists.next()?;
            if left < rows.len() {
                break rows;
            }
            left -= rows.len();
        };
        rows.remove(left);
        Some(self)
    }

    /// Without an action that it offers.
    pub fn without_action(self, action: usize) -> Option<Row> {
        let Row::Open(mut offered) = self else {
            return None;
        };
        let place = offered.iter().position(|(one, _)| usize::from(*one) == action)?;
        offered.remove(place);
        Some(Row::Open(offered))
    }

    /// Leads to other rows instead of those that it leads to.
    pub fn lead(&mut self, other: impl Fn(u8) -> u8) {
        for rows in self.lists() {
            rows.iter_mut().for_each(|row| *row = other(*row));
            rows.sort_unstable();
            rows.dedup();
        }
    }
}

impl Choosing {
    pub fn bytes(&self) -> Vec<u8> {
        let (mut bytes, mut index) = (Vec::new(), Vec::new());
        for row in &self.rows {
            index.extend((bytes.len() as u16).to_le_bytes());
            bytes.extend(row.bytes());
        }
        let offset = (bytes.len() as u16).to_le_bytes();
        bytes.extend(index);
        bytes.extend(offset);
        bytes.extend([self.rows.len() as u8, self.n, 0, CLOSING]);
        bytes
    }

    /// The same in another order of rows, row 0 staying the first.
    pub fn shuffled(mut self, chance: &mut Chance) -> Choosing {
        let order = order(chance, self.rows.len());
        let mut rows = vec![END; order.len()];
        for (row, place) in self.rows.iter_mut().zip(&order) {
            row.lead(|after| order[usize::from(after)]);
            rows[usize::from(*place)] = row.clone();
        }
        Choosing { rows, ..self }
    }

    /// A row becomes a choice among new open rows with these actions, all of which lead to row 0; up to 15.
    pub fn crowd(&mut self, row: usize, masks: &[u16]) {
        let (near, far) = masks.split_at(masks.len().min(MOST_UNDER - 1));
        let first = self.rows.len() as u8;
        let behind = first + near.len() as u8;
        self.rows.extend(near.iter().map(|mask| back_by(*mask)));
        if !far.is_empty() {
            self.rows.push(Row::Hiding((behind + 1..=behind + far.len() as u8).collect()));
            self.rows.extend(far.iter().map(|mask| back_by(*mask)));
        }
        self.rows[row] = Row::Hiding((first..behind + u8::from(!far.is_empty())).collect());
    }

    /// An open row offers an action more, or leads by it to other rows.
    pub fn also(&mut self, chance: &mut Chance) {
        let (count, usable) = (self.rows.len(), actions(self.n));
        let row = chance.below(count);
        if let (Row::Open(offered), false) = (&mut self.rows[row], usable.is_empty()) {
            let action = chance.pick(&usable);
            offered.retain(|(other, _)| *other != action);
            offered.push((action, some(chance, &below(count), 2)));
            offered.sort_unstable();
        }
    }
}

/// An open row that leads back to row 0 by each of these actions.
fn back_by(mask: u16) -> Row {
    Row::Open(ones(mask).map(|action| (action as u8, vec![0])).collect())
}

fn actions(n: u8) -> Vec<u8> {
    ones(every_action(n)).map(|action| action as u8).collect()
}

fn below(count: usize) -> Vec<u8> {
    (0..count as u8).collect()
}

/// One to so many of the rows, ascending.
fn some(chance: &mut Chance, rows: &[u8], most: usize) -> Vec<u8> {
    let mut chosen: Vec<u8> = (0..chance.between(1, most)).map(|_| chance.pick(rows)).collect();
    chosen.sort_unstable();
    chosen.dedup();
    chosen
}

/// The numbers below a count in a random order, 0 first.
fn order(chance: &mut Chance, count: usize) -> Vec<u8> {
    let mut order: Vec<u8> = (0..count as u8).collect();
    for last in (2..count).rev() {
        order.swap(last, chance.between(1, last));
    }
    order
}

/// How large a random choosing sheet gets: at most so many rows, rows under one count, and actions in a row; one row in
/// so many is hiding; and whether internal moves may make circles.
#[derive(Clone, Copy, Debug)]
pub struct Shape {
    pub n: u8,
    pub rows: usize,
    pub under: usize,
    pub actions: usize,
    pub hides: usize,
    pub circles: bool,
}

impl Shape {
    pub fn small(chance: &mut Chance) -> Shape {
        Shape {
            n: chance.pick(&[0, 1, 1, 2, 2, 2, 3, 3, 7]),
            rows: chance.between(1, 6),
            under: chance.pick(&[1, 2, 3, MOST_UNDER]),
            actions: chance.between(1, 3),
            hides: chance.between(2, 4),
            circles: chance.one_in(4),
        }
    }

    pub fn large(chance: &mut Chance) -> Shape {
        Shape {
            n: chance.between(1, 7) as u8,
            rows: chance.between(8, MOST_ROWS),
            under: chance.pick(&[1, 1, 2, 3, MOST_UNDER]),
            actions: chance.pick(&[1, 2, 4, 14]),
            hides: chance.pick(&[2, 4, 8]),
            circles: chance.one_in(4),
        }
    }

    fn open(&self, chance: &mut Chance, count: usize) -> Row {
        let usable = actions(self.n);
        if usable.is_empty() || chance.one_in(6) {
            return END;
        }
        let offered = some(chance, &usable, self.actions);
        Row::Open(offered.into_iter().map(|action| (action, some(chance, &below(count), self.under))).collect())
    }

    /// Internal moves lead to later rows in a random order, unless circles are allowed.
    pub fn choosing(&self, chance: &mut Chance) -> Choosing {
        let count = chance.between(1, self.rows);
        let rank = order(chance, count);
        let turned = chance.one_in(2);
        let rows = (0..count).map(|row| {
            let later = |other: &u8| (rank[usize::from(*other)] > rank[row]) != turned && usize::from(*other) != row;
            let further: Vec<u8> = below(count).into_iter().filter(|other| self.circles || later(other)).collect();
            if further.is_empty() || !chance.one_in(self.hides) {
                self.open(chance, count)
            } else {
                Row::Hiding(some(chance, &further, self.under))
            }
        });
        Choosing { n: self.n, rows: rows.collect() }
    }
}

/// A set of rows tells which of the last letters were `a`: 2 to the power of `size` states, of 1 + `size` rows.
pub fn letters(size: u8) -> Choosing {
    let both = |row| Row::Open(vec![(0, vec![row + 1]), (1, vec![row + 1])]);
    let first = Row::Open(vec![(0, vec![0, 1]), (1, vec![0])]);
    Choosing { n: 7, rows: [first].into_iter().chain((1..size).map(both)).chain([END]).collect() }
}

/// Rows in a ring, and pairs of neighbours in a ring, which the last row begins: `size` rows, twice as many states.
pub fn rings(size: u8) -> Choosing {
    let next = |row| (0, vec![(row + 1) % size]);
    let row = |row| Row::Open([next(row)].into_iter().chain((row + 1 == size).then(|| (1, vec![0, 1]))).collect());
    Choosing { n: 7, rows: (0..size).map(row).collect() }
}

#[cfg(test)]
mod tests {
    use super::*;

    fn number_of(choosing: &Choosing) -> u8 {
        baseline::convert(&choosing.bytes(), &mut [0; 2118]).0
    }

    /// a(+)b, as in examples/c.
    #[test]
    fn a_choice_is_written_and_its_rows_are_read() {
        let by = |action| Row::Open(vec![(action, vec![3])]);
        let rows = vec![Row::Hiding(vec![1, 2]), by(0), by(1), END];
        let parts: [&[u8]; 6] = [
            &[0, 2, 1, 2],
            &[1, 1, 0, 1, 3],
            &[1, 2, 0, 1, 3],
            &[1, 0, 0],
            &[0, 0, 4, 0, 9, 0, 14, 0],
            &[17, 0, 4, 2, 0, 0xC6],
        ];
        for (part, row) in parts.iter().zip(&rows) {
            assert_eq!(Row::read(part).as_ref(), Some(row));
            assert_eq!(Row::read(&part[..part.len() - 1]), None);
        }
        assert_eq!(Choosing { n: 2, rows }.bytes(), parts.concat());
    }

    #[test]
    fn as_many_states_and_ready_sets_as_said() {
        let mut chance = Chance::new(1);
        for (choosing, number) in [(letters(6), 0), (letters(7), 19), (rings(32), 0)] {
            assert_eq!(number_of(&choosing), number);
            assert_eq!(number_of(&choosing.shuffled(&mut chance)), number);
        }
        for (size, sets, number) in [(6, 8, 0), (6, 9, 20), (7, 8, 19), (7, 9, 19)] {
            let mut choosing = letters(size);
            choosing.crowd(size.into(), &(0..sets).collect::<Vec<u16>>());
            assert_eq!(number_of(&choosing), number);
        }
    }

    #[test]
    fn circles_only_where_allowed() {
        let mut chance = Chance::new(2);
        let mut count = |circles| {
            let choosing = |_| Shape { circles, ..Shape::small(&mut chance) }.choosing(&mut chance);
            (0..2000).map(choosing).filter(|choosing| number_of(choosing) == 18).count()
        };
        assert_eq!(count(false), 0);
        assert!(count(true) > 200);
    }
}
