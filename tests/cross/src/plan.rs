//! Plans as rows of moves, and edits of them as by hand: what is written is always a plan.

use crate::chance::Chance;

/// A code and a next state.
pub type Move = (u8, u16);

#[derive(Clone, Debug, PartialEq, Eq)]
pub struct Plan {
    pub n: u8,
    pub k: u8,
    pub rows: Vec<Vec<Move>>,
}

/// The codes over n names, ascending.
pub fn codes(n: u8) -> Vec<u8> {
    (0..46).filter(|code| code % 16 < 14 && code % 16 % 7 < n).collect()
}

impl Plan {
    /// The plan of bytes that were emitted.
    pub fn read(bytes: &[u8]) -> Plan {
        let (body, trailer) = bytes.split_at(bytes.len() - 8);
        let count = usize::from(trailer[4]) + 256 * usize::from(trailer[5]);
        let mut rest = body;
        let rows = (0..count).map(|_| {
            let (moves, behind) = rest[1..].split_at(3 * usize::from(rest[0]));
            rest = behind;
            moves.chunks_exact(3).map(|made| (made[0], u16::from_le_bytes([made[1], made[2]]))).collect()
        });
        let rows = rows.collect();
        Plan { n: trailer[6], k: trailer[7], rows }
    }

    pub fn bytes(&self) -> Vec<u8> {
        let (mut bytes, mut index) = (Vec::new(), Vec::new());
        for row in &self.rows {
            index.extend((bytes.len() as u32).to_le_bytes());
            bytes.push(row.len() as u8);
            for (code, next) in row {
                bytes.push(*code);
                bytes.extend(next.to_le_bytes());
            }
        }
        let offset = (bytes.len() as u32).to_le_bytes();
        bytes.extend(index);
        bytes.extend(offset);
        bytes.extend((self.rows.len() as u16).to_le_bytes());
        bytes.extend([self.n, self.k]);
        bytes
    }

    /// A plan that nothing emitted.
    pub fn random(chance: &mut Chance, n: u8) -> Plan {
        let (count, usual) = (chance.between(1, 5), codes(n));
        let mut plan = Plan { n, k: chance.below(4) as u8, rows: vec![Vec::new(); count] };
        for state in 0..if usual.is_empty() { 0 } else { count } {
            for _ in 0..chance.below(6) {
                let (code, next) = (chance.pick(&usual), chance.below(count) as u16);
                plan.put(state, code, next);
            }
        }
        plan
    }

    /// Puts a move in, instead of one of that code if there is one.
    fn put(&mut self, state: usize, code: u8, next: u16) {
        let row = &mut self.rows[state];
        row.retain(|made| made.0 != code);
        row.push((code, next));
        row.sort_unstable();
    }

    /// A state whose row has a move, and the place of one there.
    fn some_move(&self, chance: &mut Chance) -> Option<(usize, usize)> {
        let moves: usize = self.rows.iter().map(Vec::len).sum();
        let mut left = if moves == 0 { return None } else { chance.below(moves) };
        for (state, row) in self.rows.iter().enumerate() {
            if left < row.len() {
                return Some((state, left));
            }
            left -= row.len();
        }
        None
    }

    /// One to three edits.
    pub fn edited(mut self, chance: &mut Chance) -> Plan {
        for _ in 0..chance.pick(&[1, 1, 2, 3]) {
            self.edit(chance);
        }
        self
    }

    fn edit(&mut self, chance: &mut Chance) {
        let count = self.rows.len();
        let (state, other, usual) = (chance.below(count), chance.below(count), codes(self.n));
        match (chance.below(12), self.some_move(chance)) {
            (0..5, Some((state, place))) => drop(self.rows[state].remove(place)),
            (5 | 6, Some((state, place))) => self.rows[state][place].1 = other as u16,
            (7, Some((state, place))) => {
                let (_, next) = self.rows[state].remove(place);
                self.put(state, chance.pick(&usual), next);
            }
            (8, _) => self.rows[state] = self.rows[other].clone(),
            (9, _) => self.split(chance, state),
            (10, _) => self.k = chance.below(4) as u8,
            _ if usual.is_empty() => self.rows.push(Vec::new()),
            _ => self.put(state, chance.pick(&usual), other as u16),
        }
    }

    /// A row twice, some of the moves there leading to the second: that does no harm.
    fn split(&mut self, chance: &mut Chance, state: usize) {
        let last = self.rows.len() as u16;
        for made in self.rows.iter_mut().flatten() {
            if usize::from(made.1) == state && chance.one_in(2) {
                made.1 = last;
            }
        }
        self.rows.push(self.rows[state].clone());
    }
}

#[cfg(test)]
mod tests {
    use super::*;

    #[test]
    fn a_plan_is_read_as_it_was_written() {
        let m1 = [1, 0, 1, 0, 0, 0, 0, 0, 0, 4, 0, 0, 0, 5, 0, 0, 0, 2, 0, 2, 0];
        assert_eq!(Plan::read(&m1), Plan { n: 2, k: 0, rows: vec![vec![(0, 1)], vec![]] });
        assert_eq!(Plan::read(&m1).bytes(), m1);
    }

    #[test]
    fn what_is_edited_is_a_plan() {
        let mut chance = Chance::new(5);
        for _ in 0..2000 {
            let n = chance.below(8) as u8;
            let plan = Plan::random(&mut chance, n).edited(&mut chance).bytes();
            assert_ne!(baseline::step(&plan, 0, 0).0, 14, "{plan:?}");
        }
    }
}
