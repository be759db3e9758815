//! Plans: rows as they are found, writing a plan, and stepping one (document 01, "Which pairs connect").

use crate::index::zeros;
use crate::MOST_SITUATIONS;

const TRAILER: usize = 8;
const MOST_MOVES: usize = 42;

/// The bytes of 4,096 rows of 42 moves, and one for a move that is written as four.
const MOST_BYTES: usize = MOST_SITUATIONS * (1 + 3 * MOST_MOVES) + 1;

/// Rows of moves in the plan's own form: if no situation is removed they are the plan's rows.
pub struct Rows {
    bytes: Box<[u8; MOST_BYTES]>,
    starts: Box<[u32; MOST_SITUATIONS]>,
    end: usize,
    count: usize,
}

/// Rows at work, apart from their memory, so that the loops have them in registers.
pub struct Open<'a> {
    bytes: &'a mut [u8; MOST_BYTES],
    starts: &'a mut [u32; MOST_SITUATIONS],
    end: usize,
}

impl Open<'_> {
    /// Begins a row, which is to have so many moves.
    #[inline(always)]
    pub fn begin(&mut self, row: usize, moves: u32) {
        self.starts[row] = self.end as u32;
        self.bytes[self.end] = moves as u8;
        self.end += 1;
    }

    #[inline(always)]
    pub fn push(&mut self, code: u32, next: usize) {
        let four = (code | (next as u32) << 8).to_le_bytes();
        self.bytes[self.end..self.end + 4].copy_from_slice(&four);
        self.end += 3;
    }

    pub fn end(&self) -> usize {
        self.end
    }
}

impl Rows {
    pub fn new() -> Rows {
        Rows { bytes: zeros(), starts: zeros(), end: 0, count: 0 }
    }

    pub fn open(&mut self) -> Open<'_> {
        Open { bytes: &mut self.bytes, starts: &mut self.starts, end: 0 }
    }

    /// Says how many rows were written and where they end.
    pub fn close(&mut self, count: usize, end: usize) {
        (self.count, self.end) = (count, end);
    }

    /// The moves of a row: code and next state.
    #[inline]
    pub fn moves(&self, row: usize) -> impl Iterator<Item = (u8, u16)> + '_ {
        let start = self.starts[row] as usize;
        let length = 3 * self.bytes[start] as usize;
        moves_in(&self.bytes[start + 1..start + 1 + length])
    }

    /// The length of the plan with exactly these rows.
    pub fn length(&self) -> usize {
        self.end + 4 * self.count + TRAILER
    }

    /// Writes the plan with exactly these rows, for which there must be room, and gives its length.
    pub fn write(&self, n: u8, k: u8, plan: &mut [u8]) -> usize {
        let plan = &mut plan[..self.length()];
        let (rows, behind) = plan.split_at_mut(self.end);
        let (index, trailer) = behind.split_at_mut(4 * self.count);
        rows.copy_from_slice(&self.bytes[..self.end]);
        for (entry, start) in index.chunks_exact_mut(4).zip(self.starts.iter()) {
            entry.copy_from_slice(&start.to_le_bytes());
        }
        trailer[..4].copy_from_slice(&(self.end as u32).to_le_bytes());
        trailer[4..6].copy_from_slice(&(self.count as u16).to_le_bytes());
        trailer[6..].copy_from_slice(&[n, k]);
        self.length()
    }
}

/// The moves of a row's bytes: code and next state.
#[inline]
pub fn moves_in(row: &[u8]) -> impl Iterator<Item = (u8, u16)> + '_ {
    row.chunks_exact(3).map(|made| (made[0], u16::from_le_bytes([made[1], made[2]])))
}

/// A plan that was read: its rows and its index, its names and its rank.
#[derive(Clone, Copy)]
pub struct Read<'a> {
    rows: &'a [u8],
    index: &'a [u8],
    pub n: u8,
    pub k: u8,
}

impl<'a> Read<'a> {
    pub fn count(&self) -> usize {
        self.index.len() / 4
    }

    /// The bytes of a row's moves.
    #[inline]
    pub fn row(&self, state: usize) -> &'a [u8] {
        let start = dword(&self.index[4 * state..]) as usize;
        &self.rows[start + 1..start + 1 + 3 * self.rows[start] as usize]
    }
}

/// Steps a plan: 0 and the next state, or refusal 14, 15 or 16 and 0.
pub fn step(plan: &[u8], state: u16, code: u8) -> (u8, u16) {
    let Some(plan) = read(plan, |_, _| {}) else {
        return (14, 0);
    };
    if state as usize >= plan.count() {
        return (15, 0);
    }
    let held = moves_in(plan.row(state.into())).find(|made| made.0 == code);
    held.map_or((16, 0), |made| (0, made.1))
}

/// The plan of these bytes, or nothing if they break the layout. Calls `each` with every state and the mask of its codes,
/// as long as the layout holds.
#[inline]
pub fn read(plan: &[u8], mut each: impl FnMut(usize, u64)) -> Option<Read<'_>> {
    let (body, trailer) = plan.split_at_checked(plan.len().checked_sub(TRAILER)?)?;
    let rows = dword(trailer) as usize;
    let count = u16::from_le_bytes([trailer[4], trailer[5]]);
    let (n, k) = (trailer[6], trailer[7]);
    let sized = (1..=MOST_SITUATIONS).contains(&count.into()) && n <= 7 && k <= 3;
    if !sized || rows + 4 * count as usize != body.len() {
        return None;
    }
    let (rows, index) = body.split_at(rows);
    let named = codes(n);
    let mut at = 0;
    for (state, entry) in index.chunks_exact(4).enumerate() {
        if dword(entry) as usize != at {
            return None;
        }
        let moves = *rows.get(at)? as usize;
        if moves > MOST_MOVES {
            return None;
        }
        let end = at + 1 + 3 * moves;
        let mut held = 0;
        for (code, next) in moves_in(rows.get(at + 1..end)?) {
            let bit = 1 << (code & 63);
            if code > 63 || named & bit == 0 || bit <= held || next >= count {
                return None;
            }
            held |= bit;
        }
        each(state, held);
        at = end;
    }
    (at == rows.len()).then_some(Read { rows, index, n, k })
}

/// The codes with a name below n.
fn codes(n: u8) -> u64 {
    let names = (1u64 << n) - 1;
    let actions = names | names << 7;
    actions | actions << 16 | actions << 32
}

fn dword(bytes: &[u8]) -> u32 {
    u32::from_le_bytes([bytes[0], bytes[1], bytes[2], bytes[3]])
}
