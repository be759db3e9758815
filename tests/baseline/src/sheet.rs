//! Contracts, read from their sheets (document 01, "Contracts as sheets", and document 02, requests 2/13 and 6/13).

use crate::{Refusal, LONGEST_SHEET};

pub const SERVICE: u8 = 0;
pub const CLIENT: u8 = 1;

/// The success mark in a ready set.
pub const SUCCESS: u16 = 1 << 14;

/// The bits of all actions.
pub const ACTIONS: u16 = SUCCESS - 1;

/// How many actions there are.
pub const ACTION_COUNT: usize = ACTIONS.count_ones() as usize;

pub const TRAILER: usize = 6;
pub const CLOSING: u8 = 0xC5;
pub const MOST_STATES: usize = 64;
pub const MOST_NAMES: u8 = 7;
pub const MOST_READY: u8 = 8;

/// A ready set that is none: nothing has its last bit.
const NONE: u16 = u16::MAX;

/// A state: its ready sets, of which those past their number are NONE, what it offers, and the successors by
/// action. Successors of what is not offered mean nothing.
#[derive(Clone, Copy, Default)]
pub struct State {
    ready: [u16; MOST_READY as usize],
    sets: u8,
    pub offered: u16,
    pub after: [u8; 16],
}

impl State {
    #[inline]
    pub fn ready(&self) -> &[u16] {
        &self.ready[..self.sets as usize & 15]
    }

    /// Whether some ready set is empty. Masks ascend, so that is the first.
    #[inline]
    pub fn may_end(&self) -> bool {
        self.ready[0] == 0
    }

    /// Whether some ready set lies within these actions. All eight are compared, at once.
    #[inline]
    pub fn some_within(&self, actions: u16) -> bool {
        self.ready.iter().fold(false, |found, ready| found | (ready & !actions == 0))
    }
}

/// A contract. States past the count mean nothing.
pub struct Contract {
    pub count: u8,
    pub n: u8,
    pub role: u8,
    pub states: [State; MOST_STATES],
}

impl Contract {
    /// A contract into which a sheet can be read.
    pub fn unread() -> Contract {
        Contract { count: 0, n: 0, role: SERVICE, states: [State::default(); MOST_STATES] }
    }

    /// Reads a sheet, or gives the first of refusals 1 to 7, as that of a sheet without a place.
    pub fn read(&mut self, sheet: &[u8]) -> Result<(), Refusal> {
        let Trailer { count, n, role, .. } = read_states(sheet, &mut self.states)?;
        (self.count, self.n, self.role) = (count, n, role);
        Ok(())
    }
}

/// What the trailer of a sheet says.
pub struct Trailer {
    pub index: usize,
    pub count: u8,
    pub n: u8,
    pub role: u8,
}

impl Trailer {
    /// Reads the trailer, or gives the first of refusals 1 to 3.
    fn read(sheet: &[u8]) -> Result<Trailer, u8> {
        if !(TRAILER..=LONGEST_SHEET).contains(&sheet.len()) {
            return Err(1);
        }
        let trailer = &sheet[sheet.len() - TRAILER..];
        let index = word(trailer[0], trailer[1]) as usize;
        let (count, n, role) = (trailer[2], trailer[3], trailer[4]);
        if !(1..=MOST_STATES as u8).contains(&count) || n > MOST_NAMES || role > CLIENT || trailer[5] != CLOSING {
            return Err(2);
        }
        if index + 2 * count as usize + TRAILER != sheet.len() {
            return Err(3);
        }
        Ok(Trailer { index, count, n, role })
    }
}

/// Reads the states of a sheet, or gives the first of refusals 1 to 7. A state goes to its number modulo the room: where
/// there is room for 64 all are kept, where there is room for one the last.
#[inline]
pub fn read_states<const ROOM: usize>(sheet: &[u8], states: &mut [State; ROOM]) -> Result<Trailer, Refusal> {
    let trailer = Trailer::read(sheet).map_err(Refusal::bare)?;
    let (rows, entries) = sheet.split_at(trailer.index);
    let unwanted = unwanted(trailer.n, trailer.role);
    let blamed = |state| move |(number, at)| Refusal { number, sheet: 0, state, offset: at as u16 };
    let mut at = 0;
    for state in 0..trailer.count {
        let entry = 2 * state as usize;
        if word(entries[entry], entries[entry + 1]) as usize != at {
            return Err(blamed(state)((4, rows.len() + entry)));
        }
        at = read_row(&mut states[state as usize % ROOM], rows, at, unwanted, trailer.count).map_err(blamed(state))?;
    }
    if at == rows.len() {
        Ok(trailer)
    } else {
        Err(blamed(trailer.count - 1)((4, at)))
    }
}

/// The bits that no ready set over n names may have in a role.
pub fn unwanted(n: u8, role: u8) -> u16 {
    let names = (1 << n) - 1;
    let mark = if role == CLIENT { SUCCESS } else { 0 };
    !(names | names << 7 | mark)
}

/// Reads the row at an offset and gives its end, or the first of refusals 4 to 7 with the offset of the byte at fault.
/// The first byte missing is always the one where the rows end. Whether a mask has a bit too many is seen from all masks
/// together.
#[inline(always)]
fn read_row(row: &mut State, rows: &[u8], at: usize, unwanted: u16, count: u8) -> Result<usize, (u8, usize)> {
    let missing = (4, rows.len());
    let &sets = rows.get(at).ok_or(missing)?;
    if !(1..=MOST_READY).contains(&sets) {
        return Err((5, at));
    }
    let behind = at + 1 + 2 * sets as usize;
    let masks = rows.get(at + 1..behind).ok_or(missing)?;
    let (mut least, mut union) = (0, 0);
    row.ready = [NONE; MOST_READY as usize];
    for (ready, mask) in row.ready.iter_mut().zip(masks.chunks_exact(2)) {
        let mask = word(mask[0], mask[1]);
        if u32::from(mask) < least {
            return Err(untidy(masks, at + 1, unwanted));
        }
        *ready = mask;
        least = u32::from(mask) + 1;
        union |= mask;
    }
    if union & unwanted != 0 {
        return Err(untidy(masks, at + 1, unwanted));
    }
    row.sets = sets;
    row.offered = union & ACTIONS;
    let end = behind + row.offered.count_ones() as usize;
    let successors = rows.get(behind..end).ok_or(missing)?;
    let mut highest = 0;
    for (&successor, action) in successors.iter().zip(Bits(row.offered.into())) {
        row.after[action as usize & 15] = successor;
        highest = highest.max(successor);
    }
    if highest < count {
        return Ok(end);
    }
    let right = successors.iter().take_while(|successor| **successor < count).count();
    Err((7, behind + right))
}

/// The refusal of masks at an offset, of which some are out of order or have a bit too many, and the offset of the one at
/// fault. The bits of all come before the order of any.
#[cold]
fn untidy(masks: &[u8], at: usize, unwanted: u16) -> (u8, usize) {
    let mask = |place: usize| word(masks[2 * place], masks[2 * place + 1]);
    let tidy = (0..masks.len() / 2).take_while(|place| mask(*place) & unwanted == 0).count();
    if 2 * tidy < masks.len() {
        return (6, at + 2 * tidy);
    }
    let above = (1..masks.len() / 2).take_while(|place| mask(*place) > mask(place - 1)).count();
    (5, at + 2 * (1 + above))
}

/// Reads two sheets that are to have these roles and the same names, or gives the first of refusals 1 to 9.
pub fn read_both(first: (&mut Contract, &[u8], u8), second: (&mut Contract, &[u8], u8)) -> Result<(), Refusal> {
    first.0.read(first.1).map_err(|refusal| refusal.of(1))?;
    second.0.read(second.1).map_err(|refusal| refusal.of(2))?;
    if first.0.role != first.2 {
        return Err(Refusal::bare(8).of(1));
    }
    if second.0.role != second.2 {
        return Err(Refusal::bare(8).of(2));
    }
    if first.0.n != second.0.n {
        return Err(Refusal::bare(9));
    }
    Ok(())
}

/// The places of the ones of a number, ascending.
#[derive(Clone, Copy)]
pub struct Bits(pub u64);

impl Iterator for Bits {
    type Item = u32;

    #[inline]
    fn next(&mut self) -> Option<u32> {
        if self.0 == 0 {
            return None;
        }
        let place = self.0.trailing_zeros();
        self.0 &= self.0 - 1;
        Some(place)
    }
}

#[inline]
pub fn word(low: u8, high: u8) -> u16 {
    u16::from_le_bytes([low, high])
}
