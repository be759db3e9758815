//! The work table: how it is lent, filled and looked at.

use crate::foreign::{adapter_check_plan, adapter_connect, adapter_connect_mode, adapter_plan_fault};
use crate::foreign::{lent, passed, Answer, Fault};

/// How many bytes a record has. It has no gaps, so the product sees every one of them.
const SIZE: usize = 208;

/// A record of the work table, as its caller sees it: so many bytes, aligned as include/adapter.h says.
#[repr(C, align(4))]
#[derive(Clone, Copy, PartialEq, Eq)]
pub struct Record([u8; SIZE]);

const ZERO: Record = Record([0; SIZE]);

/// So many records stand before what is lent, and behind it.
const GUARDS: usize = 2;

/// What is lent of a table.
#[derive(Clone, Copy, Debug)]
pub struct Lent {
    pub records: usize,
    /// Whether slices without elements pass as null pointers.
    pub null: bool,
    /// Whether the records are filled with small numbers.
    pub small: bool,
}

impl Lent {
    pub fn records(records: usize) -> Lent {
        Lent { records, null: false, small: false }
    }
}

/// Records of which a part is lent, between records that nobody may touch.
pub struct Table {
    records: Vec<Record>,
    /// What the records are filled with: odd bytes, and small numbers.
    patterns: [Vec<Record>; 2],
}

/// Two numbers below 256 for each place of a table, in no order.
fn scattered(place: usize) -> (u8, u8) {
    let number = (place as u64 + 1).wrapping_mul(0x9E37_79B9_7F4A_7C15);
    ((number >> 56) as u8, (number >> 32) as u8)
}

/// The byte at a place where none is zero. Every 16-bit number is above 256: few calls know so many records.
fn odd(place: usize) -> u8 {
    scattered(place).0 | 1
}

/// The byte at a place where every 16-bit number is from 1 to 128, and half of them below 10: as links, they name
/// records that a call knows.
fn small(place: usize) -> u8 {
    let (number, shift) = scattered(place);
    match place % 2 {
        0 => 1 + (number >> (1 + shift % 7)),
        _ => 0,
    }
}

impl Table {
    /// A table of which up to so many records can be lent.
    pub fn new(records: usize) -> Table {
        let length = records + 2 * GUARDS;
        let filled = |byte_at: fn(usize) -> u8| {
            let record = |record| Record(std::array::from_fn(|byte| byte_at(SIZE * record + byte)));
            (0..length).map(record).collect()
        };
        Table { records: vec![ZERO; length], patterns: [odd, small].map(filled) }
    }

    /// Fills what is to be lent, and what stands around it, with numbers that are not zero.
    pub fn fill(&mut self, given: &Lent) {
        let length = given.records + 2 * GUARDS;
        self.records[..length].copy_from_slice(&self.patterns[usize::from(given.small)][..length]);
    }

    /// Whether the table, filled before the call, is as document 01 says after an answer of this number:
    /// unchanged by refusals 1 to 10 and 14, which come before anything is counted, zero after every other call; and
    /// nothing around it was touched.
    pub fn is_as_due(&self, given: &Lent, number: u8) -> bool {
        let length = given.records + 2 * GUARDS;
        let (records, pattern) = (&self.records[..length], &self.patterns[usize::from(given.small)][..length]);
        let inside = GUARDS..GUARDS + given.records;
        let due = if matches!(number, 1..=10 | 14) {
            records[inside.clone()] == pattern[inside]
        } else {
            records[inside].iter().all(|record| *record == ZERO)
        };
        let behind = GUARDS + given.records..length;
        due && records[..GUARDS] == pattern[..GUARDS] && records[behind.clone()] == pattern[behind]
    }

    /// Connects two sheets in the paper's mode and writes the plan.
    pub fn connect(&mut self, given: &Lent, k: u8, old: &[u8], new: &[u8], plan: &mut [u8]) -> Answer {
        let null = given.null;
        let (old, new) = (passed(old, null), passed(new, null));
        let work = lent(&mut self.records[GUARDS..GUARDS + given.records], null);
        let plan = lent(plan, null);
        // Each pointer is that of a slice, passed with its length, or null with length 0; no two of those written
        // to overlap.
        unsafe { adapter_connect(k, old.0, old.1, new.0, new.1, work.0, work.1, plan.0, plan.1) }
    }

    /// Connects two sheets in the mode that a byte names, and writes the plan.
    pub fn connect_mode(&mut self, given: &Lent, mode: u8, k: u8, old: &[u8], new: &[u8], plan: &mut [u8]) -> Answer {
        let null = given.null;
        let (old, new) = (passed(old, null), passed(new, null));
        let work = lent(&mut self.records[GUARDS..GUARDS + given.records], null);
        let plan = lent(plan, null);
        // As for connecting in the paper's mode.
        unsafe { adapter_connect_mode(mode, k, old.0, old.1, new.0, new.1, work.0, work.1, plan.0, plan.1) }
    }

    /// Checks a plan from any hand, in the mode that a byte names.
    pub fn check_plan(&mut self, given: &Lent, mode: u8, old: &[u8], new: &[u8], plan: &[u8]) -> Answer {
        let null = given.null;
        let (old, new, plan) = (passed(old, null), passed(new, null), passed(plan, null));
        let work = lent(&mut self.records[GUARDS..GUARDS + given.records], null);
        // Each pointer is that of a slice, passed with its length, or null with length 0; the one written to overlaps
        // no other.
        unsafe { adapter_check_plan(mode, old.0, old.1, new.0, new.1, plan.0, plan.1, work.0, work.1) }
    }

    /// Says what is at fault in a plan, in the mode that a byte names.
    pub fn plan_fault(&mut self, given: &Lent, mode: u8, old: &[u8], new: &[u8], plan: &[u8]) -> Fault {
        let null = given.null;
        let (old, new, plan) = (passed(old, null), passed(new, null), passed(plan, null));
        let work = lent(&mut self.records[GUARDS..GUARDS + given.records], null);
        // As for the check.
        unsafe { adapter_plan_fault(mode, old.0, old.1, new.0, new.1, plan.0, plan.1, work.0, work.1) }
    }
}

#[cfg(test)]
mod tests {
    use super::*;

    fn filled(lent: &Lent) -> Table {
        let mut table = Table::new(4);
        table.fill(lent);
        table
    }

    /// Three records, with each filling.
    fn each() -> [Lent; 2] {
        [false, true].map(|small| Lent { small, ..Lent::records(3) })
    }

    #[test]
    fn every_byte_lent_counts() {
        for lent in each() {
            for place in 0..3 * SIZE {
                let (record, byte) = (GUARDS + place / SIZE, place % SIZE);
                let mut table = filled(&lent);
                let due = [0, 1, 10, 11, 14, 21].map(|number| table.is_as_due(&lent, number));
                assert_eq!(due, [false, true, true, false, true, false]);
                table.records[record].0[byte] ^= 2;
                assert!(!table.is_as_due(&lent, 10) && !table.is_as_due(&lent, 14));
                table.records[GUARDS..GUARDS + 3].fill(ZERO);
                let due = [0, 1, 10, 11, 14, 21].map(|number| table.is_as_due(&lent, number));
                assert_eq!(due, [true, false, false, true, false, true]);
                table.records[record].0[byte] = 1;
                assert!(!table.is_as_due(&lent, 11) && !table.is_as_due(&lent, 21));
            }
        }
    }

    #[test]
    fn every_byte_around_counts() {
        for lent in each() {
            for place in 0..4 * SIZE {
                let (record, byte) = ([0, 1, GUARDS + 3, GUARDS + 4][place / SIZE], place % SIZE);
                let mut table = filled(&lent);
                table.records[record].0[byte] ^= 2;
                assert!(!table.is_as_due(&lent, 10));
                table.records[GUARDS..GUARDS + 3].fill(ZERO);
                assert!(!table.is_as_due(&lent, 0));
            }
        }
    }

    #[test]
    fn numbers_are_large_or_small() {
        let table = Table::new(1000);
        let [odd, small] = &table.patterns;
        let numbers = |records: &[Record]| -> Vec<u16> {
            let bytes = records.iter().flat_map(|record| record.0).collect::<Vec<u8>>();
            bytes.chunks_exact(2).map(|pair| u16::from_le_bytes([pair[0], pair[1]])).collect()
        };
        assert!(numbers(odd).iter().all(|number| *number > 256));
        let small = numbers(small);
        assert!(small.iter().all(|number| (1..=128).contains(number)));
        assert!(small.iter().filter(|number| **number < 10).count() > small.len() / 2);
    }
}
