//! Sheets and plans as the tests write them, and calls with memory of their own. Not every file of tests needs all of it.
#![allow(dead_code)]

use baseline::{Answer, Checker, Fault, Mode, Refusal, Workspace};

pub const A: u16 = 1 << 0;
pub const B: u16 = 1 << 1;

/// A state: ready sets, successors.
pub type State<'a> = (&'a [u16], &'a [u8]);

pub const END: State = (&[0], &[]);

/// A sheet of these states.
pub fn sheet(n: u8, role: u8, states: &[State]) -> Vec<u8> {
    let (mut rows, mut index) = (Vec::new(), Vec::new());
    for (ready, successors) in states {
        index.extend((rows.len() as u16).to_le_bytes());
        rows.push(ready.len() as u8);
        rows.extend(ready.iter().flat_map(|mask| mask.to_le_bytes()));
        rows.extend(*successors);
    }
    let offset = (rows.len() as u16).to_le_bytes();
    rows.extend(index);
    rows.extend(offset);
    rows.extend([states.len() as u8, n, role, 0xC5]);
    rows
}

pub fn refusal(number: u8, sheet: u8, state: u8, offset: u16) -> Refusal {
    Refusal { number, sheet, state, offset }
}

/// Connects with so many records.
pub fn connect_in(mode: Mode, k: u8, old: &[u8], new: &[u8], records: usize, plan: &mut [u8]) -> Answer {
    Workspace::new(records).connect(mode, k, old, new, records, plan)
}

/// A plan of these rows, each of codes and next states.
pub fn plan(n: u8, k: u8, rows: &[&[(u8, u16)]]) -> Vec<u8> {
    let (mut bytes, mut index) = (Vec::new(), Vec::new());
    for row in rows {
        index.extend((bytes.len() as u32).to_le_bytes());
        bytes.push(row.len() as u8);
        bytes.extend(row.iter().flat_map(|(code, next)| [*code, *next as u8, (next >> 8) as u8]));
    }
    let offset = (bytes.len() as u32).to_le_bytes();
    bytes.extend(index);
    bytes.extend(offset);
    bytes.extend((rows.len() as u16).to_le_bytes());
    bytes.extend([n, k]);
    bytes
}

/// The number of the check, and what is at fault, which is nothing unless the number is 21.
pub fn checked_in(mode: Mode, old: &[u8], new: &[u8], plan: &[u8], records: usize) -> (u8, Fault) {
    let mut checker = Checker::new();
    let answer = checker.check(mode, old, new, plan, records);
    let fault = checker.fault(mode, old, new, plan, records);
    let Answer { number, sheet, state, offset, .. } = answer;
    assert_eq!(answer, Refusal { number, sheet, state, offset }.into());
    assert_eq!(number == 21, fault != Fault::default());
    (number, fault)
}
