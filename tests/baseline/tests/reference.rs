//! Agreement with the reference program on the data that is stored for the test programs sheet_cases, pair_cases,
//! step_cases, client_cases, choosing_cases, edit_cases, row_cases and text_cases. tests/reference/README.md says how the
//! records and the lines are laid out.

use baseline::{complies, convert, from_text, row, row_refusal, step, text_fault, Checker, Mode, Refusal, Workspace};
use std::path::{Path, PathBuf};

fn folder(program: &str) -> PathBuf {
    Path::new(env!("CARGO_MANIFEST_DIR")).join("../../crates").join(program)
}

/// The stored input of a test program and what it is to print.
fn stored(program: &str) -> (Vec<u8>, String) {
    let folder = folder(program);
    let read = |name| std::fs::read(folder.join(name)).unwrap_or_else(|error| panic!("{program}/{name}: {error}"));
    (read("stdin"), String::from_utf8(read("stdout")).unwrap())
}

fn word(data: &[u8], at: usize) -> usize {
    usize::from(u16::from_le_bytes([data[at], data[at + 1]]))
}

/// Compares the figures that `answer` gives for each record with those of its line, but for so many at its end.
fn agree(program: &str, but: usize, mut answer: impl FnMut(&[u8]) -> Vec<u64>) {
    let (records, lines) = stored(program);
    let (mut at, mut count) = (0, 0);
    for line in lines.lines() {
        let record = &records[at + 2..at + 2 + word(&records, at)];
        let mut expected: Vec<u64> = line.split(' ').map(|figure| figure.parse().unwrap()).collect();
        expected.truncate(expected.len() - but);
        assert_eq!(answer(record), expected, "{program}, case {count}");
        at += 2 + record.len();
        count += 1;
    }
    assert_eq!(at, records.len(), "{program}: as many lines as records");
    assert!(count > 1000, "{program}: {count} cases");
    println!("{program}: {count} agree");
}

fn digest(bytes: &[u8]) -> u64 {
    bytes.iter().fold(0, |figure, byte| (figure * 257 + u64::from(*byte) + 1) % 4_294_967_291)
}

/// A refusal's number, sheet, state and offset.
fn carried(refusal: &Refusal) -> [u64; 4] {
    [refusal.number.into(), refusal.sheet.into(), refusal.state.into(), refusal.offset.into()]
}

/// Each sheet as the first of two, the other being empty: a whole one leaves refusal 1 to that.
#[test]
fn sheets() {
    agree("sheet_cases", 0, |record| match carried(&complies(record, &[]).0) {
        [1, 2, 0, 0] => vec![0, 0, 0],
        [number, 1, state, offset] => vec![number, state, offset],
        other => panic!("{other:?}"),
    });
}

/// The last two figures are about lent records, which the baseline keeps to itself.
#[test]
fn pairs() {
    let mut workspace = Workspace::new(usize::from(u16::MAX));
    agree("pair_cases", 2, |record| {
        let (mode, k, behind) = (Mode::named(record[4]), record[5], 8 + word(record, 6));
        let mut plan = vec![0xEE; word(record, 2)];
        let (old, new) = (&record[8..behind], &record[behind..]);
        let answer = workspace.connect(mode, k, old, new, word(record, 0), &mut plan);
        vec![
            answer.number.into(),
            answer.sheet.into(),
            answer.state.into(),
            answer.offset.into(),
            answer.situations.into(),
            answer.states.into(),
            answer.rounds.into(),
            answer.length.into(),
            digest(&plan),
        ]
    });
}

#[test]
fn steps() {
    agree("step_cases", 0, |record| {
        let (number, next) = step(&record[3..], word(record, 0) as u16, record[2]);
        vec![number.into(), next.into()]
    });
}

#[test]
fn clients() {
    agree("client_cases", 0, |record| {
        let behind = 2 + word(record, 0);
        let (refusal, yes) = complies(&record[2..behind], &record[behind..]);
        [&carried(&refusal)[..], &[yes.into()]].concat()
    });
}

/// The refusal, the part, and every byte of it.
#[test]
fn rows() {
    agree("row_cases", 0, |record| {
        let (sheet, state, behind) = (record[0], record[1], 4 + word(record, 2));
        let (first, second) = (&record[4..behind], &record[behind..]);
        let (refusal, part) = (row_refusal(first, second, sheet, state), row(first, second, sheet, state));
        let place: [u64; 3] = [part.sheet.into(), part.offset.into(), part.length.into()];
        let bytes: Vec<u64> = part.of(first, second).iter().map(|byte| u64::from(*byte)).collect();
        [&carried(&refusal)[..], &place, &bytes].concat()
    });
}

/// As many bytes as are lent, as they are before the call.
fn lent(bytes: usize) -> Vec<u8> {
    (0..bytes).map(|place| !(place as u8)).collect()
}

#[test]
fn choosing_sheets() {
    agree("choosing_cases", 0, |record| {
        let mut sheet = lent(word(record, 0));
        let (number, length) = convert(&record[2..], &mut sheet);
        let answer = [number.into(), 0, 0, length.into()];
        answer.into_iter().chain(sheet.into_iter().map(u64::from)).collect()
    });
}

/// The answer, what is at fault, and every byte that was lent. There may be no such data.
#[test]
fn texts() {
    if !["stdin", "stdout"].iter().all(|name| folder("text_cases").join(name).exists()) {
        return println!("text_cases: no data");
    }
    agree("text_cases", 0, |record| {
        let (mut sheet, text) = (lent(word(record, 0)), &record[2..]);
        let answer = from_text(text, &mut sheet);
        let head: [u64; 3] = [answer.number.into(), answer.sheet.into(), answer.state.into()];
        let tail: [u64; 2] = [answer.length.into(), text_fault(text).into()];
        head.into_iter().chain(tail).chain(sheet.into_iter().map(u64::from)).collect()
    });
}

/// The figures about lent records, which the baseline keeps to itself, are what the number says: all zero, or all as
/// they were.
#[test]
fn edited_plans() {
    let mut checker = Checker::new();
    agree("edit_cases", 0, |record| {
        let (records, mode) = (word(record, 0), Mode::named(record[2]));
        let behind = 5 + word(record, 3);
        let (old, new) = (&record[5..behind], &record[behind + 2..]);
        let (new, plan) = new.split_at(word(record, behind));
        let answer = checker.check(mode, old, new, plan, records);
        let fault = checker.fault(mode, old, new, plan, records);
        let lent = if matches!(answer.number, 1..=9 | 14) { [0, records as u64] } else { [records as u64, 0] };
        let head: [u64; 4] = [answer.number.into(), answer.sheet.into(), answer.state.into(), answer.offset.into()];
        let wrong: [u64; 4] = [fault.condition.into(), fault.code.into(), fault.ready.into(), fault.state.into()];
        let states: [u64; 2] = [fault.old_state.into(), fault.new_state.into()];
        [&head[..], &lent, &wrong, &fault.counts.map(u64::from), &states, &lent].concat()
    });
}
