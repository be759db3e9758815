//! The settled test (document 02, request 5/13): pairs and plans on which readings that its words do not have would answer
//! otherwise.

mod made;

use baseline::{Fault, Mode, LONGEST_PLAN};
use made::{checked_in, connect_in, plan, sheet, State, A, B, END};

const G: u16 = 1 << 6;

/// A number, and the counts with it.
type Figures = (u8, [u16; 3]);

struct Pair<'a> {
    /// What a wrong reading would take for what the request says.
    wrong: &'a str,
    n: u8,
    k: u8,
    old: &'a [State<'a>],
    new: &'a [State<'a>],
    paper: Figures,
    settled: Figures,
}

#[rustfmt::skip]
const PAIRS: [Pair; 8] = [
    Pair { wrong: "an old state of which every ready set is empty", n: 2, k: 1,
        old: &[(&[A], &[1]), (&[0, B], &[2]), END], new: &[END],
        paper: (0, [3, 3, 0]), settled: (12, [3, 0, 2]) },
    Pair { wrong: "any old state", n: 2, k: 1,
        old: &[(&[A], &[1]), (&[B], &[1])], new: &[(&[B], &[0])],
        paper: (0, [3, 3, 0]), settled: (0, [3, 3, 0]) },
    Pair { wrong: "any count, or those for the client", n: 1, k: 1,
        old: &[END], new: &[(&[A << 7], &[1]), END],
        paper: (0, [2, 2, 0]), settled: (0, [2, 2, 0]) },
    Pair { wrong: "the counts of some names", n: 7, k: 1,
        old: &[(&[G], &[1]), END], new: &[END],
        paper: (0, [2, 2, 0]), settled: (12, [2, 0, 2]) },
    Pair { wrong: "a count of 1", n: 1, k: 2,
        old: &[(&[A], &[1]), (&[A], &[2]), END], new: &[END],
        paper: (0, [3, 3, 0]), settled: (12, [3, 0, 3]) },
    Pair { wrong: "some ready set of the new state, or a move for an action of another", n: 2, k: 1,
        old: &[(&[A], &[1]), END], new: &[(&[A, B], &[1, 1]), END],
        paper: (0, [3, 3, 0]), settled: (12, [3, 0, 2]) },
    Pair { wrong: "a move passed straight", n: 2, k: 1,
        old: &[(&[B], &[1]), (&[0, A], &[1])], new: &[(&[A], &[0])],
        paper: (0, [3, 3, 0]), settled: (12, [3, 0, 2]) },
    Pair { wrong: "all enabled moves", n: 2, k: 1,
        old: &[(&[A], &[1]), (&[B], &[2]), END], new: &[(&[A], &[1]), END],
        paper: (0, [5, 5, 0]), settled: (12, [5, 0, 4]) },
];

#[test]
fn wrong_readings_are_told_apart() {
    for pair in &PAIRS {
        let (old, new) = (sheet(pair.n, 0, pair.old), sheet(pair.n, 0, pair.new));
        for (mode, due) in [(Mode::Paper, pair.paper), (Mode::Settled, pair.settled)] {
            let answer = connect_in(mode, pair.k, &old, &new, 100, &mut vec![0; LONGEST_PLAN]);
            let counts = [answer.situations, answer.states, answer.rounds];
            assert_eq!((answer.number, counts), due, "{mode:?}, not {}", pair.wrong);
        }
    }
}

/// a(+)b and a: the paper's plan also keeps a b, which nobody takes.
#[test]
fn a_pair_that_connects_by_another_plan() {
    let (old, new) = (sheet(2, 0, &[(&[A, B], &[1, 1]), END]), sheet(2, 0, &[(&[A], &[1]), END]));
    let papers = plan(2, 1, &[&[(0, 1), (16, 2), (17, 3)], &[], &[(32, 1)], &[]]);
    let settled = plan(2, 1, &[&[(0, 1), (16, 2)], &[], &[(32, 1)]]);
    for (mode, due, counts) in [(Mode::Paper, &papers, [4, 4, 0]), (Mode::Settled, &settled, [4, 3, 1])] {
        let mut lent = vec![0; due.len()];
        let answer = connect_in(mode, 1, &old, &new, 4, &mut lent);
        assert_eq!((answer.number, [answer.situations, answer.states, answer.rounds]), (0, counts));
        assert_eq!(lent, *due);
    }
    let numbers = |mode| [&papers, &settled].map(|plan| checked_in(mode, &old, &new, plan, 4).0);
    assert_eq!([numbers(Mode::Paper), numbers(Mode::Settled)], [[0, 0], [21, 0]]);
}

/// What is at fault in a plan for two states each, told settled, in the state where a waits and the old contract ended.
fn fault(condition: u8, code: u8, ready: u16, state: u16) -> (u8, Fault) {
    let mut counts = [0; 14];
    counts[0] = 1;
    (21, Fault { condition, code, ready, state, counts, old_state: 1, new_state: 0 })
}

/// M4 with its own plan and edits of it: a move in the last row comes before the test if it is at fault itself.
#[test]
fn m4_told_settled() {
    let (old, new) = (sheet(1, 0, &[(&[A], &[1]), END]), sheet(1, 0, &[END]));
    let number = |k, row: &[(u8, u16)]| checked_in(Mode::Settled, &old, &new, &plan(1, k, &[&[(16, 1)], row]), 2);
    assert_eq!(number(1, &[]), fault(4, 0, 0, 1));
    assert_eq!(number(1, &[(32, 0)]), fault(4, 0, 0, 1));
    assert_eq!(number(1, &[(16, 1)]), fault(1, 16, 0, 1));
    assert_eq!(number(2, &[(16, 1)]), fault(2, 16, 0, 1));
    let struck_out = checked_in(Mode::Settled, &old, &new, &plan(1, 1, &[&[], &[]]), 2);
    assert_eq!(struck_out, (21, Fault { condition: 3, ..Fault::default() }));
}

/// The first ready set without such a move is named, though an earlier one has it; too few records come first.
#[test]
fn m8_told_settled() {
    let (old, new) = (sheet(2, 0, &[(&[A], &[1]), END]), sheet(2, 0, &[(&[A, B], &[1, 1]), END]));
    let emitted = plan(2, 1, &[&[(0, 1), (16, 2)], &[], &[(32, 1)]]);
    assert_eq!(checked_in(Mode::Paper, &old, &new, &emitted, 3).0, 0);
    assert_eq!(checked_in(Mode::Settled, &old, &new, &emitted, 3), fault(4, 0, B, 2));
    assert_eq!(checked_in(Mode::Settled, &old, &new, &emitted, 2).0, 11);
    let struck_out = plan(2, 1, &[&[(0, 1), (16, 2)], &[], &[]]);
    assert_eq!(checked_in(Mode::Paper, &old, &new, &struck_out, 3).0, 0);
    assert_eq!(checked_in(Mode::Settled, &old, &new, &struck_out, 3), fault(4, 0, A, 2));
}
