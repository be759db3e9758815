//! M1 to M13 in both modes, M1's bytes, and the edges that document 01 names; and those of choosing sheets and of edited
//! plans.

mod made;

use baseline::{complies, convert, step, Answer, Fault, Mode, Refusal, LONGEST_PLAN};
use made::{checked_in, connect_in, plan, refusal, sheet, State, A, B, END};

const C: u16 = 1 << 2;
const SEND_A: u16 = A << 7;
const SEND_C: u16 = C << 7;
const SEND_D: u16 = 1 << 10;

fn connect(k: u8, old: &[u8], new: &[u8], records: usize, plan: &mut [u8]) -> Answer {
    connect_in(Mode::Paper, k, old, new, records, plan)
}

struct Case<'a> {
    name: &'a str,
    n: u8,
    old: &'a [State<'a>],
    new: &'a [State<'a>],
    k: u8,
    number: u8,
    counts: (u16, u16, u16),
}

#[rustfmt::skip]
const CASES: [Case; 13] = [
    Case { name: "M1", n: 2, old: &[(&[A], &[1]), END], new: &[(&[A | B], &[1, 1]), END], k: 0, number: 0, counts: (2, 2, 0) },
    Case { name: "M2", n: 1, old: &[END], new: &[(&[A], &[1]), END], k: 0, number: 0, counts: (1, 1, 0) },
    Case { name: "M3", n: 1, old: &[(&[A], &[1]), END], new: &[END], k: 0, number: 12, counts: (1, 0, 1) },
    Case { name: "M4", n: 1, old: &[(&[A], &[1]), END], new: &[END], k: 1, number: 0, counts: (2, 2, 0) },
    Case { name: "M5", n: 1, old: &[(&[SEND_A], &[1]), END], new: &[END], k: 3, number: 12, counts: (1, 0, 1) },
    Case { name: "M6", n: 1, old: &[END], new: &[(&[SEND_A], &[1]), END], k: 1, number: 0, counts: (2, 2, 0) },
    Case { name: "M7", n: 2, old: &[(&[A], &[1]), END], new: &[(&[A, B], &[1, 1]), END], k: 0, number: 12, counts: (2, 0, 1) },
    Case { name: "M8", n: 2, old: &[(&[A], &[1]), END], new: &[(&[A, B], &[1, 1]), END], k: 1, number: 0, counts: (3, 3, 0) },
    Case { name: "M9", n: 2, old: &[(&[A, B], &[1, 1]), END], new: &[(&[A], &[1]), END], k: 0, number: 0, counts: (2, 2, 0) },
    Case { name: "M10", n: 4, old: &[(&[A], &[1]), (&[SEND_C], &[2]), END], new: &[(&[A], &[1]), (&[SEND_D], &[2]), END], k: 0, number: 12, counts: (2, 0, 2) },
    Case { name: "M11", n: 1, old: &[(&[A], &[0])], new: &[(&[A], &[0])], k: 1, number: 0, counts: (2, 2, 0) },
    Case { name: "M12", n: 3, old: &[(&[C], &[1]), (&[A], &[2]), END], new: &[(&[A], &[1]), (&[C], &[2]), END], k: 0, number: 12, counts: (1, 0, 1) },
    Case { name: "M13", n: 3, old: &[(&[C], &[1]), (&[A], &[2]), END], new: &[(&[A], &[1]), (&[C], &[2]), END], k: 1, number: 0, counts: (5, 5, 0) },
];

/// A number, and the counts with it.
type Figures = (u8, (u16, u16, u16));

/// The figures of a case in a mode, and its plan.
fn figures(mode: Mode, case: &Case) -> (Figures, Vec<u8>) {
    let (old, new) = (sheet(case.n, 0, case.old), sheet(case.n, 0, case.new));
    let mut plan = vec![0xEE; LONGEST_PLAN];
    let answer = connect_in(mode, case.k, &old, &new, 1024, &mut plan);
    assert_eq!(answer.length == 0, answer.number != 0, "{}", case.name);
    assert!(plan[answer.length as usize..].iter().all(|byte| *byte == 0xEE), "{}", case.name);
    plan.truncate(answer.length as usize);
    ((answer.number, (answer.situations, answer.states, answer.rounds)), plan)
}

#[test]
fn cases_hold() {
    for case in &CASES {
        assert_eq!(figures(Mode::Paper, case).0, (case.number, case.counts), "{}", case.name);
    }
}

/// M4 and M8 as request 5/13 says; in the others no message waits for the service where the old state may end, or the new
/// state takes it, so the plans are the same too.
#[test]
fn cases_hold_settled() {
    for case in &CASES {
        let (settled, plan) = figures(Mode::Settled, case);
        match case.name {
            "M4" => assert_eq!(settled, (12, (2, 0, 2))),
            "M8" => assert_eq!(settled, (12, (3, 0, 2))),
            name => assert_eq!((settled, plan), figures(Mode::Paper, case), "{name}"),
        }
    }
}

#[rustfmt::skip]
const M1: [&[u8]; 3] = [
    &[1, 1, 0, 1, 1, 0, 0, 0, 0, 4, 0, 7, 0, 2, 2, 0, 0xC5],
    &[1, 3, 0, 1, 1, 1, 0, 0, 0, 0, 5, 0, 8, 0, 2, 2, 0, 0xC5],
    &[1, 0, 1, 0, 0, 0, 0, 0, 0, 4, 0, 0, 0, 5, 0, 0, 0, 2, 0, 2, 0],
];

#[test]
fn m1_byte_for_byte() {
    let [old, new, expected] = M1;
    assert_eq!(sheet(2, 0, CASES[0].old), old);
    assert_eq!(sheet(2, 0, CASES[0].new), new);
    let mut plan = [0xEE; 30];
    let answer = connect(0, old, new, 1024, &mut plan);
    assert_eq!(answer, Answer { situations: 2, states: 2, length: expected.len() as u32, ..Answer::default() });
    assert_eq!(plan[..expected.len()], *expected);
    assert!(plan[expected.len()..].iter().all(|byte| *byte == 0xEE));
}

#[test]
fn m1_stepped() {
    let plan = M1[2];
    assert_eq!(step(plan, 0, 0), (0, 1));
    assert_eq!(step(plan, 0, 1), (16, 0));
    assert_eq!(step(plan, 1, 0), (16, 0));
    assert_eq!(step(plan, 2, 0), (15, 0));
    assert_eq!(step(&plan[1..], 0, 0), (14, 0));
    assert_eq!(step(&[], 0, 0), (14, 0));
}

#[test]
fn exactly_enough_lent_and_one_less() {
    let [old, new, expected] = M1;
    let mut plan = vec![0xEE; expected.len()];
    assert_eq!(connect(0, old, new, 2, &mut plan).number, 0);
    assert_eq!(plan, expected);
    let mut short = vec![0xEE; expected.len() - 1];
    let answer = connect(0, old, new, 2, &mut short);
    assert_eq!(answer, Answer { number: 13, situations: 2, states: 2, ..Answer::default() });
    assert!(short.iter().all(|byte| *byte == 0xEE));
    for records in [0, 1] {
        assert_eq!(connect(0, old, new, records, &mut plan), Answer { number: 11, ..Answer::default() });
    }
}

#[test]
fn states_and_ranks_at_their_limits() {
    let mut plan = vec![0; LONGEST_PLAN];
    for (count, number) in [(64, 0), (65, 2)] {
        let long = sheet(0, 0, &vec![END; count]);
        assert_eq!(connect(0, &long, &long, 1, &mut plan).number, number);
    }
    let [old, new, _] = M1;
    assert_eq!(connect(3, old, new, 100, &mut plan).number, 0);
    assert_eq!(connect(4, old, new, 100, &mut plan).number, 10);
}

#[test]
fn roles_and_names() {
    let (service, client) = (sheet(1, 0, &[END]), sheet(1, 1, &[END]));
    let mut plan = [0; 100];
    let refused = |number, sheet| Answer { number, sheet, ..Answer::default() };
    assert_eq!(connect(255, &client, &client, 1, &mut plan), refused(8, 1));
    assert_eq!(connect(255, &service, &client, 1, &mut plan), refused(8, 2));
    assert_eq!(connect(255, &service, &sheet(2, 0, &[END]), 1, &mut plan), refused(9, 0));
}

/// The bits of all masks are tested before the order of any, whichever mask is the first at fault. With the numbers that
/// a service's row and a client's are refused by, over one name: the client may have the success mark.
#[test]
fn masks_with_noise() {
    const MARK: u16 = 1 << 14;
    const NOISE: u16 = 1 << 15;
    let cases: [(&[u16], u8, u8); 9] = [
        (&[SEND_A, A], 5, 5),
        (&[A, NOISE], 6, 6),
        (&[NOISE, A], 6, 6),
        (&[SEND_A, B], 6, 6),
        (&[SEND_A, A, NOISE], 6, 6),
        (&[A, A, B], 6, 6),
        (&[A, A, MARK], 6, 5),
        (&[MARK, A], 6, 5),
        (&[MARK, A, MARK | NOISE], 6, 6),
    ];
    for (masks, service, client) in cases {
        for (role, number) in [(0, service), (1, client)] {
            let faulty = sheet(1, role, &[END, (masks, &[]), (&[NOISE], &[])]);
            let (refusal, yes) = complies(&faulty, &[]);
            let Refusal { number: got, sheet, state, .. } = refusal;
            assert_eq!((got, sheet, state, yes), (number, 1, 1, false), "{masks:?}, role {role}");
        }
    }
}

#[test]
fn a_client_succeeds_or_waits_for_ever() {
    let service = sheet(1, 0, &[(&[A], &[1]), END]);
    let happy = sheet(1, 1, &[(&[SEND_A], &[1]), (&[1 << 14], &[])]);
    let stuck = sheet(1, 1, &[(&[SEND_A], &[1]), END]);
    assert_eq!(complies(&happy, &service), (Refusal::default(), true));
    assert_eq!(complies(&stuck, &service), (Refusal::default(), false));
    assert_eq!(complies(&service, &happy), (refusal(8, 1, 0, 0), false));
    assert_eq!(complies(&happy, &[]), (refusal(1, 2, 0, 0), false));
}

/// A choosing sheet of these rows.
fn choosing(n: u8, rows: &[Vec<u8>]) -> Vec<u8> {
    let (mut bytes, mut index) = (Vec::new(), Vec::new());
    for row in rows {
        index.extend((bytes.len() as u16).to_le_bytes());
        bytes.extend(row);
    }
    let offset = (bytes.len() as u16).to_le_bytes();
    bytes.extend(index);
    bytes.extend(offset);
    bytes.extend([rows.len() as u8, n, 0, 0xC6]);
    bytes
}

/// The number for these rows, with more lent than any sheet needs. A refusal leaves it as it was.
fn number_of(rows: &[Vec<u8>]) -> u8 {
    let mut sheet = [0xEE; 3000];
    let (number, length) = convert(&choosing(7, rows), &mut sheet);
    assert_eq!(number == 0, length > 0);
    assert!(sheet[length.into()..].iter().all(|byte| *byte == 0xEE));
    number
}

/// A hiding row, an open row that offers `a`, and the end.
fn moves(rows: &[u8]) -> Vec<u8> {
    [&[0, rows.len() as u8], rows].concat()
}

fn by_a(rows: &[u8]) -> Vec<u8> {
    [&[1, 1, 0, rows.len() as u8], rows].concat()
}

fn end() -> Vec<u8> {
    vec![1, 0, 0]
}

/// An open row that offers these actions, all of which lead to row 0.
fn back_by(mask: u16) -> Vec<u8> {
    let [low, high] = mask.to_le_bytes();
    [vec![1, low, high], [1, 0].repeat(mask.count_ones() as usize)].concat()
}

/// a(+)b: row 0 chooses by itself between the rows 1 and 2. The sheet is M7's new one.
#[test]
fn an_internal_choice_byte_for_byte() {
    let rows = [moves(&[1, 2]), vec![1, 1, 0, 1, 3], vec![1, 2, 0, 1, 3], end()];
    let expected = sheet(2, 0, CASES[6].new);
    for room in [expected.len(), expected.len() + 9] {
        let mut lent = vec![0xEE; room];
        assert_eq!(convert(&choosing(2, &rows), &mut lent), (0, expected.len() as u16));
        assert_eq!(lent[..expected.len()], expected);
        assert!(lent[expected.len()..].iter().all(|byte| *byte == 0xEE));
    }
    let mut short = vec![0xEE; expected.len() - 1];
    assert_eq!(convert(&choosing(2, &rows), &mut short), (13, 0));
    assert!(short.iter().all(|byte| *byte == 0xEE));
}

#[test]
fn choosing_sheets_at_the_limits_of_their_form() {
    assert_eq!(convert(&[], &mut []), (17, 0));
    for (count, number) in [(0, 17), (1, 0), (32, 0), (33, 17)] {
        assert_eq!(number_of(&vec![end(); count]), number);
    }
    for (count, number) in [(0, 17), (1, 0), (8, 0), (9, 17)] {
        let some: Vec<u8> = (1..=count).collect();
        for first in [moves(&some), by_a(&some)] {
            assert_eq!(number_of(&[vec![first], vec![end(); 9]].concat()), number);
        }
    }
    for (rows, number) in [([1, 2], 0), ([1, 1], 17), ([2, 1], 17), ([2, 3], 17)] {
        assert_eq!(number_of(&[moves(&rows), end(), end()]), number);
        assert_eq!(number_of(&[by_a(&rows), end(), end()]), number);
    }
    assert_eq!(number_of(&[vec![2, 0, 0]]), 17);
    assert_eq!(number_of(&[vec![1, 0, 0x40]]), 17);
}

#[test]
fn circles_then_states_then_ready_sets() {
    assert_eq!(number_of(&[moves(&[0])]), 18);
    assert_eq!(number_of(&[end(), moves(&[2]), moves(&[1])]), 18);
    let chain: Vec<Vec<u8>> = (1..32).map(|row| moves(&[row])).collect();
    assert_eq!(number_of(&[chain.clone(), vec![end()]].concat()), 0);
    assert_eq!(number_of(&[chain, vec![moves(&[0])]].concat()), 18);
    // Which of the last letters were a: 2 to the power of so many rows behind the first.
    let letters = |rows: u8| -> Vec<Vec<u8>> {
        let both = |row| vec![1, 3, 0, 1, row + 1, 1, row + 1];
        [vec![vec![1, 3, 0, 2, 0, 1, 1, 0]], (1..rows).map(both).collect()].concat()
    };
    // The last of them is a choice among so many ready sets.
    let crowded = |rows: u8, sets: u8| {
        let first: Vec<u8> = (rows + 2..rows + 9).collect();
        let rest: Vec<u8> = (rows + 9..rows + 2 + sets).collect();
        let masks = (0..sets).map(|mask| back_by(mask.into())).collect();
        let heads = vec![moves(&[vec![rows + 1], first].concat()), moves(&rest)];
        [letters(rows), heads, masks].concat()
    };
    assert_eq!(number_of(&[letters(6), vec![end()]].concat()), 0);
    assert_eq!(number_of(&[letters(7), vec![end()]].concat()), 19);
    assert_eq!(number_of(&crowded(6, 8)), 0);
    assert_eq!(number_of(&crowded(6, 9)), 20);
    assert_eq!(number_of(&crowded(7, 9)), 19);
    assert_eq!(number_of(&[letters(7), vec![end(), moves(&[8])]].concat()), 18);
}

fn checked(old: &[u8], new: &[u8], plan: &[u8], records: usize) -> (u8, Fault) {
    checked_in(Mode::Paper, old, new, plan, records)
}

/// Each of M1 to M13 that connects, with a record for each plan state, and with one less. Told the other mode, a settled
/// plan is accepted too, and the paper's unless the case is M4 or M8.
#[test]
fn emitted_plans_are_accepted() {
    for (mode, other) in [(Mode::Paper, Mode::Settled), (Mode::Settled, Mode::Paper)] {
        for case in &CASES {
            let ((number, (_, states, _)), plan) = figures(mode, case);
            if number != 0 {
                continue;
            }
            let (old, new) = (sheet(case.n, 0, case.old), sheet(case.n, 0, case.new));
            let number = |mode, records: u16| checked_in(mode, &old, &new, &plan, records.into()).0;
            assert_eq!([number(mode, states), number(mode, states - 1)], [0, 11], "{}", case.name);
            let due = if matches!(case.name, "M4" | "M8") { 21 } else { 0 };
            assert_eq!([number(other, states), number(other, states - 1)], [due, 11], "{}", case.name);
        }
    }
}

/// M8's plan with a move struck out, redirected, and put in.
#[test]
fn m8_edited() {
    let case = &CASES[7];
    let (old, new) = (sheet(2, 0, case.old), sheet(2, 0, case.new));
    let number = |rows: &[&[(u8, u16)]]| checked(&old, &new, &plan(2, 1, rows), 100);
    let fault = |condition, code, ready, state| Fault { condition, code, ready, state, ..Fault::default() };
    assert_eq!(number(&[&[(0, 1), (16, 2)], &[], &[(32, 1)]]).0, 0);
    assert_eq!(number(&[&[(16, 2)], &[], &[(32, 1)]]).0, 0);
    assert_eq!(number(&[&[(0, 1)], &[], &[(32, 1)]]), (21, fault(3, 0, B, 0)));
    assert_eq!(number(&[&[(0, 1), (16, 2), (17, 1)], &[], &[(32, 1)]]), (21, fault(2, 17, 0, 0)));
    assert_eq!(number(&[&[(0, 1), (16, 2), (17, 1), (32, 1)], &[], &[(32, 1)]]), (21, fault(1, 32, 0, 0)));
    let mut counts = [0; 14];
    counts[0] = 1;
    let behind = Fault { counts, old_state: 1, ..fault(1, 16, 0, 2) };
    assert_eq!(number(&[&[(0, 1), (16, 2)], &[], &[(16, 1), (32, 1)]]), (21, behind));
}

/// Too many pairs come before an unsound one, wherever it is; and refusals in their order.
#[test]
fn refusals_of_the_check() {
    let [old, new, good] = M1;
    let unsound = plan(2, 0, &[&[(0, 1), (32, 1)], &[]]);
    for (records, number) in [(0, 11), (1, 11), (2, 21), (5000, 21)] {
        assert_eq!(checked(old, new, &unsound, records).0, number);
    }
    let (other_names, no_plan) = (plan(3, 0, &[&[(0, 1)], &[]]), plan(3, 4, &[&[]]));
    assert_eq!(checked(old, new, &other_names, 9).0, 9);
    assert_eq!(checked(old, new, &no_plan, 9).0, 14);
    assert_eq!(checked(old, &sheet(3, 0, &[END]), &no_plan, 9).0, 9);
    assert_eq!(checked(old, &sheet(3, 1, &[END]), &no_plan, 9).0, 8);
    assert_eq!(checked(&[], &[], &[], 0).0, 1);
    assert_eq!(checked(old, new, good, 2).0, 0);
}

/// Two wheels of 64 states of which every state meets every other: 4,096 pairs with one plan state, 4,097 if the start
/// has a row of its own.
#[test]
fn as_many_pairs_as_there_may_be() {
    let both: &[u16] = &[A | B];
    let wheel = |first: u8, second: u8| {
        let after: Vec<[u8; 2]> = (0..64).map(|at| [(at + first) % 64, (at + second) % 64]).collect();
        let states: Vec<State> = after.iter().map(|after| (both, &after[..])).collect();
        sheet(2, 0, &states)
    };
    let (old, new) = (wheel(1, 0), wheel(0, 1));
    let one = plan(2, 0, &[&[(0, 0), (1, 0)]]);
    let two = plan(2, 0, &[&[(0, 1), (1, 1)], &[(0, 1), (1, 1)]]);
    for (plan, records, number) in
        [(&one, 4095, 11), (&one, 4096, 0), (&one, 5000, 0), (&two, 4096, 11), (&two, 5000, 11)]
    {
        assert_eq!(checked(&old, &new, plan, records).0, number);
    }
}
