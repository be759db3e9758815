//! A wrong side is caught, the input made small and stored, and the stored input replayed. That the right sides
//! agree is tried at a small share.

use baseline::{Checker, Mode, Workspace, LONGEST_SHEET};
use cross::at_fault::{at_fault, Byte};
use cross::call::{Call, CheckPlan, Complies, Connect, FromChoosing, FromText, Row, Step};
use cross::chance::Chance;
use cross::guarded::Guarded;
use cross::parts::{Share, PARTS};
use cross::runner::{Checked, Ended, Runner};
use cross::target::{Baseline, Figures, Outcome, Product, Target};
use cross::target::{FAULT, LENGTH, OFFSET, PART, SHEET_LENGTH, SITUATIONS, STATES, TEXT_FAULT, YES};
use cross::untidy::out_of_order_first;
use std::path::PathBuf;

/// What a wrong side changes: the figures, the lent plan or output, or whether all else is as due.
type Fault = fn(&Call, &mut Figures, &mut Guarded, &mut bool);

/// The baseline with a fault.
struct Wrong {
    right: Baseline,
    lent: Guarded,
    fault: Fault,
}

impl Target for Wrong {
    fn answer(&mut self, call: &Call) -> Outcome<'_> {
        let Outcome { mut figures, lent, mut as_due } = self.right.answer(call);
        let some = lent.is_some();
        self.lent = lent.cloned().unwrap_or_default();
        (self.fault)(call, &mut figures, &mut self.lent, &mut as_due);
        Outcome { figures, lent: some.then_some(&self.lent), as_due }
    }
}

/// Runs the parts whose names have this word, all if it is empty.
fn run(runner: &mut Runner, word: &str) -> Checked {
    for (place, (_, part)) in PARTS.iter().enumerate().filter(|(_, (name, _))| name.contains(word)) {
        part(runner, &mut Chance::new(place as u64), Share(1))?;
    }
    Ok(())
}

fn differs_in(ended: Checked) -> PathBuf {
    match ended {
        Err(Ended::Differs { path, .. }) => path,
        other => panic!("no difference: {other:?}"),
    }
}

fn folder(name: &str) -> PathBuf {
    let folder = std::env::temp_dir().join(format!("cross-{}-{name}", std::process::id()));
    assert!(!folder.exists());
    folder
}

/// The small input that is stored for a fault. It is also the one that replaying finds, and the right side has no
/// fault there.
fn caught(name: &str, fault: Fault) -> Call {
    caught_by("", name, fault)
}

/// The same, by the parts whose names have this word.
fn caught_by(word: &str, name: &str, fault: Fault) -> Call {
    let folder = folder(name);
    let mut wrong = Wrong { right: Baseline::new(), lent: Guarded::default(), fault };
    let mut baseline = Baseline::new();
    let path = differs_in(run(&mut Runner::new(&mut baseline, &mut wrong, &folder), word));
    let replayed = Runner::new(&mut baseline, &mut wrong, &folder).replay();
    assert_eq!(differs_in(replayed.map(|_| ())), path);
    let mut product = Product::new();
    let right = Runner::new(&mut baseline, &mut product, &folder).replay();
    assert!(matches!(right, Ok(1)));
    let call = cross::failures::read(&path).expect("a stored call");
    std::fs::remove_dir_all(&folder).expect("a folder to remove");
    call
}

#[test]
fn a_wrong_state_of_a_refusal() {
    let call = caught("state", |call, figures, _, _| {
        if matches!(call, Call::Connect(_)) && figures[0] == 7 && figures[1] == 1 && figures[2] > 0 {
            figures[2] -= 1;
        }
    });
    let Call::Connect(Connect { mode: None | Some(0), k: 0, old, new, records: 0, room: 0, null: false, small: false }) =
        call
    else {
        panic!("not small: {call:?}");
    };
    // Two rows, the second with one ready set and one successor, the index and the trailer.
    assert_eq!((old.len(), new.len()), (3 + 4 + 4 + 6, 0));
}

#[test]
fn a_row_tested_mask_by_mask() {
    let call = caught("masks", |call, figures, _, _| {
        if matches!(call, Call::Connect(_)) && figures[1] == 1 && out_of_order_first(call, figures) {
            figures[0] = 5;
        }
    });
    let Call::Connect(Connect { mode: None | Some(0), k: 0, old, new, records: 0, room: 0, null: false, small: false }) =
        call
    else {
        panic!("not small: {call:?}");
    };
    // One row of two masks with both faults in the second, or of three with one fault in each of the last.
    assert!(old.len() <= 1 + 3 * 2 + 2 + 6 && new.is_empty(), "{old:?}, {new:?}");
}

#[test]
fn a_wrong_byte_of_a_plan() {
    let call = caught("byte", |_, figures, plan, _| {
        if figures[STATES] == 2 && figures[LENGTH] > 0 {
            plan.inside_mut()[0] ^= 1;
        }
    });
    assert!(matches!(call, Call::Connect(Connect { records: 2, null: false, .. })), "{call:?}");
}

#[test]
fn a_table_that_is_left_dirty() {
    let call = caught("table", |call, figures, _, as_due| {
        *as_due = !(matches!(call, Call::Connect(_)) && figures[0] == 12);
    });
    assert!(matches!(call, Call::Connect(Connect { k: 0, records: 1, room: 0, .. })), "{call:?}");
}

#[test]
fn a_byte_written_behind_a_refused_plan() {
    let call = caught("room", |call, figures, plan, _| {
        if matches!(call, Call::Connect(_)) && figures[0] == 13 {
            plan.inside_mut().iter_mut().for_each(|byte| *byte = 0);
        }
    });
    assert!(matches!(call, Call::Connect(Connect { room: 1, .. })), "{call:?}");
}

#[test]
fn a_wrong_step() {
    let call = caught("step", |call, figures, _, _| {
        if matches!(call, Call::Step(Step { code: 32.., .. })) && figures[0] == 0 {
            figures[1] += 1;
        }
    });
    let Call::Step(Step { plan, null: false, .. }) = call else {
        panic!("not small: {call:?}");
    };
    // Two rows with one move in all, the index and the trailer: state and row go down only together.
    assert!(plan.len() <= 5 + 8 + 8);
}

#[test]
fn a_wrong_yes() {
    let call = caught("yes", |call, figures, _, _| {
        if matches!(call, Call::Complies(_)) && figures[0] == 0 {
            figures[YES] = 1;
        }
    });
    let Call::Complies(Complies { client, service, null: false }) = call else {
        panic!("not small: {call:?}");
    };
    // One state each that offers nothing.
    assert_eq!((client.len(), service.len()), (3 + 2 + 6, 3 + 2 + 6));
}

#[test]
fn a_null_pointer_that_matters() {
    let call = caught("null", |call, figures, _, _| {
        if matches!(call, Call::Step(Step { null: true, .. })) {
            figures[0] = 0;
        }
    });
    assert_eq!(call, Call::Step(Step { null: true, ..Step::default() }));
}

/// The choosing sheet that is left for a fault, and how much is lent.
fn left_of(call: Call) -> (Vec<u8>, usize) {
    match call {
        Call::FromChoosing(FromChoosing { choosing, room, null: false }) => (choosing, room),
        other => panic!("not small: {other:?}"),
    }
}

#[test]
fn a_circle_that_is_not_seen() {
    let call = caught("circle", |_, figures, _, _| {
        if figures[0] == 18 {
            figures[0] = 13;
        }
    });
    // One row, which leads to itself.
    assert_eq!(left_of(call), (vec![0, 1, 0, 0, 0, 3, 0, 1, 0, 0, 0xC6], 0));
}

#[test]
fn a_wrong_byte_of_a_converted_sheet() {
    let call = caught("sheet", |call, figures, sheet, _| {
        let length = figures[3] as usize;
        if matches!(call, Call::FromChoosing(_)) && figures[0] == 0 && sheet.inside()[length - 4] == 2 {
            sheet.inside_mut()[length - 7] ^= 1;
        }
    });
    // Row 0 leads by one action to row 1, which offers nothing or moves on to row 0.
    let (choosing, room) = left_of(call);
    assert!(choosing.len() == 5 + 3 + 4 + 6 && room <= 4 + 4 + 4 + 6, "{choosing:?}, {room}");
}

#[test]
fn a_byte_behind_a_converted_sheet() {
    let call = caught("behind", |call, figures, sheet, _| {
        let length = figures[3] as usize;
        if matches!(call, Call::FromChoosing(_)) && figures[0] == 0 && length < sheet.inside().len() {
            sheet.inside_mut()[length] ^= 1;
        }
    });
    // The end alone.
    assert_eq!(left_of(call), (vec![1, 0, 0, 0, 0, 3, 0, 1, 0, 0, 0xC6], 12));
}

#[test]
fn a_byte_written_before_too_many_states_are_seen() {
    let call = caught("states", |call, figures, sheet, _| {
        if matches!(call, Call::FromChoosing(_)) && figures[0] == 19 {
            sheet.inside_mut().iter_mut().take(1).for_each(|byte| *byte ^= 1);
        }
    });
    let (choosing, room) = left_of(call);
    assert!(choosing.len() < 100 && room == 1, "{choosing:?}, {room}");
}

#[test]
fn too_many_ready_sets_written_all_the_same() {
    let call = caught("ready", |_, figures, _, _| {
        if figures[0] == 20 {
            figures[0] = 0;
        }
    });
    // Nine open rows with different masks, over four actions, and the hiding rows that lead to them.
    let (choosing, room) = left_of(call);
    assert!(choosing.len() < 110 && room == 0, "{choosing:?}, {room}");
}

/// The check that is left for a fault.
fn checked(call: Call) -> CheckPlan {
    match call {
        Call::CheckPlan(check) if !check.null && !check.small => check,
        other => panic!("not small: {other:?}"),
    }
}

#[test]
fn an_unsound_plan_before_too_many_pairs() {
    let call = caught("capacity", |call, figures, _, _| {
        if let (Call::CheckPlan(CheckPlan { mode, old, new, plan, records: 1.., .. }), 11) = (call, figures[0]) {
            figures[0] = match Checker::new().check(Mode::named(*mode), old, new, plan, 5000).number {
                21 => 21,
                _ => 11,
            };
        }
    });
    // Two pairs, one of which is unsound, and a record.
    let CheckPlan { plan, records: 1, .. } = checked(call) else {
        panic!("not small");
    };
    assert!(plan.len() <= 2 * (1 + 2 * 3) + 2 * 4 + 8, "{plan:?}");
}

#[test]
fn a_walk_that_ends_at_an_unsound_start() {
    let call = caught("start", |call, figures, _, _| {
        if let (Call::CheckPlan(CheckPlan { mode, old, new, plan, records: 1.., .. }), 11) = (call, figures[0]) {
            let fault = Checker::new().fault(Mode::named(*mode), old, new, plan, 5000);
            if fault.condition > 0
                && fault.counts == [0; 14]
                && (fault.state, fault.old_state, fault.new_state) == (0, 0, 0)
            {
                figures[0] = 21;
            }
        }
    });
    assert_eq!(checked(call).records, 1);
}

#[test]
fn a_wrong_code_of_a_fault() {
    let call = caught("code", |_, figures, _, _| {
        if figures[FAULT] == 2 && figures[FAULT + 1] >= 16 {
            figures[FAULT + 1] -= 16;
        }
    });
    // One state each, of which the old one offers nothing; one row with one move, or two where a message has to wait first.
    let CheckPlan { old, new, plan, records: 1 | 2, .. } = checked(call) else {
        panic!("not small");
    };
    assert_eq!(old.len(), 3 + 2 + 6);
    assert!(new.len() <= 4 + 2 + 6 && plan.len() <= 2 * 4 + 2 * 4 + 8, "{new:?}, {plan:?}");
}

#[test]
fn a_wrong_ready_set_of_a_fault() {
    let call = caught("unanswered", |_, figures, _, _| {
        if figures[FAULT] == 3 && figures[FAULT + 2] > 0 {
            figures[FAULT + 2] = 0;
        }
    });
    // An old state that wants something, a new one that offers something, and nothing in between.
    let CheckPlan { plan, records: 1, .. } = checked(call) else {
        panic!("not small");
    };
    assert_eq!(plan.len(), 1 + 4 + 8);
}

#[test]
fn a_fault_in_the_wrong_situation() {
    let call = caught("situation", |_, figures, _, _| {
        if figures[FAULT] > 0 && figures[FAULT + 4..FAULT + 18].iter().any(|count| *count > 0) {
            figures[FAULT + 4..FAULT + 18].fill(0);
        }
    });
    assert_eq!(checked(call).records, 2);
}

#[test]
fn a_table_left_dirty_behind_an_unsound_plan() {
    let call = caught("unsound", |call, figures, _, as_due| {
        *as_due = !(matches!(call, Call::CheckPlan(_)) && figures[0] == 21);
    });
    assert_eq!(checked(call).records, 1);
}

/// What a call of connecting is answered in a mode, whatever it asks for.
fn answered_in(mode: Mode, call: &Connect, figures: &mut Figures) {
    let Connect { k, old, new, records, room, .. } = call;
    let answer = Workspace::new(*records).connect(mode, *k, old, new, *records, &mut vec![0; *room]);
    let counts = [answer.situations, answer.states, answer.rounds].map(u32::from);
    figures[0] = answer.number.into();
    figures[SITUATIONS..LENGTH].copy_from_slice(&counts);
    figures[LENGTH] = answer.length;
}

/// M4, or M4 with a new service that takes something else: two situations.
fn swallows(call: &Connect) {
    let Connect { k: 1, old, new, records: 2, room: 0, null: false, small: false, .. } = call else {
        panic!("not small: {call:?}");
    };
    // A state that takes, one that offers nothing, and one that offers nothing.
    assert_eq!((old.len(), new.len()), (4 + 3 + 4 + 6, 3 + 2 + 6));
}

#[test]
fn a_settled_pair_connected_as_in_the_paper() {
    let call = caught("paper", |call, figures, _, _| match call {
        Call::Connect(call) if call.mode() == Mode::Settled && figures[0] == 12 => {
            answered_in(Mode::Paper, call, figures);
        }
        _ => {}
    });
    let Call::Connect(call) = call else {
        panic!("not connecting");
    };
    assert_eq!(call.mode, Some(1));
    swallows(&call);
}

#[test]
fn a_mode_that_is_known_by_the_byte_1_alone() {
    let call = caught("byte-1", |call, figures, _, _| match call {
        Call::Connect(call) if call.mode > Some(1) && figures[0] == 12 => answered_in(Mode::Paper, call, figures),
        _ => {}
    });
    let Call::Connect(call) = call else {
        panic!("not connecting");
    };
    assert_eq!(call.mode, Some(2));
    swallows(&call);
}

#[test]
fn a_pair_without_a_mode_connected_as_settled() {
    let call = caught("default", |call, figures, _, _| match call {
        Call::Connect(call) if call.mode.is_none() && matches!(figures[0], 0 | 13) => {
            answered_in(Mode::Settled, call, figures);
        }
        _ => {}
    });
    let Call::Connect(call) = call else {
        panic!("not connecting");
    };
    assert_eq!(call.mode, None);
    swallows(&call);
}

/// Told settled, by a check that does not ask for the second part of the test.
#[test]
fn a_settled_check_judged_as_in_the_paper() {
    let call = caught("unsettled", |_, figures, _, _| {
        if figures[FAULT] == 4 {
            *figures = Figures::default();
        }
    });
    let CheckPlan { mode: 1, old, new, plan, records: 2, .. } = checked(call) else {
        panic!("not small");
    };
    // As for connecting, and two rows with one move.
    assert_eq!((old.len(), new.len(), plan.len()), (4 + 3 + 4 + 6, 3 + 2 + 6, 4 + 1 + 8 + 8));
}

#[test]
fn a_wrong_ready_set_of_a_settled_fault() {
    let call = caught("unserved", |_, figures, _, _| {
        if figures[FAULT] == 4 && figures[FAULT + 2] > 0 {
            figures[FAULT + 2] = 0;
        }
    });
    let CheckPlan { mode: 1, new, records: 2, .. } = checked(call) else {
        panic!("not small");
    };
    // A state that offers something.
    assert_eq!(new.len(), 4 + 2 + 6);
}

#[test]
fn a_row_at_fault_instead_of_its_mask() {
    let call = caught("offset", |call, figures, _, _| {
        if matches!(call, Call::Connect(_)) && at_fault(call, figures) == Some(Byte::MaskOutOfOrder) {
            figures[OFFSET] -= 1;
        }
    });
    let Call::Connect(Connect { old, new, records: 0, room: 0, null: false, .. }) = call else {
        panic!("not small: {call:?}");
    };
    // One row of two masks, and if it is the second sheet's, a whole one before it.
    let row = 1 + 2 * 2 + 2 + 6;
    assert!(matches!((old.len(), new.len()), (first, 0) | (11, first) if first == row), "{old:?}, {new:?}");
}

#[test]
fn an_offset_that_the_client_check_does_not_pass_on() {
    let call = caught("client-offset", |call, figures, _, _| {
        if matches!(call, Call::Complies(_)) {
            figures[OFFSET] = 0;
        }
    });
    let Call::Complies(Complies { client, service, null: false }) = call else {
        panic!("not small: {call:?}");
    };
    // One row or less, and if it is the service's, behind a whole sheet of the client.
    assert!(client.len() <= 12 && service.len() <= 12, "{client:?}, {service:?}");
}

#[test]
fn an_offset_that_the_check_of_a_plan_does_not_pass_on() {
    let call = caught("check-offset", |call, figures, _, _| {
        if matches!(call, Call::CheckPlan(_)) && figures[1] == 2 {
            figures[OFFSET] = 0;
        }
    });
    let CheckPlan { old, new, plan, records: 0, .. } = checked(call) else {
        panic!("not small");
    };
    assert!(old.len() == 11 && new.len() <= 12 && plan.is_empty(), "{old:?}, {new:?}, {plan:?}");
}

#[test]
fn an_offset_beside_a_wrong_role() {
    let call = caught("role-offset", |call, figures, _, _| {
        if matches!(call, Call::Connect(_)) && figures[0] == 8 {
            figures[OFFSET] = 1;
        }
    });
    let Call::Connect(Connect { old, new, .. }) = call else {
        panic!("not small: {call:?}");
    };
    assert_eq!((old.len(), new.len()), (11, 11));
}

/// The row that is asked for where a fault was found: the sheet that is named, the other one, and the numbers.
fn asked(call: Call) -> (Vec<u8>, Vec<u8>, u8, u8) {
    match call {
        Call::Row(Row { first, second, sheet: 2, state, null: false }) => (second, first, 2, state),
        Call::Row(Row { first, second, sheet, state, null: false }) => (first, second, sheet, state),
        other => panic!("not small: {other:?}"),
    }
}

/// A sheet of one state that offers nothing.
const END: [u8; 11] = [1, 0, 0, 0, 0, 3, 0, 1, 0, 0, 0xC5];

#[test]
fn a_part_one_byte_short() {
    let call = caught("short", |call, figures, _, _| {
        if matches!(call, Call::Row(_)) && figures[0] == 0 {
            figures[PART + 2] -= 1;
        }
    });
    let (named, other, 1 | 2, 0) = asked(call) else {
        panic!("not small");
    };
    assert_eq!((named, other), (END.to_vec(), vec![]));
}

#[test]
fn a_part_of_the_other_sheet() {
    let call = caught("other", |call, figures, _, _| {
        if matches!(call, Call::Row(_)) && figures[0] == 0 {
            figures[PART] = 1;
        }
    });
    assert_eq!(asked(call), (END.to_vec(), vec![], 2, 0));
}

#[test]
fn a_part_that_begins_at_the_wrong_row() {
    let call = caught("begin", |call, figures, _, _| {
        if matches!(call, Call::Row(_)) && figures[0] == 0 {
            figures[PART + 1] = 0;
        }
    });
    // Two states, the second of which is asked for.
    let (named, other, 1 | 2, 1) = asked(call) else {
        panic!("not small");
    };
    assert_eq!((named.len(), other.len()), (3 + 3 + 4 + 6, 0));
}

#[test]
fn a_part_that_comes_with_a_refusal() {
    let call = caught("refused", |call, figures, _, _| {
        if matches!(call, Call::Row(_)) && figures[0] == 15 {
            figures[PART] = 2;
        }
    });
    let (named, other, 1 | 2, 1) = asked(call) else {
        panic!("not small");
    };
    assert_eq!((named, other), (END.to_vec(), vec![]));
}

#[test]
fn a_sheet_that_is_not_named_and_tested_all_the_same() {
    let call = caught("tested", |call, figures, _, _| match call {
        Call::Row(Row { first, second, sheet: 2, .. }) if figures[0] == 0 => {
            let refusal = baseline::row_refusal(first, second, 1, 0);
            if refusal.number > 0 {
                *figures = Figures::default();
                (figures[0], figures[1], figures[PART]) = (refusal.number.into(), 1, 1);
            }
        }
        _ => {}
    });
    assert_eq!(asked(call), (END.to_vec(), vec![], 2, 0));
}

#[test]
fn a_sheet_number_in_the_answer_where_there_is_no_such_sheet() {
    let call = caught("number", |call, figures, _, _| match call {
        Call::Row(Row { sheet, .. }) if figures[0] == 8 => figures[1] = (*sheet).into(),
        _ => {}
    });
    assert_eq!(asked(call), (vec![], vec![], 3, 0));
}

#[test]
fn a_state_looked_for_before_the_sheet_is_tested() {
    let call = caught("state-first", |call, figures, _, _| match call {
        Call::Row(Row { state: 64.., .. }) if matches!(figures[0], 1..8) => {
            *figures = Figures::default();
            (figures[0], figures[PART]) = (15, 1);
        }
        _ => {}
    });
    let (named, other, 1 | 2, 64) = asked(call) else {
        panic!("not small");
    };
    assert_eq!((named, other), (vec![], vec![]));
}

/// The text that is left for a fault, and how much is lent.
fn typed(call: Call) -> (Vec<u8>, usize) {
    match call {
        Call::FromText(FromText { text, room, null: false }) => (text, room),
        other => panic!("not small: {other:?}"),
    }
}

/// What the baseline answers to a text, with as much lent as any sheet needs.
fn number_of(text: &[u8]) -> u8 {
    baseline::from_text(text, &mut [0; LONGEST_SHEET]).number
}

#[test]
fn a_text_measured_without_its_blanks() {
    let call = caught_by("texts", "measured", |call, figures, _, _| match call {
        Call::FromText(FromText { text, .. }) if figures[0] == 1 => {
            let solid: Vec<u8> = text.iter().copied().filter(|byte| *byte != b' ').collect();
            if number_of(&solid) == 22 {
                (figures[0], figures[1], figures[TEXT_FAULT]) = (22, 0, text.len() as u32);
            }
        }
        _ => {}
    });
    let (text, room) = typed(call);
    assert_eq!((text.len(), room), (257, 0));
}

#[test]
fn a_long_text_that_no_sheet_is_named_for() {
    let call = caught_by("texts", "unnamed", |call, figures, _, _| {
        if matches!(call, Call::FromText(_)) && figures[0] == 1 {
            figures[1] = 0;
        }
    });
    assert_eq!(typed(call), (vec![0; 257], 0));
}

#[test]
fn a_length_counted_in_eight_bits() {
    let call = caught_by("texts", "eight", |call, figures, _, _| match call {
        Call::FromText(FromText { text, .. }) if text.len() > 0xFF => {
            let short = &text[..text.len() & 0xFF];
            (figures[0], figures[1]) = (number_of(short).into(), 0);
        }
        _ => {}
    });
    let (text, room) = typed(call);
    assert_eq!((text.len(), room), (256, 0));
}

#[test]
fn a_byte_at_fault_counted_without_blanks() {
    let call = caught_by("texts", "blanks", |call, figures, _, _| {
        if let Call::FromText(FromText { text, .. }) = call {
            let before = &text[..figures[TEXT_FAULT] as usize];
            figures[TEXT_FAULT] = before.iter().filter(|byte| **byte != b' ').count() as u32;
        }
    });
    assert_eq!(typed(call), (vec![b' '], 0));
}

#[test]
fn an_end_that_comes_too_early_one_byte_before() {
    let call = caught_by("texts", "early", |call, figures, _, _| match call {
        Call::FromText(FromText { text, .. }) if figures[0] == 22 && figures[TEXT_FAULT] as usize == text.len() => {
            figures[TEXT_FAULT] = figures[TEXT_FAULT].saturating_sub(1);
        }
        _ => {}
    });
    assert_eq!(typed(call).0.len(), 1);
}

#[test]
fn the_last_variable_instead_of_the_first() {
    let call = caught_by("texts", "last", |call, figures, _, _| match call {
        Call::FromText(FromText { text, .. }) if figures[0] == 23 => {
            let last = text.iter().rposition(|byte| b"XYZ".contains(byte));
            figures[TEXT_FAULT] = last.unwrap_or(0) as u32;
        }
        _ => {}
    });
    // Two variables, of which the first is at fault, and a mark between them.
    let (text, room) = typed(call);
    assert_eq!((text.len(), room), (3, 0), "{text:?}");
}

#[test]
fn a_variable_judged_before_the_grammar() {
    let call = caught_by("texts", "judged", |call, figures, _, _| match call {
        Call::FromText(FromText { text, .. }) if figures[0] == 22 => {
            let begun = &text[..figures[TEXT_FAULT] as usize];
            if number_of(begun) == 23 {
                (figures[0], figures[TEXT_FAULT]) = (23, baseline::text_fault(begun).into());
            }
        }
        _ => {}
    });
    // A variable, and a byte that cannot stand there.
    let (text, room) = typed(call);
    assert_eq!((text.len(), room), (2, 0), "{text:?}");
}

/// The inner rec of a name binds nothing: what it should bind is the outer one's, and under a prefix there.
#[test]
fn a_variable_that_belongs_to_the_outer_rec() {
    let call = caught_by("texts", "outer", |call, figures, _, _| match call {
        Call::FromText(FromText { text, .. }) if figures[0] == 23 => {
            let mut recs = (0..text.len()).filter(|at| text[*at..].starts_with(b"rec"));
            if recs.any(|at| matches!(text[at..], [_, _, _, _, b'.', ..]) && number_of(&text_without(text, at, 5)) == 0)
            {
                (figures[0], figures[TEXT_FAULT]) = (13, 0);
            }
        }
        _ => {}
    });
    // As recX.a.recX.X.
    let (text, room) = typed(call);
    assert_eq!((text.len(), room), (13, 0), "{}", String::from_utf8_lossy(&text));
}

fn text_without(text: &[u8], at: usize, size: usize) -> Vec<u8> {
    [&text[..at], &text[at + size..]].concat()
}

/// Twenty judged on a part, as by a family that is cut at eight ready sets.
#[test]
fn a_part_with_too_many_ready_sets() {
    let call = caught_by("texts", "part", |call, figures, sheet, _| match call {
        Call::FromText(FromText { text, .. }) if figures[0] == 0 => {
            let mut marks = (0..text.len()).filter(|at| text[*at] == b'+');
            if marks.any(|at| number_of(&text[..at]) == 20) {
                *figures = Figures::default();
                figures[0] = 20;
                sheet.fill(sheet.inside().len());
            }
        }
        _ => {}
    });
    // A sum of choices with more than eight ready sets and of what makes them fewer.
    let (text, _) = typed(call);
    assert!(text.len() < 60 && number_of(&text) == 0, "{}", String::from_utf8_lossy(&text));
}

#[test]
fn a_sheet_of_a_text_with_fewer_names() {
    let call = caught_by("texts", "names", |call, figures, sheet, _| {
        let length = figures[SHEET_LENGTH] as usize;
        if matches!(call, Call::FromText(_)) && figures[0] == 0 {
            sheet.inside_mut()[length - 3] = 1;
        }
    });
    assert_eq!(typed(call), (b"0".to_vec(), 11));
}

#[test]
fn a_byte_behind_the_sheet_of_a_text() {
    let call = caught_by("texts", "behind-text", |call, figures, sheet, _| {
        let length = figures[SHEET_LENGTH] as usize;
        if matches!(call, Call::FromText(_)) && figures[0] == 0 && length < sheet.inside().len() {
            sheet.inside_mut()[length] ^= 1;
        }
    });
    assert_eq!(typed(call), (b"0".to_vec(), 12));
}

#[test]
fn a_byte_written_though_the_sheet_of_a_text_is_too_long() {
    let call = caught_by("texts", "text-room", |call, figures, sheet, _| {
        if matches!(call, Call::FromText(_)) && figures[0] == 13 {
            sheet.inside_mut().iter_mut().take(1).for_each(|byte| *byte ^= 1);
        }
    });
    assert_eq!(typed(call), (b"0".to_vec(), 1));
}

#[test]
fn a_byte_written_before_a_text_has_too_many_states() {
    let call = caught_by("texts", "text-states", |call, figures, sheet, _| {
        if matches!(call, Call::FromText(_)) && figures[0] == 19 {
            sheet.inside_mut().iter_mut().take(1).for_each(|byte| *byte ^= 1);
        }
    });
    let (text, room) = typed(call);
    assert!(text.len() < 160 && room == 1, "{}, {room}", String::from_utf8_lossy(&text));
}

#[test]
fn a_byte_at_fault_beside_too_many_ready_sets() {
    let call = caught_by("texts", "beside", |call, figures, _, _| {
        if matches!(call, Call::FromText(_)) && figures[0] == 20 {
            figures[TEXT_FAULT] = 1;
        }
    });
    let (text, room) = typed(call);
    assert!(text.len() < 60 && room == 0, "{}, {room}", String::from_utf8_lossy(&text));
}

#[test]
fn a_text_that_is_written_to() {
    let call = caught_by("texts", "written", |call, figures, _, as_due| {
        *as_due = !(matches!(call, Call::FromText(_)) && figures[0] == 23);
    });
    assert_eq!(typed(call), (b"X".to_vec(), 0));
}

#[test]
fn the_right_sides_agree_and_every_outcome_is_met() {
    let (mut baseline, mut product, folder) = (Baseline::new(), Product::new(), folder("agree"));
    let mut runner = Runner::new(&mut baseline, &mut product, &folder);
    run(&mut runner, "").expect("no difference");
    assert_eq!(runner.tally.missing(), Vec::<String>::new());
}
