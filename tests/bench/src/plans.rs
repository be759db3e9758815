//! The check of plans: compared, then timed beside connecting the same pair.

use crate::corpus::{Check, Input};
use crate::product::answered;
use crate::{lines, timing, FILLING};
use ::product::{Lent, Table};
use baseline::{Answer, Checker, Fault, Mode, Workspace, LONGEST_PLAN, MOST_SITUATIONS};
use std::hint::black_box;

/// The emitted plan of a pair, with as many records lent as the pair has situations, for connecting and for the check.
pub struct Emitted {
    name: String,
    k: u8,
    check: Check,
    states: usize,
}

impl Emitted {
    fn of(input: &Input) -> Emitted {
        let (call, mut plan) = (input.call(Mode::Paper), vec![FILLING; LONGEST_PLAN]);
        let mut workspace = Workspace::new(call.records);
        let answer = workspace.connect(call.mode, call.k, call.old, call.new, call.records, &mut plan);
        assert_eq!(answer.number, 0, "{}: a plan", input.name);
        plan.truncate(answer.length as usize);
        let (old, new, records) = (call.old.to_vec(), call.new.to_vec(), answer.situations.into());
        let check = Check { old, new, plan, records };
        Emitted { name: input.name.clone(), k: call.k, check, states: answer.states.into() }
    }

    fn moves(&self) -> usize {
        (self.check.plan.len() - 8 - 5 * self.states) / 3
    }

    /// Plan states, and moves of all rows.
    fn figures(&self) -> String {
        format!("{:6} {:6}", self.states, self.moves())
    }
}

const FIGURES: &str = "states  moves";

/// The emitted plans of pairs; stops the program where the product differs from the baseline, with a record for each
/// plan state, with one less, and with more.
pub fn emitted(inputs: &[Input]) -> Vec<Emitted> {
    let emitted: Vec<Emitted> = inputs.iter().map(Emitted::of).collect();
    for one in &emitted {
        let Check { old, new, plan, .. } = &one.check;
        for records in [one.states, one.states - 1, one.states + 9] {
            let check = Check { old: old.clone(), new: new.clone(), plan: plan.clone(), records };
            let due = if records < one.states { 11 } else { 0 };
            assert_eq!(compared(std::slice::from_ref(&check)), [due], "{}, {records} records", one.name);
        }
    }
    emitted
}

/// What the check answers, and what is at fault.
type Outcome = (Answer, Fault);

fn by_baseline(checker: &mut Checker, mode: u8, check: &Check) -> Outcome {
    let (mode, Check { old, new, plan, records }) = (Mode::named(mode), check);
    let answer = checker.check(mode, old, new, plan, *records);
    (answer, checker.fault(mode, old, new, plan, *records))
}

/// The product's outcome, and whether the lent records are as they are due after each of the two calls.
fn by_product(table: &mut Table, mode: u8, check: &Check, small: bool) -> (Outcome, bool) {
    let Check { old, new, plan, records } = check;
    let lent = Lent { small, ..Lent::records(*records) };
    table.fill(&lent);
    let answer = table.check_plan(&lent, mode, old, new, plan);
    let due = table.is_as_due(&lent, answer.number);
    table.fill(&lent);
    let fault = table.plan_fault(&lent, mode, old, new, plan);
    let both_due = due && table.is_as_due(&lent, answer.number);
    let fault = Fault {
        condition: fault.condition,
        code: fault.code,
        ready: fault.ready,
        state: fault.state,
        counts: fault.counts,
        old_state: fault.old_state,
        new_state: fault.new_state,
    };
    ((answered(&answer), fault), both_due)
}

/// The baseline's numbers in the paper's mode; stops the program where the product differs, in either mode.
pub fn compared(checks: &[Check]) -> Vec<u8> {
    let most = checks.iter().map(|check| check.records).max().unwrap_or(0);
    let (mut checker, mut table) = (Checker::new(), Table::new(most.max(MOST_SITUATIONS)));
    let mut numbers = Vec::new();
    for (place, check) in checks.iter().enumerate() {
        let [number, _] = [0, 1].map(|mode| {
            let expected = by_baseline(&mut checker, mode, check);
            let (got, due) = by_product(&mut table, mode, check, place % 2 == 1);
            if got != expected || !due {
                eprintln!(
                    "check {place}, mode {mode}: product {got:?}, the baseline {expected:?}; records as due: {due}"
                );
                std::process::exit(1);
            }
            expected.0.number
        });
        numbers.push(number);
    }
    numbers
}

pub fn describe(emitted: &[Emitted]) {
    lines::describe("plan", FIGURES, emitted.iter().map(|one| (&one.name[..], one.figures())));
}

type Contender<'a> = Box<dyn FnMut() + 'a>;

/// Median times in nanoseconds of connecting and of the check, each by the baseline and by the product; all take turns.
fn medians(one: &Emitted) -> [f64; 4] {
    let (k, Check { old, new, plan, records }) = (one.k, &one.check);
    let (mut workspace, mut checker) = (Workspace::new(*records), Checker::new());
    let (mut connecting, mut checking) = (Table::new(*records), Table::new(*records));
    let (mut first, mut second) = (vec![FILLING; LONGEST_PLAN], vec![FILLING; LONGEST_PLAN]);
    let lent = Lent::records(*records);
    let mut contenders: [Contender; 4] = [
        Box::new(|| {
            black_box(workspace.connect(Mode::Paper, k, black_box(old), new, *records, &mut first));
        }),
        Box::new(|| {
            black_box(connecting.connect(&lent, k, black_box(old), new, &mut second));
        }),
        Box::new(|| {
            black_box(checker.check(Mode::Paper, black_box(old), new, plan, *records));
        }),
        Box::new(|| {
            black_box(checking.check_plan(&lent, 0, black_box(old), new, plan));
        }),
    ];
    let times = timing::medians(&mut contenders, |contender| contender());
    [times[0], times[1], times[2], times[3]]
}

/// Times of the check beside connecting the pair in the same run: in a line, connecting by each; the check by each; the
/// product's check as a multiple of the baseline's, and of its own connecting.
pub fn timed(emitted: &[Emitted]) {
    println!("{:49} {:>25} {:>25}", "", "connecting, us", "check, us");
    print!("{:34} {FIGURES}", "plan");
    for who in ["baseline", "product", "baseline", "product"] {
        print!(" {who:>12}");
    }
    println!("   ratio  to connecting");
    let mut family = Vec::new();
    for one in emitted {
        let times = medians(one);
        print!("{:34} {}", one.name, one.figures());
        for time in times {
            print!(" {:12.3}", time / 1000.0);
        }
        println!(" {:7.2} {:14.2}", times[3] / times[2], times[3] / times[1]);
        if one.name.starts_with("rows of moves") {
            family.push((one.moves(), times));
        }
    }
    if let (Some(first), Some(last)) = (family.first(), family.last()) {
        for ends in family.windows(2).chain([&[*first, *last][..]]) {
            growth(ends[0], ends[1]);
        }
    }
}

/// How the check grows with the moves of all rows, the plan states being as many.
fn growth((few, before): (usize, [f64; 4]), (many, after): (usize, [f64; 4])) {
    print!("rows of moves: {few} to {many} moves, x {:.1}; cost of the check", many as f64 / few as f64);
    println!(" baseline x {:.1} product x {:.1}", after[2] / before[2], after[3] / before[3]);
}
