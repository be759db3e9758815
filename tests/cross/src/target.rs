//! What is compared: anything that answers calls.

use crate::call::{Call, CheckPlan, Complies, Connect, FromChoosing, FromText, Row, Step};
use crate::guarded::Guarded;
use baseline::{Checker, Mode, Workspace};
use product::{Lent, Table};

/// More records than document 01's limit of situations.
pub const MOST_RECORDS: usize = 4200;

/// For connecting: number, sheet, state, offset, situations, plan states, rounds, length. For stepping: number, state.
/// For the client check: number, sheet, state, offset, and 1 for yes. For converting: number, sheet, state, length; then,
/// of a text, the byte at fault. For the check of a plan: as for connecting; then, from FAULT on, condition, code, ready
/// set, plan state, fourteen counts, old state, new state. For a row: number, sheet, state, offset; then, from PART on, the
/// part's sheet, offset and length. The rest is 0.
pub type Figures = [u32; 28];

/// The places of some figures: of the offset in a refusal of a sheet; of the counts and the length of connecting; of the
/// client check's yes; of the length of a converted sheet, and of the byte at fault in a text.
pub const OFFSET: usize = 3;
pub const SITUATIONS: usize = 4;
pub const STATES: usize = 5;
pub const ROUNDS: usize = 6;
pub const LENGTH: usize = 7;
pub const YES: usize = 4;
pub const SHEET_LENGTH: usize = 3;
pub const TEXT_FAULT: usize = 4;

/// Where the figures of a fault begin, and those of a part.
pub const FAULT: usize = 8;
pub const PART: usize = 4;

/// All that a call answers and leaves behind.
#[derive(Debug, PartialEq, Eq)]
pub struct Outcome<'a> {
    pub figures: Figures,
    /// The lent plan or output, if one was lent.
    pub lent: Option<&'a Guarded>,
    /// Whether all else is as document 01 says: the work table for this number, what was only to be read, and
    /// guards.
    pub as_due: bool,
}

pub trait Target {
    fn answer(&mut self, call: &Call) -> Outcome<'_>;
}

/// Figures, the rest being 0.
pub fn padded<const COUNT: usize>(figures: [u32; COUNT]) -> Figures {
    let mut all = Figures::default();
    all[..COUNT].copy_from_slice(&figures);
    all
}

/// The figures of an answer of either side.
macro_rules! connect_figures {
    ($answer:expr) => {{
        let answer = $answer;
        padded([
            answer.number.into(),
            answer.sheet.into(),
            answer.state.into(),
            answer.offset.into(),
            answer.situations.into(),
            answer.states.into(),
            answer.rounds.into(),
            answer.length,
        ])
    }};
}

/// The figures of the check of a plan, and of what is at fault in it, of either side.
macro_rules! check_figures {
    ($answer:expr, $fault:expr) => {{
        let (mut figures, fault) = (connect_figures!($answer), $fault);
        let (front, back) = figures[FAULT..].split_at_mut(4);
        let (counts, states) = back.split_at_mut(14);
        front.copy_from_slice(&[fault.condition.into(), fault.code.into(), fault.ready.into(), fault.state.into()]);
        counts.copy_from_slice(&fault.counts.map(u32::from));
        states.copy_from_slice(&[fault.old_state.into(), fault.new_state.into()]);
        figures
    }};
}

/// The figures of a refusal of either side, or of an answer with the same fields; then further ones.
macro_rules! refusal_figures {
    ($refusal:expr $(, $more:expr)*) => {{
        let refusal = $refusal;
        padded([
            refusal.number.into(),
            refusal.sheet.into(),
            refusal.state.into(),
            refusal.offset.into(),
            $($more.into()),*
        ])
    }};
}

fn sheet_figures(number: u8, sheet: u8, state: u8, length: u16) -> Figures {
    padded([number.into(), sheet.into(), state.into(), length.into()])
}

/// The figures of converting a text, and of where it is at fault, of either side.
macro_rules! text_figures {
    ($answer:expr, $fault:expr) => {{
        let answer = $answer;
        let mut figures = sheet_figures(answer.number, answer.sheet, answer.state, answer.length);
        figures[TEXT_FAULT] = $fault.into();
        figures
    }};
}

fn step_figures(number: u8, state: u16) -> Figures {
    padded([number.into(), state.into()])
}

/// tests/baseline. Its work memory is its own.
pub struct Baseline {
    workspace: Workspace,
    checker: Checker,
    lent: Guarded,
}

impl Baseline {
    pub fn new() -> Baseline {
        Baseline { workspace: Workspace::new(MOST_RECORDS), checker: Checker::new(), lent: Guarded::default() }
    }
}

impl Default for Baseline {
    fn default() -> Baseline {
        Baseline::new()
    }
}

impl Target for Baseline {
    fn answer(&mut self, call: &Call) -> Outcome<'_> {
        let (figures, lent) = match call {
            Call::Connect(call) => {
                let Connect { k, old, new, records, room, .. } = call;
                self.lent.fill(*room);
                let answer = self.workspace.connect(call.mode(), *k, old, new, *records, self.lent.inside_mut());
                (connect_figures!(answer), Some(&self.lent))
            }
            Call::Step(Step { plan, state, code, .. }) => {
                let (number, next) = baseline::step(plan, *state, *code);
                (step_figures(number, next), None)
            }
            Call::Complies(Complies { client, service, .. }) => {
                let (refusal, yes) = baseline::complies(client, service);
                (refusal_figures!(refusal, yes), None)
            }
            Call::FromChoosing(FromChoosing { choosing, room, .. }) => {
                self.lent.fill(*room);
                let (number, length) = baseline::convert(choosing, self.lent.inside_mut());
                (sheet_figures(number, 0, 0, length), Some(&self.lent))
            }
            Call::FromText(FromText { text, room, .. }) => {
                self.lent.fill(*room);
                let answer = baseline::from_text(text, self.lent.inside_mut());
                (text_figures!(answer, baseline::text_fault(text)), Some(&self.lent))
            }
            Call::CheckPlan(CheckPlan { mode, old, new, plan, records, .. }) => {
                let mode = Mode::named(*mode);
                let answer = self.checker.check(mode, old, new, plan, *records);
                let fault = self.checker.fault(mode, old, new, plan, *records);
                (check_figures!(answer, fault), None)
            }
            Call::Row(Row { first, second, sheet, state, .. }) => {
                let refusal = baseline::row_refusal(first, second, *sheet, *state);
                let part = baseline::row(first, second, *sheet, *state);
                (refusal_figures!(refusal, part.sheet, part.offset, part.length), None)
            }
        };
        Outcome { figures, lent, as_due: true }
    }
}

/// The proved library. What it reads stands between guard bytes too, so that an answer which depended on bytes
/// outside would differ.
pub struct Product {
    table: Table,
    first: Guarded,
    second: Guarded,
    third: Guarded,
    lent: Guarded,
}

impl Product {
    pub fn new() -> Product {
        let [first, second, third, lent] = std::array::from_fn(|_| Guarded::default());
        Product { table: Table::new(MOST_RECORDS), first, second, third, lent }
    }

    fn connect(&mut self, call: &Connect) -> (Figures, bool) {
        let lent = Lent { records: call.records, null: call.null, small: call.small };
        self.first.place(&call.old);
        self.second.place(&call.new);
        self.lent.fill(call.room);
        self.table.fill(&lent);
        let (old, new, plan) = (self.first.inside(), self.second.inside(), self.lent.inside_mut());
        let answer = match call.mode {
            None => self.table.connect(&lent, call.k, old, new, plan),
            Some(mode) => self.table.connect_mode(&lent, mode, call.k, old, new, plan),
        };
        let as_due = self.table.is_as_due(&lent, answer.number);
        (connect_figures!(answer), as_due && self.first.holds(&call.old) && self.second.holds(&call.new))
    }

    /// The table is due to be the same after both calls, by the number of the first.
    fn check_plan(&mut self, call: &CheckPlan) -> (Figures, bool) {
        let lent = Lent { records: call.records, null: call.null, small: call.small };
        self.first.place(&call.old);
        self.second.place(&call.new);
        self.third.place(&call.plan);
        let (old, new, plan) = (self.first.inside(), self.second.inside(), self.third.inside());
        self.table.fill(&lent);
        let answer = self.table.check_plan(&lent, call.mode, old, new, plan);
        let mut as_due = self.table.is_as_due(&lent, answer.number);
        self.table.fill(&lent);
        let fault = self.table.plan_fault(&lent, call.mode, old, new, plan);
        as_due &= self.table.is_as_due(&lent, answer.number);
        as_due &= self.first.holds(&call.old) && self.second.holds(&call.new) && self.third.holds(&call.plan);
        (check_figures!(answer, fault), as_due)
    }

    fn convert_text(&mut self, call: &FromText) -> (Figures, bool) {
        let FromText { text, room, null } = call;
        self.first.place(text);
        self.lent.fill(*room);
        let answer = product::from_text(self.first.inside(), self.lent.inside_mut(), *null);
        let mut as_due = self.first.holds(text);
        let fault = product::text_fault(self.first.inside(), *null);
        as_due &= self.first.holds(text);
        (text_figures!(answer, fault), as_due)
    }

    fn row(&mut self, call: &Row) -> (Figures, bool) {
        let Row { first, second, sheet, state, null } = call;
        self.first.place(first);
        self.second.place(second);
        let (one, other) = (self.first.inside(), self.second.inside());
        let part = product::row(one, other, *sheet, *state, *null);
        let mut as_due = self.first.holds(first) && self.second.holds(second);
        let refusal = product::row_refusal(one, other, *sheet, *state, *null);
        as_due &= self.first.holds(first) && self.second.holds(second);
        (refusal_figures!(refusal, part.sheet, part.offset, part.length), as_due)
    }
}

impl Default for Product {
    fn default() -> Product {
        Product::new()
    }
}

impl Target for Product {
    fn answer(&mut self, call: &Call) -> Outcome<'_> {
        match call {
            Call::Connect(connect) => {
                let (figures, as_due) = self.connect(connect);
                Outcome { figures, lent: Some(&self.lent), as_due }
            }
            Call::Step(Step { plan, state, code, null }) => {
                self.first.place(plan);
                let answer = product::step(self.first.inside(), *state, *code, *null);
                let figures = step_figures(answer.number, answer.state);
                Outcome { figures, lent: None, as_due: self.first.holds(plan) }
            }
            Call::Complies(Complies { client, service, null }) => {
                self.first.place(client);
                self.second.place(service);
                let answer = product::complies(self.first.inside(), self.second.inside(), *null);
                let figures = refusal_figures!(answer, answer.yes);
                Outcome { figures, lent: None, as_due: self.first.holds(client) && self.second.holds(service) }
            }
            Call::FromChoosing(FromChoosing { choosing, room, null }) => {
                self.first.place(choosing);
                self.lent.fill(*room);
                let answer = product::from_choosing(self.first.inside(), self.lent.inside_mut(), *null);
                let figures = sheet_figures(answer.number, answer.sheet, answer.state, answer.length);
                Outcome { figures, lent: Some(&self.lent), as_due: self.first.holds(choosing) }
            }
            Call::FromText(call) => {
                let (figures, as_due) = self.convert_text(call);
                Outcome { figures, lent: Some(&self.lent), as_due }
            }
            Call::CheckPlan(check) => {
                let (figures, as_due) = self.check_plan(check);
                Outcome { figures, lent: None, as_due }
            }
            Call::Row(row) => {
                let (figures, as_due) = self.row(row);
                Outcome { figures, lent: None, as_due }
            }
        }
    }
}
