//! How often each outcome was met.

use crate::at_fault::{at_fault, BYTES};
use crate::call::{Call, CheckPlan, Connect, FromText, Row};
use crate::target::{Figures, FAULT, ROUNDS, SHEET_LENGTH, SITUATIONS, TEXT_FAULT, YES};
use crate::untidy::out_of_order_first;
use baseline::MOST_SITUATIONS;

/// The highest number of a refusal.
const LAST: usize = 23;

const CONNECTING: &[usize] = &[0, 1, 2, 3, 4, 5, 6, 7, 8, 9, 10, 11, 12, 13];
const CHECKING: &[usize] = &[0, 1, 2, 3, 4, 5, 6, 7, 8, 9, 11, 14, 21];

/// The functions, those with a mode by its byte, and the numbers that each can answer.
const FUNCTIONS: [(&str, &[usize]); 10] = [
    ("connect", CONNECTING),
    ("connect, 0", CONNECTING),
    ("connect, 1..", CONNECTING),
    ("step", &[0, 14, 15, 16]),
    ("complies", &[0, 1, 2, 3, 4, 5, 6, 7, 8, 9]),
    ("from_choosing", &[0, 13, 17, 18, 19, 20]),
    ("check, 0", CHECKING),
    ("check, 1..", CHECKING),
    ("row", &[0, 1, 2, 3, 4, 5, 6, 7, 8, 15]),
    ("from_text", &[0, 1, 13, 19, 20, 22, 23]),
];

/// The place of the client check among them.
const COMPLIES: usize = 4;

/// Of settled calls that count situations, one in so many at least is to differ from the paper's mode.
const RARE: u64 = 20;

#[derive(Default)]
pub struct Tally {
    numbers: [[u64; LAST + 1]; FUNCTIONS.len()],
    /// Refusals 4 to 7 by the byte at fault.
    at_fault: [[u64; BYTES.len()]; FUNCTIONS.len()],
    /// Calls that count situations: fewer than 10, than 100, than 1,000, and more.
    situations: [u64; 4],
    after_removal: u64,
    /// Settled calls that count situations: answered as in the paper's mode, by another plan or other rounds, and by 12
    /// though the pair connects there.
    settled: [u64; 3],
    yes: u64,
    /// Rows refused for a bit too many whose first mask at fault is out of order.
    out_of_order: u64,
    /// Choosing sheets converted to sheets of fewer than 100 bytes, than 1,000, and more; and texts.
    converted: [u64; 3],
    typed: [u64; 3],
    /// Texts at fault in a byte outside the grammar, at their end, in a variable; those with a blank before it.
    text_faults: [u64; 3],
    behind_blanks: u64,
    /// Unsound plans by the condition that fails first.
    conditions: [u64; 4],
    /// Plans refused for names other than both sheets'; for more pairs than there may be, whatever is lent.
    other_names: u64,
    beyond: u64,
    /// Rows of the first sheet, and of the second; those found though the other sheet is broken.
    rows: [u64; 2],
    beside_broken: u64,
}

/// 0 for fewer than 100, 1 for fewer than 1,000, 2 for more.
fn magnitude(length: u32) -> usize {
    (length.ilog10() as usize).saturating_sub(1).min(2)
}

impl Tally {
    pub fn count(&mut self, call: &Call, figures: &Figures) {
        let number = figures[0] as usize;
        let function = match call {
            Call::Connect(Connect { mode: None, .. }) => 0,
            Call::Connect(Connect { mode: Some(0), .. }) => 1,
            Call::Connect(_) => 2,
            Call::Step(_) => 3,
            Call::Complies(_) => COMPLIES,
            Call::FromChoosing(_) => 5,
            Call::CheckPlan(CheckPlan { mode: 0, .. }) => 6,
            Call::CheckPlan(_) => 7,
            Call::Row(_) => 8,
            Call::FromText(_) => 9,
        };
        self.numbers[function][number] += 1;
        if let Some(byte) = at_fault(call, figures) {
            self.at_fault[function][byte as usize] += 1;
        }
        self.out_of_order += u64::from(out_of_order_first(call, figures));
        match call {
            Call::Connect(_) if figures[SITUATIONS] > 0 => {
                self.situations[figures[SITUATIONS].ilog10() as usize] += 1;
                self.after_removal += u64::from(number == 0 && figures[ROUNDS] > 0);
            }
            Call::Complies(_) => self.yes += u64::from(figures[YES] == 1),
            Call::FromChoosing(_) if number == 0 => {
                self.converted[magnitude(figures[SHEET_LENGTH])] += 1;
            }
            Call::FromText(_) if number == 0 => self.typed[magnitude(figures[SHEET_LENGTH])] += 1,
            Call::FromText(FromText { text, .. }) if number >= 22 => {
                self.count_text(text, number, figures[TEXT_FAULT] as usize);
            }
            Call::CheckPlan(check) => self.count_check(check, figures),
            Call::Row(row) if number == 0 => self.count_row(row),
            _ => {}
        }
    }

    /// Counts a settled call, given the figures of both modes.
    pub fn count_settled(&mut self, settled: &Figures, paper: &Figures) {
        let kind = match (settled[0], paper[0]) {
            _ if settled == paper => 0,
            (12, 0 | 13) => 2,
            _ => 1,
        };
        self.settled[kind] += 1;
    }

    fn count_check(&mut self, check: &CheckPlan, figures: &Figures) {
        if let Some(count) = self.conditions.get_mut((figures[FAULT] as usize).wrapping_sub(1)) {
            *count += 1;
        }
        let names = |sheet: &[u8]| sheet[sheet.len() - 3];
        self.other_names += u64::from(figures[0] == 9 && names(&check.old) == names(&check.new));
        self.beyond += u64::from(figures[0] == 11 && check.records > MOST_SITUATIONS);
    }

    fn count_row(&mut self, Row { first, second, sheet, .. }: &Row) {
        self.rows[usize::from(*sheet == 2)] += 1;
        let other = baseline::row_refusal(first, second, 3 - sheet, 0);
        self.beside_broken += u64::from(other.number > 0);
    }

    fn count_text(&mut self, text: &[u8], number: usize, at: usize) {
        let kind = match number {
            23 => 2,
            _ => usize::from(at == text.len()),
        };
        self.text_faults[kind] += 1;
        self.behind_blanks += u64::from(text[..at].contains(&b' '));
    }

    pub fn calls(&self) -> u64 {
        self.numbers.iter().flatten().sum()
    }

    /// What was not met though it can be.
    pub fn missing(&self) -> Vec<String> {
        let mut missing = Vec::new();
        for ((name, numbers), counts) in FUNCTIONS.iter().zip(&self.numbers) {
            let unmet = numbers.iter().filter(|number| counts[**number] == 0);
            missing.extend(unmet.map(|number| format!("{name} never answered {number}")));
        }
        for ((name, numbers), counts) in FUNCTIONS.iter().zip(&self.at_fault) {
            let unmet = BYTES.iter().zip(counts).filter(|(_, count)| numbers.contains(&4) && **count == 0);
            missing.extend(unmet.map(|((_, words), _)| format!("{name} never refused {words}")));
        }
        if self.situations.contains(&0) {
            missing.push("no few, tens, hundreds or thousands of situations".into());
        }
        if self.after_removal == 0 {
            missing.push("no pair was accepted after removals".into());
        }
        let [same, other, refused] = self.settled;
        if other == 0 || refused == 0 || (RARE - 1) * (other + refused) < same {
            missing.push("too few settled calls differ from the paper's mode, by another plan or by 12".into());
        }
        if self.yes == 0 || self.yes == self.numbers[COMPLIES][0] {
            missing.push("the client check did not say both yes and no".into());
        }
        if self.out_of_order == 0 {
            missing.push("no row was refused for a bit too many whose first mask at fault is out of order".into());
        }
        if self.converted.contains(&0) {
            missing.push("no choosing sheets were converted to tens, hundreds or thousands of bytes".into());
        }
        if self.typed.contains(&0) {
            missing.push("no texts were converted to tens, hundreds or thousands of bytes".into());
        }
        if self.text_faults.contains(&0) || self.behind_blanks == 0 {
            missing.push("no text was at fault in a byte, at its end and in a variable, or none behind blanks".into());
        }
        if self.conditions.contains(&0) {
            missing.push("no plan was unsound by each of the four conditions".into());
        }
        if self.other_names == 0 || self.beyond == 0 {
            missing.push("no plan was refused for its own names, or for pairs beyond the limit".into());
        }
        if self.rows.contains(&0) || self.beside_broken == 0 {
            missing.push("no row of each sheet was found, or none beside a broken sheet".into());
        }
        missing
    }

    pub fn table(&self) -> String {
        let mut lines = format!("{:>6}", "number");
        for (name, _) in FUNCTIONS {
            lines += &format!(" {name:>13}");
        }
        lines += &format!(" {:>13}\n", "calls");
        for number in 0..=LAST {
            lines += &format!("{number:6}");
            for counts in &self.numbers {
                lines += &format!(" {:13}", counts[number]);
            }
            lines += &format!(" {:13}\n", self.numbers.iter().map(|counts| counts[number]).sum::<u64>());
        }
        let [few, tens, hundreds, thousands] = self.situations;
        lines +=
            &format!("situations below 10: {few}, below 100: {tens}, below 1,000: {hundreds}, more: {thousands}\n");
        let [same, other, refused] = self.settled;
        lines += &format!("settled as in the paper's mode: {same}, by another plan or rounds: {other}, ");
        lines += &format!("by 12 though it connects there: {refused}\n");
        let no = self.numbers[COMPLIES][0] - self.yes;
        lines += &format!(
            "accepted after removals: {}; client complies: {}, does not: {no}\n",
            self.after_removal, self.yes
        );
        let at_fault = BYTES.iter().enumerate().map(|(byte, (_, words))| {
            let count: u64 = self.at_fault.iter().map(|counts| counts[byte]).sum();
            format!("{words}: {count}")
        });
        lines += &format!("at fault: {}\n", at_fault.collect::<Vec<_>>().join(", "));
        lines += &format!("refused for a bit too many, a mask out of order first: {}\n", self.out_of_order);
        let [tens, hundreds, thousands] = self.converted;
        lines += &format!("converted to bytes below 100: {tens}, below 1,000: {hundreds}, more: {thousands}\n");
        let [tens, hundreds, thousands] = self.typed;
        lines += &format!("texts to bytes below 100: {tens}, below 1,000: {hundreds}, more: {thousands}; ");
        let [byte, end, variable] = self.text_faults;
        lines += &format!("at fault in a byte: {byte}, at the end: {end}, in a variable: {variable}, ");
        lines += &format!("behind blanks: {}\n", self.behind_blanks);
        let [buffer, meeting, test, second] = self.conditions;
        lines += &format!("unsound by a count: {buffer}, by a move that is not met: {meeting}, by the test: {test}, ");
        lines += &format!("by its second part: {second}; ");
        lines += &format!("plans of other names: {}, pairs beyond the limit: {}\n", self.other_names, self.beyond);
        let [first, second] = self.rows;
        lines
            + &format!(
                "rows of the first sheet: {first}, of the second: {second}, beside a broken one: {}\n",
                self.beside_broken
            )
    }
}
