//! Rows of sheets: compared, then timed.

use crate::corpus::Row;
use crate::lines;
use baseline::{Part, Refusal};
use std::hint::black_box;

/// Who finds rows, and says why there is none.
#[derive(Clone, Copy)]
struct Finder {
    row: fn(&Row) -> Part,
    refusal: fn(&Row) -> Refusal,
}

const BASELINE: Finder = Finder {
    row: |input| baseline::row(&input.first, &input.second, input.sheet, input.state),
    refusal: |input| baseline::row_refusal(&input.first, &input.second, input.sheet, input.state),
};

const PRODUCT: Finder = Finder {
    row: |input| {
        let part = ::product::row(&input.first, &input.second, input.sheet, input.state, false);
        Part { sheet: part.sheet, offset: part.offset, length: part.length }
    },
    refusal: |input| {
        let refusal = ::product::row_refusal(&input.first, &input.second, input.sheet, input.state, false);
        Refusal { number: refusal.number, sheet: refusal.sheet, state: refusal.state, offset: refusal.offset }
    },
};

type Answer = (Refusal, Part);

fn answer(finder: &Finder, input: &Row) -> Answer {
    ((finder.refusal)(input), (finder.row)(input))
}

/// The baseline's answers; stops the program where the product differs.
pub fn compared(inputs: &[Row]) -> Vec<Answer> {
    let mut answers = Vec::new();
    for (place, input) in inputs.iter().enumerate() {
        let (expected, got) = (answer(&BASELINE, input), answer(&PRODUCT, input));
        if got != expected {
            eprintln!("row {place} {:?}: product {got:?}, the baseline {expected:?}", input.name);
            std::process::exit(1);
        }
        answers.push(expected);
    }
    answers
}

/// Number, bytes of the named sheet, state asked for, and bytes of its row.
fn figures(input: &Row, (refusal, part): &Answer) -> String {
    let sheet = if input.sheet == 2 { &input.second } else { &input.first };
    format!("{:6} {:6} {:5} {:4}", refusal.number, sheet.len(), input.state, part.length)
}

const FIGURES: &str = "number  sheet state  row";

pub fn describe(inputs: &[Row], answers: &[Answer]) {
    let lines = inputs.iter().zip(answers).map(|(input, answer)| (&input.name[..], figures(input, answer)));
    lines::describe("row", FIGURES, lines);
}

/// Where there is a row it is finding it that is timed, where there is none saying why.
pub fn timed(inputs: &[Row], answers: &[Answer]) {
    lines::heading("row", FIGURES);
    for (input, answer) in inputs.iter().zip(answers) {
        let found = answer.0.number == 0;
        lines::timed(&input.name, &figures(input, answer), &mut [BASELINE, PRODUCT], |finder| {
            if found {
                black_box((finder.row)(black_box(input)));
            } else {
                black_box((finder.refusal)(black_box(input)));
            }
        });
    }
}
