//! The conversion of choosing sheets: compared, then timed.

use crate::corpus::Choosing;
use crate::{lines, FILLING};
use std::hint::black_box;

/// Number, sheet, state and length.
type Answer = (u8, u8, u8, u16);

type Converter = fn(&[u8], &mut [u8]) -> Answer;

fn by_baseline(choosing: &[u8], sheet: &mut [u8]) -> Answer {
    let (number, length) = baseline::convert(choosing, sheet);
    (number, 0, 0, length)
}

fn by_product(choosing: &[u8], sheet: &mut [u8]) -> Answer {
    let answer = ::product::from_choosing(choosing, sheet, false);
    (answer.number, answer.sheet, answer.state, answer.length)
}

/// The baseline first, then the product.
const CONVERTERS: [(&str, Converter); 2] = [("baseline", by_baseline), ("product", by_product)];

/// An answer, and every byte of the lent output.
fn outcome(converter: Converter, input: &Choosing) -> (Answer, Vec<u8>) {
    let mut sheet = vec![FILLING; input.room];
    (converter(&input.bytes, &mut sheet), sheet)
}

/// The baseline's answers; stops the program where another converter differs.
pub fn compared(inputs: &[Choosing]) -> Vec<Answer> {
    let mut answers = Vec::new();
    for (place, input) in inputs.iter().enumerate() {
        let expected = outcome(CONVERTERS[0].1, input);
        for (who, converter) in &CONVERTERS[1..] {
            let got = outcome(*converter, input);
            if got != expected {
                eprintln!("choosing sheet {place} {:?}: {who} {:?}, the baseline {:?}", input.name, got.0, expected.0);
                eprintln!("outputs alike: {}", got.1 == expected.1);
                std::process::exit(1);
            }
        }
        answers.push(expected.0);
    }
    answers
}

/// Number, bytes of the choosing sheet, and bytes of the sheet.
fn figures(input: &Choosing, answer: &Answer) -> String {
    format!("{:6} {:8} {:6}", answer.0, input.bytes.len(), answer.3)
}

const FIGURES: &str = "number choosing  sheet";

pub fn describe(inputs: &[Choosing], answers: &[Answer]) {
    let lines = inputs.iter().zip(answers).map(|(input, answer)| (&input.name[..], figures(input, answer)));
    lines::describe("choosing sheet", FIGURES, lines);
}

pub fn timed(inputs: &[Choosing], answers: &[Answer]) {
    lines::heading("choosing sheet", FIGURES);
    for (input, answer) in inputs.iter().zip(answers) {
        let mut sheet = vec![FILLING; input.room];
        lines::timed(&input.name, &figures(input, answer), &mut CONVERTERS.clone(), |(_, converter)| {
            black_box(converter(black_box(&input.bytes), &mut sheet));
        });
    }
}
