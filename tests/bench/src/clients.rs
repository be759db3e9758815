//! The check of clients: compared, then timed.

use crate::corpus::Client;
use crate::lines;
use baseline::Refusal;
use std::hint::black_box;

/// The refusal, and yes.
type Answer = (Refusal, bool);

type Checker = fn(&Client) -> Answer;

fn by_baseline(input: &Client) -> Answer {
    baseline::complies(&input.client, &input.service)
}

fn by_product(input: &Client) -> Answer {
    let answer = ::product::complies(&input.client, &input.service, false);
    let (number, sheet, state, offset) = (answer.number, answer.sheet, answer.state, answer.offset);
    (Refusal { number, sheet, state, offset }, answer.yes == 1)
}

/// The baseline first, then the product.
const CHECKERS: [(&str, Checker); 2] = [("baseline", by_baseline), ("product", by_product)];

/// The baseline's answers; stops the program where another checker differs.
pub fn compared(inputs: &[Client]) -> Vec<Answer> {
    let mut answers = Vec::new();
    for (place, input) in inputs.iter().enumerate() {
        let expected = by_baseline(input);
        for (who, checker) in &CHECKERS[1..] {
            let got = checker(input);
            if got != expected {
                eprintln!("client {place} {:?}: {who} {got:?}, the baseline {expected:?}", input.name);
                std::process::exit(1);
            }
        }
        answers.push(expected);
    }
    answers
}

/// Number, yes, and the bytes of both sheets.
fn figures(input: &Client, answer: &Answer) -> String {
    let yes = if answer.1 { "yes" } else { "no" };
    format!("{:6} {yes:>3} {:6} {:7}", answer.0.number, input.client.len(), input.service.len())
}

const FIGURES: &str = "number yes client service";

pub fn describe(inputs: &[Client], answers: &[Answer]) {
    let lines = inputs.iter().zip(answers).map(|(input, answer)| (&input.name[..], figures(input, answer)));
    lines::describe("client", FIGURES, lines);
}

pub fn timed(inputs: &[Client], answers: &[Answer]) {
    lines::heading("client", FIGURES);
    for (input, answer) in inputs.iter().zip(answers) {
        lines::timed(&input.name, &figures(input, answer), &mut CHECKERS.clone(), |(_, checker)| {
            black_box(checker(black_box(input)));
        });
    }
}
