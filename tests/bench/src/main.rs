//! `bench FOLDER` compares the connectors on all inputs of the folder, then times them on the benchmark's; the same for
//! the settled mode, for the conversion of choosing sheets and of texts, for the check of clients, for rows of sheets and
//! for the check of plans. `bench FOLDER describe` says what the benchmark's inputs are.

mod choosing;
mod clients;
mod connector;
mod corpus;
mod lines;
mod plans;
mod product;
mod rows;
mod settled;
mod texts;
mod timing;

use baseline::{Answer, Mode, LONGEST_PLAN};
use connector::{connectors, Connector};
use corpus::Input;
use std::hint::black_box;
use std::path::Path;

type Connectors = Vec<(&'static str, Box<dyn Connector>)>;

const FILLING: u8 = 0xEE;

/// What a connector makes of an input: its answer, every byte of the lent plan, and whether the lent records
/// are as they are due.
fn outcome(connector: &mut dyn Connector, mode: Mode, input: &Input) -> (Answer, Vec<u8>, bool) {
    let mut plan = vec![FILLING; input.room];
    let (answer, due) = connector.tried(&input.call(mode), &mut plan);
    (answer, plan, due)
}

/// The baseline's answers in a mode; stops the program where another connector differs.
fn compared(connectors: &mut Connectors, mode: Mode, inputs: &[Input]) -> Vec<Answer> {
    let mut answers = Vec::new();
    for (place, input) in inputs.iter().enumerate() {
        let (_, first) = &mut connectors[0];
        let expected = outcome(first.as_mut(), mode, input);
        for (who, connector) in &mut connectors[1..] {
            let got = outcome(connector.as_mut(), mode, input);
            if got != expected {
                eprintln!("{mode:?}, input {place} {:?}: {who} {:?}, the baseline {:?}", input.name, got.0, expected.0);
                eprintln!("plans alike: {}; records as due: {}", got.1 == expected.1, got.2);
                std::process::exit(1);
            }
        }
        answers.push(expected.0);
    }
    answers
}

/// Number, situations, plan states, rounds and the plan's moves.
fn figures(answer: &Answer) -> String {
    let states = usize::from(answer.states);
    let moves = if answer.number == 0 { (answer.length as usize - 8 - 5 * states) / 3 } else { 0 };
    format!("{:6} {:10} {:6} {:6} {:6}", answer.number, answer.situations, states, answer.rounds, moves)
}

const FIGURES: &str = "number situations states rounds  moves";

/// Inputs of a family are called by it, a comma and their size.
fn family(input: &Input) -> Option<&str> {
    let (family, size) = input.name.split_once(", ")?;
    size.parse::<u32>().ok().map(|_| family)
}

/// How the cost of a family's largest input compares with that of its smallest.
fn growth(connectors: &Connectors, timed: &[(&Input, Answer, Vec<f64>)]) {
    for name in ["dense", "ring", "wide ring"] {
        let mut members = timed.iter().filter(|(input, ..)| family(input) == Some(name));
        let (Some((_, small, before)), Some((_, large, after))) = (members.next(), members.next_back()) else {
            continue;
        };
        let times = f64::from(large.situations) / f64::from(small.situations);
        print!("{name}: {} to {} situations, x {times:.1}; cost", small.situations, large.situations);
        for ((who, _), (before, after)) in connectors.iter().zip(before.iter().zip(after)) {
            print!(" {who} x {:.1}", after / before);
        }
        println!();
    }
}

fn timed(connectors: &mut Connectors, inputs: &[Input], answers: &[Answer]) {
    let mut plan = vec![FILLING; LONGEST_PLAN];
    lines::heading("input", FIGURES);
    let mut rows = Vec::new();
    for (input, answer) in inputs.iter().zip(answers) {
        let medians = lines::timed(&input.name, &figures(answer), connectors, |(_, connector)| {
            black_box(connector.connect(black_box(&input.call(Mode::Paper)), &mut plan[..input.room]));
        });
        rows.push((input, *answer, medians));
    }
    growth(connectors, &rows);
}

fn main() {
    let arguments: Vec<String> = std::env::args().skip(1).collect();
    let folder = Path::new(arguments.first().expect("a folder with the inputs"));
    let [inputs, random, alike] = ["inputs", "random", "settled"].map(|name| corpus::read(&folder.join(name)));
    let most = inputs.iter().chain(&random).chain(&alike).map(|input| input.records).max().unwrap_or(0);
    let mut connectors = connectors(most);
    let answers = compared(&mut connectors, Mode::Paper, &inputs);
    let settled = settled::compared(&mut connectors, &alike);
    let [choosing, random_choosing] = ["choosing", "random-choosing"].map(|name| corpus::choosing(&folder.join(name)));
    let converted = choosing::compared(&choosing);
    let [typed, random_typed] = ["texts", "random-texts"].map(|name| corpus::texts(&folder.join(name)));
    let read = texts::compared(&typed);
    let [clients, random_clients] = ["clients", "random-clients"].map(|name| corpus::clients(&folder.join(name)));
    let complying = clients::compared(&clients);
    let [rows, random_rows] = ["rows", "random-rows"].map(|name| corpus::rows(&folder.join(name)));
    let found = rows::compared(&rows);
    let checked = plans::emitted(&corpus::read(&folder.join("plans")));
    if arguments.get(1).is_some_and(|word| word == "describe") {
        let lines = inputs.iter().zip(&answers).map(|(input, answer)| (&input.name[..], figures(answer)));
        lines::describe("input", FIGURES, lines);
        settled::describe(&alike, &settled);
        choosing::describe(&choosing, &converted);
        texts::describe(&typed, &read);
        clients::describe(&clients, &complying);
        rows::describe(&rows, &found);
        plans::describe(&checked);
        return;
    }
    compared(&mut connectors, Mode::Paper, &random);
    println!("compared: {} inputs, {} random pairs", inputs.len(), random.len());
    for pairs in [&inputs, &random] {
        compared(&mut connectors, Mode::Settled, pairs);
    }
    println!("compared settled: these, and {} inputs in both modes", alike.len());
    choosing::compared(&random_choosing);
    println!("compared: {} choosing sheets, {} random ones", choosing.len(), random_choosing.len());
    texts::compared(&random_typed);
    println!("compared: {} texts, {} random ones", typed.len(), random_typed.len());
    clients::compared(&random_clients);
    println!("compared: {} clients, {} random ones", clients.len(), random_clients.len());
    rows::compared(&random_rows);
    println!("compared: {} rows, {} random ones", rows.len(), random_rows.len());
    let random_plans = corpus::checks(&folder.join("random-plans"));
    plans::compared(&random_plans);
    println!("compared: {} plans, {} random ones", checked.len(), random_plans.len());
    timed(&mut connectors, &inputs, &answers);
    settled::timed(&mut connectors, &alike, &settled);
    choosing::timed(&choosing, &converted);
    texts::timed(&typed, &read);
    texts::slowest(typed.iter().chain(&random_typed));
    clients::timed(&clients, &complying);
    rows::timed(&rows, &found);
    plans::timed(&checked);
}
