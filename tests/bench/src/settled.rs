//! Connecting in the settled mode: compared, then timed beside the paper's mode on the same input.

use crate::corpus::Input;
use crate::{figures, lines, timing, Connectors, FIGURES, FILLING};
use baseline::{Answer, Mode, LONGEST_PLAN};
use std::hint::black_box;

/// The settled answers; stops the program where a connector differs from the baseline, in either mode, or an answer from
/// that of the paper's mode: only where both go through the same rounds does the time of one say something of the other's.
pub fn compared(connectors: &mut Connectors, inputs: &[Input]) -> Vec<Answer> {
    let [paper, settled] = [Mode::Paper, Mode::Settled].map(|mode| crate::compared(connectors, mode, inputs));
    for (input, answers) in inputs.iter().zip(paper.iter().zip(&settled)) {
        assert_eq!(answers.0, answers.1, "{}: the same in both modes", input.name);
    }
    settled
}

pub fn describe(inputs: &[Input], answers: &[Answer]) {
    let lines = inputs.iter().zip(answers).map(|(input, answer)| (&input.name[..], figures(answer)));
    lines::describe("settled", FIGURES, lines);
}

/// Who connects, by place, and in which mode.
const CONTENDERS: [(usize, Mode); 4] = [(0, Mode::Paper), (1, Mode::Paper), (0, Mode::Settled), (1, Mode::Settled)];

/// In a line: the paper's mode by each, the settled one by each, all taking turns; the product's settled time as a multiple
/// of the baseline's; and the settled time of each as a multiple of its own in the paper's mode.
pub fn timed(connectors: &mut Connectors, inputs: &[Input], answers: &[Answer]) {
    let mut plan = vec![FILLING; LONGEST_PLAN];
    println!("{:73} {:>25} {:>25} {:>23}", "", "paper's, us", "settled, us", "to the paper's");
    print!("{:34} {FIGURES}", "settled");
    for (who, _) in CONTENDERS {
        print!(" {:>12}", connectors[who].0);
    }
    println!("   ratio {:>8} {:>8}", connectors[0].0, connectors[1].0);
    for (input, answer) in inputs.iter().zip(answers) {
        let times = timing::medians(&mut CONTENDERS.clone(), |(who, mode)| {
            let connector = &mut connectors[*who].1;
            black_box(connector.connect(black_box(&input.call(*mode)), &mut plan[..input.room]));
        });
        print!("{:34} {}", input.name, figures(answer));
        for time in &times {
            print!(" {:12.3}", time / 1000.0);
        }
        println!(" {:7.2} {:8.2} {:8.2}", times[3] / times[2], times[2] / times[0], times[3] / times[1]);
    }
}
