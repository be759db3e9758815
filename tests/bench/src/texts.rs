//! Contracts typed as text: compared, then timed.

use crate::corpus::Text;
use crate::{lines, FILLING};
use baseline::SheetAnswer;
use std::hint::black_box;
use std::time::{Duration, Instant};

/// Who converts texts, and says where one is at fault.
#[derive(Clone, Copy)]
struct Converter {
    convert: fn(&[u8], &mut [u8]) -> SheetAnswer,
    fault: fn(&[u8]) -> u16,
}

const BASELINE: Converter = Converter { convert: baseline::from_text, fault: baseline::text_fault };

const PRODUCT: Converter = Converter {
    convert: |text, sheet| {
        let answer = ::product::from_text(text, sheet, false);
        SheetAnswer { number: answer.number, sheet: answer.sheet, state: answer.state, length: answer.length }
    },
    fault: |text| ::product::text_fault(text, false),
};

/// The answer, and the byte at fault.
type Answer = (SheetAnswer, u16);

/// No text is to take longer than this.
const LIMIT: Duration = Duration::from_millis(50);

/// The slowest text is the one whose fastest call of so many is the slowest.
const CALLS: usize = 5;

/// An answer, and every byte of the lent output.
fn outcome(converter: &Converter, input: &Text) -> (Answer, Vec<u8>) {
    let mut sheet = vec![FILLING; input.room];
    let answer = (converter.convert)(&input.bytes, &mut sheet);
    ((answer, (converter.fault)(&input.bytes)), sheet)
}

/// The baseline's answers; stops the program where the product differs.
pub fn compared(inputs: &[Text]) -> Vec<Answer> {
    let mut answers = Vec::new();
    for (place, input) in inputs.iter().enumerate() {
        let (expected, got) = (outcome(&BASELINE, input), outcome(&PRODUCT, input));
        if got != expected {
            eprintln!("text {place} {:?}: product {:?}, the baseline {:?}", input.name, got.0, expected.0);
            eprintln!("{:?}, outputs alike: {}", String::from_utf8_lossy(&input.bytes), got.1 == expected.1);
            std::process::exit(1);
        }
        answers.push(expected.0);
    }
    answers
}

/// The texts of one name, with their answers.
struct Class<'a> {
    texts: &'a [Text],
    answers: &'a [Answer],
}

fn classes<'a>(inputs: &'a [Text], answers: &'a [Answer]) -> Vec<Class<'a>> {
    let mut rest = answers;
    let texts = inputs.chunk_by(|one, next| one.name == next.name);
    let class = |texts: &'a [Text]| {
        let (answers, behind) = rest.split_at(texts.len());
        rest = behind;
        Class { texts, answers }
    };
    texts.map(class).collect()
}

impl Class<'_> {
    fn name(&self) -> &str {
        &self.texts[0].name
    }

    /// The number if all have the same; how many texts; the bytes of the longest, and of the longest sheet.
    fn figures(&self) -> String {
        let number = self.answers[0].0.number;
        let alike = self.answers.iter().all(|(answer, _)| answer.number == number);
        let number = if alike { number.to_string() } else { "-".into() };
        let longest = self.texts.iter().map(|text| text.bytes.len()).max().unwrap_or(0);
        let sheet = self.answers.iter().map(|(answer, _)| answer.length).max().unwrap_or(0);
        format!("{number:>6} {:5} {longest:5} {sheet:6}", self.texts.len())
    }

    /// All texts one after the other; where one is refused by 22 or 23, the byte at fault too.
    fn call(&self, converter: &Converter, sheet: &mut [u8]) {
        for (text, (answer, _)) in self.texts.iter().zip(self.answers) {
            black_box((converter.convert)(black_box(&text.bytes), &mut sheet[..text.room]));
            if matches!(answer.number, 22 | 23) {
                black_box((converter.fault)(black_box(&text.bytes)));
            }
        }
    }
}

const FIGURES: &str = "number texts bytes  sheet";

pub fn describe(inputs: &[Text], answers: &[Answer]) {
    let classes = classes(inputs, answers);
    lines::describe("text", FIGURES, classes.iter().map(|class| (class.name(), class.figures())));
}

/// A line for each class has the time of all its texts.
pub fn timed(inputs: &[Text], answers: &[Answer]) {
    lines::heading("text", FIGURES);
    for class in classes(inputs, answers) {
        let mut sheet = vec![FILLING; class.texts.iter().map(|text| text.room).max().unwrap_or(0)];
        lines::timed(class.name(), &class.figures(), &mut [BASELINE, PRODUCT], |converter| {
            class.call(converter, &mut sheet);
        });
    }
}

/// The product's fastest call of a few.
fn fastest(text: &Text, sheet: &mut [u8]) -> Duration {
    let call = |_| {
        let started = Instant::now();
        black_box((PRODUCT.convert)(black_box(&text.bytes), &mut sheet[..text.room]));
        started.elapsed()
    };
    (0..CALLS).map(call).min().unwrap_or_default()
}

/// Says which text takes the product longest, and whether that is too long.
pub fn slowest<'a>(inputs: impl Iterator<Item = &'a Text>) {
    let inputs: Vec<&Text> = inputs.collect();
    let mut sheet = vec![FILLING; inputs.iter().map(|text| text.room).max().unwrap_or(0)];
    let times = inputs.iter().map(|text| (fastest(text, &mut sheet), *text));
    if let Some((time, text)) = times.max_by_key(|(time, _)| *time) {
        let words = if time < LIMIT { "under" } else { "NOT under" };
        print!(
            "slowest of {} texts: {:.3} ms, {words} {} ms: ",
            inputs.len(),
            time.as_secs_f64() * 1e3,
            LIMIT.as_millis()
        );
        println!("{} {}", text.name, String::from_utf8_lossy(&text.bytes));
    }
}
