//! `cross` compares the product with the baseline, part by part, and says how often each number was met. The
//! README says what the options are.

use cross::chance::Chance;
use cross::failures;
use cross::parts::{Share, PARTS};
use cross::runner::{Checked, Ended, Runner};
use cross::target::{Baseline, Product};
use std::path::{Path, PathBuf};
use std::process::ExitCode;
use std::time::Instant;

const USAGE: &str = "usage: cross [--seed NUMBER] [--share PERCENT] [--trace FILE] [--show FILE]";

struct Options {
    seed: u64,
    share: Share,
    trace: Option<PathBuf>,
    show: Option<PathBuf>,
}

/// The options, or nothing if they are not understood.
fn options() -> Option<Options> {
    let mut options = Options { seed: 1, share: Share(100), trace: None, show: None };
    let mut words = std::env::args().skip(1);
    while let Some(word) = words.next() {
        let value = words.next()?;
        match word.as_str() {
            "--seed" => options.seed = value.parse().ok()?,
            "--share" => options.share = Share(value.parse().ok()?),
            "--trace" => options.trace = Some(value.into()),
            "--show" => options.show = Some(value.into()),
            _ => return None,
        }
    }
    Some(options)
}

/// Replays the stored inputs, then runs every part.
fn run(runner: &mut Runner, options: &Options) -> Checked {
    println!("seed {}, share {}", options.seed, options.share.0);
    if let Some(path) = &options.trace {
        runner.trace(path)?;
    }
    println!("stored inputs replayed: {}", runner.replay()?);
    let started = Instant::now();
    for (place, (name, part)) in PARTS.iter().enumerate() {
        let (began, before) = (Instant::now(), runner.tally.calls());
        let mut chance = Chance::new(options.seed.wrapping_add((place as u64) << 56));
        part(runner, &mut chance, options.share)?;
        println!("{name:36} {:9} calls, {:6.1} s", runner.tally.calls() - before, began.elapsed().as_secs_f64());
    }
    let (calls, seconds) = (runner.tally.calls(), started.elapsed().as_secs_f64());
    print!("{}", runner.tally.table());
    println!("{calls} calls in {seconds:.1} s, {:.0} a second; no difference", calls as f64 / seconds);
    Ok(())
}

/// Says what both sides make of a stored call.
fn show(runner: &mut Runner, path: &Path) -> Checked {
    let call = failures::read(path)?;
    println!("{}", runner.words(&call));
    runner.check(&call).map(|_| ())
}

fn main() -> ExitCode {
    let Some(options) = options() else {
        eprintln!("{USAGE}");
        return ExitCode::from(2);
    };
    let (mut baseline, mut product) = (Baseline::new(), Product::new());
    let failures = Path::new(env!("CARGO_MANIFEST_DIR")).join("failures");
    let mut runner = Runner::new(&mut baseline, &mut product, &failures);
    let ended = match &options.show {
        Some(path) => show(&mut runner, path),
        None => run(&mut runner, &options),
    };
    match ended {
        Err(Ended::Differs { words, path }) => {
            eprintln!(
                "the baseline (expected) and the product (tested) differ on {}, seed {}",
                path.display(),
                options.seed
            );
            eprintln!("{words}");
            ExitCode::FAILURE
        }
        Err(Ended::Failed(error)) => {
            eprintln!("{error}");
            ExitCode::from(2)
        }
        Ok(()) if options.show.is_some() => ExitCode::SUCCESS,
        Ok(()) => missing(&runner),
    }
}

/// Fails if an outcome that there is was not met.
fn missing(runner: &Runner) -> ExitCode {
    let missing = runner.tally.missing();
    for words in &missing {
        eprintln!("not tried enough: {words}");
    }
    if missing.is_empty() {
        ExitCode::SUCCESS
    } else {
        ExitCode::FAILURE
    }
}
