//! Medians of the time of a call, all contenders taking turns.

use std::time::{Duration, Instant};

/// Short calls are repeated until a sample takes this long.
const SAMPLE: Duration = Duration::from_micros(100);

/// The time for all samples of a contender, and the bounds of their number.
const IN_ALL: Duration = Duration::from_millis(200);
const LEAST: u128 = 15;
const MOST: u128 = 501;

fn sample<C>(contender: &mut C, calls: u32, call: &mut impl FnMut(&mut C)) -> Duration {
    let started = Instant::now();
    for _ in 0..calls {
        call(contender);
    }
    started.elapsed()
}

/// How many calls make a sample.
fn calls_of<C>(contender: &mut C, call: &mut impl FnMut(&mut C)) -> u32 {
    let mut calls = 1;
    while sample(contender, calls, call) < SAMPLE {
        calls *= 2;
    }
    calls
}

/// The median time of a call, in nanoseconds, of each contender.
pub fn medians<C>(contenders: &mut [C], mut call: impl FnMut(&mut C)) -> Vec<f64> {
    let mut taken = Vec::new();
    let mut samples = MOST;
    for contender in contenders.iter_mut() {
        let calls = calls_of(contender, &mut call);
        let once = sample(contender, calls, &mut call).as_nanos().max(1);
        samples = samples.min((IN_ALL.as_nanos() / once).max(LEAST));
        taken.push((calls, Vec::new()));
    }
    for _ in 0..samples {
        for (contender, (calls, times)) in contenders.iter_mut().zip(&mut taken) {
            let time = sample(contender, *calls, &mut call);
            times.push(time.as_nanos() as f64 / f64::from(*calls));
        }
    }
    taken.into_iter().map(|(_, times)| median(times)).collect()
}

fn median(mut times: Vec<f64>) -> f64 {
    times.sort_by(f64::total_cmp);
    times[times.len() / 2]
}
