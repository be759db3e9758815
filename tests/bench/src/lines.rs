//! Lines of inputs: what they are, and the times of the baseline and the product side by side.

use crate::timing;

/// Says what inputs are, by a name and figures each.
pub fn describe<'a>(kind: &str, figures: &str, lines: impl Iterator<Item = (&'a str, String)>) {
    println!("{kind:34} {figures}");
    for (name, figures) in lines {
        println!("{name:34} {figures}");
    }
}

/// What stands over lines with times.
pub fn heading(kind: &str, figures: &str) {
    println!("{kind:34} {figures} {:>12} {:>12}   ratio", "baseline, us", "product, us");
}

/// The line of an input: its name and figures, the median time of a call by each contender, and the second one's as a
/// multiple of the first one's. Gives the medians, in nanoseconds.
pub fn timed<C>(name: &str, figures: &str, contenders: &mut [C], call: impl FnMut(&mut C)) -> Vec<f64> {
    let medians = timing::medians(contenders, call);
    print!("{name:34} {figures}");
    for median in &medians {
        print!(" {:12.3}", median / 1000.0);
    }
    println!(" {:7.2}", medians[1] / medians[0]);
    medians
}
