//! The table that is printed.

use crate::rounds::{Side, Times, ROUNDS};

/// The most that a ratio to the baseline with high words should be.
pub const HIGH_WORD_TARGET: f64 = 1.1;

/// A call's line of the table.
pub struct Row<'a> {
    pub call: String,
    pub times: &'a Times,
    pub work: Work,
    /// The most that the ratio to the baseline should be.
    pub target: Option<f64>,
    /// The most that the ratio to its fastest form should be.
    pub fastest_target: Option<f64>,
}

/// What a call does.
pub enum Work {
    /// So many units of a name, of which each takes some time.
    Units(usize, &'static str),
    /// So many bytes, some in each second.
    Bytes(usize),
}

impl Work {
    fn speed(&self, nanoseconds: f64) -> String {
        match *self {
            Work::Units(count, unit) => format!("{:.2} ns {unit}", nanoseconds / count as f64),
            Work::Bytes(count) => format!("{:.0} MB/s", count as f64 * 1e3 / nanoseconds),
        }
    }
}

pub fn print(rows: &[Row]) {
    println!("The box against the same work in plain Rust, with the same read list: {ROUNDS} rounds, in which all take turns.");
    println!(
        "A ratio is the time of the box over that of a baseline, as the median of the rounds; its target stands beside it."
    );
    println!(
        "  plain    the baseline: products of 128 bits are shifted by 62, and records are written and read in the box's way"
    );
    println!("  fastest  the same, but each product is one high word, which shows the limit, and records take one pass;");
    println!("           a key check has none");
    println!("Before timing, what all of them answer and write was compared: it is equal.\n");
    println!("{}", line("call of the box", "median", "speed", "ratio to plain", "ratio to fastest"));
    for row in rows {
        let median = row.times.median();
        println!(
            "{}",
            line(
                &row.call,
                &format!("{:.1} µs", median / 1e3),
                &row.work.speed(median),
                &judged_side(row.times, Side::Plain, row.target),
                &judged_side(row.times, Side::Fastest, row.fastest_target),
            )
        );
    }
}

fn line(call: &str, median: &str, speed: &str, plain: &str, fastest: &str) -> String {
    format!("{call:<34}{median:>9}   {speed:<19}{plain:<29}{fastest}")
}

fn judged_side(times: &Times, side: Side, target: Option<f64>) -> String {
    times.ratio_to(side).map_or("-".into(), |ratio| judged(ratio, target))
}

/// A ratio with its target, and whether it is met.
pub fn judged(ratio: f64, target: Option<f64>) -> String {
    match target {
        None => format!("{ratio:.3}"),
        Some(most) if ratio <= most => format!("{ratio:.3}, at most {most:.2}: met"),
        Some(most) => format!("{ratio:.3}, at most {most:.2}: missed"),
    }
}
