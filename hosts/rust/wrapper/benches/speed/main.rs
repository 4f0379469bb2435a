//! Times the exponential, draws, responses, key checks and records of the box against the same rules in plain Rust, in one run, and
//! prints ratios beside their targets. Nothing fails by time; the run fails where the box and a baseline differ in what they answer
//! or write.
//!
//! usage: scripts/cargo bench --bench speed

mod baseline;
mod draw;
mod exponential;
mod key_check;
#[path = "../../tests/random/mod.rs"]
#[allow(dead_code)]
mod random;
mod record;
mod report;
mod respond;
mod rounds;

use bliss_box::Deviation;
use draw::Draw;
use exponential::Exponentials;
use key_check::KeyChecks;
use record::{Reads, Writes};
use report::{Row, Work, HIGH_WORD_TARGET};
use respond::Respond;
use rounds::{compare, Call};

#[cfg(target_feature = "sse3")]
compile_error!("the archive is built for plain x86-64, and so must the baselines be: take processor flags out of RUSTFLAGS");

const DEGREES: [usize; 3] = [256, 512, 1024];

/// Degrees and deviations of draws: BLISS-I's deviation, and the one at which most attempts are made.
const DRAWS: [(usize, Deviation); 4] =
    [(256, Deviation::D215), (512, Deviation::D215), (1024, Deviation::D215), (512, Deviation::D107)];

/// Degrees and challenge lengths of key checks: BLISS-I's, and the greatest.
const KEY_CHECKS: [(usize, usize); 2] = [(512, 23), (1024, 64)];

/// The degree that the targets are for: BLISS-I's.
const TARGET_DEGREE: usize = 512;

const EXPONENTIAL_TARGET: f64 = 0.70;
const DRAW_TARGET: f64 = 0.80;
const RESPOND_TARGET: f64 = 1.0;
const KEY_CHECK_TARGET: f64 = 1.1;
const RECORD_TARGET: f64 = 1.2;

/// The most that the time of a draw at n = 1,024 over that at n = 256 should be.
const GROWTH_TARGET: f64 = 4.4;

fn main() {
    let mut exponentials = [Exponentials::new()];
    let mut draws = DRAWS.map(|(n, deviation)| Draw::new(n, deviation));
    let mut responds = DEGREES.map(Respond::new);
    let mut key_checks = KEY_CHECKS.map(|(n, length)| KeyChecks::new(n, length));
    let mut writes = [Writes::new(TARGET_DEGREE)];
    let mut reads = [Reads::new(TARGET_DEGREE)];
    let exponential_times = compare(&mut exponentials);
    let draw_times = compare(&mut draws);
    let respond_times = compare(&mut responds);
    let key_check_times = compare(&mut key_checks);
    let write_times = compare(&mut writes);
    let read_times = compare(&mut reads);

    let target = |n, most| (n == TARGET_DEGREE).then_some(most);
    let fastest_target = Some(HIGH_WORD_TARGET);
    let mut rows = Vec::new();
    for (call, times) in exponentials.iter().zip(&exponential_times) {
        let (work, target) = (Work::Units(exponential::VALUES, "e(N)"), Some(EXPONENTIAL_TARGET));
        rows.push(Row { call: call.name(), times, work, target, fastest_target });
    }
    for (call, times) in draws.iter_mut().zip(&draw_times) {
        let (work, target) = (Work::Units(call.attempts(), "attempt"), target(call.n, DRAW_TARGET));
        rows.push(Row { call: call.name(), times, work, target, fastest_target });
    }
    for (call, times) in responds.iter().zip(&respond_times) {
        let (work, target) = (Work::Units(call.key_reads(), "key read"), target(call.degree(), RESPOND_TARGET));
        rows.push(Row { call: call.name(), times, work, target, fastest_target });
    }
    for (call, times) in key_checks.iter().zip(&key_check_times) {
        let (work, target) = (Work::Units(call.entries(), "entry"), Some(KEY_CHECK_TARGET));
        rows.push(Row { call: call.name(), times, work, target, fastest_target });
    }
    for (call, times) in writes.iter().zip(&write_times) {
        let (work, target) = (Work::Bytes(call.bytes()), Some(RECORD_TARGET));
        rows.push(Row { call: call.name(), times, work, target, fastest_target: None });
    }
    for (call, times) in reads.iter().zip(&read_times) {
        let (work, target) = (Work::Bytes(call.bytes()), Some(RECORD_TARGET));
        rows.push(Row { call: call.name(), times, work, target, fastest_target: None });
    }
    report::print(&rows);

    let growth = draw_times[2].ratio_to_call(&draw_times[0]);
    println!("\ndraw, time at n = 1024 over time at n = 256: {}", report::judged(growth, Some(GROWTH_TARGET)));
}
