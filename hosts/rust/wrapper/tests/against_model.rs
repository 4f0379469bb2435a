//! Compares the raw surface of the archive with the model. Every draw and every respond call is compared in its answer, its
//! session, y, z, the whole list, and in what it must leave alone: what is lent for reading, and the memory around every buffer.
//! So is every key check, and what it promises of a key that passes is looked for in respond calls; and every record that is
//! written or read, where what is written is read again, and what is taken for a record is written again. Draws by tables of
//! document 01's order, reordered, are compared with what the model gives in that order.
//! The last line says how many calls were compared. A run of the default length, or a longer one, compares e(N) for every N, and
//! fails where it misses a case, or compares less than the documents say.
//!
//! `BLISS_CALLS` is the number of single draws to compare, and of single respond calls; the other parts of a run grow with it.
//! `BLISS_SEED` is the seed of the first one of each, and each one after it has the next. A failure names the seed: with it and
//! `BLISS_CALLS=1` the failure comes again at once. A word on the command line picks the parts that have it in their names, of
//! which there must be one. `BLISS_CASES=1` prints the cases that were met, and how often.

mod archive;
mod calls;
mod comparison;
mod coverage;
mod cut_exponential;
mod demand3;
mod draws;
mod key_checks;
mod lent;
mod lists;
mod model;
mod old_order;
mod random;
mod records;
mod responses;
mod run;
mod sessions;

use std::env;
use std::process::ExitCode;
use std::thread;

use comparison::Comparison;
use cut_exponential::cut_exponential_at;
use random::Random;
use run::DEFAULT_SEED;

/// The draws and respond calls that a whole run compares with the model, or more, as README.md says.
const LEAST_CALLS: u64 = 250_000;

/// The draws by reordered tables among them, or more.
const LEAST_REORDERED: u64 = 50_000;

/// The key checks that it compares with the model, or more.
const LEAST_KEY_CHECKS: u64 = 5_000;

/// The records written, and the bytes read, that it compares with the model, or more.
const LEAST_RECORDS: u64 = 500_000;

/// The pairs of lists of calls that it compares with each other, or more, as docs/ARCHITECTURE.md says.
const LEAST_PAIRS: u64 = 32_000;

type Part = (&'static str, fn(&Comparison));

const PARTS: [Part; 33] = [
    ("guards", lent::guards_notice_every_change),
    ("openings", sessions::openings_are_the_models),
    ("forged sessions", sessions::forged_sessions_are_the_models),
    ("filled parts", filled_parts_are_the_models),
    ("exponentials", exponentials_are_the_models),
    ("draws", draws::draws_are_the_models),
    ("draws of every size", draws::every_size_is_the_models),
    ("draws spoilt in one place", draws::each_check_alone_is_the_models),
    ("draws by reordered tables", old_order::reordered_tables_draw_as_before),
    ("responses", responses::responses_are_the_models),
    ("responses spoilt in one place", responses::each_check_alone_is_the_models),
    ("responses at their limits", responses::the_limits_of_a_response_are_the_models),
    ("responses at the limits of z1", responses::the_limits_of_z1_are_the_models),
    ("responses of the greatest sums", responses::the_greatest_sums_are_the_models),
    ("blank responses by hand", responses::blank_responses_by_hand_are_the_models),
    ("key checks of small degrees", key_checks::small_key_checks_are_the_models),
    ("key checks of large degrees", key_checks::large_key_checks_are_the_models),
    ("key checks spoilt in one place", key_checks::each_check_alone_is_the_models),
    ("key checks at their limits", key_checks::the_limits_of_a_key_check_are_the_models),
    ("key checks beside every challenge", key_checks::no_challenge_has_a_greater_sum),
    ("records written", records::records_written_are_the_models),
    ("records read", records::records_read_are_the_models),
    ("records broken in one place", records::each_check_alone_is_the_models),
    ("records of every value", records::every_value_is_the_models),
    ("records by hand", records::records_by_hand_are_the_models),
    ("records changed in one place", records::changed_records_are_the_models),
    ("records of random bytes", records::random_bytes_are_the_models),
    ("packed lengths", records::packed_lengths_are_the_models),
    ("lists of calls", lists::lists_of_calls_are_the_models),
    ("demand 3, histories", demand3::read_lists_are_equal_exactly_when_histories_are),
    ("demand 3, agreement", demand3::what_is_not_listed_decides_nothing),
    ("demand 3, difference", demand3::what_is_listed_can_decide),
    ("demand 3, deviations", demand3::the_deviation_can_decide),
];

fn main() -> ExitCode {
    let words: Vec<String> = env::args().skip(1).filter(|word| !word.starts_with('-')).collect();
    if let Some(word) = words.iter().find(|word| !PARTS.iter().any(|(name, _)| name.contains(word.as_str()))) {
        eprintln!("against_model has no part with {word:?} in its name. Its parts are:");
        for (name, _) in PARTS {
            eprintln!("    {name}");
        }
        return ExitCode::FAILURE;
    }
    let wanted = |name: &str| words.is_empty() || words.iter().any(|word| name.contains(word.as_str()));
    let comparison = Comparison::default();
    if !all_pass(&comparison, PARTS.into_iter().filter(|(name, _)| wanted(name))) {
        return ExitCode::FAILURE;
    }
    println!("compared: {comparison}");
    if run::is_whole() && words.is_empty() && !is_enough(&comparison) {
        eprint!("fewer than {LEAST_CALLS} draws and respond calls, than {LEAST_REORDERED} draws by reordered tables");
        eprint!(", than {LEAST_KEY_CHECKS} key checks, than {LEAST_RECORDS} records");
        eprintln!(", or than {LEAST_PAIRS} pairs of lists, were compared");
        return ExitCode::FAILURE;
    }
    ExitCode::SUCCESS
}

fn is_enough(comparison: &Comparison) -> bool {
    comparison.calls() >= LEAST_CALLS
        && comparison.reordered() >= LEAST_REORDERED
        && comparison.key_checks() >= LEAST_KEY_CHECKS
        && comparison.records() >= LEAST_RECORDS
        && comparison.pairs() >= LEAST_PAIRS
}

/// Runs each part in a thread of its own. One that fails says so itself, under its name.
fn all_pass(comparison: &Comparison, parts: impl Iterator<Item = Part>) -> bool {
    thread::scope(|scope| {
        let started: Vec<_> = parts
            .map(|(name, part)| {
                let thread = thread::Builder::new().name(name.into());
                thread.spawn_scoped(scope, move || part(comparison)).expect("a part of the run has a thread")
            })
            .collect();
        let ended: Vec<_> = started.into_iter().map(|thread| thread.join()).collect();
        ended.iter().all(Result::is_ok)
    })
}

fn filled_parts_are_the_models(comparison: &Comparison) {
    let list: Vec<u32> = (0..100).collect();
    for length in 0..=list.len() {
        for count in (0..=length + 3).chain([1 << 32, 1 << 62, 1 << 63, usize::MAX - 1, usize::MAX]) {
            comparison.filled(&format!("list of {length}"), &list[..length], count);
        }
    }
}

/// A deviation, N, the cut e(N) and e(N), as exact arithmetic has them: of 107 and 215 also where the cut e(N) comes to 0, and where
/// e(N) does.
const KNOWN_EXPONENTIALS: [(u64, u64, u64, u64); 23] = [
    (107, 1, 4611484621566558888, 4611484621566558939),
    (107, 513, 4509515940298752004, 4509515940298752012),
    (107, 984_044, 1, 1),
    (107, 984_045, 0, 1),
    (107, 999_916, 0, 1),
    (107, 999_917, 0, 0),
    (107, 1_370_625, 0, 0),
    (215, 0, 4611686018427387904, 4611686018427387904),
    (215, 1, 4611636135668307357, 4611636135668307368),
    (215, 513, 4586166892218597776, 4586166892218597802),
    (215, 46_225, 2797128963144291334, 2797128963144291369),
    (215, 92_450, 1696544475317221329, 1696544475317221345),
    (215, 1_370_625, 1679544596975, 1679544596975),
    (215, 3_973_050, 1, 1),
    (215, 3_973_051, 0, 1),
    (215, 4_037_131, 0, 1),
    (215, 4_037_132, 0, 0),
    (250, 1, 4611649125086814051, 4611649125086814091),
    (250, 513, 4592798442822891623, 4592798442822891684),
    (250, 1_370_625, 79766536849859, 79766536849860),
    (271, 1, 4611654621317327790, 4611654621317327791),
    (271, 513, 4595607340672970041, 4595607340672970077),
    (271, 1_370_625, 408558013066678, 408558013066679),
];

/// N where the last squaring leaves less than a half, and more than a half, by the least that it does.
const NEAREST_TO_HALF: [u64; 2] = [1_745_416, 2_443_483];

/// Every N in a whole run. A shorter one leaves out most, but none of those that an attempt or N1 has, and none near the limit, or
/// near where e(N) or the cut e(N) comes to 0.
fn exponentials_are_the_models(comparison: &Comparison) {
    let limit = 5_534_960;
    let attempts = (0..=10).flat_map(|x| (0..256).map(move |b| b * (b + 512 * x)));
    let edges = [3_973_051, 4_037_132, limit].into_iter().flat_map(|n| n - 1000..n + 1000);
    let step = if run::is_whole() { 1 } else { 271 };
    for n in (0..=46_225).chain(attempts).chain(edges).chain(NEAREST_TO_HALF).chain((0..=limit).step_by(step)) {
        comparison.exponential(n);
    }
    for n in (0..64).map(|shift| 1 << shift).chain([u64::MAX]) {
        comparison.exponential(n);
    }
    let mut random = Random::new(DEFAULT_SEED);
    for _ in 0..2_000 {
        comparison.exponential(random.word() >> random.below(64));
    }
    for (deviation, n, cut_e, e) in KNOWN_EXPONENTIALS {
        let given = (cut_exponential_at(deviation, n), model::exponential_at(deviation, n));
        assert_eq!(given, (cut_e, e), "the cut e({n}) and e({n}) at {deviation}");
    }
}
