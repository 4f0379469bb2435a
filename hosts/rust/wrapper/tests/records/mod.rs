//! Records that are written and read, and bytes that are none.

mod by_hand;
mod changes;

use std::fmt::Display;

use crate::calls::breach::BREACHES;
use crate::calls::record::{any_write, field_set, field_set_of, read_any, read_of, shorten_outputs, write_of};
use crate::calls::{self, DEGREES};
use crate::comparison::Comparison;
use crate::coverage::{at_degree, every_refusal, of_map, of_pad, Coverage, READ_REFUSALS, WRITE_REFUSALS};
use crate::model::record::{packed_length, value_text, Contents, FieldSet, Reading, Write, VALUE_LIMIT};
use crate::random::Random;
use crate::run::{self, DEFAULT_SEED};

pub use by_hand::records_by_hand_are_the_models;
pub use changes::{changed_records_are_the_models, random_bytes_are_the_models};

/// What is written is read again.
pub fn records_written_are_the_models(comparison: &Comparison) {
    let mut coverage = Coverage::default();
    for seed in run::seeds(3) {
        let mut random = Random::new(seed);
        let origin = format!("BLISS_SEED={seed}");
        let (call, reasons) = any_write(&mut random);
        let written = comparison.write_record(&origin, &call);
        calls::assert_as_made(&origin, written.refusal, &reasons, &WRITE_REFUSALS);
        coverage.count_write(&call, &written);
        coverage.count_reasons(&reasons, &WRITE_REFUSALS);
        if written.refusal == 0 {
            let fields = call.field_set();
            let read = read_of(&mut random, written.out[..written.length].to_vec(), &fields);
            let reading = comparison.read_record(&origin, &read);
            assert_eq!(fields_of(&reading), Some(fields), "{origin}: what is read is not what was written");
        }
    }
    coverage.print("records written");
    coverage.require_what_is_counted();
    coverage.require(every_refusal(&WRITE_REFUSALS));
    coverage.require(every_map_at_every_degree());
}

/// Records, and bytes that break one rule; with outputs that are long enough, or not. What is read is written again.
pub fn records_read_are_the_models(comparison: &Comparison) {
    let mut coverage = Coverage::default();
    for seed in run::seeds(2) {
        let mut random = Random::new(seed);
        let degree = calls::degree_of_list(&mut random);
        let fields = field_set(&mut random, degree);
        let (breach, breaks) = random.pick(&BREACHES);
        let broken = if random.one_in(2) { breaks(&mut random, &fields) } else { None };
        let origin = format!("BLISS_SEED={seed}{}", if broken.is_some() { format!(", {breach}") } else { String::new() });
        let mut reasons = Vec::new();
        if broken.is_some() {
            coverage.count_breach(breach, &fields);
            reasons.push(15);
        }
        let mut call = read_of(&mut random, broken.unwrap_or_else(|| fields.record()), &fields);
        if random.one_in(4) && shorten_outputs(&mut random, &mut call, &fields) {
            reasons.push(14);
        }
        let reading = comparison.read_record(&origin, &call);
        calls::assert_as_made(&origin, reading.contents.refusal, &reasons, &READ_REFUSALS);
        coverage.count_read(&call, &fields, &reading);
        coverage.count_reasons(&reasons, &READ_REFUSALS);
        write_again(comparison, &mut random, &origin, &call.bytes, &reading);
    }
    coverage.print("records read");
    coverage.require_what_is_counted();
    coverage.require(every_refusal(&READ_REFUSALS));
    coverage.require(every_map_at_every_degree());
    coverage.require(BREACHES.map(|(breach, _)| breach.into()));
    let pads = ["a one at the start of the pad", "a one at the end of the pad"];
    coverage.require(pads.into_iter().flat_map(|breach| (1..8).map(move |bits| of_pad(breach, bits))));
}

/// At every degree and every map, each rule broken alone.
pub fn each_check_alone_is_the_models(comparison: &Comparison) {
    let mut random = Random::new(DEFAULT_SEED);
    for (n, map) in DEGREES.into_iter().flat_map(|n| (0..8).map(move |map| (n, map))) {
        let fields = field_set_of(&mut random, n, map);
        let right = write_of(&mut random, fields.clone());
        for (name, call) in writes_spoilt_in_one_place(&right) {
            let written = comparison.write_record(&format!("n = {n}, map {map}, {name}"), &call);
            assert_ne!(written.refusal, 0, "n = {n}, map {map}, {name} is served");
        }
        for (breach, breaks) in BREACHES {
            if let Some(bytes) = breaks(&mut random, &fields) {
                let reading = comparison.read_record(&format!("n = {n}, map {map}, {breach}"), &read_any(bytes));
                assert_eq!(reading.contents.refusal, 15, "n = {n}, map {map}, {breach} is served");
            }
        }
    }
}

/// Each value that can be stored, and one beyond each end, in one place of z1 or z2.
pub fn every_value_is_the_models(comparison: &Comparison) {
    let mut random = Random::new(DEFAULT_SEED);
    for value in -VALUE_LIMIT - 1..=VALUE_LIMIT + 1 {
        let origin = format!("value {value}");
        let mut halves = [[0, -1, 1, 0], [1, 0, 0, -1]];
        let place = value.unsigned_abs() as usize % 8;
        halves[place / 4][place % 4] = value;
        let [z1, z2] = halves.map(|z| Some(z.to_vec()));
        let fields = FieldSet { n: 4, challenge: None, z1, z2 };
        let written = comparison.write_record(&origin, &write_of(&mut random, fields.clone()));
        let is_stored = value.abs() <= VALUE_LIMIT;
        assert_eq!(written.refusal, if is_stored { 0 } else { 15 }, "{origin}");
        let reading = comparison.read_record(&origin, &read_any(fields.record()));
        assert_eq!(fields_of(&reading), is_stored.then_some(fields), "{origin}: what is read is not what was written");
    }
}

/// Each size that has a packed length, and others. By the model, the form of each value has just so many bits.
pub fn packed_lengths_are_the_models(comparison: &Comparison) {
    let by_powers = (0..32).flat_map(|shift| [1 << shift, (1 << shift) + 127, !0 << shift]);
    for size in (0..10_000).chain(by_powers) {
        comparison.packed_length(size);
    }
    for value in -VALUE_LIMIT..=VALUE_LIMIT {
        assert_eq!(value_text(value).len(), packed_length(value.unsigned_abs()), "value {value}");
    }
}

fn writes_spoilt_in_one_place(right: &Write) -> Vec<(String, Write)> {
    let n = right.n;
    let [challenge, z1, z2] = right.told;
    let mut spoilt = Vec::new();
    let mut add = |told: bool, name: String, spoil: &dyn Fn(&mut Write)| {
        if told {
            let mut call = right.clone();
            spoil(&mut call);
            spoilt.push((name, call));
        }
    };
    for degree in [0, n - 1, n + 1, 2048, n + (1 << 16), n + (1 << 32), n + (1 << 63)] {
        add(true, format!("degree {degree}"), &|call| call.n = degree);
    }
    for length in [0, n - 1, n + 1, 2 * n] {
        add(z1, format!("z1 of {length}"), &|call| call.z1.resize(length, 0));
        add(z2, format!("z2 of {length}"), &|call| call.z2.resize(length, 0));
    }
    add(challenge, "no position".into(), &|call| call.challenge.clear());
    add(challenge, "65 positions".into(), &|call| call.challenge = (0..65).collect());
    for position in [n, n + 1, 1 << 16, 1 << 31, u32::MAX as usize] {
        add(challenge, format!("position {position}"), &|call| *call.challenge.last_mut().unwrap() = position as u32);
    }
    add(challenge, "equal positions".into(), &|call| call.challenge = vec![1, 1]);
    add(challenge, "falling positions".into(), &|call| call.challenge = vec![0, 2, 1]);
    for place in [0, 1, n / 2, n - 1] {
        for value in [3264, -3264, 3327, 3328, 1 << 16, i32::MAX, i32::MIN, i32::MIN + 1] {
            add(z1, format!("value {place} of z1 at {value}"), &|call| call.z1[place] = value);
            add(z2, format!("value {place} of z2 at {value}"), &|call| call.z2[place] = value);
        }
    }
    let length = right.field_set().record().len();
    for length in [0, 1, 2, length / 2, length - 1] {
        add(true, format!("output of {length}"), &|call| call.out.truncate(length));
    }
    spoilt
}

/// The fields that a served call read.
fn fields_of(reading: &Reading) -> Option<FieldSet> {
    let Contents { refusal, map, degree, positions, z1, z2 } = reading.contents;
    (refusal == 0).then(|| FieldSet {
        n: degree,
        challenge: (map & 1 != 0).then(|| reading.challenge[..positions].to_vec()),
        z1: (map & 2 != 0).then(|| reading.z1[..z1].to_vec()),
        z2: (map & 4 != 0).then(|| reading.z2[..z2].to_vec()),
    })
}

/// Whatever is taken for a record is what the fields that were read are written as.
fn write_again(comparison: &Comparison, random: &mut Random, origin: &dyn Display, bytes: &[u8], reading: &Reading) {
    if let Some(fields) = fields_of(reading) {
        let written = comparison.write_record(origin, &write_of(random, fields));
        assert_eq!((written.refusal, &written.out[..written.length]), (0, bytes), "{origin}: it is not written as it was read");
    }
}

fn every_map_at_every_degree() -> Vec<String> {
    DEGREES.into_iter().flat_map(|n| (0..8).map(move |map| at_degree(&of_map(map), n))).collect()
}
