//! Bytes that are like a record: changed, cut and made longer, and random ones.

use std::fmt::Display;

use super::write_again;
use crate::calls::record::{field_set_of, read_any};
use crate::calls::DEGREES;
use crate::comparison::Comparison;
use crate::coverage::{of_map, Coverage};
use crate::random::Random;
use crate::run;

/// The largest degree at which every change of a byte is tried, and every one of a bit.
const EVERY_BYTE: usize = 4;
const EVERY_BIT: usize = 64;

/// How many changes of each kind are tried above it.
const SOME: usize = 50;

/// Every cut, every byte behind it, every change of a bit and, of small records, every change of a byte; of large records, some.
pub fn changed_records_are_the_models(comparison: &Comparison) {
    let mut coverage = Coverage::default();
    for (seed, n) in run::seeds(60_000).flat_map(|seed| DEGREES.map(|n| (seed, n))) {
        for map in 0..8 {
            let mut random = Random::new(seed);
            let record = field_set_of(&mut random, n, map).record();
            let origin = format!("BLISS_SEED={seed}, n = {n}, map {map}");
            let mut changes = Changes { comparison, random, origin: &origin, coverage: &mut coverage };
            changes.read(&"as it is", record.clone());
            for byte in changes.below(256, n <= EVERY_BIT) {
                changes.read(&format!("with {byte} behind it"), [&record[..], &[byte as u8]].concat());
            }
            for length in changes.below(record.len(), n <= EVERY_BIT) {
                changes.read(&format!("cut to {length}"), record[..length].to_vec());
            }
            for bit in changes.below(8 * record.len(), n <= EVERY_BIT) {
                changes.read_with(&record, bit / 8, record[bit / 8] ^ 0x80 >> (bit % 8));
            }
            for change in changes.below(256 * record.len(), n <= EVERY_BYTE) {
                changes.read_with(&record, change / 256, change as u8);
            }
        }
    }
    coverage.print("records changed in one place");
    coverage.require(["taken".into(), "not taken".into()]);
}

/// Changes of one record.
struct Changes<'a> {
    comparison: &'a Comparison,
    random: Random,
    origin: &'a str,
    coverage: &'a mut Coverage,
}

impl Changes<'_> {
    fn read(&mut self, change: &dyn Display, bytes: Vec<u8>) {
        let origin = format!("{}, {change}", self.origin);
        let taken = read_bytes(self.comparison, &mut self.random, &origin, bytes);
        self.coverage.count(if taken.is_some() { "taken" } else { "not taken" }, 1);
    }

    fn read_with(&mut self, record: &[u8], place: usize, byte: u8) {
        if let Some(other) = record.get(place).filter(|&&other| other != byte) {
            let mut bytes = record.to_vec();
            bytes[place] = byte;
            self.read(&format!("byte {place} at {byte} for {other}"), bytes);
        }
    }

    /// All numbers below a bound, or some.
    fn below(&mut self, bound: usize, all: bool) -> Vec<usize> {
        if all {
            (0..bound).collect()
        } else {
            (0..SOME).map(|_| self.random.below(bound)).collect()
        }
    }
}

/// Random bytes, and bytes of random fields: what is taken is written again.
pub fn random_bytes_are_the_models(comparison: &Comparison) {
    let mut coverage = Coverage::default();
    for seed in run::seeds(1) {
        let mut random = Random::new(seed);
        for (kind, bytes) in [("any", any_bytes(&mut random)), ("near", near_bytes(&mut random))] {
            let origin = format!("BLISS_SEED={seed}, {kind} bytes {bytes:?}");
            let map = read_bytes(comparison, &mut random, &origin, bytes);
            coverage.count(format!("{kind}, {}", map.map_or("not taken".into(), |map| format!("taken, {}", of_map(map)))), 1);
        }
    }
    coverage.print("records of random bytes");
    coverage.require((0..8).map(|map| format!("near, taken, {}", of_map(map))));
    coverage.require(["any, not taken", "near, not taken"].map(String::from));
}

/// Reads, and gives the map of what is taken for a record, once it is written again.
fn read_bytes(comparison: &Comparison, random: &mut Random, origin: &dyn Display, bytes: Vec<u8>) -> Option<u32> {
    let call = read_any(bytes);
    let reading = comparison.read_record(origin, &call);
    write_again(comparison, random, origin, &call.bytes, &reading);
    (reading.contents.refusal == 0).then_some(reading.contents.map)
}

/// The first bytes are those of a record, more often than not.
fn any_bytes(random: &mut Random) -> Vec<u8> {
    let mut bytes: Vec<u8> = (0..random.below(48)).map(|_| random.word() as u8).collect();
    let first = [random.below(8) as u8, 0, random.pick(&[4, 8])];
    let known = bytes.len().min(random.below(4));
    bytes[..known].copy_from_slice(&first[..known]);
    bytes
}

/// Random bits in the form of fields: what they hold may be no field, and one byte may be changed.
fn near_bytes(random: &mut Random) -> Vec<u8> {
    let map = random.below(8);
    let n = random.pick(&[4, 4, 4, 8, 16]);
    let mut bits = Bits { random, bytes: vec![map as u8, 0, n], bit: 0 };
    if map & 1 != 0 {
        let count = bits.random.below(4);
        bits.bytes.push(count as u8);
        for _ in 0..count {
            let position = bits.random.below(usize::from(n) + 1);
            bits.bytes.extend([0, position as u8]);
        }
    }
    for _ in 0..usize::from(n) * (map >> 1).count_ones() as usize {
        bits.push_value();
    }
    let Bits { random, mut bytes, .. } = bits;
    if random.one_in(4) {
        let place = random.below(bytes.len());
        bytes[place] = random.word() as u8;
    }
    bytes
}

/// Bytes that are filled with random bits, each from its highest.
struct Bits<'a> {
    random: &'a mut Random,
    bytes: Vec<u8>,
    /// The bits of the last byte that are used, if they are not all.
    bit: u32,
}

impl Bits<'_> {
    fn push(&mut self) -> bool {
        let one = self.random.one_in(2);
        if self.bit == 0 {
            self.bytes.push(0);
        }
        if one {
            *self.bytes.last_mut().unwrap() |= 0x80 >> self.bit;
        }
        self.bit = (self.bit + 1) % 8;
        one
    }

    /// Eight bits, and more up to a one.
    fn push_value(&mut self) {
        for _ in 0..8 {
            self.push();
        }
        while !self.push() {}
    }
}
