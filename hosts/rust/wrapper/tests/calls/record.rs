//! Records that are written and read.

use super::respond::challenge_of;
use super::{either_sign, positions, shorten, spoil_positions, spoil_values, within, wrong_length, FORGED_DEGREES};
use crate::model::record::{write, FieldSet, Read, Write, VALUE_LIMIT};
use crate::random::Random;

/// The refusals of a write call, in an order in which they can be brought about: the contents of a field before its length, and
/// the output's length at the end, when it is known whether the call is right apart from it.
const REFUSALS: [u32; 5] = [15, 6, 2, 1, 14];

/// The bytes of the shortest record.
const LEAST_BYTES: usize = 3;

/// Sizes at which a value gets a bit more, or may be no greater.
const EDGE_SIZES: [i32; 8] = [0, 1, 127, 128, 255, 256, VALUE_LIMIT - 63, VALUE_LIMIT];

/// Any fields at this degree, right ones if it is.
pub fn field_set(random: &mut Random, degree: usize) -> FieldSet {
    let map = random.below(8);
    field_set_of(random, degree, map)
}

/// The fields of a map at this degree, right ones if it is.
pub fn field_set_of(random: &mut Random, degree: usize, map: usize) -> FieldSet {
    FieldSet {
        n: degree,
        challenge: (map & 1 != 0).then(|| challenge(random, degree)),
        z1: (map & 2 != 0).then(|| z(random, degree)),
        z2: (map & 4 != 0).then(|| z(random, degree)),
    }
}

/// A right challenge, which is not empty.
fn challenge(random: &mut Random, degree: usize) -> Vec<u32> {
    let length = positions(random, degree);
    challenge_of(random, degree, length)
}

/// The bits of the pad in the record of these fields.
pub fn pad(fields: &FieldSet) -> usize {
    fields.text().len().wrapping_neg() % 8
}

/// A right half of a response: of one size, of any, or of noise with edges among it.
fn z(random: &mut Random, degree: usize) -> Vec<i32> {
    let size = random.pick(&EDGE_SIZES);
    match random.below(8) {
        0 => vec![either_sign(random, size); degree],
        1 => (0..degree).map(|_| either_sign(random, size)).collect(),
        2 => (0..degree).map(|_| within(random, VALUE_LIMIT)).collect(),
        _ => {
            let bound = random.pick(&[1, 127, 400, 800]);
            let mut z: Vec<i32> = (0..degree).map(|_| within(random, bound)).collect();
            for _ in 0..random.below(6).min(degree) {
                let size = random.pick(&EDGE_SIZES);
                let place = random.below(degree);
                z[place] = either_sign(random, size);
            }
            z
        }
    }
}

/// A challenge of any length, of any contents: what a field that is not told may be.
fn any_challenge(random: &mut Random) -> Vec<u32> {
    (0..random.pick(&[0, 1, 2, 64, 65, 200])).map(|_| random.word() as u32).collect()
}

/// A half of a response of any length, of any contents.
fn any_z(random: &mut Random, degree: usize) -> Vec<i32> {
    let length = random.pick(&[0, 1, degree, degree + 1]);
    (0..length).map(|_| random.word() as i32).collect()
}

/// A call that writes these fields, with everything right if they are: an output that is just long enough for the record, or longer.
pub fn write_of(random: &mut Random, fields: FieldSet) -> Write {
    let n = fields.n;
    let length = fields.record().len() + random.pick(&[0, 0, 1, 2, 40]);
    Write {
        n,
        told: [fields.challenge.is_some(), fields.z1.is_some(), fields.z2.is_some()],
        challenge: fields.challenge.unwrap_or_else(|| any_challenge(random)),
        z1: fields.z1.unwrap_or_else(|| any_z(random, n)),
        z2: fields.z2.unwrap_or_else(|| any_z(random, n)),
        out: (0..length).map(|_| random.word() as u8).collect(),
    }
}

fn right_write(random: &mut Random, degree: usize) -> Write {
    let fields = field_set(random, degree);
    write_of(random, fields)
}

/// A write call that may be right, or refused for one or more reasons, and these reasons.
pub fn any_write(random: &mut Random) -> (Write, Vec<u32>) {
    super::any(random, super::degree_of_list, right_write, &REFUSALS, spoil_write)
}

/// Changes the call so that this refusal applies to it. False where the call has no room for it.
fn spoil_write(random: &mut Random, call: &mut Write, refusal: u32) -> bool {
    match refusal {
        1 => call.n = random.pick(&FORGED_DEGREES),
        2 => return spoil_z(random, call, |random, z| z.resize(wrong_length(random, z.len().max(1)), 1)),
        6 if call.told[0] && random.one_in(5) => call.challenge.clear(),
        6 if call.told[0] => spoil_positions(random, call.n, &mut call.challenge),
        6 => return false,
        14 => {
            let written = write(call);
            let asked = if written.refusal == 0 { written.length } else { LEAST_BYTES };
            return shorten(random, &mut call.out, asked);
        }
        15 if call.n > 0 => {
            return spoil_z(random, call, |random, z| {
                spoil_values(random, z, VALUE_LIMIT);
            })
        }
        15 => return false,
        _ => unreachable!("a write call has no refusal {refusal}"),
    }
    true
}

/// Spoils z1, z2 or both, as far as they are told.
fn spoil_z(random: &mut Random, call: &mut Write, spoil: fn(&mut Random, &mut Vec<i32>)) -> bool {
    let [_, z1, z2] = call.told;
    let both = random.one_in(3);
    let first = z1 && (both || !z2 || random.one_in(2));
    if first {
        spoil(random, &mut call.z1);
    }
    if z2 && (both || !first) {
        spoil(random, &mut call.z2);
    }
    z1 || z2
}

/// A call that reads these bytes, with outputs that are just long enough for the fields of a record, or longer. Those of fields
/// that it does not have may be of any length.
pub fn read_of(random: &mut Random, bytes: Vec<u8>, fields: &FieldSet) -> Read {
    let mut length = |field: Option<usize>| match field {
        Some(length) => length + random.pick(&[0, 0, 1, 2, 40]),
        None => random.pick(&[0, 0, 1, fields.n]),
    };
    let lengths = [
        length(fields.challenge.as_ref().map(Vec::len)),
        length(fields.z1.as_ref().map(Vec::len)),
        length(fields.z2.as_ref().map(Vec::len)),
    ];
    Read {
        bytes,
        challenge: (0..lengths[0]).map(|_| random.word() as u32).collect(),
        z1: (0..lengths[1]).map(|_| random.word() as i32).collect(),
        z2: (0..lengths[2]).map(|_| random.word() as i32).collect(),
    }
}

/// A call that reads these bytes, with outputs that are long enough for whatever record they are.
pub fn read_any(bytes: Vec<u8>) -> Read {
    let n = bytes.iter().skip(1).take(2).fold(0, |n, &byte| 256 * n + usize::from(byte)).min(1024);
    Read { bytes, challenge: vec![u32::MAX; n.min(64)], z1: vec![i32::MIN; n], z2: vec![i32::MIN; n] }
}

/// Cuts one output or more of a call that reads the record of these fields. False where it has no field.
pub fn shorten_outputs(random: &mut Random, call: &mut Read, fields: &FieldSet) -> bool {
    let map = fields.map() as usize;
    let some = random.below(8) & map;
    let which = if some == 0 { map } else { some };
    if which & 1 != 0 {
        shorten(random, &mut call.challenge, fields.challenge.as_ref().map_or(0, Vec::len));
    }
    if which & 2 != 0 {
        shorten(random, &mut call.z1, fields.n);
    }
    if which & 4 != 0 {
        shorten(random, &mut call.z2, fields.n);
    }
    map != 0
}
