//! Bytes that are no record, by one rule alone: so a rule that a reader does not test shows.

use super::record::{field_set_of, pad};
use super::respond::challenge_of;
use super::NEAR_DEGREES;
use crate::model::record::{packed, value_text, FieldSet};
use crate::random::Random;

/// What breaks a rule in the record of these fields. None where the fields have no room for it.
pub type Breach = fn(&mut Random, &FieldSet) -> Option<Vec<u8>>;

pub const BREACHES: [(&str, Breach); 38] = [
    ("bit 3 of the map", |_, fields| with_bit(fields, 3)),
    ("bit 4 of the map", |_, fields| with_bit(fields, 4)),
    ("bit 5 of the map", |_, fields| with_bit(fields, 5)),
    ("bit 6 of the map", |_, fields| with_bit(fields, 6)),
    ("bit 7 of the map", |_, fields| with_bit(fields, 7)),
    ("another degree", of_another_degree),
    ("another bit of the degree", with_bit_of_degree),
    ("the degree's low byte first", with_degree_exchanged),
    ("no position", |_, fields| with_positions(fields, vec![])),
    ("count 0 before positions", |_, fields| with_count(fields, |_| 0)),
    ("65 positions", |random, fields| with_so_many_positions(random, fields, 65)),
    ("255 positions", |random, fields| with_so_many_positions(random, fields, 255)),
    ("n + 1 positions", |_, fields| with_positions(fields, (0..=fields.n as u32).collect()).filter(|_| fields.n < 64)),
    ("a position too few", |_, fields| with_count(fields, |count| count + 1).filter(|_| fields.map() == 1)),
    ("a position too many", |_, fields| with_count(fields, |count| count - 1).filter(|_| fields.map() == 1)),
    ("equal positions", |random, fields| with_neighbours(random, fields, |pair| pair[1] = pair[0])),
    ("falling positions", |random, fields| with_neighbours(random, fields, |pair| pair.swap(0, 1))),
    ("position n", |_, fields| with_last_position(fields, |_| fields.n)),
    ("a position's high byte", with_high_byte),
    ("minus zero", |random, fields| with_value(random, fields, "100000001")),
    ("size 3,264", |random, fields| with_value(random, fields, &value_text(3264))),
    ("size 3,264, negative", |random, fields| with_value(random, fields, &value_text(-3264))),
    ("25 zeros, low bits of 127", |random, fields| with_value(random, fields, &value_text(3327))),
    ("26 zeros", |random, fields| with_value(random, fields, &value_text(3328))),
    ("26 zeros, negative", |random, fields| with_value(random, fields, &value_text(-3329))),
    ("more zeros", with_more_zeros),
    ("a value without its one", |_, fields| with_value_texts(fields, |texts| texts.last_mut().unwrap().truncate(8))),
    ("a value too few", |_, fields| with_value_texts(fields, |texts| drop(texts.pop()))),
    ("a value too many", |_, fields| with_value_texts(fields, |texts| texts.push(value_text(0)))),
    ("a one at the start of the pad", |_, fields| with_one_in_pad(fields, |pad| pad - 1)),
    ("a one at the end of the pad", |_, fields| with_one_in_pad(fields, |_| 0)),
    ("a byte of 0 too many", |_, fields| Some([fields.record(), vec![0]].concat())),
    ("a byte too many", |random, fields| Some([fields.record(), vec![random.word() as u8]].concat())),
    ("bytes too many", |random, fields| Some([fields.record(), vec![0; 2 + random.below(200)]].concat())),
    ("a byte too few", |_, fields| cut(fields, fields.record().len() - 1)),
    ("bytes too few", |random, fields| cut(fields, random.below(fields.record().len()))),
    ("two bytes", |_, fields| cut(fields, 2)),
    ("no byte", |_, fields| cut(fields, 0)),
];

fn with_bit(fields: &FieldSet, bit: u32) -> Option<Vec<u8>> {
    let mut record = fields.record();
    record[0] |= 1 << bit;
    Some(record)
}

/// The record that fields of a degree which is not served would have.
fn of_another_degree(random: &mut Random, fields: &FieldSet) -> Option<Vec<u8>> {
    let degree = random.pick(&NEAR_DEGREES);
    Some(field_set_of(random, degree, fields.map() as usize).record())
}

fn with_bit_of_degree(random: &mut Random, fields: &FieldSet) -> Option<Vec<u8>> {
    let mut record = fields.record();
    let others: Vec<usize> = (0..16).filter(|bit| 1 << bit != fields.n).collect();
    let bit = random.pick(&others);
    record[2 - bit / 8] |= 1 << (bit % 8);
    Some(record)
}

/// Without z1 and z2, 4 and 1,024 may stand for each other.
fn with_degree_exchanged(_: &mut Random, fields: &FieldSet) -> Option<Vec<u8>> {
    let mut record = fields.record();
    record.swap(1, 2);
    (fields.map() > 1).then_some(record)
}

/// The record with another text of its challenge.
fn with_challenge_text(fields: &FieldSet, text: &str) -> Option<Vec<u8>> {
    fields.challenge.as_ref()?;
    let own = fields.text();
    let without = FieldSet { challenge: None, ..fields.clone() }.text();
    let (head, z) = (&own[..24], &without[24..]);
    Some(packed(format!("{head}{text}{z}")))
}

fn positions_text(positions: &[u32]) -> String {
    positions.iter().map(|position| format!("{position:016b}")).collect()
}

fn with_positions(fields: &FieldSet, positions: Vec<u32>) -> Option<Vec<u8>> {
    with_challenge_text(fields, &format!("{:08b}{}", positions.len(), positions_text(&positions)))
}

fn with_count(fields: &FieldSet, count: fn(usize) -> usize) -> Option<Vec<u8>> {
    let positions = fields.challenge.as_ref()?;
    with_challenge_text(fields, &format!("{:08b}{}", count(positions.len()), positions_text(positions)))
}

fn with_so_many_positions(random: &mut Random, fields: &FieldSet, count: usize) -> Option<Vec<u8>> {
    let positions = challenge_of(random, fields.n, count);
    with_positions(fields, positions).filter(|_| count <= fields.n)
}

fn with_neighbours(random: &mut Random, fields: &FieldSet, spoil: fn(&mut [u32])) -> Option<Vec<u8>> {
    let mut positions = fields.challenge.clone().filter(|positions| positions.len() > 1)?;
    let place = random.below(positions.len() - 1);
    spoil(&mut positions[place..place + 2]);
    with_positions(fields, positions)
}

fn with_last_position(fields: &FieldSet, other: impl Fn(usize) -> usize) -> Option<Vec<u8>> {
    let mut positions = fields.challenge.clone()?;
    let last = positions.last_mut()?;
    *last = other(*last as usize) as u32;
    with_positions(fields, positions)
}

/// The last position and a multiple of 256, that is n or more.
fn with_high_byte(random: &mut Random, fields: &FieldSet) -> Option<Vec<u8>> {
    let step = fields.n.max(256);
    let times = 1 + random.below((1 << 16) / step - 1);
    with_last_position(fields, |last| last + times * step)
}

/// The texts of all values of z1 and z2. None without both.
fn value_texts(fields: &FieldSet) -> Option<Vec<String>> {
    let values = [&fields.z1, &fields.z2].into_iter().flatten().flatten();
    (fields.map() > 1).then(|| values.map(|&value| value_text(value)).collect())
}

/// The record with other texts for the values of z1 and z2.
fn with_value_texts(fields: &FieldSet, change: impl FnOnce(&mut Vec<String>)) -> Option<Vec<u8>> {
    let mut texts = value_texts(fields)?;
    let text = fields.text();
    let head = &text[..text.len() - texts.concat().len()];
    change(&mut texts);
    Some(packed(format!("{head}{}", texts.concat())))
}

/// The record with another text for one value: the first, the last or any.
fn with_value(random: &mut Random, fields: &FieldSet, text: &str) -> Option<Vec<u8>> {
    with_value_texts(fields, |texts| {
        let any = random.below(texts.len());
        let place = random.pick(&[0, texts.len() - 1, any]);
        texts[place] = text.into();
    })
}

fn with_more_zeros(random: &mut Random, fields: &FieldSet) -> Option<Vec<u8>> {
    let zeros = random.pick(&[27, 31, 32, 33, 63, 64, 255, 256, 600]);
    let small = value_text(super::within(random, 127));
    with_value(random, fields, &format!("{}{}1", &small[..8], "0".repeat(zeros)))
}

/// The record with a one in its pad, at a bit counted from the lowest.
fn with_one_in_pad(fields: &FieldSet, bit: fn(usize) -> usize) -> Option<Vec<u8>> {
    let bits = Some(pad(fields)).filter(|&bits| bits > 0)?;
    let mut record = fields.record();
    *record.last_mut()? |= 1 << bit(bits);
    Some(record)
}

fn cut(fields: &FieldSet, length: usize) -> Option<Vec<u8>> {
    let mut record = fields.record();
    record.truncate(length);
    Some(record)
}
