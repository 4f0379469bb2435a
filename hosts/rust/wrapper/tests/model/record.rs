//! The record of a signature, by document 02's S-3 and S-4. Its bits are a text of '0' and '1': a record that is written is put
//! together of printed numbers, and one that is read is cut from its front.

use super::degree_is_served;

/// The largest size of a value.
pub const VALUE_LIMIT: i32 = 3_263;

/// What a record holds: a degree, and each field or none.
#[derive(Clone, Debug, PartialEq, Eq)]
pub struct FieldSet {
    pub n: usize,
    pub challenge: Option<Vec<u32>>,
    pub z1: Option<Vec<i32>>,
    pub z2: Option<Vec<i32>>,
}

/// A sign bit, seven low bits of the size, highest first, then size/128 zeros and a one.
pub fn value_text(value: i32) -> String {
    let sign = if value < 0 { '1' } else { '0' };
    let size = value.unsigned_abs();
    let zeros = "0".repeat(size as usize / 128);
    format!("{sign}{:07b}{zeros}1", size % 128)
}

/// S-4: 9 plus size/128; 0, which is no length, above the largest size.
pub fn packed_length(size: u32) -> usize {
    match size {
        0..=3_263 => 9 + size as usize / 128,
        _ => 0,
    }
}

/// A count byte and positions of two bytes, high byte first.
fn challenge_text(challenge: &[u32]) -> String {
    let positions: String = challenge.iter().map(|position| format!("{position:016b}")).collect();
    format!("{:08b}{positions}", challenge.len())
}

/// Each byte filled from its highest bit, padded with zero bits to a byte.
pub fn packed(mut text: String) -> Vec<u8> {
    while text.len() % 8 != 0 {
        text.push('0');
    }
    let bytes = text.as_bytes().chunks(8);
    bytes.map(|byte| byte.iter().fold(0, |byte, &bit| 2 * byte + (bit - b'0'))).collect()
}

/// The bits of bytes, from the highest of each.
fn unpacked(bytes: &[u8]) -> String {
    let bits = bytes.iter().flat_map(|byte| (0..8).rev().map(move |bit| byte >> bit & 1 == 1));
    bits.map(|one| if one { '1' } else { '0' }).collect()
}

impl FieldSet {
    /// Bit 0 challenge, bit 1 z1, bit 2 z2.
    pub fn map(&self) -> u32 {
        u32::from(self.challenge.is_some()) + 2 * u32::from(self.z1.is_some()) + 4 * u32::from(self.z2.is_some())
    }

    /// The text of the record, but for its pad.
    pub fn text(&self) -> String {
        let mut text = format!("{:08b}{:016b}", self.map(), self.n);
        if let Some(challenge) = &self.challenge {
            text += &challenge_text(challenge);
        }
        for z in [&self.z1, &self.z2].into_iter().flatten() {
            text.extend(z.iter().map(|&value| value_text(value)));
        }
        text
    }

    pub fn record(&self) -> Vec<u8> {
        packed(self.text())
    }

    /// The field set of which these bytes are the record, if they are one.
    pub fn of(bytes: &[u8]) -> Option<FieldSet> {
        let text = unpacked(bytes);
        let mut rest = Rest(&text);
        let map = rest.number(8)?;
        let n = rest.number(16)?;
        if map > 7 || !degree_is_served(n) {
            return None;
        }
        let challenge = if map % 2 == 1 { Some(rest.challenge(n)?) } else { None };
        let z1 = if map / 2 % 2 == 1 { Some(rest.z(n)?) } else { None };
        let z2 = if map / 4 % 2 == 1 { Some(rest.z(n)?) } else { None };
        rest.is_pad().then_some(FieldSet { n, challenge, z1, z2 })
    }
}

/// What is left of a text to read.
struct Rest<'a>(&'a str);

impl Rest<'_> {
    /// Cuts so many bits off.
    fn number(&mut self, bits: usize) -> Option<usize> {
        let (number, rest) = self.0.split_at_checked(bits)?;
        self.0 = rest;
        usize::from_str_radix(number, 2).ok()
    }

    fn challenge(&mut self, n: usize) -> Option<Vec<u32>> {
        let count = self.number(8)?;
        let challenge: Vec<u32> = (0..count).map(|_| Some(self.number(16)? as u32)).collect::<Option<_>>()?;
        challenge_is_right(&challenge, n).then_some(challenge)
    }

    fn z(&mut self, n: usize) -> Option<Vec<i32>> {
        (0..n).map(|_| self.value()).collect()
    }

    fn value(&mut self) -> Option<i32> {
        let sign = self.number(1)?;
        let low = self.number(7)?;
        let (zeros, rest) = self.0.split_once('1')?;
        self.0 = rest;
        let size = (128 * zeros.len() + low) as i32;
        if size > VALUE_LIMIT || (sign == 1 && size == 0) {
            return None;
        }
        Some(if sign == 1 { -size } else { size })
    }

    /// Whether no byte follows, and the last one is padded with zeros.
    fn is_pad(&self) -> bool {
        self.0.len() < 8 && !self.0.contains('1')
    }
}

/// Refusal 6 of document 01, the other way round. A record still wants at least one position.
fn challenge_is_right(challenge: &[u32], n: usize) -> bool {
    let ascends = challenge.windows(2).all(|pair| pair[0] < pair[1]);
    !challenge.is_empty() && challenge.len() <= 64 && ascends && challenge.iter().all(|&position| (position as usize) < n)
}

/// What a write call takes and is lent.
#[derive(Clone, Debug)]
pub struct Write {
    pub n: usize,
    /// Whether the record is to have a challenge, z1 and z2.
    pub told: [bool; 3],
    pub challenge: Vec<u32>,
    pub z1: Vec<i32>,
    pub z2: Vec<i32>,
    pub out: Vec<u8>,
}

/// The answer, and the output after the call.
#[derive(Clone, Debug, PartialEq, Eq)]
pub struct Written {
    pub refusal: u32,
    pub length: usize,
    pub out: Vec<u8>,
}

impl Write {
    /// The fields that are told.
    pub fn field_set(&self) -> FieldSet {
        let [challenge, z1, z2] = self.told;
        FieldSet {
            n: self.n,
            challenge: challenge.then(|| self.challenge.clone()),
            z1: z1.then(|| self.z1.clone()),
            z2: z2.then(|| self.z2.clone()),
        }
    }
}

/// The first refusal that applies to these fields, or 0.
fn refusal_of_fields(fields: &FieldSet) -> u32 {
    let FieldSet { n, challenge, z1, z2 } = fields;
    let zs = [z1, z2];
    if !degree_is_served(*n) {
        return 1;
    }
    if zs.into_iter().flatten().any(|z| z.len() != *n) {
        return 2;
    }
    if challenge.iter().any(|challenge| !challenge_is_right(challenge, *n)) {
        return 6;
    }
    if zs.into_iter().flatten().flatten().any(|value| !(-VALUE_LIMIT..=VALUE_LIMIT).contains(value)) {
        return 15;
    }
    0
}

pub fn write(call: &Write) -> Written {
    let fields = call.field_set();
    let refused = |refusal: u32| Written { refusal, length: 0, out: call.out.clone() };
    let refusal = refusal_of_fields(&fields);
    if refusal != 0 {
        return refused(refusal);
    }
    let record = fields.record();
    if call.out.len() < record.len() {
        return refused(14);
    }
    Written { refusal: 0, length: record.len(), out: at_start(&call.out, Some(&record)) }
}

/// What a read call takes and is lent.
#[derive(Clone, Debug)]
pub struct Read {
    pub bytes: Vec<u8>,
    pub challenge: Vec<u32>,
    pub z1: Vec<i32>,
    pub z2: Vec<i32>,
}

#[derive(Clone, Copy, Debug, Default, PartialEq, Eq)]
pub struct Contents {
    pub refusal: u32,
    pub map: u32,
    pub degree: usize,
    pub positions: usize,
    pub z1: usize,
    pub z2: usize,
}

/// The answer, and the outputs after the call.
#[derive(Clone, Debug, PartialEq, Eq)]
pub struct Reading {
    pub contents: Contents,
    pub challenge: Vec<u32>,
    pub z1: Vec<i32>,
    pub z2: Vec<i32>,
}

pub fn read(call: &Read) -> Reading {
    let Read { bytes, challenge, z1, z2 } = call;
    let refused = |refusal: u32| Reading {
        contents: Contents { refusal, ..Contents::default() },
        challenge: challenge.clone(),
        z1: z1.clone(),
        z2: z2.clone(),
    };
    let Some(fields) = FieldSet::of(bytes) else {
        return refused(15);
    };
    let lengths = [length(&fields.challenge), length(&fields.z1), length(&fields.z2)];
    let [positions, n1, n2] = lengths;
    if challenge.len() < positions || z1.len() < n1 || z2.len() < n2 {
        return refused(14);
    }
    Reading {
        contents: Contents { refusal: 0, map: fields.map(), degree: fields.n, positions, z1: n1, z2: n2 },
        challenge: at_start(challenge, fields.challenge.as_ref()),
        z1: at_start(z1, fields.z1.as_ref()),
        z2: at_start(z2, fields.z2.as_ref()),
    }
}

/// The length of a field, 0 where it is not there.
fn length<T>(field: &Option<Vec<T>>) -> usize {
    field.as_ref().map_or(0, Vec::len)
}

/// An output with a field at its start, if there is one.
fn at_start<T: Copy>(output: &[T], field: Option<&Vec<T>>) -> Vec<T> {
    let mut output = output.to_vec();
    if let Some(field) = field {
        output[..field.len()].copy_from_slice(field);
    }
    output
}
