//! One pass over the values: bits wait in a word until they are whole bytes, and several values are read out of one word.

use bliss_box::raw::Contents;
use bliss_box::Refusal;

use super::{demand_room, ends_at, is_value, sign_and_low, window, Fields, Header};
use crate::baseline::refusals::check_record;

/// The most values of a record.
const VALUES: usize = 2048;

/// The most bits that fit into a word behind those that are no whole byte.
const MOST_ADDED: u32 = 57;

/// The most bits of a value.
const LONGEST: u32 = 34;

/// Writes a record to the start of an output. Gives its length.
#[inline(never)]
pub fn write(fields: Fields, out: &mut [u8]) -> Result<usize, Refusal> {
    check_record(&fields)?;
    let length = fields.length(|size| 9 + size / 128);
    let page = out.get_mut(..length).ok_or(Refusal::Output)?;
    let next = fields.put_header(page);
    let mut waiting = Waiting { page, next, word: 0, bits: 0 };
    for z in fields.halves() {
        for two in z.chunks_exact(2) {
            let [(first, first_bits), (second, second_bits)] = [form(two[0]), form(two[1])];
            if first_bits + second_bits <= MOST_ADDED {
                waiting.add(first << second_bits | second, first_bits + second_bits);
            } else {
                waiting.add(first, first_bits);
                waiting.add(second, second_bits);
            }
        }
    }
    Ok(length)
}

/// The bits of a value, and how many these are.
fn form(value: i32) -> (u64, u32) {
    let zeros = value.unsigned_abs() / 128;
    (sign_and_low(value) << (zeros + 1) | 1, 9 + zeros)
}

/// The bits that are not yet a whole byte, from the highest of a word down.
struct Waiting<'a> {
    page: &'a mut [u8],
    /// The byte that they belong to.
    next: usize,
    word: u64,
    bits: u32,
}

impl Waiting<'_> {
    /// Adds a number of so many bits. All bits go out at once, and those that are no whole byte go out again with the next.
    #[inline(always)]
    fn add(&mut self, number: u64, bits: u32) {
        self.bits += bits;
        self.word |= number << (64 - self.bits);
        let room = &mut self.page[self.next..];
        let out = self.word.to_be_bytes();
        match room.first_chunk_mut::<8>() {
            Some(eight) => *eight = out,
            None => room.copy_from_slice(&out[..room.len()]),
        }
        self.next += (self.bits / 8) as usize;
        self.word <<= self.bits / 8 * 8;
        self.bits %= 8;
    }
}

/// Reads a record: each of its fields goes to the start of its output.
#[inline(never)]
pub fn read(bytes: &[u8], challenge: &mut [u32], z1: &mut [i32], z2: &mut [i32]) -> Result<Contents, Refusal> {
    let header = Header::of(bytes).ok_or(Refusal::Record)?;
    let contents = header.contents;
    // A refusal leaves the outputs as they were, so that values go elsewhere first.
    let mut values = [0; VALUES];
    let values = &mut values[..contents.z1 + contents.z2];
    let end = get_values(bytes, 8 * header.end, values).ok_or(Refusal::Record)?;
    if !ends_at(bytes, end) {
        return Err(Refusal::Record);
    }
    demand_room(&contents, challenge, z1, z2)?;
    challenge[..contents.positions].copy_from_slice(header.positions());
    let (first, second) = values.split_at(contents.z1);
    z1[..contents.z1].copy_from_slice(first);
    z2[..contents.z2].copy_from_slice(second);
    Ok(contents)
}

/// Reads values, and gives the place behind them if each may stand in a record.
fn get_values(bytes: &[u8], start: usize, values: &mut [i32]) -> Option<usize> {
    let (mut place, mut word, mut left) = (start, 0, 0);
    for output in values {
        if left < LONGEST {
            word = window(bytes, place);
            left = 57;
        }
        let minus = word >> 63 == 1;
        let zeros = (word << 8).leading_zeros();
        let size = (word >> 56 & 127) as i32 + 128 * zeros as i32;
        if !is_value(minus, size) {
            return None;
        }
        *output = if minus { -size } else { size };
        word <<= 9 + zeros;
        left -= 9 + zeros;
        place += 9 + zeros as usize;
    }
    Some(place)
}
