//! The box's way: bits are put over zeros at their places, all of a record is looked through before it is read, and packed lengths are
//! those of a table.

use bliss_box::raw::Contents;
use bliss_box::{Refusal, VALUE_LIMIT};

use super::{demand_room, ends_at, is_value, sign_and_low, window, Fields, Header};
use crate::baseline::refusals::check_record;

/// The packed lengths of values, by size/128.
const PACKED_LENGTHS: [u8; 26] =
    [9, 10, 11, 12, 13, 14, 15, 16, 17, 18, 19, 20, 21, 22, 23, 24, 25, 26, 27, 28, 29, 30, 31, 32, 33, 34];

/// The packed length of a value of this size; 0 where it is too large.
fn packed_length(size: u32) -> u32 {
    if size > VALUE_LIMIT as u32 {
        return 0;
    }
    PACKED_LENGTHS[size as usize / 128].into()
}

/// Writes a record to the start of an output. Gives its length.
#[inline(never)]
pub fn write(fields: Fields, out: &mut [u8]) -> Result<usize, Refusal> {
    check_record(&fields)?;
    let length = fields.length(packed_length);
    let page = out.get_mut(..length).ok_or(Refusal::Output)?;
    page.fill(0);
    let mut place = 8 * fields.put_header(page);
    for z in fields.halves() {
        for value in z {
            place = put_value(page, place, *value);
        }
    }
    Ok(length)
}

/// Puts a value where zeros stand: eight bits into two bytes, and a one behind its zeros. Gives the place behind it.
fn put_value(page: &mut [u8], place: usize, value: i32) -> usize {
    let eight = sign_and_low(value);
    let (k, second) = (place / 8, place % 8);
    page[k] |= (eight >> second) as u8;
    page[k + 1] |= (eight << (8 - second)) as u8;
    let size = value.unsigned_abs();
    let one = place + 8 + (size / 128) as usize;
    page[one / 8] |= 128 >> (one % 8);
    place + packed_length(size) as usize
}

/// Reads a record: each of its fields goes to the start of its output.
#[inline(never)]
pub fn read(bytes: &[u8], challenge: &mut [u32], z1: &mut [i32], z2: &mut [i32]) -> Result<Contents, Refusal> {
    let header = Header::of(bytes).ok_or(Refusal::Record)?;
    let contents = header.contents;
    let end = values_end(bytes, 8 * header.end, contents.z1 + contents.z2).ok_or(Refusal::Record)?;
    if !ends_at(bytes, end) {
        return Err(Refusal::Record);
    }
    demand_room(&contents, challenge, z1, z2)?;
    challenge[..contents.positions].copy_from_slice(header.positions());
    let place = get_values(bytes, 8 * header.end, &mut z1[..contents.z1]);
    get_values(bytes, place, &mut z2[..contents.z2]);
    Ok(contents)
}

/// The value at a place: its number, whether it may stand in a record, and its bits. The longest form is read, of 34 bits: where the
/// last 26 of them are zeros, the size is too large.
fn value_at(bytes: &[u8], place: usize) -> (i32, bool, u32) {
    let form = window(bytes, place) >> 30;
    let minus = form >> 33 == 1;
    let zeros = (form % (1 << 26)).leading_zeros() - 38;
    let size = (form >> 26 & 127) as i32 + 128 * zeros as i32;
    (if minus { -size } else { size }, is_value(minus, size), packed_length(size as u32))
}

/// The place behind so many values, if each may stand in a record.
fn values_end(bytes: &[u8], start: usize, count: usize) -> Option<usize> {
    let mut place = start;
    for _ in 0..count {
        let (_, is_right, bits) = value_at(bytes, place);
        if !is_right {
            return None;
        }
        place += bits as usize;
    }
    Some(place)
}

fn get_values(bytes: &[u8], start: usize, z: &mut [i32]) -> usize {
    let mut place = start;
    for output in z {
        let (value, _, bits) = value_at(bytes, place);
        *output = value;
        place += bits as usize;
    }
    place
}
