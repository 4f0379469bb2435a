//! Records, written and read in the box's way, and in one pass.

pub mod fastest;
pub mod plain;

use bliss_box::raw::Contents;
use bliss_box::{Refusal, VALUE_LIMIT};

use super::refusals::{is_challenge, is_degree};

/// The bytes of the bit map and of the degree.
const HEADER: usize = 3;

/// The fields that a record is to have.
#[derive(Clone, Copy)]
pub struct Fields<'a> {
    pub n: usize,
    pub challenge: Option<&'a [u32]>,
    pub z1: Option<&'a [i32]>,
    pub z2: Option<&'a [i32]>,
}

impl Fields<'_> {
    pub fn halves(&self) -> impl Iterator<Item = &[i32]> {
        [self.z1, self.z2].into_iter().flatten()
    }

    /// The bytes of the record, by the packed length of a size.
    fn length(&self, packed_length: impl Fn(u32) -> u32) -> usize {
        let values: u32 = self.halves().flatten().map(|value| packed_length(value.unsigned_abs())).sum();
        HEADER + self.challenge.map_or(0, |challenge| 1 + 2 * challenge.len()) + values.div_ceil(8) as usize
    }

    /// Puts what stands before the values. Gives the byte behind it.
    fn put_header(&self, page: &mut [u8]) -> usize {
        page[0] = u8::from(self.challenge.is_some()) + 2 * u8::from(self.z1.is_some()) + 4 * u8::from(self.z2.is_some());
        page[1..HEADER].copy_from_slice(&(self.n as u16).to_be_bytes());
        let Some(challenge) = self.challenge else { return HEADER };
        page[HEADER] = challenge.len() as u8;
        let end = HEADER + 1 + 2 * challenge.len();
        for (two, position) in page[HEADER + 1..end].chunks_exact_mut(2).zip(challenge) {
            two.copy_from_slice(&(*position as u16).to_be_bytes());
        }
        end
    }
}

/// Seven low bits of a value's size, below its sign.
fn sign_and_low(value: i32) -> u64 {
    u64::from(value < 0) << 7 | u64::from(value.unsigned_abs() % 128)
}

/// What stands in bytes before the values, with the positions, of which there are 64 at most.
struct Header {
    contents: Contents,
    positions: [u32; 64],
    /// The byte behind it.
    end: usize,
}

impl Header {
    fn of(bytes: &[u8]) -> Option<Header> {
        let [map @ 0..=7, high, low, ref rest @ ..] = *bytes else { return None };
        let degree = usize::from(u16::from_be_bytes([high, low]));
        if !is_degree(degree) {
            return None;
        }
        let has = |bit: u8| map >> bit & 1 == 1;
        let (mut positions, mut count, mut end) = ([0; 64], 0, HEADER);
        if has(0) {
            count = usize::from(*rest.first()?);
            let two_bytes = rest.get(1..1 + 2 * count)?.chunks_exact(2);
            for (position, two) in positions.get_mut(..count)?.iter_mut().zip(two_bytes) {
                *position = u32::from(u16::from_be_bytes([two[0], two[1]]));
            }
            if !is_challenge(degree, &positions[..count]) {
                return None;
            }
            end += 1 + 2 * count;
        }
        let [z1, z2] = [has(1), has(2)].map(|has| if has { degree } else { 0 });
        Some(Header { contents: Contents { refusal: 0, map: map.into(), degree, positions: count, z1, z2 }, positions, end })
    }

    fn positions(&self) -> &[u32] {
        &self.positions[..self.contents.positions]
    }
}

/// Whether the bits of a record end at a place: zeros alone stand behind it in its byte, and no byte follows.
fn ends_at(bytes: &[u8], place: usize) -> bool {
    bytes.len() == place.div_ceil(8) && window(bytes, place) >> 56 == 0
}

/// At least 57 bits from a place on, from the highest bit of a word down. Zeros stand behind the bytes.
fn window(bytes: &[u8], place: usize) -> u64 {
    let k = place / 8;
    let eight = match bytes.get(k..k + 8) {
        Some(eight) => u64::from_be_bytes(eight.try_into().expect("eight bytes")),
        None => (k..k + 8).fold(0, |number, i| number << 8 | u64::from(bytes.get(i).copied().unwrap_or(0))),
    };
    eight << (place % 8)
}

/// Whether a value of this sign and size may stand in a record.
fn is_value(minus: bool, size: i32) -> bool {
    size <= VALUE_LIMIT && !(minus && size == 0)
}

fn demand_room(contents: &Contents, challenge: &[u32], z1: &[i32], z2: &[i32]) -> Result<(), Refusal> {
    let fits = challenge.len() >= contents.positions && z1.len() >= contents.z1 && z2.len() >= contents.z2;
    fits.then_some(()).ok_or(Refusal::Output)
}
