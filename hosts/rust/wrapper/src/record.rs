//! Records: a signature as bytes.

use alloc::vec;
use alloc::vec::Vec;

use crate::refusal::served;
use crate::{challenge_limit, raw, version, Refusal};

/// The greatest size of a value of z1 or z2 in a record. Every value of a response is within it.
pub const VALUE_LIMIT: i32 = 3_263;

/// The largest degree of a record.
const GREATEST_DEGREE: usize = 1_024;

/// The most bytes of a record of degree `n`, with a challenge of so many positions, z1 and z2: 34 bits for each value. Where that
/// is above [`usize::MAX`], it is `usize::MAX`.
#[must_use]
pub const fn record_length_limit(n: usize, positions: usize) -> usize {
    let bytes = 4 + 2 * positions as u128 + (68 * n as u128).div_ceil(8);
    if bytes < usize::MAX as u128 {
        bytes as usize
    } else {
        usize::MAX
    }
}

/// The packed length of a value of z1 or z2, by its size, which is the value without its sign: how many bits it takes in a record,
/// 9 to 34. It is read from the table by which records are written and read. A size above [`VALUE_LIMIT`] has none.
///
/// ```
/// use bliss_box::packed_length;
///
/// assert_eq!([0, 127, 128, 3_263, 3_264].map(packed_length), [Some(9), Some(9), Some(10), Some(34), None]);
/// assert_eq!(packed_length((-3_263_i32).unsigned_abs()), Some(34));
/// ```
///
/// The time that it takes depends on the size: it is for values that are published.
#[must_use]
pub fn packed_length(size: u32) -> Option<usize> {
    // SAFETY: the call takes any number and no pointer.
    match unsafe { raw::bliss_packed_length(size) } {
        0 => None,
        length => Some(length),
    }
}

/// A signature's fields, each there or not, as a record holds them. They are public.
///
/// A record is a sequence of bytes: a map of the fields that it has, the degree, and these fields, packed. Each `Record` that can
/// be written has just one, and each sequence of bytes that can be read is that of just one `Record`. So equal signatures are
/// stored as equal bytes, and the other way round.
///
/// ```
/// use bliss_box::{Record, Refusal};
///
/// let record = Record { degree: 4, challenge: Some(vec![0, 3]), z1: Some(vec![0, 1, -1, 127]), z2: None };
/// let bytes = record.to_bytes()?;
/// assert_eq!(bytes, [3, 0, 4, 2, 0, 0, 0, 3, 0x00, 0x80, 0xe0, 0x6f, 0xf0]);
/// assert_eq!(Record::from_bytes(&bytes)?, record);
/// assert_eq!(Record::from_bytes(&bytes[..12]), Err(Refusal::Record));
/// # Ok::<(), Refusal>(())
/// ```
#[derive(Clone, Debug, Default, PartialEq, Eq)]
pub struct Record {
    /// The degree n: a power of two from 4 to 1,024.
    pub degree: usize,
    /// The positions of the challenge in ascending order: 1 to 64 of them.
    pub challenge: Option<Vec<u32>>,
    /// The first half of the response: n values from -[`VALUE_LIMIT`] to [`VALUE_LIMIT`].
    pub z1: Option<Vec<i32>>,
    /// The second half, as the host has it, rounded or not: as z1.
    pub z2: Option<Vec<i32>>,
}

impl Record {
    /// Writes the record.
    ///
    /// # Errors
    ///
    /// Refuses, in this order, a degree that is not a power of two from 4 to 1,024, a z1 or z2 that is not n values, a challenge
    /// that is empty, longer than 64, has a position of n or more or does not ascend strictly, and a value of z1 or z2 outside
    /// -[`VALUE_LIMIT`] to [`VALUE_LIMIT`].
    ///
    /// # Panics
    ///
    /// Where the archive is not of this crate's version, as [`Session::open`](crate::Session::open) does.
    pub fn to_bytes(&self) -> Result<Vec<u8>, Refusal> {
        version::demand(version::of_archive());
        let fields = raw::Fields { challenge: self.challenge.is_some(), z1: self.z1.is_some(), z2: self.z2.is_some() };
        let challenge = self.challenge.as_deref().unwrap_or_default();
        let z1 = self.z1.as_deref().unwrap_or_default();
        let z2 = self.z2.as_deref().unwrap_or_default();
        // Of a larger degree, or with more positions, it is refused before its length is looked at.
        let n = self.degree.min(GREATEST_DEGREE);
        let mut bytes = vec![0; record_length_limit(n, challenge.len().min(challenge_limit(n)))];
        // SAFETY: pointers and lengths are those of slices, so the memory is aligned and valid for as many values; an empty
        // slice's pointer dangles, and at length 0 none is used. The bytes are borrowed for this call alone.
        let written = unsafe {
            raw::bliss_write_record(
                self.degree,
                fields,
                challenge.as_ptr(),
                challenge.len(),
                z1.as_ptr(),
                z1.len(),
                z2.as_ptr(),
                z2.len(),
                bytes.as_mut_ptr(),
                bytes.len(),
            )
        };
        served(written.refusal)?;
        bytes.truncate(written.length);
        Ok(bytes)
    }

    /// Reads a record.
    ///
    /// # Errors
    ///
    /// [`Refusal::Record`] where the bytes are no record: no other bytes than those that [`Record::to_bytes`] gives are one.
    ///
    /// # Panics
    ///
    /// Where the archive is not of this crate's version, as [`Session::open`](crate::Session::open) does.
    pub fn from_bytes(bytes: &[u8]) -> Result<Record, Refusal> {
        version::demand(version::of_archive());
        // Whatever the bytes are, no field of theirs is longer than these outputs.
        let n = match *bytes {
            [_, high, low, ..] => usize::from(u16::from_be_bytes([high, low])).min(GREATEST_DEGREE),
            _ => 0,
        };
        let mut challenge = vec![0; challenge_limit(n)];
        let mut z1 = vec![0; n];
        let mut z2 = vec![0; n];
        // SAFETY: as for writing; the three outputs are borrowed for this call alone.
        let contents = unsafe {
            raw::bliss_read_record(
                bytes.as_ptr(),
                bytes.len(),
                challenge.as_mut_ptr(),
                challenge.len(),
                z1.as_mut_ptr(),
                z1.len(),
                z2.as_mut_ptr(),
                z2.len(),
            )
        };
        served(contents.refusal)?;
        Ok(Record {
            degree: contents.degree,
            challenge: field(challenge, contents.positions, contents.map & 1 != 0),
            z1: field(z1, contents.z1, contents.map & 2 != 0),
            z2: field(z2, contents.z2, contents.map & 4 != 0),
        })
    }
}

/// A field of so many values, if the record has it.
fn field<T>(mut values: Vec<T>, length: usize, is_there: bool) -> Option<Vec<T>> {
    values.truncate(length);
    is_there.then_some(values)
}
