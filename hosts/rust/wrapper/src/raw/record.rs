//! Records.

/// `bliss_fields`: which fields a record is to have.
#[repr(C)]
#[derive(Clone, Copy, Debug, PartialEq, Eq)]
pub struct Fields {
    /// The challenge.
    pub challenge: bool,
    /// z1.
    pub z1: bool,
    /// z2.
    pub z2: bool,
}

layout!(Fields of 3 bytes: challenge at 0, z1 at 1, z2 at 2);

/// `bliss_written`. The length of a refused call is 0.
#[repr(C)]
#[derive(Clone, Copy, Debug, PartialEq, Eq)]
pub struct Written {
    /// 0 is a served call.
    pub refusal: u32,
    /// The bytes of the record.
    pub length: usize,
}

layout!(Written of 16 bytes: refusal at 0, length at 8);

/// `bliss_contents`. All numbers of a refused call are 0 but the refusal.
#[repr(C)]
#[derive(Clone, Copy, Debug, PartialEq, Eq)]
pub struct Contents {
    /// 0 is a served call.
    pub refusal: u32,
    /// Which fields the record has: 1 for the challenge, 2 for z1 and 4 for z2.
    pub map: u32,
    /// The degree.
    pub degree: usize,
    /// The positions of the challenge; 0 where the record has none.
    pub positions: usize,
    /// The values of z1; 0 where the record has none.
    pub z1: usize,
    /// The values of z2; 0 where the record has none.
    pub z2: usize,
}

layout!(Contents of 40 bytes: refusal at 0, map at 4, degree at 8, positions at 16, z1 at 24, z2 at 32);

extern "C" {
    /// Writes the record of a signature's fields.
    ///
    /// # Safety
    ///
    /// It takes any degree. Each pointer must be aligned, not null and valid for its length in values, that of a field which is
    /// not told too, and `out` for writing. `out` may not overlap any other buffer.
    pub fn bliss_write_record(
        n: usize,
        fields: Fields,
        challenge: *const u32,
        challenge_length: usize,
        z1: *const i32,
        z1_length: usize,
        z2: *const i32,
        z2_length: usize,
        out: *mut u8,
        out_length: usize,
    ) -> Written;

    /// Reads a record.
    ///
    /// # Safety
    ///
    /// Each pointer must be aligned, not null and valid for its length in values, `challenge`, `z1` and `z2` for writing too, and
    /// none of these three may overlap any other buffer.
    pub fn bliss_read_record(
        bytes: *const u8,
        bytes_length: usize,
        challenge: *mut u32,
        challenge_length: usize,
        z1: *mut i32,
        z1_length: usize,
        z2: *mut i32,
        z2_length: usize,
    ) -> Contents;

    /// The packed length of a value of this size in a record, or 0 where no value of it can be stored.
    ///
    /// # Safety
    ///
    /// It takes any number.
    pub fn bliss_packed_length(size: u32) -> usize;
}
