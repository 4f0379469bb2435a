//! The response.

use super::Session;

/// `bliss_respond_answer`. The bit of a refused call is false, and its count 0.
#[repr(C)]
#[derive(Clone, Copy, Debug, PartialEq, Eq)]
pub struct RespondAnswer {
    /// 0 is a served call.
    pub refusal: u32,
    /// True: z is the response. False: it is rejected.
    pub bit: bool,
    /// The entries written from the start of the list.
    pub entries: usize,
}

layout!(RespondAnswer of 16 bytes: refusal at 0, bit at 4, entries at 8);

/// `bliss_responded`.
#[repr(C)]
#[derive(Clone, Copy, Debug, PartialEq, Eq)]
pub struct Responded {
    /// What the response came to.
    pub answer: RespondAnswer,
    /// The next session.
    pub session: Session,
}

layout!(Responded of 40 bytes: answer at 0, session at 16);

extern "C" {
    /// Turns y, the key and the challenge into z or a rejection, and lists what it reads. An empty challenge is served: z is then y.
    ///
    /// # Safety
    ///
    /// It takes any session. Each pointer must be aligned, not null and valid for its length in values, `y`, `z` and `list` for
    /// writing too, and none of these three may overlap any other buffer.
    pub fn bliss_respond(
        session: Session,
        challenge: *const u32,
        challenge_length: usize,
        polynomial: *const u64,
        polynomial_length: usize,
        words: *const u64,
        words_length: usize,
        key: *const i32,
        key_length: usize,
        y: *mut i32,
        y_length: usize,
        z: *mut i32,
        z_length: usize,
        list: *mut u32,
        list_length: usize,
    ) -> Responded;
}
