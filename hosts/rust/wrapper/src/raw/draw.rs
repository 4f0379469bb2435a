//! The draw.

use super::Session;

/// `bliss_draw_answer`. The counts of a refused draw are 0.
#[repr(C)]
#[derive(Clone, Copy, Debug, PartialEq, Eq)]
pub struct DrawAnswer {
    /// 0 is a served draw.
    pub refusal: u32,
    /// The attempts made.
    pub attempts: usize,
    /// The samples accepted: 2n if the draw is full, and fewer if it is spent.
    pub accepted: usize,
    /// The entries written from the start of the list.
    pub entries: usize,
}

layout!(DrawAnswer of 32 bytes: refusal at 0, attempts at 8, accepted at 16, entries at 24);

/// `bliss_drawn`.
#[repr(C)]
#[derive(Clone, Copy, Debug, PartialEq, Eq)]
pub struct Drawn {
    /// What the draw counted.
    pub answer: DrawAnswer,
    /// The next session.
    pub session: Session,
}

layout!(Drawn of 56 bytes: answer at 0, session at 32);

extern "C" {
    /// Draws y, and lists what it reads.
    ///
    /// # Safety
    ///
    /// It takes any session and any limit. Each pointer must be aligned, not null and valid for its length in values, `y` and `list`
    /// for writing too, and neither of these two may overlap any other buffer.
    pub fn bliss_draw(
        session: Session,
        limit: usize,
        cdt: *const u64,
        cdt_length: usize,
        polynomial: *const u64,
        polynomial_length: usize,
        words: *const u64,
        words_length: usize,
        y: *mut i32,
        y_length: usize,
        list: *mut u32,
        list_length: usize,
    ) -> Drawn;
}
