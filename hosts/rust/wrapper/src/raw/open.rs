//! Opening a session.

/// `bliss_session`.
#[repr(C)]
#[derive(Clone, Copy, Debug, PartialEq, Eq)]
pub struct Session {
    /// n; 0 from a refused opening.
    pub degree: usize,
    /// The deviation of the noise; 0 from a refused opening.
    pub deviation: u64,
    /// 1: y is drawn. Any other number: it is not.
    pub drawn: u64,
}

layout!(Session of 24 bytes: degree at 0, deviation at 8, drawn at 16);

/// `bliss_opened`.
#[repr(C)]
#[derive(Clone, Copy, Debug, PartialEq, Eq)]
pub struct Opened {
    /// 0 is a served opening.
    pub refusal: u32,
    /// The session, with nothing drawn.
    pub session: Session,
}

layout!(Opened of 32 bytes: refusal at 0, session at 8);

extern "C" {
    /// Opens a session of degree `n`, for noise of a deviation.
    ///
    /// # Safety
    ///
    /// It takes any numbers.
    pub fn bliss_open(n: usize, deviation: u64) -> Opened;
}
