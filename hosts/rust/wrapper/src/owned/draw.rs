//! The draw with memory of its own, and the noise that it makes.

use alloc::vec;
use alloc::vec::Vec;

use super::CallError;
use crate::{draw_list_length, sample_count, Counts, Deviation, Fault, Secret, Session};

/// What a draw with memory of its own leaves.
#[derive(Debug)]
#[must_use]
pub enum OwnedDraw {
    /// 2n samples were accepted.
    Full(Noise),
    /// The limit was reached first: there is nothing to respond with.
    Spent(Spent),
}

/// The noise of a full draw, with the session that drew it. It is wiped when it is dropped.
///
/// It is used for one response:
///
/// ```compile_fail,E0382
/// # use bliss_box::{Noise, Secret, POLYNOMIAL, RESPOND_WORDS};
/// fn respond_twice(noise: Noise, key: &[i32]) {
///     let _ = noise.respond(&[1], &POLYNOMIAL, Secret::zeroed(RESPOND_WORDS), key);
///     let _ = noise.respond(&[2], &POLYNOMIAL, Secret::zeroed(RESPOND_WORDS), key);
/// }
/// ```
///
/// And there is none after a spent draw:
///
/// ```compile_fail,E0599
/// # use bliss_box::{Secret, Spent, POLYNOMIAL, RESPOND_WORDS};
/// fn respond_without_noise(spent: Spent, key: &[i32]) {
///     let _ = spent.respond(&[1], &POLYNOMIAL, Secret::zeroed(RESPOND_WORDS), key);
/// }
/// ```
#[derive(Debug)]
#[must_use]
pub struct Noise {
    pub(super) session: Session,
    pub(super) y: Secret<i32>,
    pub(super) counts: Counts,
    pub(super) list: Vec<u32>,
}

/// What a spent draw leaves.
#[derive(Debug)]
#[must_use]
pub struct Spent {
    /// The next session, with nothing drawn.
    pub session: Session,
    /// What the draw counted.
    pub counts: Counts,
    /// The read list: the filled part alone.
    pub list: Vec<u32>,
}

impl Session {
    /// [`Session::draw`] with words that are wiped after it, and with a y and a list of its own.
    ///
    /// # Errors
    ///
    /// The refusal, with this session, or the fault that is found in what the draw left.
    pub fn draw_owned(
        self,
        limit: usize,
        cdt: &[u64],
        polynomial: &[u64],
        words: Secret<u64>,
    ) -> Result<OwnedDraw, CallError<Session>> {
        let n = self.degree();
        // A larger limit is refused before the list is looked at, so it is given none.
        let length = if limit <= 32 * n { draw_list_length(limit) } else { 0 };
        let mut y = Secret::zeroed(sample_count(n));
        let mut list = vec![0; length];
        let drawn = self.draw(limit, cdt, polynomial, &words, &mut y, &mut list);
        let counts = match drawn.answer {
            Ok(counts) => counts,
            Err(refusal) => return Err(CallError::Refused(refusal, drawn.session)),
        };
        Ok(OwnedDraw::of(drawn.session, counts, y, list)?)
    }
}

impl OwnedDraw {
    /// What a served draw left, where there is no fault in it.
    pub(super) fn of(session: Session, counts: Counts, y: Secret<i32>, mut list: Vec<u32>) -> Result<OwnedDraw, Fault> {
        counts.check(session.degree(), &y, &list)?;
        list.truncate(counts.entries);
        Ok(if session.is_drawn() {
            OwnedDraw::Full(Noise { session, y, counts, list })
        } else {
            OwnedDraw::Spent(Spent { session, counts, list })
        })
    }
}

impl Noise {
    /// n: there are 2n samples.
    #[must_use]
    pub fn degree(&self) -> usize {
        self.session.degree()
    }

    /// The deviation that they were drawn with.
    #[must_use]
    pub fn deviation(&self) -> Deviation {
        self.session.deviation()
    }

    /// The 2n samples in the order of their acceptance, for what a signature commits to.
    #[must_use]
    pub fn samples(&self) -> &[i32] {
        &self.y
    }

    /// What the draw counted.
    #[must_use]
    pub fn counts(&self) -> Counts {
        self.counts
    }

    /// The read list of the draw: the filled part alone.
    #[must_use]
    pub fn list(&self) -> &[u32] {
        &self.list
    }

    /// Wipes the noise unused, and hands back its session.
    pub fn discard(self) -> Session {
        self.session
    }
}
