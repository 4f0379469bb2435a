//! The draw, with memory that the host lends.

use crate::fault::check_list;
use crate::refusal::served;
use crate::{filled, raw, Deviation, Fault, Kind, Refusal, Session};

/// The samples that a draw makes at degree `n`: the length of y, and of z and the key.
#[must_use]
pub const fn sample_count(n: usize) -> usize {
    2 * n
}

/// A limit for draws by the [CDT table of a deviation](Deviation::cdt) at degree `n`: so many attempts are spent with a chance of at
/// most 2^-64. At 107 more attempts are rejected than at the others.
#[must_use]
pub const fn draw_limit(n: usize, deviation: Deviation) -> usize {
    match deviation {
        Deviation::D107 => 6 * n + 88,
        Deviation::D215 | Deviation::D250 | Deviation::D271 => 4 * n + 56,
    }
}

/// The words that a draw of at most `limit` attempts must be lent.
#[must_use]
pub const fn draw_word_count(limit: usize) -> usize {
    4 * limit
}

/// The list entries that a draw of at most `limit` attempts must be lent.
#[must_use]
pub const fn draw_list_length(limit: usize) -> usize {
    46 * limit + 2
}

/// What a served draw counted.
#[derive(Clone, Copy, Debug, PartialEq, Eq)]
pub struct Counts {
    /// The attempts made, at most the limit.
    pub attempts: usize,
    /// The samples accepted: 2n if the draw is full, and fewer if it is spent.
    pub accepted: usize,
    /// The entries written from the start of the list.
    pub entries: usize,
}

/// The answer to a draw, and the next session.
#[derive(Debug, PartialEq, Eq)]
#[must_use]
pub struct Drawn {
    /// What the draw counted, or why it was refused.
    pub answer: Result<Counts, Refusal>,
    /// The next session. A refused draw hands back the session that it took.
    pub session: Session,
}

impl Session {
    /// Draws 2n samples into `y` in at most `limit` attempts, 2n to 32n, and lists its reads from the start of `list`.
    ///
    /// Full: `y` holds the samples in order of acceptance. Spent, which is after `limit` attempts with fewer than 2n samples:
    /// `y` is all zero. The rest of `list` is unchanged. A refused draw changes neither `y` nor `list`.
    ///
    /// The CDT is that of the session's deviation ([`Deviation::cdt`]). With it an attempt is accepted with a chance of 0.496 at
    /// 107, 0.678 at 215, 0.710 at 250 and 0.726 at 271; [`draw_limit`] gives a limit that is all but never spent.
    ///
    /// ```
    /// use bliss_box::{draw_limit, draw_list_length, draw_word_count, sample_count, Deviation, Secret, Session, POLYNOMIAL};
    ///
    /// let deviation = Deviation::D215;
    /// let limit = draw_limit(512, deviation);
    /// let words = Secret::system_words(draw_word_count(limit))?; // used for this draw alone
    /// let mut y = Secret::zeroed(sample_count(512));
    /// let mut list = vec![0; draw_list_length(limit)];
    ///
    /// let session = Session::open(512, deviation)?;
    /// let drawn = session.draw(limit, deviation.cdt(), &POLYNOMIAL, &words, &mut y, &mut list);
    /// drawn.answer?.check(512, &y, &list)?; // faults
    /// # assert!(drawn.session.is_drawn());
    /// # Ok::<(), Box<dyn std::error::Error>>(())
    /// ```
    pub fn draw(self, limit: usize, cdt: &[u64], polynomial: &[u64], words: &[u64], y: &mut [i32], list: &mut [u32]) -> Drawn {
        // SAFETY: each pointer and length are those of one slice, so the memory is aligned and valid for as many values; an
        // empty slice's pointer dangles, and at length 0 none is read. The two buffers that are written are borrowed for this
        // call alone, so they overlap nothing. Whatever bits the box writes there are values of i32 and u32. It keeps no
        // pointer.
        let drawn = unsafe {
            raw::bliss_draw(
                self.0,
                limit,
                cdt.as_ptr(),
                cdt.len(),
                polynomial.as_ptr(),
                polynomial.len(),
                words.as_ptr(),
                words.len(),
                y.as_mut_ptr(),
                y.len(),
                list.as_mut_ptr(),
                list.len(),
            )
        };
        let raw::DrawAnswer { refusal, attempts, accepted, entries } = drawn.answer;
        let answer = served(refusal).map(|()| Counts { attempts, accepted, entries });
        Drawn { answer, session: Session(drawn.session) }
    }
}

impl Counts {
    /// Looks at what a served draw of this degree left: noise that is not all zero where the draw is full, and a list that fits these
    /// counts.
    ///
    /// # Errors
    ///
    /// The fault that is found.
    pub fn check(&self, degree: usize, y: &[i32], list: &[u32]) -> Result<(), Fault> {
        let filled = filled(list, self.entries);
        // There are fewer attempts than entries; of more, the number of entries could be beyond all numbers.
        let is_whole = self.attempts < filled.len() && filled.len() == draw_list_length(self.attempts);
        check_list(is_whole, filled, (Kind::Draw, degree), (Kind::Accepted, self.accepted))?;
        // All values are joined before the one test, which so depends on no single value.
        let joined = y.iter().fold(0, |joined, value| joined | value);
        match joined {
            0 if self.accepted == sample_count(degree) => Err(Fault::ZeroNoise),
            _ => Ok(()),
        }
    }
}
