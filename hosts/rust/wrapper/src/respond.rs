//! The response, with memory that the host lends.

use crate::fault::check_list;
use crate::refusal::served;
use crate::{filled, raw, sample_count, Fault, Kind, Refusal, Session};

/// The most positions that a challenge may have at degree `n`.
#[must_use]
pub const fn challenge_limit(n: usize) -> usize {
    if n < 64 {
        n
    } else {
        64
    }
}

/// The greatest size of a value of z1, the first n values of z, in a response with bit true. A verifier of BLISS-I throws out a
/// signature with a greater one, so the response is rejected. z2 is not tested: the host rounds it, and tests that half itself.
pub const COEFFICIENT_LIMIT: i32 = 2_100;

/// The words that a response must be lent.
pub const RESPOND_WORDS: usize = 3;

/// The list entries that a response to a challenge of so many positions must be lent at degree `n`: just as many as it writes.
#[must_use]
pub const fn respond_list_length(n: usize, positions: usize) -> usize {
    sample_count(n) * positions + 47
}

/// In the place of an empty challenge, where a blank response was not asked for: a position of no degree. The box refuses it by 6,
/// unless an earlier refusal applies.
const NO_CHALLENGE: &[u32] = &[u32::MAX];

/// What a served response came to.
#[derive(Clone, Copy, Debug, PartialEq, Eq)]
pub struct Outcome {
    /// True: z is the response. False: it is rejected, and z is all zero.
    pub bit: bool,
    /// The entries written from the start of the list.
    pub entries: usize,
}

/// The answer to a respond call, and the next session.
#[derive(Debug, PartialEq, Eq)]
#[must_use]
pub struct Responded {
    /// What the response came to, or why the call was refused.
    pub answer: Result<Outcome, Refusal>,
    /// The next session. A refused call hands back the session that it took.
    pub session: Session,
}

impl Session {
    /// Turns `y`, the key (s1 and then s2) and the challenge (its positions, ascending, at least one) into the response `z` or a
    /// rejection, and lists its reads from the start of `list`.
    ///
    /// Bit true: `z` is y plus or minus the product of key and challenge modulo X^n + 1. Bit false: `z` is all zero, and a new try
    /// needs a new draw. Either way `y` is all zero, and the next session has nothing drawn. The rest of `list` is unchanged. A
    /// refused call changes neither `y` nor `z` nor `list`.
    ///
    /// A session of another deviation than 215 is refused: the tests of a response are BLISS-I's.
    ///
    /// The words must be fresh random words, as many as [`RESPOND_WORDS`] or more, used for this response alone. With noise drawn
    /// by [`CDT`](crate::CDT) a response is accepted with a chance of about 0.61, and never where the product's sum of squares is
    /// above 46,225; a key that passes [`check_key`](crate::check_key) at the challenge's length makes no such product. Nor is one
    /// accepted with a value of z1 above [`COEFFICIENT_LIMIT`] in size, which this noise all but never makes.
    ///
    /// An empty challenge, as a hash that failed may leave it, is refused. [`Session::respond_blank`] answers it.
    #[allow(clippy::too_many_arguments)]
    pub fn respond(
        self,
        challenge: &[u32],
        polynomial: &[u64],
        words: &[u64],
        key: &[i32],
        y: &mut [i32],
        z: &mut [i32],
        list: &mut [u32],
    ) -> Responded {
        let challenge = if challenge.is_empty() { NO_CHALLENGE } else { challenge };
        self.answer(challenge, polynomial, words, key, y, z, list)
    }

    /// A blank response, for bench work: the response to the empty challenge. Its product is zero, so that bit true hands the noise
    /// back as it was drawn: `z` is what `y` was.
    ///
    /// All tests of the bit apply; noise drawn by [`CDT`](crate::CDT) passes with a chance of about 0.61. It asks for words, a list
    /// ([`respond_list_length`] of 0 positions) and a key as [`Session::respond`] does, leaves `y`, `z` and `list` as that does, and
    /// reads of the key no more than its range.
    ///
    /// This `z` is raw noise. Whoever has a response over the same noise too, made of the same words, has the key.
    pub fn respond_blank(
        self,
        polynomial: &[u64],
        words: &[u64],
        key: &[i32],
        y: &mut [i32],
        z: &mut [i32],
        list: &mut [u32],
    ) -> Responded {
        self.answer(&[], polynomial, words, key, y, z, list)
    }

    #[allow(clippy::too_many_arguments)]
    fn answer(
        self,
        challenge: &[u32],
        polynomial: &[u64],
        words: &[u64],
        key: &[i32],
        y: &mut [i32],
        z: &mut [i32],
        list: &mut [u32],
    ) -> Responded {
        // SAFETY: as for a draw; the three buffers that are written are borrowed for this call alone.
        let responded = unsafe {
            raw::bliss_respond(
                self.0,
                challenge.as_ptr(),
                challenge.len(),
                polynomial.as_ptr(),
                polynomial.len(),
                words.as_ptr(),
                words.len(),
                key.as_ptr(),
                key.len(),
                y.as_mut_ptr(),
                y.len(),
                z.as_mut_ptr(),
                z.len(),
                list.as_mut_ptr(),
                list.len(),
            )
        };
        let raw::RespondAnswer { refusal, bit, entries } = responded.answer;
        let answer = served(refusal).map(|()| Outcome { bit, entries });
        Responded { answer, session: Session(responded.session) }
    }
}

impl Outcome {
    /// Looks at what a served response of this degree, to a challenge of so many positions, left: a list that fits this outcome.
    ///
    /// # Errors
    ///
    /// The fault that is found.
    pub fn check(&self, degree: usize, positions: usize, list: &[u32]) -> Result<(), Fault> {
        let filled = filled(list, self.entries);
        let is_whole = filled.len() == respond_list_length(degree, positions);
        check_list(is_whole, filled, (Kind::Response, degree), (Kind::Bit, self.bit.into()))
    }
}
