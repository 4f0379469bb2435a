//! The response with memory of its own.

use alloc::vec;
use alloc::vec::Vec;

use super::{CallError, Noise};
use crate::{challenge_limit, respond_list_length, sample_count, Fault, Outcome, Responded, Secret, Session};

/// What a response with memory of its own leaves.
#[derive(Debug)]
#[must_use]
pub struct OwnedResponse {
    /// The next session, with nothing drawn.
    pub session: Session,
    /// The response; none where it is rejected.
    pub z: Option<Vec<i32>>,
    /// The read list: the filled part alone.
    pub list: Vec<u32>,
}

impl Noise {
    /// [`Session::respond`] with this noise and with words that are wiped after it, and with a z and a list of its own.
    ///
    /// # Errors
    ///
    /// The refusal, with this noise, or the fault that is found in what the response left.
    pub fn respond(
        self,
        challenge: &[u32],
        polynomial: &[u64],
        words: Secret<u64>,
        key: &[i32],
    ) -> Result<OwnedResponse, CallError<Noise>> {
        self.respond_by(challenge.len(), |session, y, z, list| session.respond(challenge, polynomial, &words, key, y, z, list))
    }

    /// [`Session::respond_blank`] with this noise and with words that are wiped after it, and with a z and a list of its own.
    ///
    /// ```
    /// use bliss_box::{draw_limit, draw_word_count, Deviation, OwnedDraw, Secret, Session, CDT, POLYNOMIAL, RESPOND_WORDS};
    ///
    /// let limit = draw_limit(512, Deviation::D215);
    /// let words = Secret::system_words(draw_word_count(limit))?;
    /// let session = Session::open(512, Deviation::D215)?;
    /// if let OwnedDraw::Full(noise) = session.draw_owned(limit, &CDT, &POLYNOMIAL, words)? {
    ///     let samples = noise.samples().to_vec();
    ///     let words = Secret::system_words(RESPOND_WORDS)?;
    ///     let blank = noise.respond_blank(&POLYNOMIAL, words, &[0; 1024])?; // the key is not used
    ///     assert!(blank.z.map_or(true, |z| z == samples)); // rejected in about 39 of 100 tries
    /// }
    /// # Ok::<(), Box<dyn std::error::Error>>(())
    /// ```
    ///
    /// # Errors
    ///
    /// As for [`Noise::respond`].
    pub fn respond_blank(self, polynomial: &[u64], words: Secret<u64>, key: &[i32]) -> Result<OwnedResponse, CallError<Noise>> {
        self.respond_by(0, |session, y, z, list| session.respond_blank(polynomial, &words, key, y, z, list))
    }

    /// A response to so many positions, by a call that is lent this noise, a z and a list.
    fn respond_by(
        self,
        positions: usize,
        call: impl FnOnce(Session, &mut [i32], &mut [i32], &mut [u32]) -> Responded,
    ) -> Result<OwnedResponse, CallError<Noise>> {
        let n = self.degree();
        let Noise { session, mut y, counts, list: draw_list } = self;
        // A longer challenge is refused before the list is looked at, so it is given none.
        let length = if positions <= challenge_limit(n) { respond_list_length(n, positions) } else { 0 };
        let mut z = Secret::zeroed(sample_count(n));
        let mut list = vec![0; length];
        let responded = call(session, &mut y, &mut z, &mut list);
        let outcome = match responded.answer {
            Ok(outcome) => outcome,
            Err(refusal) => {
                let noise = Noise { session: responded.session, y, counts, list: draw_list };
                return Err(CallError::Refused(refusal, noise));
            }
        };
        Ok(OwnedResponse::of(responded.session, outcome, positions, z, list)?)
    }
}

impl OwnedResponse {
    /// What a served response to so many positions left, where there is no fault in it.
    pub(super) fn of(
        session: Session,
        outcome: Outcome,
        positions: usize,
        z: Secret<i32>,
        list: Vec<u32>,
    ) -> Result<OwnedResponse, Fault> {
        outcome.check(session.degree(), positions, &list)?;
        Ok(OwnedResponse { session, z: outcome.bit.then(|| z.to_vec()), list })
    }
}
