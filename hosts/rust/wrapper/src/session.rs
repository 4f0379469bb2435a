//! Sessions, and how they are opened.

use crate::refusal::served;
use crate::{raw, version, Deviation, Refusal};

/// A degree, the deviation of the noise, and whether y is drawn. A draw or a response takes the session and hands back the next one,
/// so that none is used twice:
///
/// ```compile_fail,E0382
/// use bliss_box::{Deviation, Session, CDT, POLYNOMIAL};
///
/// let session = Session::open(4, Deviation::D215).unwrap();
/// let _ = session.draw(8, &CDT, &POLYNOMIAL, &[0; 32], &mut [0; 8], &mut [0; 370]);
/// let _ = session.draw(8, &CDT, &POLYNOMIAL, &[0; 32], &mut [0; 8], &mut [0; 370]);
/// ```
#[derive(Debug, PartialEq, Eq)]
#[must_use]
pub struct Session(pub(crate) raw::Session);

impl Session {
    /// A session of degree `n` for noise of this deviation, with nothing drawn.
    ///
    /// # Errors
    ///
    /// Refuses an `n` that is not a power of two from 4 to 1,024.
    ///
    /// # Panics
    ///
    /// Where the archive is not of this crate's version. What the two hand to each other may then be laid out in two ways.
    pub fn open(n: usize, deviation: Deviation) -> Result<Session, Refusal> {
        version::demand(version::of_archive());
        // SAFETY: the call takes any numbers and no pointer.
        let opened = unsafe { raw::bliss_open(n, deviation.number()) };
        served(opened.refusal).map(|()| Session(opened.session))
    }

    /// n: y has 2n samples.
    #[must_use]
    pub fn degree(&self) -> usize {
        self.0.degree
    }

    /// The deviation that it was opened with: calls keep it.
    ///
    /// # Panics
    ///
    /// Never: no session of this type has another deviation than the four.
    #[must_use]
    pub fn deviation(&self) -> Deviation {
        Deviation::try_from(self.0.deviation).expect("a session that is open has one of the four deviations")
    }

    /// Whether the last call that was not refused was a full draw, so that y holds 2n samples.
    #[must_use]
    pub fn is_drawn(&self) -> bool {
        self.0.drawn == 1
    }
}
