//! The key check.

use core::fmt;

use crate::refusal::served;
use crate::{raw, version, Refusal};

/// The most that the final sum of a key may be. A response is rejected where A, the sum of squares of the product of key and
/// challenge, is larger.
pub const KEY_SUM_LIMIT: u32 = 46_225;

/// What the check found of a key that passes.
#[derive(Clone, Copy, PartialEq, Eq)]
pub struct KeyCheck {
    /// The final sum, at most [`KEY_SUM_LIMIT`]. It tells something of the key, so it is not printed by `{:?}`.
    pub sum: u32,
}

impl fmt::Debug for KeyCheck {
    fn fmt(&self, f: &mut fmt::Formatter) -> fmt::Result {
        f.debug_struct("KeyCheck").finish_non_exhaustive()
    }
}

/// Checks, before a key of degree `n` goes into a box, whether it can always sign at challenges of just this length. The key is
/// s1 and then s2.
///
/// Where it passes, no challenge of this length has an A above [`KEY_SUM_LIMIT`], so that no response to one is rejected for A.
/// It says nothing of challenges of other lengths, nor of whether the key is well made.
///
/// The final sum is taken from the table of inner products of the key's n rotations, where rotation j is both halves times X^j
/// modulo X^n + 1, as one vector: of each row the largest entries are summed, with their signs, as many as the challenge is
/// long, and then as many of the largest of these sums. The call leaves inner products of the key on the stack.
///
/// ```
/// use bliss_box::{check_key, Refusal};
///
/// let key = [1, 2, 3, 4, 0, -1, 2, -3];
/// assert_eq!(check_key(4, &key, 2)?.sum, 104);
/// assert_eq!(check_key(4, &key, 5), Err(Refusal::Challenge));
/// assert_eq!(check_key(512, &[7; 1024], 23), Err(Refusal::KeySum)); // make another one
/// # Ok::<(), Refusal>(())
/// ```
///
/// # Errors
///
/// Refuses, in this order, an `n` that is not a power of two from 4 to 1,024, a key that is not 2n values, a length outside 1
/// to 64 or above n, a value outside -7 to 7, and a final sum above [`KEY_SUM_LIMIT`].
///
/// # Panics
///
/// Where the archive is not of this crate's version, as [`Session::open`](crate::Session::open) does.
pub fn check_key(n: usize, key: &[i32], challenge_length: usize) -> Result<KeyCheck, Refusal> {
    version::demand(version::of_archive());
    // SAFETY: pointer and length are those of one slice, so the memory is aligned and valid for as many values; an empty
    // slice's pointer dangles, and at length 0 none is read. The call writes nothing, and keeps no pointer.
    let raw::KeyCheck { refusal, sum } = unsafe { raw::bliss_check_key(n, key.as_ptr(), key.len(), challenge_length) };
    served(refusal).map(|()| KeyCheck { sum })
}
