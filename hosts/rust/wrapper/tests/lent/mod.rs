//! Buffers lent from the middle of larger ones, whose ends tell whether a call wrote outside what it was lent.

use crate::comparison::Comparison;

/// The values on each side of a lent buffer.
const GUARDS: u8 = 16;

pub struct Lent<T> {
    whole: Vec<T>,
}

impl<T: Copy + PartialEq + From<u8>> Lent<T> {
    pub fn new(content: &[T]) -> Lent<T> {
        let guards = (0..GUARDS).map(Self::guard);
        let mut whole = Vec::with_capacity(content.len() + 2 * usize::from(GUARDS));
        whole.extend(guards.clone());
        whole.extend_from_slice(content);
        whole.extend(guards);
        Lent { whole }
    }

    /// Guards differ, so that guards moved or copied show.
    fn guard(place: u8) -> T {
        T::from(200 + place)
    }

    pub fn len(&self) -> usize {
        self.whole.len() - 2 * usize::from(GUARDS)
    }

    /// Where the lent part starts. The pointer may write all of the larger buffer, so that a call that does so is seen.
    pub fn as_mut_ptr(&mut self) -> *mut T {
        self.whole.as_mut_ptr().wrapping_add(usize::from(GUARDS))
    }

    pub fn content(&self) -> &[T] {
        &self.whole[usize::from(GUARDS)..][..self.len()]
    }

    pub fn guards_stand(&self) -> bool {
        let (before, rest) = self.whole.split_at(usize::from(GUARDS));
        let after = &rest[self.len()..];
        (0..GUARDS).all(|place| {
            let at = usize::from(place);
            before[at] == Self::guard(place) && after[at] == Self::guard(place)
        })
    }
}

/// The check can fail: another value at any place around a buffer is noticed.
pub fn guards_notice_every_change(_: &Comparison) {
    let content = [7u32; 5];
    assert!(Lent::new(&content).guards_stand());
    let guards = usize::from(GUARDS);
    for place in (0..guards).chain(guards + content.len()..2 * guards + content.len()) {
        let mut lent = Lent::new(&content);
        lent.whole[place] ^= 1;
        assert!(!lent.guards_stand(), "a change at {place} is not noticed");
    }
}
