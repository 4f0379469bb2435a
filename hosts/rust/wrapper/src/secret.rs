//! Memory for what is secret, wiped when it is dropped, and fresh random words in it.

use alloc::vec;
use alloc::vec::Vec;
use core::fmt;
use core::ops::{Deref, DerefMut};

use zeroize::{DefaultIsZeroes, Zeroize, ZeroizeOnDrop};

/// Values that are wiped when they are dropped: words, noise, keys. They are lent as any slice is, and never printed.
pub struct Secret<T: DefaultIsZeroes>(Vec<T>);

impl<T: DefaultIsZeroes> Secret<T> {
    /// So many values, all zero.
    ///
    /// # Panics
    ///
    /// Where so many values have more than `isize::MAX` bytes.
    #[must_use]
    pub fn zeroed(length: usize) -> Secret<T> {
        Secret(vec![T::default(); length])
    }

    /// Wipes the values now, and the memory that is kept behind them. They are all zero afterwards, and as many as before.
    pub fn wipe(&mut self) {
        self.0.as_mut_slice().zeroize();
        self.0.spare_capacity_mut().zeroize();
    }
}

#[cfg(feature = "std")]
impl Secret<u64> {
    /// Fresh words from the system's random source, once that is fit for keys. It is there with the feature `std` alone.
    ///
    /// # Errors
    ///
    /// Where the source can't be read.
    ///
    /// # Panics
    ///
    /// Where so many words have more than `isize::MAX` bytes.
    pub fn system_words(count: usize) -> std::io::Result<Secret<u64>> {
        let mut words = zeroize::Zeroizing::new(vec![[0; size_of::<u64>()]; count]);
        getrandom::getrandom(words.as_flattened_mut())?;
        // Their number is known, so they are collected in one block of memory, and none is left in a smaller one.
        Ok(Secret(words.iter().map(|bytes| u64::from_ne_bytes(*bytes)).collect()))
    }
}

impl<T: DefaultIsZeroes> From<Vec<T>> for Secret<T> {
    fn from(values: Vec<T>) -> Secret<T> {
        Secret(values)
    }
}

impl<T: DefaultIsZeroes> Deref for Secret<T> {
    type Target = [T];

    fn deref(&self) -> &[T] {
        &self.0
    }
}

impl<T: DefaultIsZeroes> DerefMut for Secret<T> {
    fn deref_mut(&mut self) -> &mut [T] {
        &mut self.0
    }
}

impl<T: DefaultIsZeroes> Drop for Secret<T> {
    fn drop(&mut self) {
        self.wipe();
    }
}

impl<T: DefaultIsZeroes> ZeroizeOnDrop for Secret<T> {}

impl<T: DefaultIsZeroes> fmt::Debug for Secret<T> {
    fn fmt(&self, f: &mut fmt::Formatter) -> fmt::Result {
        write!(f, "Secret({} values)", self.len())
    }
}
