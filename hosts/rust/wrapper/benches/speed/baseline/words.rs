//! Numbers of 62 bits out of words.

/// 62 of a word.
pub fn low_62(word: u64) -> u64 {
    word & ((1 << 62) - 1)
}

/// high * 2^62 + low: a draw, or a threshold.
pub fn two_words(high: u64, low: u64) -> u128 {
    u128::from(high) << 62 | u128::from(low)
}

/// The thresholds of a CDT.
pub fn thresholds(cdt: &[u64; 20]) -> impl Iterator<Item = u128> + '_ {
    let (high, low) = cdt.split_at(10);
    high.iter().zip(low).map(|(high, low)| two_words(*high, *low))
}
