//! The draw.

use bliss_box::{Counts, Kind, Refusal, Session};

use super::exponential::{exponential, reciprocal};
use super::product::Product;
use super::read_list::{entry, list_places, list_polynomial};
use super::refusals::check_draw;
use super::words::{low_62, thresholds, two_words};

/// The entries of an attempt.
const ATTEMPT_ENTRIES: usize = 46;

/// Draws 2n samples into y within a limit of attempts.
#[inline(never)]
pub fn draw<P: Product>(
    session: &Session,
    limit: usize,
    cdt: &[u64; 20],
    polynomial: &[u64; 21],
    words: &[u64],
    y: &mut [i32],
    list: &mut [u32],
) -> Result<Counts, Refusal> {
    let n = session.degree();
    check_draw(n, limit, cdt, polynomial, words, y, list)?;
    let reciprocal = reciprocal(session.deviation());
    list[0] = entry(Kind::Draw, n);
    let mut attempts = 0;
    let mut accepted = 0;
    for (words, listed) in words.chunks_exact(4).zip(list[1..].chunks_exact_mut(ATTEMPT_ENTRIES)).take(limit) {
        list_attempt(listed, attempts, accepted);
        let (sample, bit) = attempt::<P>(cdt, polynomial, reciprocal, words);
        // The next sample takes the place of one that is not accepted. A jump here would often be foreseen wrongly.
        y[accepted] = sample;
        accepted += usize::from(bit);
        attempts += 1;
        if accepted == y.len() {
            break;
        }
    }
    let entries = 1 + ATTEMPT_ENTRIES * attempts;
    list[entries] = entry(Kind::Accepted, accepted);
    if accepted < y.len() {
        y.fill(0);
    }
    Ok(Counts { attempts, accepted, entries: entries + 1 })
}

fn list_attempt(listed: &mut [u32], t: usize, accepted: usize) {
    list_places(&mut listed[..4], Kind::Word, 4 * t..);
    list_places(&mut listed[4..24], Kind::Cdt, 0..);
    list_polynomial(&mut listed[24..45]);
    listed[45] = entry(Kind::AcceptedBefore, accepted);
}

/// The sample of an attempt, and its accept bit.
fn attempt<P: Product>(cdt: &[u64; 20], polynomial: &[u64; 21], reciprocal: u64, words: &[u64]) -> (i32, bool) {
    let d = two_words(low_62(words[0]), low_62(words[1]));
    // Ten, less the thresholds above d. Where bits are added up, the compiler may gather them in a vector first, which is slower.
    let x = thresholds(cdt).fold(10, |x, threshold| x - u64::from(d < threshold));
    let b = words[2] & 255;
    let negative = words[2] >> 8 & 1 == 1;
    let size = 256 * x + b;
    let e = exponential::<P>(b * (b + 512 * x), reciprocal, polynomial);
    let accepted = (low_62(words[3]) < e) & !((size == 0) & negative);
    (if negative { -(size as i32) } else { size as i32 }, accepted)
}
