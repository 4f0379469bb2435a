//! The refusals of a draw, of a response, of a key check and of a record that is written, in the documents' order. The types of the
//! tables hold their lengths, and a session's holds that its deviation is one of the four.

use bliss_box::{challenge_limit, draw_list_length, draw_word_count, respond_list_length, sample_count};
use bliss_box::{Deviation, Refusal, Session, KEY_SUM_LIMIT, POLYNOMIAL, RESPOND_WORDS, VALUE_LIMIT};

use super::record::Fields;
use super::words::thresholds;

pub fn check_draw(
    n: usize,
    limit: usize,
    cdt: &[u64; 20],
    polynomial: &[u64; 21],
    words: &[u64],
    y: &[i32],
    list: &[u32],
) -> Result<(), Refusal> {
    demand(is_degree(n), Refusal::Degree)?;
    demand(y.len() == sample_count(n), Refusal::Lengths)?;
    demand(is_cdt(cdt), Refusal::Cdt)?;
    demand(*polynomial == POLYNOMIAL, Refusal::Polynomial)?;
    demand((2 * n..=32 * n).contains(&limit), Refusal::Limit)?;
    demand(words.len() >= draw_word_count(limit), Refusal::Words)?;
    demand(list.len() >= draw_list_length(limit), Refusal::List)
}

#[allow(clippy::too_many_arguments)]
pub fn check_respond(
    session: &Session,
    challenge: &[u32],
    polynomial: &[u64; 21],
    words: &[u64],
    key: &[i32],
    y: &[i32],
    z: &[i32],
    list: &[u32],
) -> Result<(), Refusal> {
    let n = session.degree();
    demand(is_degree(n), Refusal::Degree)?;
    demand(session.deviation() == Deviation::D215, Refusal::ResponseDeviation)?;
    demand([y.len(), z.len(), key.len()] == [sample_count(n); 3], Refusal::Lengths)?;
    demand(*polynomial == POLYNOMIAL, Refusal::Polynomial)?;
    demand(is_challenge(n, challenge), Refusal::Challenge)?;
    demand(words.len() >= RESPOND_WORDS, Refusal::Words)?;
    demand(list.len() >= respond_list_length(n, challenge.len()), Refusal::List)?;
    demand(session.is_drawn(), Refusal::NotDrawn)?;
    demand(all_within(key, 7), Refusal::Key)?;
    demand(all_within(y, 2_815), Refusal::Y)
}

pub fn check_key_values(n: usize, key: &[i32], length: usize) -> Result<(), Refusal> {
    demand(is_degree(n), Refusal::Degree)?;
    demand(key.len() == sample_count(n), Refusal::Lengths)?;
    demand(is_length(n, length), Refusal::Challenge)?;
    demand(all_within(key, 7), Refusal::Key)
}

pub fn check_key_sum(sum: u32) -> Result<(), Refusal> {
    demand(sum <= KEY_SUM_LIMIT, Refusal::KeySum)
}

pub fn check_record(fields: &Fields) -> Result<(), Refusal> {
    let n = fields.n;
    demand(is_degree(n), Refusal::Degree)?;
    demand(fields.halves().all(|z| z.len() == n), Refusal::Lengths)?;
    demand(fields.challenge.map_or(true, |challenge| is_challenge(n, challenge)), Refusal::Challenge)?;
    demand(fields.halves().all(|z| all_within(z, VALUE_LIMIT)), Refusal::Record)
}

fn demand(condition: bool, refusal: Refusal) -> Result<(), Refusal> {
    condition.then_some(()).ok_or(refusal)
}

pub fn is_degree(n: usize) -> bool {
    n.is_power_of_two() && (4..=1024).contains(&n)
}

fn is_cdt(cdt: &[u64; 20]) -> bool {
    let rising = thresholds(cdt).zip(thresholds(cdt).skip(1)).all(|(before, after)| before <= after);
    cdt.iter().all(|word| *word < 1 << 62) && rising
}

pub fn is_challenge(n: usize, challenge: &[u32]) -> bool {
    is_length(n, challenge.len())
        && challenge.iter().all(|position| (*position as usize) < n)
        && challenge.windows(2).all(|pair| pair[0] < pair[1])
}

fn is_length(n: usize, length: usize) -> bool {
    (1..=challenge_limit(n)).contains(&length)
}

/// Every value is looked at: without an early end, the compiler tests several at once.
pub fn all_within(values: &[i32], bound: i32) -> bool {
    values.iter().fold(true, |within, value| within & (-bound..=bound).contains(value))
}
