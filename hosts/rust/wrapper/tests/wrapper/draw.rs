//! The draw with memory that the host lends.

use bliss_box::{draw_list_length, draw_word_count, sample_count};
use bliss_box::{Counts, Deviation, Drawn, Entry, Kind, Refusal, Session, CDT, POLYNOMIAL};

use crate::{open, open_at, LIMIT, N};

/// Draws with these words and the CDT of the deviation, y of all ones before, and a list of all nines.
pub fn draw(session: Session, word: u64) -> (Drawn, Vec<i32>, Vec<u32>) {
    let words = [word; draw_word_count(LIMIT)];
    let mut y = vec![1; sample_count(N)];
    let mut list = vec![9; draw_list_length(LIMIT)];
    let cdt = session.deviation().cdt();
    let drawn = session.draw(LIMIT, cdt, &POLYNOMIAL, &words, &mut y, &mut list);
    (drawn, y, list)
}

pub fn drawn_at(deviation: Deviation) -> Session {
    let (drawn, ..) = draw(open_at(deviation), 0);
    assert!(drawn.session.is_drawn());
    drawn.session
}

/// A session that can respond at once.
pub fn drawn_session() -> Session {
    drawn_at(Deviation::D215)
}

#[test]
fn a_full_draw_sets_drawn() {
    for deviation in Deviation::ALL {
        // Words of 0 give the sample 0, which is always accepted.
        let (drawn, y, list) = draw(open_at(deviation), 0);
        assert_eq!(drawn.answer, Ok(Counts { attempts: 8, accepted: 8, entries: draw_list_length(LIMIT) }));
        assert!(drawn.session.is_drawn());
        assert_eq!((drawn.session.degree(), drawn.session.deviation()), (N, deviation));
        assert_eq!(y, [0; 8]);
        assert_eq!(list.first(), Some(&((1 << 24) + 4)));
        assert_eq!(list.last(), Some(&((6 << 24) + 8)));
    }
}

#[test]
fn a_spent_draw_clears_drawn() {
    for deviation in Deviation::ALL {
        // Words of all ones give the size 2815, which word 3 rejects.
        let (drawn, y, list) = draw(drawn_at(deviation), u64::MAX);
        assert_eq!(drawn.answer, Ok(Counts { attempts: 8, accepted: 0, entries: draw_list_length(LIMIT) }));
        assert_eq!(drawn.session, open_at(deviation));
        assert_eq!(y, [0; 8]);
        assert_eq!(list.last(), Some(&(6 << 24)));
    }
}

#[test]
fn the_largest_limit_is_served() {
    let words = [u64::MAX; draw_word_count(32 * N)];
    let mut list = vec![9; draw_list_length(32 * N)];
    let spent = open().draw(32 * N, &CDT, &POLYNOMIAL, &words, &mut [1; 8], &mut list);
    assert_eq!(spent.answer, Ok(Counts { attempts: 128, accepted: 0, entries: draw_list_length(32 * N) }));
}

#[test]
fn a_refused_draw_hands_the_session_back() {
    for deviation in Deviation::ALL {
        let words = [0; draw_word_count(LIMIT)];
        let mut y = [1; sample_count(N)];
        let mut list = [9; draw_list_length(LIMIT)];
        let refused = drawn_at(deviation).draw(LIMIT - 1, deviation.cdt(), &POLYNOMIAL, &words, &mut y, &mut list);
        assert_eq!(refused.answer, Err(Refusal::Limit));
        assert_eq!(refused.session, drawn_at(deviation));
        assert_eq!(y, [1; 8]);
        assert_eq!(list, [9; draw_list_length(LIMIT)]);

        let served = refused.session.draw(LIMIT, deviation.cdt(), &POLYNOMIAL, &words, &mut y, &mut list);
        assert!(served.answer.is_ok());
    }
}

#[test]
fn each_refusal_of_a_draw_is_typed() {
    let mut falling = CDT;
    falling[19] = 0;
    let mut damaged = POLYNOMIAL;
    damaged[19] = 38;
    let refusal = |limit, cdt: &[u64], polynomial: &[u64], words, list| {
        let words = vec![0; words];
        let mut list = vec![0; list];
        open().draw(limit, cdt, polynomial, &words, &mut [0; 8], &mut list).answer.unwrap_err()
    };
    let (words, entries) = (draw_word_count(LIMIT), draw_list_length(LIMIT));
    assert_eq!(refusal(8, &CDT[..19], &POLYNOMIAL, words, entries), Refusal::Lengths);
    assert_eq!(refusal(8, &falling, &POLYNOMIAL, words, entries), Refusal::Cdt);
    assert_eq!(refusal(8, &CDT, &damaged, words, entries), Refusal::Polynomial);
    assert_eq!(refusal(7, &CDT, &POLYNOMIAL, words, entries), Refusal::Limit);
    assert_eq!(refusal(129, &CDT, &POLYNOMIAL, draw_word_count(129), draw_list_length(129)), Refusal::Limit);
    assert_eq!(refusal(8, &CDT, &POLYNOMIAL, words - 1, entries), Refusal::Words);
    assert_eq!(refusal(8, &CDT, &POLYNOMIAL, words, entries - 1), Refusal::List);
}

#[test]
fn empty_slices_are_refused_and_not_read() {
    let drawn = open().draw(LIMIT, &[], &[], &[], &mut [], &mut []);
    assert_eq!(drawn.answer, Err(Refusal::Lengths));
    let drawn = drawn.session.draw(LIMIT, &CDT, &POLYNOMIAL, &[], &mut [0; 8], &mut []);
    assert_eq!(drawn.answer, Err(Refusal::Words));
    let drawn = drawn.session.draw(LIMIT, &CDT, &POLYNOMIAL, &[0; draw_word_count(LIMIT)], &mut [0; 8], &mut []);
    assert_eq!(drawn.answer, Err(Refusal::List));
}

/// The sample of an attempt by this table and these words. None where it is not accepted.
fn sample_at(deviation: Deviation, cdt: &[u64], words: [u64; 4]) -> Option<i32> {
    let mut y = [0; sample_count(N)];
    let words = words.repeat(LIMIT);
    let drawn = open_at(deviation).draw(LIMIT, cdt, &POLYNOMIAL, &words, &mut y, &mut [0; draw_list_length(LIMIT)]);
    assert!(drawn.answer.is_ok());
    drawn.session.is_drawn().then_some(y[0])
}

/// The sample with a word 3 of 0. None where it is never accepted.
fn sample(cdt: &[u64], high: u64, low: u64, word_2: u64) -> Option<i32> {
    sample_at(Deviation::D215, cdt, [high, low, word_2, 0])
}

/// A part of 2^62.
fn part(of_one: f64) -> u64 {
    (of_one * 2_f64.powi(62)) as u64
}

/// A sample is accepted where 62 of word 3 is below e(N), which is near exp(-N / (2 × deviation²)): here for the size 255.
#[test]
fn samples_are_accepted_by_the_deviation() {
    for deviation in Deviation::ALL {
        let e = (-255_f64.powi(2) / (2.0 * (deviation.number() as f64).powi(2))).exp();
        let sample = |word_3| sample_at(deviation, deviation.cdt(), [0, 0, 255, word_3]);
        assert_eq!(sample(part(e * (1.0 - 1e-12))), Some(255), "deviation {deviation}");
        assert_eq!(sample(part(e * (1.0 + 1e-12))), None, "deviation {deviation}");
    }
}

/// Where the draw is 0.56 of all draws, x is 1 by the table for 271 alone; where it is 0.95, x is 2 by those for 250 and 271.
#[test]
fn the_table_of_another_deviation_is_served() {
    for deviation in Deviation::ALL {
        let samples = |high| Deviation::ALL.map(|lent| sample_at(deviation, lent.cdt(), [high, 0, 0, 0]).unwrap());
        assert_eq!(samples(part(0.56)), [0, 0, 0, 256]);
        assert_eq!(samples(part(0.95)), [256, 256, 512, 512]);
    }
}

#[test]
fn the_known_points_of_an_attempt_hold() {
    let cdt: Vec<u64> = (1..=10).map(|i| i << 40).chain([0; 10]).collect();
    let all = (1 << 62) - 1;
    assert_eq!(sample(&cdt, 0, 0, 0), Some(0));
    assert_eq!(sample(&cdt, (1 << 40) - 1, all, 0), Some(0));
    assert_eq!(sample(&cdt, 1 << 40, 0, 0), Some(256));
    assert_eq!(sample(&cdt, all, 0, 0), Some(2560));
    assert_eq!(sample(&cdt, 0, 0, 257), Some(-1));
    assert_eq!(sample(&cdt, 0, 0, 256), None);
}

/// Document 01's order, in which a low word follows each high word.
#[test]
fn tables_of_the_old_order_are_refused() {
    let default: Vec<u64> = (0..10).flat_map(|i| [CDT[i], CDT[10 + i]]).collect();
    let known_points: Vec<u64> = (1..=10).flat_map(|i| [i << 40, 0]).collect();
    for cdt in [default, known_points] {
        let (mut y, mut list) = ([1; sample_count(N)], [9; draw_list_length(LIMIT)]);
        let words = [0; draw_word_count(LIMIT)];
        let refused = drawn_session().draw(LIMIT, &cdt, &POLYNOMIAL, &words, &mut y, &mut list);
        assert_eq!(refused.answer, Err(Refusal::Cdt));
        assert_eq!(refused.session, drawn_session());
        assert_eq!(y, [1; 8]);
        assert_eq!(list, [9; draw_list_length(LIMIT)]);
    }
}

#[test]
fn a_table_that_is_right_in_both_orders_is_taken_in_the_new_one() {
    // Threshold i, from 0, is i × 2^62 + 10 + i. In the old order threshold 3 would be 6 × 2^62 + 7, and above both draws.
    let ascending: Vec<u64> = (0..20).collect();
    assert_eq!(sample(&ascending, 5, 14, 0), Some(5 * 256));
    assert_eq!(sample(&ascending, 5, 15, 0), Some(6 * 256));
    // Ten thresholds of 7 × 2^62 + 7, in either order.
    assert_eq!(sample(&[7; 20], 7, 6, 0), Some(0));
    assert_eq!(sample(&[7; 20], 7, 7, 0), Some(10 * 256));
}

#[test]
fn each_attempt_lists_every_word_of_the_cdt_in_order() {
    let (_, _, list) = draw(open(), 0);
    let entries = list.into_iter().map(Entry).filter(|entry| entry.kind() == Some(Kind::Cdt));
    let places: Vec<usize> = entries.map(Entry::place).collect();
    assert_eq!(places, (0..20).collect::<Vec<usize>>().repeat(LIMIT));
}

#[test]
fn the_lengths_of_a_draw_are_those_of_document_01() {
    assert_eq!([sample_count(4), draw_word_count(128), draw_list_length(8), draw_list_length(128)], [8, 512, 370, 5890]);
}
