//! The response with memory that the host lends.

use bliss_box::{challenge_limit, respond_list_length, sample_count};
use bliss_box::{Deviation, Outcome, Refusal, Responded, Session, COEFFICIENT_LIMIT, POLYNOMIAL, RESPOND_WORDS};

use crate::draw::{draw, drawn_at, drawn_session};
use crate::{open, open_at, N};

/// Responds with words of 0, which reject nothing that may pass, y of all zero before, z of all fives and a list of all nines.
fn respond(session: Session, challenge: &[u32], key: &[i32]) -> (Responded, Vec<i32>, Vec<u32>) {
    let mut y = vec![0; sample_count(N)];
    let mut z = vec![5; sample_count(N)];
    let mut list = vec![9; respond_list_length(N, challenge.len())];
    let responded = session.respond(challenge, &POLYNOMIAL, &[0; RESPOND_WORDS], key, &mut y, &mut z, &mut list);
    assert_eq!(y, [0; 8]);
    (responded, z, list)
}

#[test]
fn an_accepted_response_clears_drawn() {
    let (responded, z, list) = respond(drawn_session(), &[1], &[1, 2, 3, 4, 0, 0, 0, 7]);
    assert_eq!(responded.answer, Ok(Outcome { bit: true, entries: respond_list_length(N, 1) }));
    assert_eq!(responded.session, open());
    assert_eq!(z, [-4, 1, 2, 3, -7, 0, 0, 0]);
    assert_eq!(list[..5], [(7 << 24) + 4, (8 << 24) + 3, 8 << 24, (8 << 24) + 1, (8 << 24) + 2]);
    assert_eq!(list.last(), Some(&((9 << 24) + 1)));

    let (refused, ..) = respond(responded.session, &[1], &[0; 8]);
    assert_eq!(refused.answer, Err(Refusal::NotDrawn));
    assert!(draw(refused.session, 0).0.session.is_drawn());
}

#[test]
fn a_rejected_response_leaves_nothing() {
    // Word 1 of all ones is above e(N1), unless A is 46,225 or more.
    let mut y = [3; sample_count(N)];
    let mut z = [5; sample_count(N)];
    let mut list = [9; respond_list_length(N, 2)];
    let words = [0, u64::MAX, 0];
    let rejected = drawn_session().respond(&[0, 3], &POLYNOMIAL, &words, &[1; 8], &mut y, &mut z, &mut list);
    assert_eq!(rejected.answer, Ok(Outcome { bit: false, entries: respond_list_length(N, 2) }));
    assert_eq!(rejected.session, open());
    assert_eq!((y, z), ([0; 8], [0; 8]));
    assert_eq!(list.last(), Some(&(9 << 24)));
}

/// Words and key are 0, so that z is y and passes the other tests.
#[test]
fn a_value_of_z1_above_its_limit_rejects_a_response() {
    let respond = |place: usize, value: i32| {
        let (mut y, mut z, mut list) = ([0; sample_count(N)], [5; sample_count(N)], [9; respond_list_length(N, 1)]);
        y[place] = value;
        let words = [0; RESPOND_WORDS];
        let responded = drawn_session().respond(&[1], &POLYNOMIAL, &words, &[0; 8], &mut y, &mut z, &mut list);
        let Outcome { bit, entries } = responded.answer.unwrap();
        assert_eq!((entries, list.last()), (list.len(), Some(&((9 << 24) + u32::from(bit)))));
        assert!(!responded.session.is_drawn());
        assert_eq!(y, [0; 8]);
        (bit, z)
    };
    let accepted = |place: usize, value: i32| {
        let (bit, z) = respond(place, value);
        bit && z[place] == value && z.iter().filter(|&&value| value == 0).count() == 7
    };
    for sign in [1, -1] {
        let (limit, above) = (sign * COEFFICIENT_LIMIT, sign * (COEFFICIENT_LIMIT + 1));
        for place in 0..N {
            assert!(accepted(place, limit));
            assert_eq!(respond(place, above), (false, [0; 8]));
            assert!(accepted(N + place, above));
        }
    }
}

/// Makes a blank response over a y of 1 to 8, with this value of the key in every place and these words.
fn respond_blank(key: i32, words: [u64; RESPOND_WORDS]) -> (Responded, Vec<i32>, Vec<u32>) {
    let mut y: Vec<i32> = (1..).take(sample_count(N)).collect();
    let mut z = vec![5; sample_count(N)];
    let mut list = vec![9; respond_list_length(N, 0) + 1];
    let responded = drawn_session().respond_blank(&POLYNOMIAL, &words, &[key; 8], &mut y, &mut z, &mut list);
    let zeroed = if responded.answer.is_ok() { vec![0; 8] } else { (1..9).collect() };
    assert_eq!(y, zeroed);
    (responded, z, list)
}

#[test]
fn a_blank_response_is_the_noise() {
    for (key, word_0) in [(0, 0), (7, 0), (7, 1), (-7, u64::MAX)] {
        let (responded, z, list) = respond_blank(key, [word_0, 0, u64::MAX]);
        assert_eq!(responded.answer, Ok(Outcome { bit: true, entries: 47 }));
        assert_eq!(responded.session, open());
        assert_eq!(z, [1, 2, 3, 4, 5, 6, 7, 8]);
        let polynomial: Vec<u32> = (0..21).rev().map(|place| (4 << 24) + place).collect();
        let words: Vec<u32> = (0..3).map(|place| (2 << 24) + place).collect();
        assert_eq!(list, [&[(7 << 24) + 4], &words[..], &polynomial, &polynomial, &[(9 << 24) + 1, 9]].concat());
        assert_eq!(responded.answer.unwrap().check(N, 0, &list), Ok(()));
    }
    let (rejected, z, _) = respond_blank(7, [0, u64::MAX, 0]);
    assert_eq!((rejected.answer, z), (Ok(Outcome { bit: false, entries: 47 }), vec![0; 8]));
    let (refused, z, list) = respond_blank(8, [0; 3]);
    assert_eq!((refused.answer, z, list), (Err(Refusal::Key), vec![5; 8], vec![9; 48]));
    assert_eq!(refused.session, drawn_session());
}

/// A hash that failed must not become a blank response: an empty challenge is refused where a wrong one is, and not before.
#[test]
fn an_empty_challenge_is_no_blank_response() {
    let (refused, z, list) = respond(drawn_session(), &[], &[0; 8]);
    assert_eq!(refused.answer, Err(Refusal::Challenge));
    assert!(refused.session.is_drawn());
    assert_eq!((z, list), (vec![5; 8], vec![9; 47]));
    let mut damaged = POLYNOMIAL;
    damaged[0] = 0;
    let refusal = |polynomial: &[u64], key: &[i32]| {
        let (mut y, mut z) = ([2816; 8], [5; 8]);
        drawn_session().respond(&[], polynomial, &[], key, &mut y, &mut z, &mut []).answer.unwrap_err()
    };
    assert_eq!(refusal(&POLYNOMIAL, &[8; 8]), Refusal::Challenge);
    assert_eq!(refusal(&damaged, &[8; 8]), Refusal::Polynomial);
    assert_eq!(refusal(&damaged, &[8; 7]), Refusal::Lengths);
}

#[test]
fn a_response_after_a_spent_draw_is_refused() {
    let (spent, ..) = draw(drawn_session(), u64::MAX);
    let (refused, z, list) = respond(spent.session, &[1], &[1; 8]);
    assert_eq!(refused.answer, Err(Refusal::NotDrawn));
    assert_eq!(z, [5; 8]);
    assert_eq!(list, [9; respond_list_length(N, 1)]);
}

#[test]
fn the_known_products_hold() {
    let z = |challenge: &[u32]| respond(drawn_session(), challenge, &[1, 2, 3, 4, 0, 0, 0, 0]).1;
    assert_eq!(z(&[1])[..4], [-4, 1, 2, 3]);
    assert_eq!(z(&[0, 3])[..4], [-1, -1, -1, 5]);
}

#[test]
fn a_refused_response_hands_the_session_back() {
    let (refused, z, list) = respond(drawn_session(), &[2, 2], &[0; 8]);
    assert_eq!(refused.answer, Err(Refusal::Challenge));
    assert_eq!(refused.session, drawn_session());
    assert_eq!(z, [5; 8]);
    assert_eq!(list, [9; respond_list_length(N, 2)]);

    let (served, ..) = respond(refused.session, &[2], &[0; 8]);
    assert_eq!(served.answer, Ok(Outcome { bit: true, entries: respond_list_length(N, 1) }));
}

/// Before all that is lent is looked at, and whether anything is drawn.
#[test]
fn responses_at_other_deviations_are_refused() {
    for deviation in [Deviation::D107, Deviation::D250, Deviation::D271] {
        let (refused, z, list) = respond(drawn_at(deviation), &[1], &[0; 8]);
        assert_eq!(refused.answer, Err(Refusal::ResponseDeviation));
        assert_eq!(refused.session, drawn_at(deviation));
        assert_eq!((z, list), (vec![5; 8], vec![9; respond_list_length(N, 1)]));

        let (mut y, mut z, mut list) = ([1; 8], [5; 8], [9; respond_list_length(N, 0)]);
        let words = [0; RESPOND_WORDS];
        let refused = drawn_at(deviation).respond_blank(&POLYNOMIAL, &words, &[0; 8], &mut y, &mut z, &mut list);
        assert_eq!(refused.answer, Err(Refusal::ResponseDeviation));
        assert_eq!(refused.session, drawn_at(deviation));
        assert_eq!((y, z, list), ([1; 8], [5; 8], [9; respond_list_length(N, 0)]));

        let refused = open_at(deviation).respond(&[], &[], &[], &[], &mut [], &mut [], &mut []);
        assert_eq!(refused.answer, Err(Refusal::ResponseDeviation));
        assert_eq!(refused.session, open_at(deviation));
    }
}

#[test]
fn each_refusal_of_a_response_is_typed() {
    let mut damaged = POLYNOMIAL;
    damaged[19] = 38;
    let refusal = |polynomial: &[u64], challenge: &[u32], words, list, key: i32, y: i32| {
        let words = vec![0; words];
        let mut list = vec![0; list];
        let mut z = [0; 8];
        drawn_session().respond(challenge, polynomial, &words, &[key; 8], &mut [y; 8], &mut z, &mut list).answer.unwrap_err()
    };
    let (words, entries) = (RESPOND_WORDS, respond_list_length(N, 1));
    assert_eq!(refusal(&POLYNOMIAL[..20], &[1], words, entries, 7, 2815), Refusal::Lengths);
    assert_eq!(refusal(&damaged, &[1], words, entries, 7, 2815), Refusal::Polynomial);
    assert_eq!(refusal(&POLYNOMIAL, &[4], words, entries, 7, 2815), Refusal::Challenge);
    assert_eq!(refusal(&POLYNOMIAL, &[1], words - 1, entries, 7, 2815), Refusal::Words);
    assert_eq!(refusal(&POLYNOMIAL, &[1], words, entries - 1, 7, 2815), Refusal::List);
    assert_eq!(refusal(&POLYNOMIAL, &[1], words, entries, 8, 2815), Refusal::Key);
    assert_eq!(refusal(&POLYNOMIAL, &[1], words, entries, -7, -2816), Refusal::Y);
}

#[test]
fn empty_slices_are_refused_and_not_read() {
    let empty = drawn_session().respond(&[], &[], &[], &[], &mut [], &mut [], &mut []);
    assert_eq!(empty.answer, Err(Refusal::Lengths));
    let respond = |session: Session, challenge: &[u32], words: &[u64]| {
        session.respond(challenge, &POLYNOMIAL, words, &[0; 8], &mut [0; 8], &mut [0; 8], &mut [])
    };
    let empty = respond(empty.session, &[], &[]);
    assert_eq!(empty.answer, Err(Refusal::Challenge));
    let empty = respond(empty.session, &[1], &[]);
    assert_eq!(empty.answer, Err(Refusal::Words));
    let empty = respond(empty.session, &[1], &[0; RESPOND_WORDS]);
    assert_eq!(empty.answer, Err(Refusal::List));
    assert!(empty.session.is_drawn());
}

#[test]
fn the_lengths_of_a_response_are_those_of_document_01() {
    assert_eq!([challenge_limit(4), challenge_limit(1024), RESPOND_WORDS, respond_list_length(4, 1)], [4, 64, 3, 55]);
}
