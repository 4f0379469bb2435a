//! The draw with memory of its own.

use bliss_box::{draw_list_length, draw_word_count, filled, sample_count};
use bliss_box::{CallError, Counts, Deviation, Fault, OwnedDraw, Refusal, Secret, CDT, POLYNOMIAL};

use super::{accepting_words, noise, noise_at};
use crate::{open, open_at, LIMIT, N};

#[test]
fn an_owned_draw_is_the_lent_one() {
    for deviation in Deviation::ALL {
        let (mut y, mut list) = ([1; sample_count(N)], [9; draw_list_length(LIMIT)]);
        let lent = open_at(deviation).draw(LIMIT, deviation.cdt(), &POLYNOMIAL, &accepting_words(), &mut y, &mut list);
        let noise = noise_at(deviation);
        assert_eq!((Ok(noise.counts()), noise.degree(), noise.deviation()), (lent.answer, N, deviation));
        assert_eq!(noise.samples(), y);
        assert_ne!(y, [0; 8]);
        assert_eq!(noise.list(), filled(&list, noise.counts().entries));
        assert_eq!(noise.discard(), lent.session);
    }
}

#[test]
fn a_spent_draw_has_no_noise() {
    // Words of all ones give the size 2815, which word 3 rejects.
    let words = Secret::from(vec![u64::MAX; draw_word_count(LIMIT)]);
    match noise().discard().draw_owned(LIMIT, &CDT, &POLYNOMIAL, words) {
        Ok(OwnedDraw::Spent(spent)) => {
            assert_eq!(spent.session, open());
            assert_eq!(spent.counts, Counts { attempts: LIMIT, accepted: 0, entries: draw_list_length(LIMIT) });
            assert_eq!(spent.list.len(), draw_list_length(LIMIT));
        }
        other => panic!("{other:?}"),
    }
}

#[test]
fn a_refused_draw_hands_the_session_back() {
    for (limit, refusal) in [(7, Refusal::Limit), (9, Refusal::Words), (129, Refusal::Limit), (usize::MAX, Refusal::Limit)] {
        match noise().discard().draw_owned(limit, &CDT, &POLYNOMIAL, Secret::from(accepting_words())) {
            Err(CallError::Refused(given, session)) => {
                assert_eq!(given, refusal);
                assert_eq!(session, noise().discard());
            }
            other => panic!("{other:?}"),
        }
    }
}

#[test]
fn noise_of_zeros_is_a_fault() {
    // Words of 0 give the sample 0, which is always accepted.
    let words = Secret::zeroed(draw_word_count(LIMIT));
    match open().draw_owned(LIMIT, &CDT, &POLYNOMIAL, words) {
        Err(error @ CallError::Fault(Fault::ZeroNoise)) => {
            assert!(error.to_string().starts_with("fault: the noise that was drawn is all zero"));
        }
        other => panic!("{other:?}"),
    }
}
