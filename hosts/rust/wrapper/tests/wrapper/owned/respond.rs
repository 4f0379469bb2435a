//! The response with memory of its own.

use bliss_box::{respond_list_length, sample_count};
use bliss_box::{CallError, Deviation, Noise, Outcome, Refusal, Secret, POLYNOMIAL, RESPOND_WORDS};

use super::{noise, noise_at, KEY};
use crate::N;

#[test]
fn an_owned_response_is_the_lent_one() {
    for (words, bit) in [([0; RESPOND_WORDS], true), ([0, u64::MAX, 0], false)] {
        let noise = noise();
        let mut y = noise.samples().to_vec();
        let (mut z, mut list) = ([5; sample_count(N)], [9; respond_list_length(N, 2)]);
        let lent = noise.discard().respond(&[0, 3], &POLYNOMIAL, &words, &KEY, &mut y, &mut z, &mut list);
        let owned = self::noise().respond(&[0, 3], &POLYNOMIAL, Secret::from(words.to_vec()), &KEY).unwrap();
        assert_eq!(lent.answer, Ok(Outcome { bit, entries: respond_list_length(N, 2) }));
        assert_eq!(owned.session, lent.session);
        assert_eq!(owned.z, bit.then(|| z.to_vec()));
        assert_eq!(owned.list, list);
    }
}

#[test]
fn an_owned_blank_response_is_the_noise() {
    for (words, bit) in [([1, 0, 0], true), ([0, u64::MAX, 0], false)] {
        let blank = noise().respond_blank(&POLYNOMIAL, Secret::from(words.to_vec()), &KEY).unwrap();
        assert_eq!(blank.z, bit.then(|| noise().samples().to_vec()));
        assert_eq!(blank.list.len(), respond_list_length(N, 0));
        assert!(!blank.session.is_drawn());
    }
    match noise().respond_blank(&POLYNOMIAL, Secret::zeroed(RESPOND_WORDS), &[8; sample_count(N)]) {
        Err(CallError::Refused(Refusal::Key, unused)) => assert_eq!(unused.samples(), noise().samples()),
        other => panic!("{other:?}"),
    }
}

#[test]
fn a_refused_response_hands_the_noise_back() {
    let respond = |noise: Noise, challenge: &[u32]| noise.respond(challenge, &POLYNOMIAL, Secret::zeroed(RESPOND_WORDS), &KEY);
    let expected = respond(noise(), &[0, 3]).unwrap().z;
    let mut unused = noise();
    let samples = unused.samples().to_vec();
    for challenge in [&[4][..], &[0; 65], &[]] {
        unused = match respond(unused, challenge) {
            Err(error @ CallError::Refused(Refusal::Challenge, _)) => {
                assert_eq!(error.to_string(), Refusal::Challenge.to_string());
                let CallError::Refused(_, noise) = error else { unreachable!() };
                noise
            }
            other => panic!("{other:?}"),
        };
        assert_eq!(unused.samples(), samples);
        assert_eq!(unused.list(), noise().list());
    }
    assert_eq!(respond(unused, &[0, 3]).unwrap().z, expected);
}

/// Noise that is drawn for another set can be looked at, and not responded with.
#[test]
fn a_response_at_another_deviation_hands_the_noise_back() {
    for deviation in [Deviation::D107, Deviation::D250, Deviation::D271] {
        let words = || Secret::zeroed(RESPOND_WORDS);
        let respond = |noise: Noise| noise.respond(&[0, 3], &POLYNOMIAL, words(), &KEY);
        let respond_blank = |noise: Noise| noise.respond_blank(&POLYNOMIAL, words(), &KEY);
        for refused in [respond(noise_at(deviation)), respond_blank(noise_at(deviation))] {
            let unused = match refused {
                Err(CallError::Refused(Refusal::ResponseDeviation, unused)) => unused,
                other => panic!("{other:?}"),
            };
            assert_eq!(unused.samples(), noise_at(deviation).samples());
            assert_eq!(unused.list(), noise_at(deviation).list());
            assert_eq!(unused.discard(), noise_at(deviation).discard());
        }
    }
}
