//! Faults that are put into what a call left.

use alloc::vec;
use alloc::vec::Vec;

use super::*;
use crate::{draw_word_count, Deviation, Outcome, Secret, Session, CDT, POLYNOMIAL, RESPOND_WORDS};

const N: usize = 4;

/// Each attempt draws 1, which is accepted.
fn noise() -> Noise {
    let words = [0, 0, 1, 0].repeat(2 * N);
    assert_eq!(words.len(), draw_word_count(2 * N));
    let session = Session::open(N, Deviation::D215).unwrap();
    match session.draw_owned(2 * N, &CDT, &POLYNOMIAL, Secret::from(words)) {
        Ok(OwnedDraw::Full(noise)) => noise,
        other => panic!("{other:?}"),
    }
}

#[test]
fn a_draw_with_a_fault_gives_no_noise() {
    let after = |spoil: fn(&mut Noise)| {
        let mut noise = noise();
        spoil(&mut noise);
        let Noise { session, y, counts, list } = noise;
        OwnedDraw::of(session, counts, y, list).map(drop)
    };
    assert_eq!(after(|_| ()), Ok(()));
    assert_eq!(after(|noise| noise.y.wipe()), Err(Fault::ZeroNoise));
    assert_eq!(after(|noise| noise.list[0] += 1), Err(Fault::List));
    assert_eq!(after(|noise| noise.counts.accepted -= 1), Err(Fault::List));
}

#[test]
fn a_response_with_a_fault_gives_no_z() {
    let after = |spoil: fn(&mut Outcome, &mut Vec<u32>)| {
        let responded = noise().respond(&[0, 3], &POLYNOMIAL, Secret::zeroed(RESPOND_WORDS), &[0; 2 * N]).unwrap();
        let (mut outcome, mut list) = (Outcome { bit: true, entries: responded.list.len() }, responded.list);
        spoil(&mut outcome, &mut list);
        OwnedResponse::of(responded.session, outcome, 2, Secret::from(vec![1; 2 * N]), list).map(|response| response.z)
    };
    assert_eq!(after(|_, _| ()), Ok(Some(vec![1; 2 * N])));
    assert_eq!(after(|outcome, _| outcome.bit = false), Err(Fault::List));
    assert_eq!(after(|_, list| list[0] += 1), Err(Fault::List));
}
