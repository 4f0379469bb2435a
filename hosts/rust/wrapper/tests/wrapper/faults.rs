//! The faults that are looked for in what a call left.

use bliss_box::{sample_count, Counts, Entry, Fault, Kind, Outcome, Secret, POLYNOMIAL, RESPOND_WORDS};

use crate::owned::{noise, KEY};
use crate::N;

#[test]
fn noise_is_looked_at_in_every_place() {
    let (counts, list) = (noise().counts(), noise().list().to_vec());
    for place in 0..sample_count(N) {
        for value in [1, -1, i32::MIN] {
            let mut y = [0; sample_count(N)];
            y[place] = value;
            assert_eq!(counts.check(N, &y, &list), Ok(()));
        }
    }
    assert_eq!(counts.check(N, &[0; sample_count(N)], &list), Err(Fault::ZeroNoise));
}

/// Each way in which a list can miss what its answer says of its ends and its length.
fn misfits(list: &[u32]) -> Vec<Vec<u32>> {
    let changed = |place: usize, entry: u32| {
        let mut list = list.to_vec();
        list[place] = entry;
        list
    };
    let last = list.len() - 1;
    vec![vec![], list[..last].to_vec(), changed(0, list[0] + 1), changed(0, 0), changed(last, list[last] - 1), changed(last, 0)]
}

#[test]
fn a_draws_list_that_misfits_is_a_fault() {
    let (counts, y, list) = (noise().counts(), noise().samples().to_vec(), noise().list().to_vec());
    assert_eq!(list.last(), Some(&Entry::new(Kind::Accepted, sample_count(N)).0));
    let longer = [&list[..], &[7]].concat();
    assert_eq!(counts.check(N, &y, &longer), Ok(()), "what is behind the entries is the host's");
    for list in misfits(&list) {
        assert_eq!(counts.check(N, &y, &list), Err(Fault::List));
    }
    assert_eq!(counts.check(2 * N, &y, &list), Err(Fault::List));
    for wrong in [
        Counts { attempts: counts.attempts + 1, ..counts },
        Counts { attempts: counts.attempts + (1 << 63), ..counts },
        Counts { accepted: counts.accepted - 1, ..counts },
        Counts { accepted: counts.accepted + (1 << 24), ..counts },
        Counts { entries: counts.entries - 1, ..counts },
        Counts { entries: 0, ..counts },
    ] {
        assert_eq!(wrong.check(N, &y, &list), Err(Fault::List), "{wrong:?}");
    }
}

#[test]
fn a_responses_list_that_misfits_is_a_fault() {
    let list = noise().respond(&[0, 3], &POLYNOMIAL, Secret::zeroed(RESPOND_WORDS), &KEY).unwrap().list;
    let outcome = Outcome { bit: true, entries: list.len() };
    assert_eq!(outcome.check(N, 2, &list), Ok(()));
    for list in misfits(&list) {
        assert_eq!(outcome.check(N, 2, &list), Err(Fault::List));
    }
    assert_eq!(outcome.check(N, 3, &list), Err(Fault::List));
    assert_eq!(outcome.check(2 * N, 1, &list), Err(Fault::List), "as long, and of another degree");
    assert_eq!(Outcome { bit: false, ..outcome }.check(N, 2, &list), Err(Fault::List));
    assert_eq!(Outcome { entries: list.len() - 1, ..outcome }.check(N, 2, &list), Err(Fault::List));
}
