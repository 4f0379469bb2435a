//! Read lists that the library wrote, explained; and damaged ones.

use super::*;
use bliss_box::{OwnedDraw, Secret, CDT, POLYNOMIAL, RESPOND_WORDS};

/// A read list in words, or what is wrong with it.
fn explanation(list: &[u32]) -> Result<String, String> {
    let mut text = String::new();
    let mut source = list.iter().map(|entry| Ok(*entry));
    let explained = explain(&mut Entries::of("list", &mut source), |call| {
        text += &call;
        Ok(())
    });
    match explained {
        Ok(()) => Ok(text),
        Err(failure) => Err(failure.problem().unwrap().strip_prefix("list: ").unwrap().to_owned()),
    }
}

/// Words of an attempt that draws 1, which is accepted, or -0, which is not.
fn words(bits: &str) -> Secret<u64> {
    let word_2 = |bit| if bit == '1' { 1 } else { 256 };
    Secret::from(bits.chars().flat_map(|bit| [0, 0, word_2(bit), 0]).collect::<Vec<u64>>())
}

/// A draw with these accept bits, as many as the limit.
fn draw(n: usize, bits: &str) -> OwnedDraw {
    Session::open(n, Deviation::D215).unwrap().draw_owned(bits.len(), &CDT, &POLYNOMIAL, words(bits)).unwrap()
}

/// The read list of such a draw at degree 4.
fn drawn(bits: &str) -> Vec<u32> {
    match draw(4, bits) {
        OwnedDraw::Full(noise) => noise.list().to_vec(),
        OwnedDraw::Spent(spent) => spent.list,
    }
}

/// The read list of a response with words of 0, which is accepted, at degree `n`. It is blank where the challenge is empty.
fn responded(n: usize, challenge: &[u32]) -> Vec<u32> {
    let OwnedDraw::Full(noise) = draw(n, &"1".repeat(2 * n)) else { unreachable!("every attempt is accepted") };
    let (words, key) = (Secret::zeroed(RESPOND_WORDS), vec![0; 2 * n]);
    let responded = match challenge {
        [] => noise.respond_blank(&POLYNOMIAL, words, &key),
        _ => noise.respond(challenge, &POLYNOMIAL, words, &key),
    };
    responded.unwrap().list
}

/// A session's list: a full draw, and a response.
fn session() -> Vec<u32> {
    [drawn("1101101111"), responded(4, &[0, 3])].concat()
}

#[test]
fn accept_bits_are_told() {
    let full = explanation(&drawn("1101101111")).unwrap();
    assert!(full.ends_with("The draw of degree 4 is full after 10 attempts. Accept bits:\n    1101101111\n"), "{full}");
    assert!(full.contains(" 1 sample accepted before attempt 1; attempt 0 was accepted\n"), "{full}");
    assert!(full.contains(" 2 samples accepted before attempt 3; attempt 2 was rejected\n"), "{full}");
    assert!(full.contains(" 8 samples accepted: the draw is full; attempt 9 was accepted\n"), "{full}");

    let long = "0".repeat(64) + "0111111";
    let spent = explanation(&drawn(&long)).unwrap();
    let bits = format!("    {}\n    0111111\n", "0".repeat(64));
    assert!(spent.ends_with(&format!("The draw of degree 4 is spent after 71 attempts. Accept bits:\n{bits}")), "{spent}");
    assert!(spent.contains(" 6 samples accepted: the draw is spent; attempt 70 was accepted\n"), "{spent}");
}

#[test]
fn every_challenge_is_read_off() {
    for (n, bits) in [(4, 1..16_u32), (8, 1..256)] {
        for bits in bits {
            let challenge: Vec<u32> = (0..n).filter(|c| bits >> c & 1 == 1).collect();
            told_challenge(n as usize, &challenge);
        }
    }
    told_challenge(64, &(0..64).collect::<Vec<_>>());
    told_challenge(64, &(0..63).collect::<Vec<_>>());
    told_challenge(1024, &(0..63).chain([1023]).collect::<Vec<_>>());
    told_challenge(1024, &(0..64).collect::<Vec<_>>());
    told_challenge(1024, &(960..1024).collect::<Vec<_>>());
}

fn told_challenge(n: usize, challenge: &[u32]) {
    let text = explanation(&responded(n, challenge)).unwrap();
    let (_, told) = text.split_once(&format!("The response of degree {n} is accepted. Challenge:\n")).unwrap();
    let told: Vec<u32> = told.split([',', '\n']).filter_map(|position| position.trim().parse().ok()).collect();
    assert_eq!(told, challenge);
}

#[test]
fn a_blank_response_has_no_challenge() {
    for n in [4, 8, 1024] {
        let text = explanation(&responded(n, &[])).unwrap();
        assert_eq!(text.lines().count(), 48, "{text}");
        let end = format!("The blank response of degree {n} is accepted. The challenge is empty.\n");
        assert!(text.ends_with(&end), "{text}");
        let rejected = [&responded(n, &[])[..46], &[9 << 24]].concat();
        assert!(explanation(&rejected).unwrap().ends_with(&end.replace("accepted", "rejected")));
    }
}

#[test]
fn every_entry_is_explained() {
    let list = [session(), drawn("11111111"), responded(4, &[])].concat();
    let text = explanation(&list).unwrap();
    for (number, entry) in (1..).zip(&list) {
        let start = format!("{number:>7}  ({}, {}) ", entry >> 24, entry & 0xff_ffff);
        assert!(text.lines().any(|line| line.starts_with(&start) && line.len() > 24), "entry {number}");
    }
}

#[test]
fn sessions_are_explained_call_by_call() {
    let ones = || drawn("11111111");
    let list = [session(), drawn("00000000"), session(), ones(), ones(), responded(4, &[]), ones()].concat();
    let told: Vec<String> =
        explanation(&list).unwrap().lines().filter(|line| line.starts_with("The ")).map(str::to_owned).collect();
    let draw = |end, attempts| format!("The draw of degree 4 is {end} after {attempts} attempts. Accept bits:");
    let response = || String::from("The response of degree 4 is accepted. Challenge:");
    let full = || draw("full", 10);
    let (ones, blank) = (|| draw("full", 8), "The blank response of degree 4 is accepted. The challenge is empty.".to_owned());
    assert_eq!(told, [full(), response(), draw("spent", 8), full(), response(), ones(), ones(), blank, ones()]);
}

#[test]
fn damaged_lists_are_errors() {
    let draw = drawn("1101101111");
    for response in [responded(4, &[0, 3]), responded(4, &[])] {
        damage_is_found(&[&draw[..], &response].concat(), draw.len());
    }
}

/// In the list of a draw of this length, and of a response after it.
fn damage_is_found(list: &[u32], draw: usize) {
    for i in 0..list.len() {
        let (before, after) = (&list[..i], &list[i + 1..]);
        assert!(explanation(&[before, after].concat()).is_err(), "entry {i} is missing");
        assert!(explanation(&[before, &list[i..=i], &list[i..]].concat()).is_err(), "entry {i} is there twice");
        let kind = list[i] >> 24;
        for kind in [kind - 1, kind + 1, 255] {
            let other = (kind << 24) + (list[i] & 0xff_ffff);
            assert!(explanation(&[before, &[other], after].concat()).is_err(), "entry {i} is of kind {kind}");
        }
        assert_eq!(explanation(before).is_ok(), i == 0 || i == draw, "the list ends before entry {i}");
    }
}

#[test]
fn errors_say_what_is_there_and_what_is_expected() {
    let (draw, response) = (drawn("11111111"), responded(4, &[1]));
    let changed = |list: &[u32], at: usize, entry: (u32, u32)| {
        let mut list = list.to_vec();
        list[at] = (entry.0 << 24) + entry.1;
        explanation(&list).unwrap_err()
    };
    let begins =
        "the first entry of a draw, (1, a power of two from 4 to 1024), or of a response, (7, a power of two from 4 to 1024),";
    assert_eq!(changed(&draw, 0, (1, 12)), format!("entry 1 is (1, 12), where {begins} is expected"));
    assert_eq!(
        changed(&draw, 1, (2, 1)),
        "entry 2 is (2, 1), where (2, 0), word 0: high half of attempt 0's draw, is expected"
    );
    assert_eq!(changed(&draw, 11, (3, 7)), "entry 12 is (3, 7), where (3, 6), CDT word 6: threshold 7, high word, is expected");
    assert_eq!(
        changed(&draw, 25, (4, 19)),
        "entry 26 is (4, 19), where (4, 20), polynomial entry 20, for attempt 0's e(N), is expected"
    );
    assert_eq!(changed(&draw, 46, (5, 1)), "entry 47 is (5, 1), where (5, 0), the samples accepted so far, is expected");
    assert_eq!(
        changed(&draw, 92, (5, 2)),
        "entry 93 is (5, 2), where (5, 0) or (5, 1), the samples accepted so far, is expected"
    );
    assert_eq!(
        changed(&draw, 369, (6, 9)),
        "entry 370 is (6, 9), where (6, 7) or (6, 8), the samples accepted so far, is expected"
    );
    let key_or_word = "where a key value of s1, (8, 0) to (8, 3), or (2, 0), word 0 of a blank response, is expected";
    assert_eq!(changed(&response, 1, (8, 4)), format!("entry 2 is (8, 4), {key_or_word}"));
    assert_eq!(changed(&responded(4, &[]), 1, (2, 1)), format!("entry 2 is (2, 1), {key_or_word}"));
    assert_eq!(changed(&response, 1, (2, 0)), "entry 3 is (8, 0), where (2, 1), word 1: compared with e(N1), is expected");
    assert_eq!(
        changed(&response, 2, (8, 3)),
        "entry 3 is (8, 3), where (8, 0), key value 0 of s1: output 1, position 1, is expected"
    );
    assert_eq!(changed(&response, 54, (9, 2)), "entry 55 is (9, 2), where (9, 0) or (9, 1), the bit, is expected");
    assert_eq!(
        explanation(&draw[..1]).unwrap_err(),
        "the list ends after entry 1, where (2, 0), word 0: high half of attempt 0's draw, is expected"
    );
}

#[test]
fn calls_that_cannot_follow_are_errors() {
    let (full, spent, response) = (drawn("11111111"), drawn("00000000"), responded(4, &[1]));
    let follows = |before: &[u32], after: &[u32]| explanation(&[before, after].concat());
    assert!(follows(&full, &response).is_ok());
    let problem = "entry 371 is (7, 4), where the first entry of a draw, (1, 4), is expected";
    assert_eq!(follows(&spent, &response).unwrap_err(), problem);
    assert_eq!(follows(&response, &response).unwrap_err(), problem.replace("371", "56"));
    let problem = "entry 371 is (7, 8), where the first entry of a draw, (1, 4), or of a response, (7, 4), is expected";
    assert_eq!(follows(&full, &responded(8, &[1])).unwrap_err(), problem);
}

#[test]
fn a_draw_makes_as_many_attempts_as_a_limit_allows() {
    let long = drawn(&"0".repeat(128));
    assert!(explanation(&long).is_ok());
    let beyond: Vec<u32> = long[46 * 127 + 1..].iter().map(|entry| if entry >> 24 == 2 { entry + 4 } else { *entry }).collect();
    let problem = explanation(&[&long[..long.len() - 1], &beyond].concat()).unwrap_err();
    assert_eq!(problem, "entry 5890 is (2, 512), where (6, 0) or (6, 1), the samples accepted so far, is expected");

    let short = drawn("00000000");
    let problem = explanation(&[&short[..=46 * 7], &short[46 * 8 + 1..]].concat()).unwrap_err();
    assert_eq!(problem, "entry 324 is (6, 0), where (2, 28), word 28: high half of attempt 7's draw, is expected");

    let late = drawn("111111101");
    let mut list = late.clone();
    list[46 * 9] = (5 << 24) + 8;
    let problem = explanation(&list).unwrap_err();
    assert_eq!(problem, "entry 415 is (5, 8), where (5, 7), the samples accepted so far, is expected");
}
