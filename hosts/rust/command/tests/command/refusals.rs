//! Refusals of the box, said of what was lent to it.

use bliss_box::CDT;

use super::*;

#[test]
fn no_word_is_used_twice() {
    let [key, challenge] = key_and_challenge("short");
    let draw = words_with("11111111");
    let respond = |name: &str, words: &[u64], call: &str, wanted: usize, left: usize| {
        let words = file(name, lines(words));
        let with = ["respond", "--degree", "4", "--limit", "8", "--key", &key, "--challenge", &challenge, "--words", &words];
        let ran = run(&with);
        let problem = format!("bliss-box: {words}: refusal 7: {call} wants {wanted} words, and it has {left} left\n");
        assert_eq!((ran.status, ran.out.as_str()), (1, ""));
        assert!(ran.err.ends_with(&problem), "{}", ran.err);
        ran.err.lines().count()
    };
    assert_eq!(respond("short-1", &draw[..31], "a draw", 32, 31), 1);
    // Where a draw was made, a warning comes first.
    assert_eq!(respond("short-2", &draw, "a response", 3, 0), 2);
    assert_eq!(respond("short-3", &[&draw[..], &[0, 0]].concat(), "a response", 3, 2), 2);
    // After a rejection the next try begins with the next words.
    let rejected = [&draw[..], &[0, u64::MAX, 0]].concat();
    assert_eq!(respond("short-4", &rejected, "a draw", 32, 0), 3);
    assert_eq!(respond("short-5", &[&rejected[..], &draw[1..]].concat(), "a draw", 32, 31), 3);
}

#[test]
fn refusals_of_the_box_are_said() {
    for degree in ["0", "12", "2048"] {
        let problem = "refusal 1: the degree is not a power of two from 4 to 1024";
        fails(&["draw", "--degree", degree], 1, &format!("--degree {degree}: {problem}"));
        fails(&["demo", "--degree", degree], 1, &format!("--degree {degree}: {problem}"));
        fails(&["check-key", "--degree", degree, "--length", "1", "missing"], 1, &format!("--degree {degree}: {problem}"));
    }
    for deviation in ["0", "106", "108", "214", "216", "272", "18446744073709551615"] {
        let problem = format!("--deviation {deviation}: refusal 16: the deviation is not 107, 215, 250 or 271");
        fails(&["draw", "--deviation", deviation], 1, &problem);
        fails(&["demo", "--deviation", deviation], 1, &problem);
    }
    for limit in ["0", "7", "129", "18446744073709551615"] {
        let problem = format!("--limit {limit}: refusal 5: at degree 4 the limit is 8 to 128");
        fails(&["draw", "--degree", "4", "--limit", limit], 1, &problem);
    }
}

/// A CDT in a file, with a comment in its first line.
fn cdt_file(name: &str, cdt: &[u64]) -> String {
    file(name, format!("# thresholds\n{}", lines(cdt)))
}

/// The built-in CDT with other words at some places.
fn cdt_with(name: &str, others: &[(usize, u64)]) -> String {
    let mut cdt = CDT;
    for (place, word) in others {
        cdt[*place] = *word;
    }
    cdt_file(name, &cdt)
}

#[test]
fn a_refused_cdt_is_named_with_its_length_or_its_lines() {
    for (count, held) in [(1, "1"), (19, "19"), (21, "more than 20"), (25, "more than 20")] {
        let cdt = cdt_file(&format!("cdt-of-{count}"), &vec![1 << 61; count]);
        fails(&["draw", "--cdt", &cdt], 1, &format!("{cdt}: refusal 2: its length is {held}, and 20 is wanted"));
    }
    let refused = |name: &str, others: &[(usize, u64)], line: usize, problem: &str| {
        let cdt = cdt_with(name, others);
        fails(&["draw", "--cdt", &cdt], 1, &format!("{cdt}:{line}: refusal 3: {problem}; {HIGH_WORDS_FIRST}"));
    };
    let large = "this word is 2^62 or more";
    refused("cdt-large-last", &[(19, 1 << 62)], 21, large);
    refused("cdt-large-first", &[(0, u64::MAX), (19, 1 << 62)], 2, large);
    refused("cdt-large-and-falling", &[(2, 0), (19, 1 << 62)], 21, large);
    refused("cdt-falling-high", &[(9, 0)], 11, "threshold 10 (lines 11 and 21) is below threshold 9 (lines 10 and 20)");
    // The high words of thresholds 9 and 10 are the same.
    refused("cdt-falling-low", &[(19, 0)], 11, "threshold 10 (lines 11 and 21) is below threshold 9 (lines 10 and 20)");
    refused("cdt-falling-twice", &[(1, 1), (9, 0)], 3, "threshold 2 (lines 3 and 13) is below threshold 1 (lines 2 and 12)");
}

/// What a refused CDT is told, since it may be in the order of before.
const HIGH_WORDS_FIRST: &str = "the ten high words come first now, and then the ten low words";

/// The command of docs/HOST-GUIDE.md that reorders a file of before.
const REORDER: &str = r#"for every in 'p;n' 'n;p'; do grep '^[0-9]' before.txt | sed -n "$every"; done >cdt.txt"#;

#[test]
fn a_cdt_in_the_order_of_before_is_refused_until_it_is_reordered() {
    let in_turn: Vec<u64> = (0..10).flat_map(|i| [CDT[i], CDT[10 + i]]).collect();
    let folder = folder("reordering");
    let (before, reordered) = (cdt_file("reordering/before.txt", &in_turn), format!("{folder}/cdt.txt"));
    let problem = "threshold 2 (lines 3 and 13) is below threshold 1 (lines 2 and 12)";
    fails(&["draw", "--cdt", &before], 1, &format!("{before}:3: refusal 3: {problem}; {HIGH_WORDS_FIRST}"));

    assert!(Command::new("sh").args(["-c", REORDER]).current_dir(&folder).status().unwrap().success());
    assert_eq!(fs::read_to_string(&reordered).unwrap(), lines(&CDT));
    let words = file("reordering/words", lines(&random_words(6, draw_word_count(LIMIT))));
    let draw = |with: &[&str]| run(&[&["draw", "--degree", "4", "--words", &words], with].concat()).out;
    assert_eq!(draw(&["--cdt", &reordered]), draw(&[]));
}

#[test]
fn refusals_come_in_their_order() {
    let words = file("one-word", "1\n");
    let refused =
        |with: &[&str], problem: &str| fails(&[&["draw", "--degree", "4", "--words", &words], with].concat(), 1, problem);
    let (short, falling) = (cdt_file("order-short", &CDT[1..]), cdt_with("order-falling", &[(1, 0)]));
    let problem = format!("{short}: refusal 2: its length is 19, and 20 is wanted");
    refused(&["--cdt", &short], &problem);
    refused(&["--cdt", &short, "--limit", "7"], &problem);
    let problem = format!("threshold 2 (lines 3 and 13) is below threshold 1 (lines 2 and 12); {HIGH_WORDS_FIRST}");
    refused(&["--cdt", &falling], &format!("{falling}:3: refusal 3: {problem}"));
    refused(&["--cdt", &falling, "--limit", "7"], &format!("{falling}:3: refusal 3: {problem}"));
    refused(&["--limit", "7"], "--limit 7: refusal 5: at degree 4 the limit is 8 to 128");
    refused(&["--limit", "18446744073709551615"], "--limit 18446744073709551615: refusal 5: at degree 4 the limit is 8 to 128");
    for (deviation, wanted) in [("107", 448), ("215", 288), ("250", 288), ("271", 288)] {
        let problem = format!("{words}: refusal 7: a draw wants {wanted} words, and it has 1 left");
        refused(&["--deviation", deviation], &problem);
    }
}

#[test]
fn refusals_of_responses_are_said() {
    let [key, challenge] = key_and_challenge("refused");
    let refused = |key: &str, challenge: &str, problem: &str| {
        fails(&["respond", "--degree", "4", "--key", key, "--challenge", challenge], 1, problem);
    };
    for (count, held) in [(7, "7"), (9, "more than 8"), (16, "more than 8")] {
        let key = file(&format!("key-of-{count}"), lines(&vec![1; count]));
        refused(&key, &challenge, &format!("{key}: refusal 2: its length is {held}, and 8 is wanted"));
    }
    for value in [-8, 8] {
        let key = file(&format!("key-with{value}"), lines(&[0, 0, 0, 0, 0, 0, 0, value]));
        refused(&key, &challenge, &format!("{key}: refusal 10: a value of the key is outside -7 to 7"));
    }
    let refused_challenge = |positions: &[u32], at: &str, problem: &str| {
        let challenge = file(&format!("challenge-{positions:?}"), format!("# positions\n{}", lines(positions)));
        refused(&key, &challenge, &format!("{challenge}{at}: refusal 6: {problem}"));
    };
    refused_challenge(&[2, 2], ":3", "position 2 does not come after 2, the position before it");
    refused_challenge(&[0, 3, 1], ":4", "position 1 does not come after 3, the position before it");
    refused_challenge(&[4], ":2", "position 4 is not below the degree, 4");
    refused_challenge(&[0, 1, u32::MAX], ":4", "position 4294967295 is not below the degree, 4");
    refused_challenge(&[0, 1, 2, 3, 4], "", "it holds more than 4 positions, the most at degree 4");
}
