//! `bliss-box check-key`.

use super::*;

/// A key whose final sums at lengths 1, 2 and 3 are known.
const KNOWN: [i32; 8] = [1, 2, 3, 4, 0, -1, 2, -3];

/// What is printed of a key that passes.
fn passes(length: usize, sum: u32) -> String {
    format!(
        "At challenge length {length} this key can always sign: no response is rejected because the product is too long.\n\
         Its final sum is {sum}, and the most that passes is 46225.\n"
    )
}

#[test]
fn the_sum_of_a_key_that_passes_is_printed() {
    let key = file("known-key", lines(&KNOWN));
    for (length, sum) in [(1, 44), (2, 104), (3, 172)] {
        let with = ["check-key", "--degree", "4", "--length", &length.to_string()];
        assert_eq!(printed(&[&with[..], &[&key]].concat()), passes(length, sum));
        let ran = run_with(lines(&KNOWN), &[&with[..], &["-"]].concat());
        assert_eq!((ran.status, ran.out, ran.err.as_str()), (0, passes(length, sum), ""));
    }
    let zero = file("zero-key", format!("# s1 and s2\n{}", lines(&[0; 1024])));
    assert_eq!(printed(&["check-key", "--length", "23", &zero]), passes(23, 0));
}

#[test]
fn a_key_whose_sum_is_above_the_limit_is_refused() {
    let refused = |key: &str, length: &str| {
        let never = format!("at challenge length {length} some challenges may never be answered; make another key");
        fails(&["check-key", "--length", length, key], 1, &format!("{key}: refusal 13: its final sum is above 46225: {never}"));
    };
    refused(&file("sevens-key", lines(&[7; 1024])), "23");
    // At length 1 the final sum is the key's sum of squares: 943 * 49 + 9 + 9 = 46225.
    let mut key = [[7; 943].as_slice(), &[3, -3], &[0; 79]].concat();
    assert_eq!(printed(&["check-key", "--length", "1", &file("limit-key", lines(&key))]), passes(1, 46225));
    key[1000] = -1;
    refused(&file("above-key", lines(&key)), "1");
}

#[test]
fn other_refusals_name_what_is_wrong() {
    let check = |key: &str, length: &str, problem: &str| {
        fails(&["check-key", "--degree", "4", "--length", length, key], 1, problem);
    };
    let key = file("other-key", lines(&KNOWN));
    for length in ["0", "5", "65", "18446744073709551615"] {
        check(&key, length, &format!("--length {length}: refusal 6: at degree 4 the length of a challenge is 1 to 4"));
    }
    let problem = "--length 65: refusal 6: at degree 512 the length of a challenge is 1 to 64";
    fails(&["check-key", "--length", "65", &file("long-enough", lines(&[0; 1024]))], 1, problem);
    check(&key, "-1", "--length: \"-1\" has a minus sign, and no value here is negative");
    check(&key, "2.5", "--length: \"2.5\" has a point in it: tables hold whole numbers, with neither comma nor point");
    for (count, held) in [(7, "7"), (9, "more than 8")] {
        let key = file(&format!("other-key-of-{count}"), lines(&vec![8; count]));
        // Refusal 2 goes before 6 and 10.
        check(&key, "5", &format!("{key}: refusal 2: its length is {held}, and 8 is wanted"));
    }
    for value in [-8, 8] {
        let key = file(&format!("other-key-with{value}"), lines(&[7, 7, 7, 7, 7, 7, 7, value]));
        check(&key, "5", "--length 5: refusal 6: at degree 4 the length of a challenge is 1 to 4");
        check(&key, "4", &format!("{key}: refusal 10: a value of the key is outside -7 to 7"));
    }
}

/// What whoever uses the command has to know of it.
#[test]
fn the_help_says_what_a_pass_is_worth() {
    let help = printed(&["check-key", "--help"]).split_whitespace().collect::<Vec<_>>().join(" ");
    for text in ["nothing of challenges of other lengths", "tells something of the key", "make another one", "one in five"] {
        assert!(help.contains(text), "{text}: {help}");
    }
}
