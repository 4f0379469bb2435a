//! `bliss-box list`.

use bliss_box::CDT;

use super::*;

#[test]
fn a_list_is_explained_entry_by_entry() {
    let (words, list) = (file("told-words", lines(&words_with("1101101111"))), path("told-list"));
    let ran = run(&["draw", "--degree", "4", "--limit", "10", "--words", &words, "--list", &list]);
    assert_eq!((ran.status, ran.err), (0, warned(&words, "draw full: attempts 10, accepted 8, entries 462\n")));
    let text = printed(&["list", &list]);
    let numbered = |line: &&str| line.trim_start().starts_with(|first: char| first.is_ascii_digit());
    assert_eq!(text.lines().filter(numbered).count(), 462 + 1, "each entry, and the accept bits");
    assert!(text.ends_with("The draw of degree 4 is full after 10 attempts. Accept bits:\n    1101101111\n"), "{text}");
    assert!(text.contains("\n     49  (2, 5)        word 5: low half of attempt 1's draw\n"), "{text}");
    assert!(text.contains("\n     12  (3, 6)        CDT word 6: threshold 7, high word\n"), "{text}");
    assert_eq!(run_with(fs::read_to_string(&list).unwrap(), &["list", "-"]).out, text);
}

#[test]
fn a_sessions_list_tells_the_challenge() {
    let ([key, challenge], list) = (key_and_challenge("told"), path("told-session"));
    let with = ["respond", "--degree", "4", "--key", &key, "--challenge", &challenge, "--list", &list];
    let tries = run(&with).err.lines().count();
    let text = printed(&["list", &list]);
    assert_eq!(text.matches("The draw of degree 4 is full after ").count(), tries);
    assert_eq!(text.matches("The response of degree 4 is rejected. Challenge:\n    0, 3\n").count(), tries - 1);
    assert!(text.ends_with("The response of degree 4 is accepted. Challenge:\n    0, 3\n"));
    assert!(text.contains("  (8, 1)        key value 1 of s1: output 0, position 3\n"));
}

#[test]
fn damaged_lists_are_errors() {
    let draw = library_draw(open(4), 8, &CDT, &words_with("11111111")).list().to_vec();
    let damaged = |name: &str, list: &[u32], problem: &str| {
        let list = file(name, lines(list));
        fails(&["list", &list], 1, &format!("{list}: {problem}"));
    };
    let word = "(2, 0), word 0: high half of attempt 0's draw, is expected";
    damaged("list-cut", &draw[..1], &format!("the list ends after entry 1, where {word}"));
    damaged("list-without", &[&draw[..1], &draw[2..]].concat(), &format!("entry 2 is (2, 1), where {word}"));
}

#[test]
fn calls_before_a_damaged_one_are_explained() {
    let draw = library_draw(open(4), 8, &CDT, &words_with("11111111")).list().to_vec();
    let whole = printed(&["list", &file("list-whole", lines(&draw))]);
    let list = file("list-longer", lines(&[&draw[..], &draw[369..]].concat()));
    let ran = run(&["list", &list]);
    let first = "the first entry of a draw, (1, 4), or of a response, (7, 4), is expected";
    assert_eq!((ran.status, ran.out), (1, whole));
    assert_eq!(ran.err, format!("bliss-box: {list}: entry 371 is (6, 8), where {first}\n"));
}

#[test]
fn a_damaged_list_without_end_is_read_to_the_damage() {
    let ran = run_endless(program(&["list", "-"]), &lines(&[(1 << 24) + 4]));
    let word = "(2, 0), word 0: high half of attempt 0's draw, is expected";
    let problem = format!("bliss-box: standard input: entry 2 is (1, 4), where {word}\n");
    assert_eq!((ran.status, ran.out.as_str(), ran.err), (1, "", problem));
}

/// The text of a draw's list has half a megabyte.
#[test]
fn a_list_of_many_calls_takes_no_more_memory_than_one() {
    let draw = lines(library_draw(open(64), 128, &CDT, &words_with(&"1".repeat(128))).list());
    let one = printed(&["list", &file("list-of-one", &draw)]);
    let many = file("list-of-many", draw.repeat(60));
    let ran = ended(program_by("ulimit -v 20000; exec \"$0\" \"$@\" | tail -c 1000", &["list", &many]).spawn().unwrap());
    assert_eq!((ran.status, ran.err.as_str()), (0, ""));
    let (_, end) = one.rsplit_once("The draw").unwrap();
    assert!(ran.out.ends_with(end), "{}", ran.out);
}
