//! Files that are read: what they hold, and what is said of bad ones.

use bliss_box::CDT;

use super::*;

/// Command lines that read a file, each up to the file's name.
fn reading(name: &str) -> [Vec<String>; 9] {
    let [key, challenge] = key_and_challenge(name);
    let run = |arguments: &[&str]| arguments.iter().copied().map(String::from).collect();
    [
        run(&["draw", "--degree", "4", "--cdt"]),
        run(&["respond", "--degree", "4", "--key", &key, "--challenge"]),
        run(&["list"]),
        run(&["record", "write", "--degree", "4", "--challenge"]),
        run(&["record", "write", "--degree", "4", "--z1"]),
        run(&["record", "write", "--degree", "4", "--z2"]),
        run(&["draw", "--degree", "4", "--words"]),
        run(&["respond", "--degree", "4", "--challenge", &challenge, "--key"]),
        run(&["check-key", "--degree", "4", "--length", "1"]),
    ]
}

/// A command line with its file.
fn with_file<'a>(arguments: &'a [String], file: &'a str) -> Vec<&'a str> {
    arguments.iter().map(String::as_str).chain([file]).collect()
}

const WHOLE_NUMBERS_ALONE: &str = "tables hold whole numbers, with neither comma nor point";

const SEVERAL: &str = "several numbers on one line; one a line is wanted";

#[test]
fn bad_values_in_public_files_are_shown_with_their_line() {
    let [cdt, challenge, list, recorded, z1, z2, ..] = reading("bad");
    let (words, positions, values) = ("0 to 18446744073709551615", "0 to 4294967295", "-2147483648 to 2147483647");
    let files = [(cdt, words), (challenge, positions), (list, positions), (recorded, positions), (z1, values), (z2, values)];
    for (i, (with, range)) in files.iter().enumerate() {
        let refused = |name: &str, content: &[u8], line: usize, problem: &str| {
            let bad = file(&format!("bad-{i}-{name}"), content);
            fails(&with_file(with, &bad), 1, &format!("{bad}:{line}: {problem}"));
        };
        let whole = WHOLE_NUMBERS_ALONE;
        refused("comma", b"0,8398\n", 1, &format!("\"0,8398\" has a comma in it: {whole}"));
        refused("cut", b"# deviation\n\n0,8\n", 3, &format!("\"0,8\" has a comma in it: {whole}"));
        refused("point", b"#\n 0.8398\r\n", 2, &format!("\"0.8398\" has a point in it: {whole}"));
        refused("text", b"x\n", 1, "\"x\" is not a whole number in decimal");
        refused("two", b"1 2\n", 1, SEVERAL);
        refused("plus", b"+1\n", 1, "\"+1\" is not a whole number in decimal");
        refused("escape", b"\x1b[2J\n", 1, "\"\\u{1b}[2J\" is not a whole number in decimal");
        refused("utf-8", b"\n\n\xff\n", 3, "this is not UTF-8 text");
        refused("long", &[b"\n", &[b'1'; 4097][..]].concat(), 2, "this line is longer than 4096 bytes");
        refused("large", b"18446744073709551616", 1, &format!("\"18446744073709551616\" is outside {range}"));
        if range.starts_with('0') {
            refused("minus", b"-1\n", 1, "\"-1\" has a minus sign, and no value here is negative");
        }
    }
}

/// Each value is of one digit alone, which is in no range and no line's number: it must not be said.
#[test]
fn values_in_secret_files_are_never_shown() {
    let [.., words, key, checked] = reading("secret");
    let (word_range, key_range) = ("0 to 18446744073709551615", "-2147483648 to 2147483647");
    let files = [("words", words, '2', word_range), ("key", key, '5', key_range), ("checked", checked, '5', key_range)];
    for (name, with, digit, range) in files {
        let refused = |bad: &str, problem: &str| {
            let text = bad.replace('D', &digit.to_string());
            let file = file(&format!("secret-{name}"), format!("1\n\n{text}\n"));
            let ran = run(&with_file(&with, &file));
            assert_eq!((ran.status, ran.out.as_str()), (1, ""), "{bad}");
            assert_eq!(ran.err, format!("bliss-box: {file}:3: {problem}\n"), "{bad}");
            assert!(!ran.err.replace(&file, "").contains(digit), "{bad}: {}", ran.err);
        };
        for (mark, called) in [(",", "comma"), (".", "point")] {
            let problem = format!("this value has a {called} in it: {WHOLE_NUMBERS_ALONE}");
            for bad in ["D|D", "-D|", "|DD", "D| DD", "D|D x", "DD D|D"] {
                refused(&bad.replace('|', mark), &problem);
            }
        }
        for bad in ["+D", "xD", "D x", "--D", "0xD", "D;", "DeD", "\u{2212}D", "D D x", "D#", "\u{1b}D", "\u{feff}D"] {
            refused(bad, "this value is not a whole number in decimal");
        }
        for bad in ["D D", "D\tDD", "D;D", "-D ; D", "D  -DD\t;D", &"D ".repeat(2000)] {
            refused(bad, SEVERAL);
        }
        for bad in ["D".repeat(20), "D".repeat(4000)] {
            refused(&bad, &format!("this value is outside {range}"));
        }
        match name {
            "words" => refused("-D", "this value has a minus sign, and no value here is negative"),
            _ => refused("-DDDDDDDDDD", &format!("this value is outside {range}")),
        }
        refused(&"D".repeat(4097), "this line is longer than 4096 bytes");
    }
}

#[test]
fn files_that_cannot_be_read_are_named() {
    for with in reading("unread") {
        let refused = |path: &str, problem: &str| fails(&with_file(&with, path), 1, &format!("{path}: {problem}"));
        refused(&path("missing"), "cannot be read: No such file or directory (os error 2)");
        refused(env!("CARGO_TARGET_TMPDIR"), "cannot be read: Is a directory (os error 21)");
        let empty = match with.last().unwrap().as_str() {
            "--words" => "refusal 7: a draw wants 288 words, and it has 0 left",
            _ => "there is no number in it",
        };
        refused(&file("empty", ""), empty);
        refused(&file("comment", "# nothing\n\n  # here\n"), empty);
    }
}

#[test]
fn tables_may_say_what_they_are() {
    let words = random_words(2, draw_word_count(LIMIT));
    let expected = lines(library_draw(open(4), LIMIT, &CDT, &words).samples());
    let mut text = String::from("# words\r\n\r\n");
    for word in &words {
        text += &format!("\t 00{word} \r\n  # and so on\n");
    }
    let text = text.trim_end_matches("\r\n  # and so on\n").to_owned() + "\u{a0}";
    assert_eq!(run(&["draw", "--degree", "4", "--words", &file("commented", &text)]).out, expected);
    assert_eq!(run_with(&text, &["draw", "--degree", "4", "--words", "-"]).out, expected);
    let cdt = format!("# deviation 215\n{}", lines(&CDT));
    let words = file("words-beside", lines(&words));
    assert_eq!(run_with(&cdt, &["draw", "--degree", "4", "--words", &words, "--cdt", "-"]).out, expected);
    let bad = run_with("0,8398\n", &["draw", "--degree", "4", "--cdt", "-"]);
    assert!(bad.err.starts_with("bliss-box: standard input:1: \"0,8398\" has a comma in it"));
}

#[test]
fn a_byte_order_mark_is_skipped_at_the_start_alone() {
    let text = lines(&words_with("11111111"));
    let draw = |name: &str, text: &str| run(&["draw", "--degree", "4", "--limit", "8", "--words", &file(name, text)]);
    assert_eq!(draw("mark", &format!("\u{feff}{text}")).out, "1\n".repeat(8));
    assert_eq!(draw("mark-comment", &format!("\u{feff}# words\n{text}")).out, "1\n".repeat(8));
    for (name, text) in [("mark-later", format!("\n\u{feff}{text}")), ("mark-twice", format!("\u{feff}\u{feff}{text}"))] {
        let ran = draw(name, &text);
        assert!(ran.status == 1 && ran.err.ends_with("this value is not a whole number in decimal\n"), "{}", ran.err);
    }
}

#[test]
fn words_are_read_as_far_as_they_are_needed() {
    let ran = run_endless(program(&["draw", "--degree", "4", "--words", "-"]), "0\n0\n1\n0\n");
    assert_eq!((ran.status, ran.out), (0, "1\n".repeat(8)));
}

#[test]
fn tables_without_end_are_read_to_the_first_number_too_many() {
    let [key, challenge] = key_and_challenge("endless");
    let refused = |arguments: &[&str], problem: &str| {
        let ran = run_endless(program(arguments), "1\n");
        assert_eq!((ran.status, ran.out.as_str(), ran.err), (1, "", format!("bliss-box: standard input: {problem}\n")));
    };
    refused(&["draw", "--cdt", "-"], "refusal 2: its length is more than 20, and 20 is wanted");
    let too_long = "refusal 2: its length is more than 8, and 8 is wanted";
    refused(&["respond", "--degree", "4", "--challenge", &challenge, "--key", "-"], too_long);
    refused(&["check-key", "--degree", "4", "--length", "1", "-"], too_long);
    let respond = ["respond", "--degree", "4", "--key", &key, "--challenge", "-"];
    refused(&respond, "refusal 6: it holds more than 4 positions, the most at degree 4");
    let record = ["record", "write", "--degree", "4"];
    refused(&[&record[..], &["--challenge", "-"]].concat(), "refusal 6: it holds more than 4 positions, the most at degree 4");
    for half in ["--z1", "--z2"] {
        refused(&[&record[..], &[half, "-"]].concat(), "refusal 2: its length is more than 4, and 4 is wanted");
    }
}
