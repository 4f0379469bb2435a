//! `bliss-box respond`.

use bliss_box::{Record, CDT, RESPOND_WORDS};

use super::*;

/// Words for a draw, and these for the response, of which word 1 of all ones rejects.
fn words_of_a_try(seed: u64, respond_words: [u64; RESPOND_WORDS]) -> Vec<u64> {
    [random_words(seed, draw_word_count(LIMIT)), respond_words.to_vec()].concat()
}

#[test]
fn responses_are_the_librarys() {
    let tries = [words_of_a_try(5, [1, u64::MAX, 0]), words_of_a_try(6, [0, u64::MAX, 0]), words_of_a_try(7, [1, 0, 0])];
    let mut session = open(4);
    let (mut list, mut z) = (vec![], None);
    for words in &tries {
        let (draw_words, words) = words.split_at(draw_word_count(LIMIT));
        let noise = library_draw(session, LIMIT, &CDT, draw_words);
        list.extend(noise.list());
        let responded = noise.respond(&[0, 3], &POLYNOMIAL, Secret::from(words.to_vec()), &KEY).unwrap();
        session = responded.session;
        list.extend(responded.list);
        z = responded.z;
    }
    let z = z.expect("the third is accepted");

    let ([key, challenge], list_file) = (key_and_challenge("respond"), path("respond-list"));
    let words = file("respond-words", lines(&tries.concat()));
    let with = ["respond", "--degree", "4", "--key", &key, "--challenge", &challenge, "--words", &words];
    let ran = run(&[&with[..], &["--list", &list_file]].concat());
    assert_eq!((ran.status, ran.out), (0, lines(&z)));
    assert_eq!(fs::read_to_string(list_file).unwrap(), lines(&list));
    let said: Vec<&str> = ran.err.lines().collect();
    assert_eq!(said.len(), 4);
    assert!(said[0].starts_with("bliss-box: warning: "));
    assert!(said[2].starts_with("try 2: draw full: attempts ") && said[2].ends_with("; response rejected: entries 63"));
    assert!(said[3].starts_with("try 3: draw full: attempts ") && said[3].ends_with("; response accepted: entries 63"));

    let ran = run(&[&with[..], &["--tries", "2", "--list", "-"]].concat());
    assert_eq!(ran.status, 3);
    assert!(list.starts_with(&ran.out.lines().map(|line| line.parse().unwrap()).collect::<Vec<u32>>()));
    assert!(ran.err.contains("\nno response accepted: tries 2. "));
}

#[test]
fn responses_from_the_system_are_accepted_in_some_try() {
    let [key, challenge] = key_and_challenge("system");
    let ran = run(&["respond", "--degree", "4", "--key", &key, "--challenge", &challenge]);
    assert_eq!((ran.status, ran.out.lines().count()), (0, 8));
    assert!(ran.err.ends_with("; response accepted: entries 63\n"));
}

#[test]
fn long_products_are_never_accepted() {
    let (key, challenge) = (file("long-key", lines(&[7; 1024])), file("long-challenge", lines(&(0..64).collect::<Vec<_>>())));
    let ran = run(&["respond", "--key", &key, "--challenge", &challenge, "--tries", "3"]);
    assert_eq!((ran.status, ran.out.as_str(), ran.err.matches("; response rejected: ").count()), (3, "", 3));
    let advice = "is never accepted; a key that passes bliss-box check-key at the challenge's length makes none.\n";
    assert!(ran.err.ends_with(&format!("whose sum of squares is above 46225 {advice}")), "{}", ran.err);
}

/// Words of two tries at degree 4 with a limit of 8, of which the first is rejected, whatever the challenge, and the second accepted.
fn rejected_and_accepted() -> Vec<u64> {
    let of_noise = |sample: u64| [0, 0, sample, 0].repeat(8);
    [of_noise(3), vec![1, u64::MAX, 0], of_noise(257), vec![1, 0, u64::MAX]].concat()
}

/// The noise of the second try, whatever the key is, and without one.
#[test]
fn a_blank_response_is_the_noise() {
    let words = file("blank-words", lines(&rejected_and_accepted()));
    let with = ["respond", "--blank", "--degree", "4", "--limit", "8", "--words", &words];
    let keys = [-7, 0, 7].map(|value| file(&format!("blank-key{value}"), lines(&[value; 8])));
    for key in [vec![], vec!["--key", &keys[0]], vec!["--key", &keys[1]], vec!["--key", &keys[2]]] {
        let ran = run(&[&with[..], &key].concat());
        assert_eq!((ran.status, ran.out), (0, lines(&[-1; 8])));
        let drawn = "draw full: attempts 8, accepted 8, entries 370";
        let tries = ["rejected", "accepted"].map(|end| format!("{drawn}; blank response {end}: entries 47\n"));
        assert!(ran.err.ends_with(&format!("try 1: {}try 2: {}", tries[0], tries[1])), "{}", ran.err);
    }
    let ran = run(&[&with[..], &["--tries", "1"]].concat());
    assert_eq!((ran.status, ran.out.as_str()), (3, ""));
    assert!(ran.err.ends_with("\nno response accepted: tries 1.\n"), "no advice on the product: {}", ran.err);
}

#[test]
fn a_key_that_is_not_used_is_tested() {
    for (key, problem) in [
        (vec![0; 7], "refusal 2: its length is 7, and 8 is wanted"),
        (vec![0, 0, 0, 0, 0, 0, 0, 8], "refusal 10: a value of the key is outside -7 to 7"),
    ] {
        let key = file("blank-refused-key", lines(&key));
        fails(&["respond", "--blank", "--degree", "4", "--key", &key], 1, &format!("{key}: {problem}"));
    }
    let words = file("blank-few-words", lines(&rejected_and_accepted()[..34]));
    let ran = run(&["respond", "--blank", "--degree", "4", "--limit", "8", "--words", &words]);
    assert_eq!((ran.status, ran.out.as_str()), (1, ""));
    assert!(ran.err.ends_with("refusal 7: a response wants 3 words, and it has 2 left\n"), "{}", ran.err);
}

/// A challenge that is missing or empty is no blank response, and a picture is of blank ones alone.
#[test]
fn a_blank_response_is_asked_for() {
    let ([key, challenge], empty) = (key_and_challenge("asked"), file("asked-empty", ""));
    for with in [
        &["--key", &key][..],
        &["--picture"],
        &["--picture", "--key", &key, "--challenge", &challenge],
        &["--blank", "--key", &key, "--challenge", &challenge],
        &["--blank", "--challenge", &empty],
    ] {
        let ran = run(&[&["respond", "--degree", "4"], with].concat());
        assert_eq!((ran.status, ran.out.as_str()), (2, ""), "{with:?}: {}", ran.err);
    }
    let with = ["respond", "--degree", "4", "--key", &key, "--challenge", &empty];
    fails(&with, 1, &format!("{empty}: there is no number in it"));
}

#[test]
fn a_blank_response_can_be_looked_at() {
    let words = file("looked-at-words", lines(&rejected_and_accepted()));
    let ran = run(&["respond", "--blank", "--picture", "--degree", "4", "--limit", "8", "--words", &words]);
    assert_eq!(ran.status, 0);
    assert_eq!(ran.out.lines().count(), 24, "{}", ran.out);
    let middle = ran.out.lines().find(|line| line.contains("-32 to 32")).unwrap();
    assert_eq!(middle.split_whitespace().nth(3), Some("8"), "all samples are there: {middle}");
    assert!(ran.out.ends_with("\ndeviation  1.0, where 215 is expected, give or take 53.8\n"), "{}", ran.out);
}

/// The record has both halves and no challenge, and that is said.
#[test]
fn a_blank_response_is_stored_without_a_challenge() {
    let (words, record) = (file("stored-blank-words", lines(&rejected_and_accepted())), path("stored-blank"));
    let with = ["respond", "--blank", "--degree", "4", "--limit", "8", "--words", &words, "--record"];
    let ran = run(&[&with[..], &[&record]].concat());
    assert_eq!((ran.status, ran.out), (0, lines(&[-1; 8])));
    assert!(ran.err.ends_with("\nrecord: z1 and z2 alone, since a blank response has no challenge\n"), "{}", ran.err);
    let half = Some(vec![-1; 4]);
    let expected = Record { degree: 4, challenge: None, z1: half.clone(), z2: half };
    assert_eq!(fs::read(&record).unwrap(), expected.to_bytes().unwrap());
}

#[test]
fn a_spent_draw_is_a_try_that_fails() {
    let [key, challenge] = key_and_challenge("spent-try");
    let words = [words_with("11111110"), words_with("11111111"), vec![0; RESPOND_WORDS]].concat();
    let words = file("spent-try-words", lines(&words));
    let with = ["respond", "--degree", "4", "--limit", "8", "--key", &key, "--challenge", &challenge, "--words", &words];
    let ran = run(&with);
    assert_eq!((ran.status, ran.out.lines().count()), (0, 8));
    assert!(ran.err.starts_with(&warned(&words, "try 1: draw spent: attempts 8, accepted 7, entries 370\n")));
    assert_eq!(run(&[&with[..], &["--tries", "1"]].concat()).status, 3);
}

/// A try stays printed where the words run out in the next one, be it at the draw or at the response.
#[test]
fn lists_on_standard_output_come_try_by_try() {
    let [key, challenge] = key_and_challenge("by-try");
    let (draw, rejected) = (words_with("11111111"), [0, u64::MAX, 0]);
    let respond = |name: &str, words: &[&[u64]], tries: &str| {
        let words = file(name, lines(&words.concat()));
        let with = ["--key", &key, "--challenge", &challenge, "--words", &words, "--tries", tries, "--list", "-"];
        run(&[&["respond", "--degree", "4", "--limit", "8"], &with[..]].concat())
    };
    let one = respond("by-try-one", &[&draw, &rejected], "1");
    assert_eq!((one.status, one.out.lines().count()), (3, 370 + 63));
    for (name, words) in [("by-try-draw", &[&draw[..], &rejected][..]), ("by-try-response", &[&draw, &rejected, &draw])] {
        let two = respond(name, words, "2");
        assert_eq!((two.status, two.out), (1, one.out.clone()), "{}", two.err);
    }
}

/// A try of this challenge at degree 512 has half a megabyte of entries, and a megabyte of lines for them.
#[test]
fn lists_of_many_tries_take_no_more_memory_than_one() {
    let (key, challenge) = (file("many-key", lines(&[7; 1024])), file("many-challenge", lines(&(0..64).collect::<Vec<_>>())));
    let list = path("many-list");
    let with = ["respond", "--key", &key, "--challenge", &challenge, "--tries", "30", "--list", &list];
    let ran = ended(program_by("ulimit -v 20000; exec \"$0\" \"$@\"", &with).spawn().unwrap());
    assert_eq!((ran.status, ran.out.as_str()), (3, ""), "{}", ran.err);
    let rejected = (9 << 24).to_string();
    assert_eq!(fs::read_to_string(&list).unwrap().lines().filter(|line| *line == rejected).count(), 30);
    fs::remove_file(list).unwrap();
}

/// Words of a try that is accepted at degree 4, whose noise is all ones.
fn accepted_words() -> Vec<u64> {
    [words_with("11111111"), vec![0; RESPOND_WORDS]].concat()
}

#[test]
fn a_response_is_stored_with_its_challenge() {
    let ([key, challenge], folder) = (key_and_challenge("stored"), folder("stored"));
    let words = file("stored-words", lines(&accepted_words()));
    let with = ["respond", "--degree", "4", "--limit", "8", "--key", &key, "--challenge", &challenge, "--words", &words];
    let (z, record, list) = (run(&with).out, format!("{folder}/record"), format!("{folder}/list"));
    let expected = {
        let z: Vec<i32> = z.lines().map(|line| line.parse().unwrap()).collect();
        let (z1, z2) = z.split_at(4);
        Record { degree: 4, challenge: Some(vec![0, 3]), z1: Some(z1.to_vec()), z2: Some(z2.to_vec()) }
    };
    fs::write(&record, "older").unwrap();
    let ran = run(&[&with[..], &["--record", &record, "--list", &list]].concat());
    assert_eq!((ran.status, &ran.out), (0, &z));
    assert_eq!(Record::from_bytes(&fs::read(&record).unwrap()), Ok(expected.clone()));
    assert_eq!(names_in(&folder), ["list", "record"]);
    let listed = fs::read_to_string(&list).unwrap();
    fs::remove_file(&record).unwrap();

    let ran = run(&[&with[..], &["--record", &record, "--list", "-"]].concat());
    assert_eq!((ran.status, &ran.out), (0, &listed), "in place of the response");
    assert_eq!(fs::read(&record).unwrap(), expected.to_bytes().unwrap());
    let child = program(&[&with[..], &["--record", "-", "--list", &list]].concat()).spawn().unwrap();
    let (status, out, _) = ended_with_bytes(child);
    assert_eq!((status, out), (0, expected.to_bytes().unwrap()), "in place of the response");
    assert_eq!(fs::read_to_string(&list).unwrap(), listed);
}

#[test]
fn a_record_is_left_where_no_response_is_delivered() {
    let ([key, challenge], folder) = (key_and_challenge("unstored"), folder("unstored"));
    let (record, list) = (file("unstored/record", "older"), format!("{folder}/list"));
    let respond = |words: &str| {
        let with = ["respond", "--degree", "4", "--limit", "8", "--key", &key, "--challenge", &challenge, "--words", words];
        [&with[..], &["--tries", "1", "--record", &record, "--list", &list]].concat().into_iter().map(String::from).collect()
    };
    let run_on = |arguments: Vec<String>, output: Stdio| {
        let arguments: Vec<&str> = arguments.iter().map(String::as_str).collect();
        ended(program(&arguments).stdout(output).spawn().unwrap())
    };
    // Rejected: there is a list, and no record.
    let rejected = file("unstored-rejected", lines(&[words_with("11111111"), vec![0, u64::MAX, 0]].concat()));
    assert_eq!(run_on(respond(&rejected), Stdio::piped()).status, 3);
    assert_eq!(
        (names_in(&folder), fs::read_to_string(&record).unwrap()),
        (["list", "record"].map(String::from).into(), "older".into())
    );
    fs::remove_file(&list).unwrap();
    // Accepted, and not printed.
    let accepted = file("unstored-accepted", lines(&accepted_words()));
    let full = fs::OpenOptions::new().write(true).open("/dev/full").unwrap();
    assert_eq!(run_on(respond(&accepted), full.into()).status, 1);
    assert_eq!((names_in(&folder), fs::read_to_string(&record).unwrap()), (vec!["record".into()], "older".into()));
    // The list and the record can't be one file, also where there is none yet.
    let with = ["respond", "--degree", "4", "--key", &key, "--challenge", &challenge, "--record", &list, "--list", &list];
    fails(&with, 1, &format!("--list {list}: this is the same file as --record {list}"));
    assert_eq!(names_in(&folder), ["record"]);
}
