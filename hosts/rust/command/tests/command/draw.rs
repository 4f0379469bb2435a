//! `bliss-box draw`.

use bliss_box::CDT;

use super::*;

#[test]
fn draws_are_the_librarys() {
    let of_bliss_i = [4, 64, 512, 1024].map(|n| (n, Deviation::D215));
    for (n, deviation) in of_bliss_i.into_iter().chain(Deviation::ALL.map(|deviation| (512, deviation))) {
        let limit = draw_limit(n, deviation);
        // A word more than is needed.
        let words = random_words(n as u64, draw_word_count(limit) + 1);
        let name = |what: &str| format!("draw-{what}-{n}-{deviation}");
        let (words_file, list_file) = (file(&name("words"), lines(&words)), path(&name("list")));
        let (degree, of) = (n.to_string(), deviation.to_string());
        let ran = run(&["draw", "--degree", &degree, "--deviation", &of, "--words", &words_file, "--list", &list_file]);
        let drawn = library_draw(Session::open(n, deviation).unwrap(), limit, deviation.cdt(), &words);
        let counts = drawn.counts();
        assert_eq!((ran.status, ran.out), (0, lines(drawn.samples())));
        let said = format!("draw full: attempts {}, accepted {}, entries {}\n", counts.attempts, 2 * n, counts.entries);
        assert_eq!(ran.err, warned(&words_file, &said));
        assert_eq!(fs::read_to_string(list_file).unwrap(), lines(drawn.list()));
    }
}

/// With a low byte of 0 any draw is accepted, and gives a multiple of 256 by its part of all draws: the first thresholds are 0.946,
/// 0.644, 0.580 and 0.547 of them, and the second ones above 0.99, 0.961, 0.923 and 0.898. A 255 is accepted where word 3 is below
/// exp(-255² / (2 × deviation²)): 0.058, 0.495, 0.594 and 0.642.
#[test]
fn each_deviation_makes_other_noise_of_the_same_words() {
    let draws = [0.56, 0.62, 0.7, 0.95].map(|part_of_draws| [part(part_of_draws), 0, 0, 0]);
    let accepts = [0.05, 0.4, 0.55, 0.63].map(|part_of_words| [0, 0, 255, part(part_of_words)]);
    let words = [draws.concat(), accepts.concat(), words_with("111")].concat();
    let words = file("by-deviation-words", lines(&words));
    for (deviation, samples) in [
        ("107", [0, 0, 0, 256, 255, 1, 1, 1]),
        ("215", [0, 0, 256, 256, 255, 255, 1, 1]),
        ("250", [0, 256, 256, 512, 255, 255, 255, 1]),
        ("271", [256, 256, 256, 512, 255, 255, 255, 255]),
    ] {
        let ran = run(&["draw", "--degree", "4", "--limit", "11", "--deviation", deviation, "--words", &words]);
        assert_eq!((ran.status, ran.out), (0, lines(&samples)), "{deviation}: {}", ran.err);
        let attempts = 8 + samples.iter().filter(|sample| **sample == 1).count();
        let said = format!("draw full: attempts {attempts}, accepted 8, entries {}\n", 46 * attempts + 2);
        assert_eq!(ran.err, warned(&words, &said));
    }
}

/// 0.56 of all draws is above the first threshold for 271 alone.
#[test]
fn a_cdt_is_not_checked_against_the_deviation() {
    let words = file("other-deviation-words", lines(&[part(0.56), 0, 0, 0].repeat(8)));
    let cdt = file("other-deviation-cdt", lines(Deviation::D271.cdt()));
    for deviation in Deviation::ALL {
        let with = ["draw", "--degree", "4", "--limit", "8", "--deviation", &deviation.to_string(), "--words", &words];
        let ran = run(&[&with[..], &["--cdt", &cdt]].concat());
        assert_eq!((ran.status, ran.out), (0, lines(&[256; 8])), "{deviation}: {}", ran.err);
    }
}

#[test]
fn noise_can_be_looked_at() {
    let words = file("seen-words", lines(&words_with("11111111")));
    for (deviation, middle, give_or_take) in
        [("107", "-16 to 16", "26.8"), ("215", "-32 to 32", "53.8"), ("250", "-37 to 37", "62.5"), ("271", "-40 to 40", "67.8")]
    {
        let with = ["draw", "--degree", "4", "--limit", "8", "--deviation", deviation, "--words", &words, "--picture"];
        let ran = run(&with);
        assert_eq!((ran.status, ran.err), (0, warned(&words, "draw full: attempts 8, accepted 8, entries 370\n")));
        assert_eq!(ran.out.lines().count(), 24, "{}", ran.out);
        let line = ran.out.lines().find(|line| line.contains(middle)).unwrap_or_else(|| panic!("{middle}: {}", ran.out));
        assert_eq!(line.split_whitespace().nth(3), Some("8"), "all samples are there: {line}");
        let end = format!("\ndeviation  1.0, where {deviation} is expected, give or take {give_or_take}\n");
        assert!(ran.out.ends_with(&end), "{}", ran.out);
        let listed = run(&[&with[..], &["--list", "-"]].concat());
        assert_eq!((listed.status, listed.out.lines().count()), (0, 370), "in place of the picture");
    }
    let spent = file("unseen-words", lines(&words_with("11111110")));
    let ran = run(&["draw", "--degree", "4", "--limit", "8", "--words", &spent, "--picture"]);
    assert_eq!((ran.status, ran.out.as_str()), (3, ""));
}

#[test]
fn draws_take_limit_and_cdt() {
    let cdt: Vec<u64> = (1..=10).map(|i| i << 58).chain([7; 10]).collect();
    let words = random_words(1, draw_word_count(100));
    let (cdt_file, words_file) = (file("other-cdt", lines(&cdt)), file("other-words", lines(&words)));
    let with = ["draw", "--degree", "4", "--words", &words_file];
    let drawn = library_draw(open(4), 100, &cdt, &words);
    assert_ne!(drawn.samples(), library_draw(open(4), 100, &CDT, &words).samples());
    assert_eq!(run(&[&with[..], &["--cdt", &cdt_file, "--limit", "100"]].concat()).out, lines(drawn.samples()));

    let listed = run(&[&with[..], &["--cdt", &cdt_file, "--limit", "100", "--list", "-"]].concat());
    assert_eq!((listed.status, listed.out), (0, lines(drawn.list())));
}

#[test]
fn draws_from_the_system_differ() {
    let draw = || {
        let ran = run(&["draw"]);
        assert!(ran.status == 0 && ran.err.starts_with("draw full: attempts "), "{}", ran.err);
        ran.out.lines().map(|line| line.parse().unwrap()).collect::<Vec<i32>>()
    };
    let (first, second) = (draw(), draw());
    assert_eq!((first.len(), second.len()), (1024, 1024));
    assert_ne!(first, second);
    assert!(first.iter().all(|sample| sample.abs() <= 2815));
}

#[test]
fn spent_draws_print_no_samples() {
    let (words, list) = (file("spent-words", lines(&words_with("11111110"))), path("spent-list"));
    let ran = run(&["draw", "--degree", "4", "--limit", "8", "--words", &words, "--list", &list]);
    assert_eq!((ran.status, ran.out.as_str()), (3, ""));
    assert_eq!(ran.err, warned(&words, "draw spent: attempts 8, accepted 7, entries 370\n"));
    assert!(fs::read_to_string(list).unwrap().ends_with(&lines(&[(5 << 24) + 7, (6 << 24) + 7])));
}

#[test]
fn noise_of_zeros_is_a_fault() {
    let (words, folder) = (file("zero-words", "0\n".repeat(32)), folder("zero"));
    let list = format!("{folder}/list");
    let problem = "fault: the noise that was drawn is all zero, as from words that are not random";
    fails(&["draw", "--degree", "4", "--limit", "8", "--words", &words, "--list", &list], 1, problem);
    assert!(names_in(&folder).is_empty());
}
