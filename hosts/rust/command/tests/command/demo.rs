//! `bliss-box demo`.

use std::fmt::Debug;
use std::str::FromStr;

use super::*;

/// The first two numbers of each line that stands below a heading, up to the next empty line, after so many columns.
fn columns<T: FromStr>(text: &str, heading: &str, skipped: usize) -> Vec<(usize, T)>
where
    T::Err: Debug,
{
    let below = text.lines().skip_while(|line| !line.ends_with(heading)).skip(1).take_while(|line| !line.is_empty());
    below
        .map(|line| {
            let mut numbers = line[skipped..].split_whitespace();
            let mut number = || numbers.next().unwrap();
            (number().parse().unwrap(), number().parse().unwrap())
        })
        .collect()
}

#[test]
fn the_demo_shows_the_noise() {
    for (n, deviation) in [4, 8, 16, 32, 64, 128, 256, 512, 1024].into_iter().flat_map(|n| Deviation::ALL.map(|of| (n, of))) {
        let text = printed(&["demo", "--degree", &n.to_string(), "--deviation", &deviation.to_string()]);
        assert!(text.is_ascii() && text.lines().all(|line| line.len() <= 100), "{text}");
        let picture: Vec<(usize, f64)> = columns(&text, "samples   drawn  expected", 16);
        assert_eq!(picture.len(), 21, "{text}");
        assert_eq!(picture.iter().map(|(drawn, _)| drawn).sum::<usize>(), 2 * n, "{text}");
        // Each expected count is rounded to a tenth.
        let expected: f64 = picture.iter().map(|(_, expected)| expected).sum();
        assert!((expected - 2.0 * n as f64).abs() < 21.0 * 0.051, "{text}");
        assert!(text.contains(&format!("\ndraw       full: {} samples in ", 2 * n)), "{text}");
        let response = match deviation {
            Deviation::D215 => "\nresponse   accepted at try ",
            _ => "\nresponse   none: a response is made at deviation 215 alone\n",
        };
        assert!(text.contains(response), "{text}");
    }
}

/// By the CDT of another one of the four the deviation of noise at 107 is 149 or more.
#[test]
fn the_demos_noise_has_its_deviation() {
    for deviation in Deviation::ALL {
        let text = printed(&["demo", "--degree", "1024", "--deviation", &deviation.to_string()]);
        let line = text.lines().find_map(|line| line.strip_prefix("deviation  ")).unwrap_or_else(|| panic!("{text}"));
        let (found, give_or_take) = line.split_once(&format!(", where {deviation} is expected, give or take ")).unwrap();
        let [found, give_or_take]: [f64; 2] = [found, give_or_take].map(|number| number.parse().unwrap());
        assert!((found - deviation.number() as f64).abs() < 9.0 * give_or_take, "with a chance below 2^-60: {line}");
    }
}

#[test]
fn the_demo_counts_what_was_listed() {
    let counts = |with: &[&str], limit: usize| {
        let text = printed(&[&["demo"], with].concat());
        let kinds: Vec<(usize, usize)> = columns(&text, "kind  entries  each tells", 0);
        assert_eq!(kinds.iter().map(|(kind, _)| *kind).collect::<Vec<_>>(), (1..=9).collect::<Vec<_>>());
        let counts: Vec<usize> = kinds.iter().map(|(_, count)| *count).collect();
        assert!(text.contains(&format!(" samples in {} of at most {limit} attempts, ", counts[4])), "{text}");
        assert!(text.contains(&format!("\nread list  {} entries\n", counts.iter().sum::<usize>())), "{text}");
        (counts[4], counts)
    };
    let (attempts, counted) = counts(&[], 2104);
    assert_eq!(counted, [1, 4 * attempts + 3, 20 * attempts, 21 * (attempts + 2), attempts, 1, 1, 1024 * 23, 1]);
    let (attempts, counted) = counts(&["--deviation", "107"], 3160);
    assert_eq!(counted, [1, 4 * attempts, 20 * attempts, 21 * attempts, attempts, 1, 0, 0, 0]);
}
