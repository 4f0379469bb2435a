//! `bliss-box manual`.

use super::*;

/// The part of a page that is below a request, up to the next of its kind.
fn section<'a>(page: &'a str, kind: &str, heading: &str) -> &'a str {
    let (_, below) = page.split_once(&format!("\n.{kind} {heading}\n")).unwrap_or_else(|| panic!("{heading}: {page}"));
    below.split(&format!("\n.{kind} ")).next().unwrap()
}

#[test]
fn each_command_and_option_is_in_the_manual() {
    let page = printed(&["manual"]);
    let described = section(&page, "SH", "COMMANDS");
    for command in commands() {
        let heading = if command.contains(' ') { format!("{command:?}") } else { command.clone() };
        let section = section(&format!("\n{described}"), "SS", &heading).to_owned();
        assert!(section.starts_with(&format!("\\fBbliss\\-box {}\\fR", command.replace('-', "\\-"))), "{section}");
        for option in options(&command) {
            let value = if FLAGS.contains(&option.as_str()) { '\n' } else { ' ' };
            let tag = format!("\n.TP\n\\fB{}\\fR{value}", option.replace('-', "\\-"));
            assert_eq!(section.matches(&tag).count(), 1, "{option}: {section}");
        }
        for argument in named(&short_help(&command), "Arguments:") {
            let tag = format!("\n.TP\n\\fI{}\\fR\n", argument.trim_matches(['<', '>', '.']));
            assert_eq!(section.matches(&tag).count(), 1, "{argument}: {section}");
        }
    }
}

#[test]
fn the_manual_says_what_the_help_says() {
    let page = printed(&["manual"]);
    assert!(section(&page, "SH", "NAME").starts_with("bliss\\-box \\- The BLISS\\-I sampling box"), "{page}");
    for option in ["\\fB\\-h\\fR, \\fB\\-\\-help\\fR\n", "\\fB\\-V\\fR, \\fB\\-\\-version\\fR\n"] {
        assert!(section(&page, "SH", "OPTIONS").contains(option), "{page}");
    }
    assert!(section(&page, "SS", "draw").contains("\\fIN\\fR\nThe degree: a power of two from 4 to 1024 [default: 512]\n"));
    for command in ["draw", "demo"] {
        let deviation = "\\fID\\fR\nThe deviation of noise [default: 215] [possible values: 107, 215, 250, 271]\n";
        assert!(section(&page, "SS", command).contains(deviation), "{page}");
    }
    assert!(section(&page, "SH", "FILES").starts_with("Files hold whole numbers in decimal, one a line."));
    for status in 0..=3 {
        assert!(section(&page, "SH", "\"EXIT STATUS\"").contains(&format!(".TP\n\\fB{status}\\fR\n")), "{page}");
    }
    let version = section(&page, "SH", "VERSION").replace("\\-", "-");
    assert_eq!(version, format!(".nf\n{}.fi\n", printed(&["--version"])));
}

/// Any other line that begins with a point or an apostrophe would be a text that roff takes for a request.
#[test]
fn the_requests_to_roff_are_known() {
    let page = printed(&["manual"]);
    let (preamble, page) = page.split_once("\n.TH ").unwrap();
    assert_eq!(preamble.lines().count(), 2);
    for line in page.lines().skip(1).filter(|line| line.starts_with(['.', '\''])) {
        let request = line.split(' ').next().unwrap();
        assert!([".SH", ".SS", ".PP", ".TP", ".IP", ".nf", ".fi"].contains(&request), "{line}");
    }
}
