//! Help, version, options and wrong command lines.

use super::*;

/// What the help says first, of all commands or of one, in its three forms: short, long and by the command help.
fn helps(command: &[&str]) -> [String; 3] {
    [[command, &["-h"]], [command, &["--help"]], [&["help"], command]].map(|arguments| {
        let help = printed(&arguments.concat());
        assert!(help.lines().all(|line| line.chars().count() <= 100 && !line.ends_with(' ')), "{help}");
        help
    })
}

#[test]
fn help_is_printed() {
    let [short, long, by_command] = helps(&[]);
    assert!(short.starts_with("The BLISS-I sampling box from the command line\n"));
    assert!(short.contains("\nExit status:\n  0  served"));
    assert_eq!([&short, &short], [&long, &by_command]);
    let commands = commands().join(", ");
    assert!(
        commands.starts_with("draw, respond, check-key, record, record write, record read, record lengths, exp, list, demo, "),
        "{commands}"
    );
    assert!(commands.ends_with(", completions, manual"), "{commands}");
}

#[test]
fn each_command_has_help() {
    for command in commands() {
        let [short, long, by_command] = helps(&calling(&command, &[]));
        assert!(short.contains(&format!("\nUsage: bliss-box {command}")), "{short}");
        assert!(long.contains(&format!("\nUsage: bliss-box {command}")), "{long}");
        assert!(short.len() < long.len() && long == by_command, "{by_command}");
    }
    let [_, draw, _] = helps(&["draw"]);
    for text in [
        "[default: 512]",
        "[default: 215]",
        "[default: 4N + 56; at 107 6N + 88]",
        "built-in",
        "give the key away",
        "in place of",
        "status 3",
    ] {
        assert!(draw.contains(text), "{text}");
    }
}

#[test]
fn each_option_is_in_the_help() {
    let drawing = ["--limit", "--cdt", "--words", "--list"];
    assert_eq!(options("draw"), [&["--degree", "--deviation", "--picture"][..], &drawing].concat());
    let responding = ["--key", "--challenge", "--blank", "--picture", "--tries", "--record", "--degree"];
    assert_eq!(options("respond"), [&responding[..], &drawing].concat());
    assert_eq!(options("check-key"), ["--length", "--degree"]);
    assert_eq!(options("record write"), ["--degree", "--challenge", "--z1", "--z2"]);
    assert_eq!(options("record read"), ["--challenge", "--z1", "--z2"]);
    assert_eq!(options("demo"), ["--degree", "--deviation"]);
    for command in commands() {
        for option in options(&command) {
            if FLAGS.contains(&option.as_str()) {
                let with = format!("{option}=yes");
                wrong(&calling(&command, &[&with]), "The value 'yes'", &format!("'{option}' but it wasn't expecting any more"));
            } else {
                let problem = "requires a value but none was supplied";
                wrong(&calling(&command, &[&option]), &format!("The argument '{option} <"), problem);
            }
        }
    }
}

#[test]
fn the_version_is_printed() {
    let version = concat!("bliss-box ", env!("CARGO_PKG_VERSION"), "\n");
    assert_eq!(printed(&["-V"]), version);
    let origin = printed(&["--version"]);
    let lines: Vec<&str> = origin.strip_prefix(version).unwrap().lines().collect();
    assert_eq!(lines.len(), 2);
    for (line, name) in lines.iter().zip(["commit ", "kit "]) {
        assert!(line.strip_prefix(name).is_some_and(|said| !said.trim().is_empty()), "{origin}");
    }
}

#[test]
fn values_stand_after_their_option_or_in_it() {
    let words = file("forms-words", lines(&words_with("11111111")));
    let draw = |arguments: &[&str]| {
        let ran = run(&[&["draw"], arguments].concat());
        assert_eq!((ran.status, ran.out), (0, "1\n".repeat(8)), "{arguments:?}: {}", ran.err);
    };
    draw(&["--degree", "4", "--limit", "8", "--words", &words]);
    draw(&["--degree=4", "--limit=8", &format!("--words={words}")]);
    assert_eq!(printed(&["exp", "--", "0"]), printed(&["exp", "0"]));
    // What begins with a minus sign is a file where it can be nothing else.
    fails(&["list", "--", "--help"], 1, "--help: cannot be read: No such file or directory (os error 2)");
    fails(&["draw", "--cdt=-c"], 1, "-c: cannot be read: No such file or directory (os error 2)");
}

#[test]
fn bad_values_of_options_are_said() {
    let whole = "tables hold whole numbers, with neither comma nor point";
    fails(&["draw", "--degree", "51,2"], 1, &format!("--degree: \"51,2\" has a comma in it: {whole}"));
    fails(&["draw", "--limit=1.780"], 1, &format!("--limit: \"1.780\" has a point in it: {whole}"));
    fails(&["draw", "--degree", "all"], 1, "--degree: \"all\" is not a whole number in decimal");
    fails(&["draw", "--degree", "-4"], 1, "--degree: \"-4\" has a minus sign, and no value here is negative");
    fails(&["draw", "--limit", "-4"], 1, "--limit: \"-4\" has a minus sign, and no value here is negative");
    fails(&["demo", "--degree", ""], 1, "--degree: \"\" is not a whole number in decimal");
    for command in ["draw", "demo"] {
        let refused = |value: &str, problem: &str| {
            fails(&[command, "--deviation", value], 1, &format!("--deviation: {value:?} {problem}"));
        };
        refused("x", "is not a whole number in decimal");
        refused("", "is not a whole number in decimal");
        refused("-1", "has a minus sign, and no value here is negative");
        refused("18446744073709551616", "is outside 0 to 18446744073709551615");
        refused("0,8398", &format!("has a comma in it: {whole}"));
        refused("215.0", &format!("has a point in it: {whole}"));
    }
    let [key, challenge] = key_and_challenge("no-tries");
    let respond = |tries: &str, problem: &str| {
        fails(&["respond", "--key", &key, "--challenge", &challenge, "--tries", tries], 1, problem);
    };
    respond("0", "--tries 0: without a try there is no response");
    respond("-1", "--tries: \"-1\" has a minus sign, and no value here is negative");
}

#[test]
fn a_terminal_does_not_act_on_what_is_said() {
    fails(&["draw", "--degree", "\u{1b}[2J"], 1, "--degree: \"\\u{1b}[2J\" is not a whole number in decimal");
    fails(&["list", "\u{1b}[2J"], 1, "\\u{1b}[2J: cannot be read: No such file or directory (os error 2)");
    wrong(&["\u{1b}[2J"], "The subcommand '\\u{1b}[2J'", "wasn't recognized");
    wrong(&["draw", "--\u{9b}2J"], "Found argument '--\\u{9b}2J'", "which wasn't expected");
}

/// A wrong command line: these parts of a sentence are said of it, and where there is more to read.
fn wrong(arguments: &[&str], start: &str, end: &str) {
    let ran = run(arguments);
    assert_eq!((ran.status, ran.out.as_str()), (2, ""), "{arguments:?}");
    let first = ran.err.strip_prefix("bliss-box: ").unwrap().split("\n\n").next().unwrap();
    assert!(first.starts_with(start) && first.contains(end), "{arguments:?}: {}", ran.err);
    assert!(ran.err.ends_with("\n\nFor more information try '--help'\n"), "{arguments:?}: {}", ran.err);
}

#[test]
fn wrong_command_lines_are_explained() {
    wrong(&[], "'bliss-box' requires a subcommand", "[subcommands: draw, respond, ");
    wrong(&["sign"], "The subcommand 'sign'", "wasn't recognized");
    wrong(&["record"], "'bliss-box record' requires a subcommand", "[subcommands: write, read, lengths]");
    wrong(&["record", "copy"], "The subcommand 'copy'", "wasn't recognized");
    for (arguments, unexpected) in [
        (&["--degree", "4"][..], "--degree"),
        (&["draw", "--tries", "4"], "--tries"),
        (&["draw", "--surplus", "--help"], "--surplus"),
        (&["draw", "--deg", "4"], "--deg"),
        (&["draw", "4"], "4"),
        (&["draw", "-n"], "-n"),
        (&["draw", "--", "--degree"], "--degree"),
        (&["draw", "--list", "-l"], "-l"),
        (&["list", "a", "b"], "b"),
        (&["check-key", "--length", "23", "a", "b"], "b"),
        (&["demo", "--limit", "4"], "--limit"),
        (&["respond", "--deviation", "215"], "--deviation"),
        (&["exp", "--deviation", "215", "0"], "--deviation"),
        (&["record", "--degree", "4"], "--degree"),
        (&["record", "write", "sig.bin"], "sig.bin"),
        (&["record", "read", "sig.bin", "--degree", "4"], "--degree"),
        (&["record", "lengths", "128"], "128"),
    ] {
        wrong(arguments, &format!("Found argument '{unexpected}'"), "which wasn't expected");
    }
    wrong(&["draw", "--degree", "--limit", "8"], "The argument '--degree <N>'", "requires a value but none was supplied");
    wrong(&["draw", "--degree", "4", "--degree=4"], "The argument '--degree <N>'", "was provided more than once");
    wrong(&["draw", "--cdt", "-", "--words", "-"], "standard input can be one file alone", "");
    wrong(&["record", "write", "--z1", "-", "--z2", "-"], "standard input can be one file alone", "");
    wrong(&["record", "read", "-", "--z1", "-", "--z2", "-"], "standard output can be one file alone", "");
    let respond = ["respond", "--key", "k", "--challenge", "c", "--list", "-", "--record", "-"];
    wrong(&respond, "standard output can be one file alone", "");
    let missing = "The following required arguments were not provided:\n";
    wrong(&["respond", "--key", "k"], missing, "\n  --challenge <FILE>");
    wrong(&["respond", "--degree", "12", "--challenge", "c"], missing, "\n  --key <FILE>");
    wrong(&["exp"], missing, "\n  <N>...");
    wrong(&["list"], missing, "\n  <FILE>");
    wrong(&["check-key", "k"], missing, "\n  --length <K>");
    wrong(&["check-key", "--length", "23"], missing, "\n  <FILE>");
    wrong(&["record", "read"], missing, "\n  <FILE>");
}

#[test]
fn similar_names_are_suggested() {
    for (arguments, name) in
        [(&["drow"][..], "draw"), (&["draw", "--degre", "4"], "--degree"), (&["draw", "--lim=4"], "--limit")]
    {
        let ran = run(arguments);
        assert_eq!((ran.status, ran.out.as_str()), (2, ""), "{arguments:?}");
        assert!(ran.err.contains(&format!("\n\n  Did you mean '{name}'?\n\n")), "{}", ran.err);
    }
}
