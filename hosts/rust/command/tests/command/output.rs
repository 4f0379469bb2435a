//! What is written: standard output, and files.

use std::fs::{File, OpenOptions};
use std::io::{BufRead, BufReader};
use std::os::unix::fs::{symlink, PermissionsExt};

use super::*;

/// A folder with a key, a challenge and words, for responses at degree 4 that are accepted at the second try.
struct Inputs {
    folder: String,
    key: String,
    challenge: String,
    words: String,
}

impl Inputs {
    fn new(name: &str) -> Inputs {
        let folder = folder(name);
        let draw = words_with("11111111");
        let words = [&draw[..], &[0, u64::MAX, 0], &draw[..], &[0; 3]].concat();
        let [key, challenge] = key_and_challenge(&format!("{name}/of"));
        Inputs { key, challenge, words: file(&format!("{name}/words"), lines(&words)), folder }
    }

    fn path(&self, name: &str) -> String {
        format!("{}/{name}", self.folder)
    }

    fn respond<'a>(&'a self, with: &[&'a str]) -> Vec<&'a str> {
        let files = ["--key", &self.key, "--challenge", &self.challenge, "--words", &self.words];
        [&["respond", "--degree", "4", "--limit", "8"], &files[..], with].concat()
    }

    /// Every file with its content.
    fn contents(&self) -> Vec<(String, Vec<u8>)> {
        names_in(&self.folder).into_iter().map(|name| (name.clone(), fs::read(self.path(&name)).unwrap())).collect()
    }
}

#[test]
fn a_file_that_is_read_is_not_written() {
    let inputs = Inputs::new("same");
    let (hard_link, link) = (inputs.path("hard-link"), inputs.path("link"));
    fs::hard_link(&inputs.key, &hard_link).unwrap();
    symlink("of-challenge", &link).unwrap();
    let before = inputs.contents();
    let around = inputs.path("../same/words");
    for (list, option, input) in [
        (&inputs.key, "--key", &inputs.key),
        (&inputs.challenge, "--challenge", &inputs.challenge),
        (&inputs.words, "--words", &inputs.words),
        (&around, "--words", &inputs.words),
        (&hard_link, "--key", &inputs.key),
        (&link, "--challenge", &inputs.challenge),
    ] {
        fails(&inputs.respond(&["--list", list]), 1, &format!("--list {list}: this is the same file as {option} {input}"));
    }
    let cdt = file("same/cdt", lines(&bliss_box::CDT));
    fails(&["draw", "--cdt", &cdt, "--list", &cdt], 1, &format!("--list {cdt}: this is the same file as --cdt {cdt}"));
    fs::remove_file(cdt).unwrap();

    let words = File::open(&inputs.words).unwrap();
    let ran = ended(program(&["draw", "--words", "-", "--list", &inputs.words]).stdin(words).spawn().unwrap());
    let problem = format!("bliss-box: --list {}: this is the same file as --words -\n", inputs.words);
    assert_eq!((ran.status, ran.out.as_str(), ran.err), (1, "", problem));
    assert_eq!(inputs.contents(), before);
}

#[test]
fn standard_output_is_none_of_the_other_files() {
    let inputs = Inputs::new("standard");
    let (list, reads) = (inputs.path("list"), file("standard/reads", lines(&[(1 << 24) + 4])));
    fs::write(&list, "older\n").unwrap();
    let before = inputs.contents();
    for (arguments, output, other) in [
        (inputs.respond(&[]), &inputs.key, "--key"),
        (inputs.respond(&["--list", "-"]), &inputs.words, "--words"),
        (inputs.respond(&["--list", &list]), &list, "--list"),
        (vec!["list", &reads], &reads, "FILE"),
        (vec!["check-key", "--degree", "4", "--length", "1", &inputs.key], &inputs.key, "FILE"),
        (vec!["record", "write", "--degree", "4", "--challenge", &inputs.challenge], &inputs.challenge, "--challenge"),
        (vec!["record", "read", &reads], &reads, "FILE"),
        (inputs.respond(&["--record", &list]), &list, "--record"),
    ] {
        let appending = OpenOptions::new().append(true).open(output).unwrap();
        let ran = ended(program(&arguments).stdout(appending).spawn().unwrap());
        let problem = format!("bliss-box: standard output: this is the same file as {other} {output}\n");
        assert_eq!((ran.status, ran.err), (1, problem), "{arguments:?}");
    }
    assert_eq!(inputs.contents(), before);
}

#[test]
fn devices_and_pipes_may_be_read_and_written() {
    let ran = run(&["draw", "--words", "/dev/null", "--list", "/dev/null"]);
    assert_eq!(
        (ran.status, ran.err.as_str()),
        (1, "bliss-box: /dev/null: refusal 7: a draw wants 8416 words, and it has 0 left\n")
    );
    assert_eq!(run(&["draw", "--list", "/dev/null"]).status, 0);
    let ran = ended(program_by("\"$0\" \"$@\" | cat", &["draw", "--degree", "4", "--list", "/dev/fd/1"]).spawn().unwrap());
    assert!(ran.out.starts_with(&lines(&[(1 << 24) + 4])) && ran.out.lines().count() > 370, "{}", ran.err);
}

#[test]
fn files_are_replaced_and_their_owners_alone() {
    let inputs = Inputs::new("replaced");
    let list = inputs.path("list");
    fs::write(&list, "older\n".repeat(100_000)).unwrap();
    fs::set_permissions(&list, fs::Permissions::from_mode(0o644)).unwrap();
    let names = names_in(&inputs.folder);
    assert_eq!(run(&inputs.respond(&["--list", &list])).status, 0);
    assert_eq!(names_in(&inputs.folder), names);
    let written = fs::read_to_string(&list).unwrap();
    assert_eq!(written.lines().count(), 2 * (370 + 63));
    assert_eq!(fs::metadata(&list).unwrap().permissions().mode() & 0o777, 0o600);

    let new = inputs.path("new");
    assert_eq!(run(&inputs.respond(&["--list", &new])).status, 0);
    assert_eq!(fs::read_to_string(&new).unwrap(), written);
    assert_eq!(fs::metadata(&new).unwrap().permissions().mode() & 0o777, 0o600);
}

#[test]
fn links_stay_links() {
    let inputs = Inputs::new("links");
    fs::create_dir(inputs.path("other")).unwrap();
    fs::write(inputs.path("other/list"), "older\n").unwrap();
    let [to_older, to_nothing, twice] = ["to-older", "to-nothing", "twice"].map(|name| inputs.path(name));
    symlink("other/list", &to_older).unwrap();
    symlink("other/new", &to_nothing).unwrap();
    symlink(inputs.path("to-newer"), &twice).unwrap();
    symlink("other/newer", inputs.path("to-newer")).unwrap();
    for (link, target) in [(to_older, "other/list"), (to_nothing, "other/new"), (twice, "other/newer")] {
        assert_eq!(run(&inputs.respond(&["--list", &link])).status, 0);
        assert!(fs::symlink_metadata(&link).unwrap().is_symlink(), "{link}");
        assert_eq!(fs::read_to_string(inputs.path(target)).unwrap().lines().count(), 2 * (370 + 63), "{link}");
    }
    assert_eq!(names_in(&inputs.path("other")), ["list", "new", "newer"]);
}

/// Runs that fail after some of the list was written, by the words and by the output.
#[test]
fn a_run_that_fails_leaves_the_older_file() {
    let inputs = Inputs::new("failing");
    let list = inputs.path("list");
    fs::write(&list, "older\n").unwrap();
    let short = file("failing/short", lines(&words_with("111111110000")[..32]));
    let before = inputs.contents();
    let draw = ["draw", "--degree", "4", "--limit", "8", "--words", &inputs.words, "--list", &list];
    let respond = ["respond", "--degree", "4", "--limit", "8", "--key", &inputs.key, "--challenge", &inputs.challenge];
    let respond = [&respond[..], &["--words", &short, "--list", &list]].concat();

    let ran = run(&respond);
    assert_eq!((ran.status, ran.out.as_str()), (1, ""));
    assert!(ran.err.ends_with("refusal 7: a response wants 3 words, and it has 0 left\n"), "{}", ran.err);
    assert_eq!(inputs.contents(), before);

    let full = OpenOptions::new().write(true).open("/dev/full").unwrap();
    assert_eq!(ended(program(&draw).stdout(full).spawn().unwrap()).status, 1);
    assert_eq!(inputs.contents(), before);

    // Files of at most one block, and no signal where that is reached.
    let ran = ended(program_by("trap '' XFSZ; ulimit -f 1; exec \"$0\" \"$@\"", &draw).spawn().unwrap());
    let problem = format!("bliss-box: {list}: cannot be written: File too large (os error 27)\n");
    assert_eq!((ran.status, ran.out.as_str(), ran.err), (1, "", warned(&inputs.words, &problem)));
    assert_eq!(inputs.contents(), before);
}

#[test]
fn what_cannot_be_written_is_said() {
    let folder = folder("unwritten");
    let unwritten = |list: &str, problem: &str| {
        fails(&["draw", "--list", list], 1, &format!("{list}: cannot be written: {problem}"));
    };
    unwritten(&format!("{folder}/missing/list"), "No such file or directory (os error 2)");
    unwritten(&format!("{folder}/missing/"), "No such file or directory (os error 2)");
    unwritten("", "No such file or directory (os error 2)");
    unwritten(&folder, "Is a directory (os error 21)");
    let loops = format!("{folder}/loop");
    symlink("loop", &loops).unwrap();
    unwritten(&loops, "Too many levels of symbolic links (os error 40)");
    // A program that runs may not be written, whoever owns it.
    let running = format!("{folder}/running");
    fs::hard_link(env!("CARGO_BIN_EXE_bliss-box"), &running).unwrap();
    unwritten(&running, "Text file busy (os error 26)");
    assert_eq!(names_in(&folder), ["loop", "running"]);

    for arguments in [&["draw"][..], &["--help"], &["--version"], &["completions", "bash"], &["manual"], &["record", "write"]] {
        let full = OpenOptions::new().write(true).open("/dev/full").unwrap();
        let ran = ended(program(arguments).stdout(full).spawn().unwrap());
        let problem = "bliss-box: standard output: No space left on device (os error 28)\n";
        assert_eq!((ran.status, ran.err.as_str()), (1, problem), "{arguments:?}");
    }
    let read_only = File::open("/dev/null").unwrap();
    let ran = ended(program(&["draw"]).stdout(read_only).spawn().unwrap());
    assert_eq!((ran.status, ran.err.as_str()), (1, "bliss-box: standard output: Bad file descriptor (os error 9)\n"));
}

#[test]
fn a_closed_standard_output_is_an_error() {
    let folder = folder("closed");
    let list = format!("{folder}/list");
    let draw = ["draw", "--degree", "4", "--list", &list];
    let others = [&["--help"][..], &["--version"], &["draw", "--help"], &["exp", "0"], &["demo"], &["manual"]];
    for arguments in [&others[..], &[&["record", "write"], &draw]].concat() {
        let ran = ended(program_by("exec \"$0\" \"$@\" >&-", arguments).spawn().unwrap());
        assert_eq!((ran.status, ran.err.as_str()), (1, "bliss-box: standard output: it is closed\n"), "{arguments:?}");
    }
    assert!(names_in(&folder).is_empty());
    // Who hands over /dev/null, opened for reading too, wants nothing printed.
    let null = OpenOptions::new().read(true).write(true).open("/dev/null").unwrap();
    assert_eq!(ended(program(&["exp", "0"]).stdout(null).spawn().unwrap()).status, 0);
}

#[test]
fn a_reader_that_has_seen_enough_ends_it_quietly() {
    let mut child = program(&["draw", "--list", "-"]).spawn().unwrap();
    let mut first = String::new();
    BufReader::new(child.stdout.take().unwrap()).read_line(&mut first).unwrap();
    assert_eq!(first, lines(&[(1 << 24) + 512]));
    let ran = ended(child);
    assert_eq!((ran.status, ran.err.as_str()), (1, ""), "not all was delivered");
}
