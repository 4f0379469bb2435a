//! `bliss-box record`.

use std::fs::OpenOptions;

use bliss_box::Record;

use super::*;

/// Fields of degree 4, whose records are worked out by hand.
const CHALLENGE: [u32; 2] = [0, 3];
const Z1: [i32; 4] = [0, 1, -1, 127];
const Z2: [i32; 4] = [128, -128, 3263, -3263];

/// Files with these fields, for a test of this name.
struct Fields {
    challenge: String,
    z1: String,
    z2: String,
}

impl Fields {
    fn new(name: &str) -> Fields {
        Fields {
            challenge: file(&format!("{name}-challenge"), lines(&CHALLENGE)),
            z1: file(&format!("{name}-z1"), lines(&Z1)),
            z2: file(&format!("{name}-z2"), lines(&Z2)),
        }
    }

    /// The options for the fields of a bit map.
    fn options(&self, map: u8) -> Vec<&str> {
        let options = [["--challenge", &self.challenge], ["--z1", &self.z1], ["--z2", &self.z2]];
        options.into_iter().enumerate().filter(|(bit, _)| map >> bit & 1 == 1).flat_map(|(_, option)| option).collect()
    }

    fn write(&self, map: u8) -> Vec<u8> {
        printed_bytes(&[&["record", "write", "--degree", "4"], &self.options(map)[..]].concat())
    }
}

/// Bytes by their hexadecimal digits, with blanks between them.
fn bytes(digits: &str) -> Vec<u8> {
    let digits: Vec<char> = digits.chars().filter(|digit| *digit != ' ').collect();
    digits.chunks(2).map(|byte| u8::from_str_radix(&byte.iter().collect::<String>(), 16).unwrap()).collect()
}

/// The record of each bit map. The bits of z1 are
///     0 0000000 1, 0 0000001 1, 1 0000001 1, 0 1111111 1
/// and those of z2, with 25 zeros for 3263, which is 63 + 25 * 128,
///     0 0000000 01, 1 0000000 01, 0 0111111 0..01, 1 0111111 0..01
const RECORDS: [&str; 8] = [
    "00 0004",
    "01 0004 02 0000 0003",
    "02 0004 0080e06ff0",
    "03 0004 02 0000 0003 0080e06ff0",
    "04 0004 006013f0000006fc000001",
    "05 0004 02 0000 0003 006013f0000006fc000001",
    "06 0004 0080e06ff006013f0000006fc0000010",
    "07 0004 02 0000 0003 0080e06ff006013f0000006fc0000010",
];

/// What is printed of these records: which fields they have, and the last line.
fn summary(map: u8) -> String {
    let absent = |bit: u8, count: &str| if map >> bit & 1 == 1 { count.to_owned() } else { "absent".into() };
    let record = [
        "bytes 3",
        "bytes 8",
        "bytes 8, bits a value 10.00",
        "bytes 13, bits a value 10.00",
        "bytes 14, bits a value 22.00",
        "bytes 19, bits a value 22.00",
        "bytes 19, bits a value 16.00",
        "bytes 24, bits a value 16.00",
    ][usize::from(map)];
    format!(
        "degree     4\nchallenge  {}\nz1         {}\nz2         {}\nrecord     {record}\n",
        absent(0, "positions 2"),
        absent(1, "values 4"),
        absent(2, "values 4"),
    )
}

#[test]
fn records_are_those_worked_out_by_hand() {
    let fields = Fields::new("by-hand");
    for (map, record) in (0..).zip(RECORDS) {
        assert_eq!(fields.write(map), bytes(record), "{map}");
    }
    assert_eq!(printed_bytes(&["record", "write"]), [0, 2, 0]);
    assert_eq!(printed_bytes(&["record", "write", "--degree", "1024"]), [0, 4, 0]);
}

#[test]
fn each_field_is_read_that_is_there() {
    let folder = folder("each-field");
    let read: Vec<String> = ["challenge", "z1", "z2"].iter().map(|field| format!("{folder}/{field}")).collect();
    let into = Fields { challenge: read[0].clone(), z1: read[1].clone(), z2: read[2].clone() };
    let texts = [lines(&CHALLENGE), lines(&Z1), lines(&Z2)];
    for (map, record) in (0..).zip(RECORDS) {
        let record = file(&format!("each-field-{map}"), bytes(record));
        assert_eq!(printed(&["record", "read", &record]), summary(map));
        assert!(names_in(&folder).is_empty());
        assert_eq!(printed(&[&["record", "read", &record], &into.options(map)[..]].concat()), summary(map));
        for (bit, (field, text)) in read.iter().zip(&texts).enumerate() {
            if map >> bit & 1 == 1 {
                assert_eq!(fs::read_to_string(field).unwrap(), *text);
                fs::remove_file(field).unwrap();
            }
        }
        assert!(names_in(&folder).is_empty(), "the others are not written");
    }
}

/// Both ways, over every degree, the largest record among them.
#[test]
fn what_is_written_is_read_back() {
    let mut random = Random::new(1);
    for n in (2..=10).map(|k| 1 << k) {
        let count = n.min(64);
        let challenge: Vec<usize> = (0..count).map(|k| k * n / count).collect();
        let mut half = |name: &str| {
            let mut size = || if n == 1024 { 3263 } else { random.below(3264) as i32 };
            let values: Vec<i32> = (0..n).map(|i| if i % 2 == 0 { size() } else { -size() }).collect();
            file(&format!("back-{name}-{n}"), format!("# {name}\n{}", lines(&values)))
        };
        let (z1, z2) = (half("z1"), half("z2"));
        let challenge = file(&format!("back-challenge-{n}"), lines(&challenge));
        let write = |challenge: &str, z1: &str, z2: &str| {
            let fields = ["--challenge", challenge, "--z1", z1, "--z2", z2];
            printed_bytes(&[&["record", "write", "--degree", &n.to_string()], &fields[..]].concat())
        };
        let record = write(&challenge, &z1, &z2);
        assert!(n < 1024 || record.len() == 8836, "the longest record");
        let stored = file(&format!("back-record-{n}"), &record);
        let read = ["challenge", "z1", "z2"].map(|field| path(&format!("back-read-{field}-{n}")));
        printed(&["record", "read", &stored, "--challenge", &read[0], "--z1", &read[1], "--z2", &read[2]]);
        assert_eq!(fs::read_to_string(&read[0]).unwrap(), fs::read_to_string(&challenge).unwrap());
        for (read, given) in [(&read[1], &z1), (&read[2], &z2)] {
            let given = fs::read_to_string(given).unwrap();
            assert_eq!(fs::read_to_string(read).unwrap(), given.split_once('\n').unwrap().1);
        }
        assert_eq!(write(&read[0], &read[1], &read[2]), record);
    }
}

/// The column of the checklist: 26 lengths, for 128 sizes each but the last.
#[test]
fn the_packed_lengths_are_printed() {
    let lines = (0..26).map(|k| format!("sizes {} to {}: {} bits\n", 128 * k, (128 * k + 127).min(3263), 9 + k));
    assert_eq!(printed(&["record", "lengths"]), lines.collect::<String>());
}

#[test]
fn standard_input_and_output_are_files_too() {
    let fields = Fields::new("standard-record");
    let record = bytes(RECORDS[7]);
    assert_eq!(run_with(&record, &["record", "read", "-"]).out, summary(7));
    for (field, text) in [("--challenge", lines(&CHALLENGE)), ("--z1", lines(&Z1)), ("--z2", lines(&Z2))] {
        let ran = run_with(&record, &["record", "read", "-", field, "-"]);
        assert_eq!((ran.status, ran.out, ran.err.as_str()), (0, text, ""), "in place of the rest");
    }
    let z2 = path("standard-record-read");
    assert_eq!(run_with(&record, &["record", "read", "-", "--z1", "-", "--z2", &z2]).out, lines(&Z1));
    assert_eq!(fs::read_to_string(&z2).unwrap(), lines(&Z2));

    let with = ["record", "write", "--degree", "4", "--z2", &fields.z2, "--z1", "-"];
    let mut child = program(&with).stdin(Stdio::piped()).spawn().unwrap();
    child.stdin.take().unwrap().write_all(lines(&Z1).as_bytes()).unwrap();
    assert_eq!(ended_with_bytes(child), (0, bytes(RECORDS[6]), String::new()));
}

#[test]
fn refusals_of_fields_name_file_and_line() {
    let fields = Fields::new("refused-record");
    let refused = |with: &[&str], problem: &str| fails(&[&["record", "write", "--degree"], with].concat(), 1, problem);
    for degree in ["0", "2", "12", "2048", "65536"] {
        let problem = format!("--degree {degree}: refusal 1: the degree is not a power of two from 4 to 1024");
        refused(&[degree, "--z1", "missing"], &problem);
    }
    for (option, z) in [("--z1", &fields.z1), ("--z2", &fields.z2)] {
        refused(&["8", option, z], &format!("{z}: refusal 2: its length is 4, and 8 is wanted"));
    }
    let long = file("refused-record-long", "5000\n".repeat(5));
    let too_long = format!("{long}: refusal 2: its length is more than 4, and 4 is wanted");
    refused(&["4", "--z1", &long], &too_long);
    refused(&["4", "--z1", &fields.z1, "--z2", &long], &too_long);

    let challenge = file("refused-record-order", "# positions\n3\n\n1\n");
    let order = format!("{challenge}:4: refusal 6: position 1 does not come after 3, the position before it");
    refused(&["4", "--challenge", &challenge], &order);
    let challenge_of_4 = file("refused-record-4", "4\n");
    let not_below = format!("{challenge_of_4}:1: refusal 6: position 4 is not below the degree, 4");
    refused(&["4", "--challenge", &challenge_of_4], &not_below);
    let five = file("refused-record-five", lines(&[0, 1, 2, 3, 4]));
    refused(&["4", "--challenge", &five], &format!("{five}: refusal 6: it holds more than 4 positions, the most at degree 4"));

    let large = |name: &str, value: i32| file(&format!("refused-record-{name}"), format!("0\n# z\n\n1\n{value}\n{value}\n"));
    for (name, value) in [("above", 3264), ("below", -3264), ("most", i32::MAX), ("least", i32::MIN)] {
        let z = large(name, value);
        let problem = format!("{z}:5: refusal 15: {value} is outside -3263 to 3263");
        refused(&["4", "--z1", &z], &problem);
        refused(&["4", "--z2", &z, "--z1", &fields.z1], &problem);
    }
    // 2, 6 and 15, in this order, and z1 before z2.
    let (z, other) = (large("first", 5000), large("second", -5000));
    refused(&["4", "--z1", &z, "--z2", &long, "--challenge", &challenge], &too_long);
    refused(&["4", "--z1", &z, "--z2", &other, "--challenge", &challenge], &order);
    let first = format!("{z}:5: refusal 15: 5000 is outside -3263 to 3263");
    refused(&["4", "--z2", &other, "--z1", &z, "--challenge", &fields.challenge], &first);
}

/// Bytes that are no record, and say nothing but that.
#[test]
fn bytes_that_are_no_record_are_refused() {
    let folder = folder("no-record");
    let [older, new] = ["older", "new"].map(|name| format!("{folder}/{name}"));
    fs::write(&older, "older\n").unwrap();
    let longest =
        Record { degree: 1024, challenge: Some((0..64).collect()), z1: Some(vec![3263; 1024]), z2: Some(vec![-3263; 1024]) };
    let mut too_long = longest.to_bytes().unwrap();
    too_long.push(0);
    let good = bytes(RECORDS[7]);
    for no_record in [
        vec![],
        bytes("00"),
        bytes("00 00"),
        bytes("00 000c"),
        bytes("08 0004"),
        bytes("00 0004 00"),
        bytes("01 0004 00"),
        bytes("01 0004 01 0004"),
        bytes("01 0004 02 0003 0003"),
        bytes("02 0004 8080e06ff0"),
        bytes("02 0004 0080e06ff8"),
        b"0\n1\n-1\n127\n".to_vec(),
        good[..good.len() - 1].to_vec(),
        [&good[..], &[0]].concat(),
        too_long,
    ] {
        let record = file("no-record-of", &no_record);
        let problem = format!("{record}: refusal 15: these bytes are no record");
        fails(&["record", "read", &record], 1, &problem);
        fails(&["record", "read", &record, "--challenge", &new, "--z1", &older], 1, &problem);
        let ran = run_with(&no_record, &["record", "read", "-", "--z2", "-"]);
        let problem = "bliss-box: standard input: refusal 15: these bytes are no record\n";
        assert_eq!((ran.status, ran.out.as_str(), ran.err.as_str()), (1, "", problem), "{no_record:?}");
        assert_eq!((names_in(&folder), fs::read_to_string(&older).unwrap()), (vec!["older".into()], "older\n".into()));
    }
}

#[test]
fn a_record_without_end_is_read_to_the_longest() {
    for input in ["\0", "\u{7}\u{4}\0", "1\n"] {
        let ran = run_endless(program(&["record", "read", "-"]), &input.repeat(1000));
        let problem = "bliss-box: standard input: refusal 15: these bytes are no record\n";
        assert_eq!((ran.status, ran.out.as_str(), ran.err.as_str()), (1, "", problem));
    }
}

#[test]
fn records_that_cannot_be_read_are_named() {
    let unread = |path: &str, problem: &str| fails(&["record", "read", path], 1, &format!("{path}: cannot be read: {problem}"));
    unread(&path("missing"), "No such file or directory (os error 2)");
    unread(env!("CARGO_TARGET_TMPDIR"), "Is a directory (os error 21)");
}

#[test]
fn a_field_that_is_not_there_cannot_be_had() {
    let folder = folder("not-there");
    let [older, new] = ["older", "new"].map(|name| format!("{folder}/{name}"));
    fs::write(&older, "older\n").unwrap();
    for (map, record) in (0..).zip(RECORDS) {
        let record = file(&format!("not-there-{map}"), bytes(record));
        for (bit, field) in ["challenge", "z1", "z2"].iter().enumerate().filter(|(bit, _)| map >> bit & 1 == 0) {
            for file in [&older, &new, "-"] {
                let option = format!("--{field}");
                fails(&["record", "read", &record, &option, file], 1, &format!("{option} {file}: {record} has no {field}"));
                // Nor is another one written that is there.
                if let Some(other) = ["--challenge", "--z1", "--z2"].iter().enumerate().find(|(bit, _)| map >> bit & 1 == 1) {
                    assert_ne!(other.0, bit);
                    let with = [other.1, &format!("{folder}/other")[..], &option, file];
                    assert_eq!(run(&[&["record", "read", &record], &with[..]].concat()).status, 1);
                }
            }
        }
        assert_eq!((names_in(&folder), fs::read_to_string(&older).unwrap()), (vec!["older".into()], "older\n".into()));
    }
}

#[test]
fn no_file_is_read_and_written_or_written_twice() {
    let folder = folder("twice");
    let record = file("twice/record", bytes(RECORDS[7]));
    let around = format!("{folder}/../twice/new");
    let new = format!("{folder}/new");
    let same = |with: &[&str], output: &str, other: &str| {
        fails(&[&["record", "read", &record], with].concat(), 1, &format!("{output}: this is the same file as {other}"));
        assert_eq!((names_in(&folder), fs::read(&record).unwrap()), (vec!["record".into()], bytes(RECORDS[7])));
    };
    same(&["--z1", &record], &format!("--z1 {record}"), &format!("FILE {record}"));
    for (first, second) in [(&new, &new), (&new, &around), (&around, &new)] {
        same(&["--z1", first, "--z2", second], &format!("--z2 {second}"), &format!("--z1 {first}"));
        same(&["--challenge", first, "--z1", second], &format!("--z1 {second}"), &format!("--challenge {first}"));
    }
    let link = format!("{folder}-link");
    let _ = fs::remove_file(&link);
    std::os::unix::fs::symlink(&new, &link).unwrap();
    same(&["--z1", &link, "--z2", &new], &format!("--z2 {new}"), &format!("--z1 {link}"));
    // Names alone, in the folder where the program runs.
    let mut named = program(&["record", "read", "record", "--z1", "new", "--z2", "./new"]);
    let ran = ended(named.current_dir(&folder).spawn().unwrap());
    assert_eq!(ran.err, "bliss-box: --z2 ./new: this is the same file as --z1 new\n");
    assert_eq!(names_in(&folder), ["record"]);
}

#[test]
fn a_read_that_cannot_be_delivered_leaves_the_older_files() {
    let folder = folder("undelivered");
    let (record, z1) = (file("undelivered-record", bytes(RECORDS[7])), file("undelivered/z1", "older\n"));
    let left = || assert_eq!((names_in(&folder), fs::read_to_string(&z1).unwrap()), (vec!["z1".into()], "older\n".into()));
    let full = "No space left on device (os error 28)";
    fails(&["record", "read", &record, "--z1", &z1, "--z2", "/dev/full"], 1, &format!("/dev/full: cannot be written: {full}"));
    left();
    for with in [&["--z1", &z1][..], &["--z1", &z1, "--z2", "-"]] {
        let output = OpenOptions::new().write(true).open("/dev/full").unwrap();
        let ran = ended(program(&[&["record", "read", &record], with].concat()).stdout(output).spawn().unwrap());
        assert_eq!((ran.status, ran.err), (1, format!("bliss-box: standard output: {full}\n")));
        left();
    }
    let closed = ["record", "read", &record, "--z1", &z1];
    let ran = ended(program_by("exec \"$0\" \"$@\" >&-", &closed).spawn().unwrap());
    assert_eq!((ran.status, ran.err.as_str()), (1, "bliss-box: standard output: it is closed\n"));
    left();
    let missing = format!("{folder}/missing/z2");
    let problem = format!("{missing}: cannot be written: No such file or directory (os error 2)");
    fails(&["record", "read", &record, "--z1", &z1, "--z2", &missing], 1, &problem);
    left();
}

/// script runs a command on a terminal of its own, and prints what that shows.
#[test]
fn a_terminal_is_not_sent_bytes() {
    let on_terminal = |command: &str| {
        let command = format!("{} {command}", env!("CARGO_BIN_EXE_bliss-box"));
        let mut script = Command::new("script");
        script.args(["--quiet", "--return", "--command", &command, "/dev/null"]).env("SHELL", "/bin/sh");
        ended(script.stdin(Stdio::null()).stdout(Stdio::piped()).stderr(Stdio::piped()).spawn().unwrap())
    };
    let [key, challenge] = key_and_challenge("terminal");
    for command in ["record write --z1 missing", &format!("respond --degree 4 --key {key} --challenge {challenge} --record -")]
    {
        let ran = on_terminal(command);
        let problem = "bliss-box: standard output: it is a terminal, and a record is no text: send it to a file\r\n";
        assert_eq!((ran.status, ran.out.as_str()), (1, problem), "{}", ran.err);
    }
    assert_eq!(on_terminal("exp 0").status, 0);
}
