//! The program bliss-box, run on good and bad input: what it prints, what it says, and its exit status.

mod arguments;
mod check_key;
mod completions;
mod demo;
mod draw;
mod exp;
mod files;
mod list;
mod manual;
mod output;
// The other tests use all of it.
#[allow(dead_code)]
#[path = "../../../wrapper/tests/random/mod.rs"]
mod random;
mod record;
mod refusals;
mod respond;

use std::fs;
use std::io::Write;
use std::process::{Child, Command, Stdio};

use bliss_box::{draw_limit, draw_word_count, Deviation, Noise, OwnedDraw, Secret, Session, POLYNOMIAL};
use random::Random;

/// What a run of the program left.
struct Ran {
    status: i32,
    out: String,
    err: String,
}

fn program(arguments: &[&str]) -> Command {
    let mut program = Command::new(env!("CARGO_BIN_EXE_bliss-box"));
    program.args(arguments).stdin(Stdio::null()).stdout(Stdio::piped()).stderr(Stdio::piped());
    program
}

/// The program under a shell's script, which has it as "$0" and its arguments as "$@".
fn program_by(script: &str, arguments: &[&str]) -> Command {
    let mut shell = Command::new("sh");
    shell.args(["-c", script, env!("CARGO_BIN_EXE_bliss-box")]).args(arguments);
    shell.stdin(Stdio::null()).stdout(Stdio::piped()).stderr(Stdio::piped());
    shell
}

fn run(arguments: &[&str]) -> Ran {
    ended(program(arguments).spawn().unwrap())
}

fn ended(child: Child) -> Ran {
    let (status, out, err) = ended_with_bytes(child);
    Ran { status, out: String::from_utf8(out).unwrap(), err }
}

/// The same where what is printed may be no text.
fn ended_with_bytes(child: Child) -> (i32, Vec<u8>, String) {
    let output = child.wait_with_output().unwrap();
    (output.status.code().unwrap(), output.stdout, String::from_utf8(output.stderr).unwrap())
}

/// Runs the program with this on its standard input.
fn run_with(input: impl AsRef<[u8]>, arguments: &[&str]) -> Ran {
    let mut child = program(arguments).stdin(Stdio::piped()).spawn().unwrap();
    child.stdin.take().unwrap().write_all(input.as_ref()).unwrap();
    ended(child)
}

/// Runs a program with this on its standard input again and again. A run that does not end by itself is given ten megabytes.
fn run_endless(mut program: Command, input: &str) -> Ran {
    let mut child = program.stdin(Stdio::piped()).spawn().unwrap();
    let mut stdin = child.stdin.take().unwrap();
    let ended_itself = (0..10_000_000 / input.len()).any(|_| stdin.write_all(input.as_bytes()).is_err());
    drop(stdin);
    let ran = ended(child);
    assert!(ended_itself, "all was read: {}", ran.err);
    ran
}

/// What a run prints that is served, and says nothing.
fn printed(arguments: &[&str]) -> String {
    String::from_utf8(printed_bytes(arguments)).unwrap()
}

fn printed_bytes(arguments: &[&str]) -> Vec<u8> {
    let (status, out, err) = ended_with_bytes(program(arguments).spawn().unwrap());
    assert_eq!((status, err.as_str()), (0, ""), "{arguments:?}");
    out
}

/// The commands that the help names, without the command help: each as it is called, and after it those below it.
fn commands() -> Vec<String> {
    let mut commands = named(&printed(&["-h"]), "Commands:");
    assert_eq!(commands.pop().as_deref(), Some("help"));
    let with_those_below = commands.into_iter().flat_map(|command| {
        let below = named(&short_help(&command), "Commands:");
        let below: Vec<String> = below.into_iter().map(|below| format!("{command} {below}")).collect();
        [vec![command], below].concat()
    });
    with_those_below.collect()
}

/// A command, and words that follow it.
fn calling<'a>(command: &'a str, with: &[&'a str]) -> Vec<&'a str> {
    command.split(' ').chain(with.iter().copied()).collect()
}

fn short_help(command: &str) -> String {
    printed(&calling(command, &["-h"]))
}

/// The options that take no value.
const FLAGS: [&str; 2] = ["--blank", "--picture"];

/// The options of a command that its help names, without --help, which all have.
fn options(command: &str) -> Vec<String> {
    let options = named(&short_help(command), "Options:");
    options.into_iter().filter(|option| option.starts_with("--")).collect()
}

/// The first word of each line below a heading of a help text.
fn named(help: &str, heading: &str) -> Vec<String> {
    let below = help.lines().skip_while(|line| *line != heading).skip(1).take_while(|line| !line.is_empty());
    below.map(|line| line.split_whitespace().next().unwrap().to_owned()).collect()
}

/// A run that fails with this status, prints nothing, and says this.
fn fails(arguments: &[&str], status: i32, problem: &str) {
    let ran = run(arguments);
    assert_eq!((ran.status, ran.out.as_str(), ran.err), (status, "", format!("bliss-box: {problem}\n")), "{arguments:?}");
}

/// A path of a file for this test alone.
fn path(name: &str) -> String {
    format!("{}/{name}", env!("CARGO_TARGET_TMPDIR"))
}

fn file(name: &str, content: impl AsRef<[u8]>) -> String {
    let path = path(name);
    fs::write(&path, content).unwrap();
    path
}

/// An empty folder for a test of this name.
fn folder(name: &str) -> String {
    let path = path(name);
    let _ = fs::remove_dir_all(&path);
    fs::create_dir(&path).unwrap();
    path
}

/// The names in a folder, in order.
fn names_in(folder: &str) -> Vec<String> {
    let names = fs::read_dir(folder).unwrap().map(|entry| entry.unwrap().file_name().into_string().unwrap());
    let mut names: Vec<String> = names.collect();
    names.sort();
    names
}

fn lines<T: ToString>(numbers: &[T]) -> String {
    numbers.iter().map(|number| number.to_string() + "\n").collect()
}

fn random_words(seed: u64, count: usize) -> Vec<u64> {
    let mut random = Random::new(seed);
    (0..count).map(|_| random.word()).collect()
}

/// A part of 2^62, as a word.
fn part(of_one: f64) -> u64 {
    (of_one * 2_f64.powi(62)) as u64
}

/// What a run says that has drawn with a file of words, and then says this.
fn warned(words: &str, said: &str) -> String {
    let twice = "words used twice make the same noise twice, and two responses over one noise give the key away";
    format!("bliss-box: warning: {words}: {twice}\n{said}")
}

/// Words of attempts with these accept bits: each draws 1, which is accepted, or -0, which is not.
fn words_with(bits: &str) -> Vec<u64> {
    bits.chars().flat_map(|bit| [0, 0, if bit == '1' { 1 } else { 256 }, 0]).collect()
}

/// The noise that the library draws with these words.
fn library_draw(session: Session, limit: usize, cdt: &[u64], words: &[u64]) -> Noise {
    match session.draw_owned(limit, cdt, &POLYNOMIAL, Secret::from(words[..draw_word_count(limit)].to_vec())) {
        Ok(OwnedDraw::Full(noise)) => noise,
        other => panic!("{other:?}"),
    }
}

fn open(n: usize) -> Session {
    Session::open(n, Deviation::D215).unwrap()
}

/// The default limit of draws at degree 4.
const LIMIT: usize = draw_limit(4, Deviation::D215);

const KEY: [i32; 8] = [1, 2, 3, 4, -1, 0, 7, -7];

/// A key and a challenge in files, for a test of this name.
fn key_and_challenge(name: &str) -> [String; 2] {
    [file(&format!("{name}-key"), lines(&KEY)), file(&format!("{name}-challenge"), lines(&[0, 3]))]
}
