//! Prints the CDT tables of deviations, one word a line, each table under its deviation: one table alone is a file for
//! `bliss-box draw --cdt`.
//!
//! usage: cdt [DEVIATION ..], 107 to 271; 215 where none is given

use std::env;
use std::process::ExitCode;

fn main() -> ExitCode {
    let arguments: Vec<String> = env::args().skip(1).collect();
    let deviations = if arguments.is_empty() { vec!["215".into()] } else { arguments };
    for deviation in deviations {
        let Some(table) = deviation.parse().ok().and_then(bliss_box::cdt) else {
            eprintln!("{deviation:?} is no deviation from 107 to 271");
            return ExitCode::FAILURE;
        };
        println!("# deviation {deviation}");
        for word in table {
            println!("{word}");
        }
    }
    ExitCode::SUCCESS
}
