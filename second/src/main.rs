//! Judges standard input and writes one line (document 01, The program). With
//! `--cases`, answers a list of inputs instead.

use second::cases::answer_cases;
use second::judge;
use std::io::{self, BufWriter, Read, Write};
use std::process::ExitCode;

/// No more of standard input is judged.
const MOST_INPUT: u64 = 65_536;

fn main() -> ExitCode {
    let arguments: Vec<String> = std::env::args().skip(1).collect();
    let arguments: Vec<&str> = arguments.iter().map(String::as_str).collect();
    let outcome = match arguments[..] {
        [] => answer_input(),
        ["--cases"] => answer_cases(io::stdin().lock(), BufWriter::new(io::stdout().lock())),
        _ => Err(io::Error::other("usage: second [--cases] < input")),
    };
    match outcome {
        Ok(()) => ExitCode::SUCCESS,
        Err(error) => {
            eprintln!("second: {error}");
            ExitCode::FAILURE
        }
    }
}

fn answer_input() -> io::Result<()> {
    let mut input = Vec::new();
    io::stdin()
        .lock()
        .take(MOST_INPUT)
        .read_to_end(&mut input)?;
    writeln!(io::stdout().lock(), "{}", judge(&input))
}
