//! The programs under comparison.
use std::io::{BufRead, BufReader, Write};
use std::path::Path;
use std::process::{Child, Command, Stdio};

fn start(program: &Path) -> Child {
    Command::new(program)
        .stdin(Stdio::piped())
        .stdout(Stdio::piped())
        .spawn()
        .unwrap_or_else(|e| panic!("{}: {e}", program.display()))
}

/// The answer lines of the proved library to a list of cases, in one process.
pub fn cases(folder: &Path, inputs: &[Vec<u8>]) -> Vec<String> {
    let mut child = start(&folder.join("cases"));
    let mut stdin = child.stdin.take().expect("its input");
    let stdout = BufReader::new(child.stdout.take().expect("its output"));
    let answers = std::thread::scope(|scope| {
        scope.spawn(move || {
            let mut list = Vec::new();
            for input in inputs {
                list.extend_from_slice(&(input.len() as u32).to_be_bytes()[1..]);
                list.extend_from_slice(input);
            }
            // A program that ends early gives too few answers, which the caller sees.
            let _ = stdin.write_all(&list);
        });
        stdout.lines().map(|l| l.expect("text")).collect()
    });
    child.wait().expect("it ends");
    answers
}

/// The answer of the program itself to one input.
pub fn judge(folder: &Path, input: &[u8]) -> String {
    let mut child = start(&folder.join("judge"));
    let mut stdin = child.stdin.take().expect("its input");
    let output = std::thread::scope(|scope| {
        scope.spawn(move || {
            // The program reads at most 65,536 bytes and may close its input before all are written.
            let _ = stdin.write_all(input);
        });
        let mut line = String::new();
        BufReader::new(child.stdout.take().expect("its output")).read_line(&mut line).expect("text");
        line
    });
    child.wait().expect("it ends");
    output.trim_end_matches('\n').to_string()
}

/// The second program's answer.
pub fn line(input: &[u8]) -> String {
    second::judge(input).to_string()
}
