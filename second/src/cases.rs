//! Many inputs at once: one a line in lower-case hex, answered line by line.

use crate::judge::judge;
use std::io::{self, BufRead, Write};

/// Answers each line of `input`. An empty line is the empty input.
pub fn answer_cases(mut input: impl BufRead, mut output: impl Write) -> io::Result<()> {
    let mut line = Vec::new();
    let mut number = 0_u64;
    while input.read_until(b'\n', &mut line)? > 0 {
        number += 1;
        let hex = line.strip_suffix(b"\n").unwrap_or(&line);
        let bytes = bytes_of_hex(hex).ok_or_else(|| not_hex(number))?;
        writeln!(output, "{}", judge(&bytes))?;
        line.clear();
    }
    output.flush()
}

fn not_hex(line: u64) -> io::Error {
    io::Error::new(
        io::ErrorKind::InvalidData,
        format!("line {line} is not bytes in lower-case hex"),
    )
}

fn bytes_of_hex(hex: &[u8]) -> Option<Vec<u8>> {
    let pairs = hex.chunks(2).map(|pair| match *pair {
        [high, low] => Some(16 * hex_digit(high)? + hex_digit(low)?),
        _ => None,
    });
    pairs.collect()
}

fn hex_digit(digit: u8) -> Option<u8> {
    match digit {
        b'0'..=b'9' => Some(digit - b'0'),
        b'a'..=b'f' => Some(digit - b'a' + 10),
        _ => None,
    }
}
