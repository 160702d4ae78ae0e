//! The program (document 01, The program) and its list of cases.

use crate::helpers::*;
use std::io::Write;
use std::process::{Command, Output, Stdio};

fn run(arguments: &[&str], input: &[u8]) -> Output {
    let mut child = Command::new(env!("CARGO_BIN_EXE_second"))
        .args(arguments)
        .stdin(Stdio::piped())
        .stdout(Stdio::piped())
        .stderr(Stdio::piped())
        .spawn()
        .unwrap();
    let mut stdin = child.stdin.take().unwrap();
    let output = std::thread::scope(|scope| {
        // The program may stop reading before all is written.
        scope.spawn(move || stdin.write_all(input).ok());
        child.wait_with_output()
    });
    output.unwrap()
}

fn answer(input: &[u8]) -> String {
    let output = run(&[], input);
    assert!(output.status.success());
    String::from_utf8(output.stdout).unwrap()
}

fn hex(bytes: &[u8]) -> String {
    bytes.iter().map(|byte| format!("{byte:02x}")).collect()
}

#[test]
fn one_line_for_the_input() {
    let w02 = b"PROXY TCP4 192.168.0.1 192.168.0.11 56324 443\r\n";
    assert_eq!(answer(w02), "accepted 47 ip4-stream\n");
    assert_eq!(answer(b""), "more\n");
    assert_eq!(answer(b"PROXY TCP4 256"), "refused 3 at 13\n");
    assert_eq!(answer(b"PROXY UNKNOWN\r\n"), "accepted 15 unspecified\n");
    assert_eq!(
        answer(b"PROXY TCP6 :: :: 0 0\r\n"),
        "accepted 22 ip6-stream\n"
    );
    assert_eq!(answer(&binary(0x20, 0xFF, 0, &[])), "accepted 16 local\n");
    assert_eq!(
        answer(&binary(0x21, 0x00, 0, &[])),
        "accepted 16 unspecified\n"
    );
}

#[test]
fn a_word_for_every_address_kind() {
    for (family, _, word, a) in ADDRESS_KINDS {
        let input = binary(0x21, family, a, &vec![1; a]);
        assert_eq!(answer(&input), format!("accepted {} {word}\n", 16 + a));
    }
}

#[test]
fn only_the_first_65536_bytes_are_judged() {
    // Of 16 + 65520 bytes all are judged, of one more the last is not.
    let fits = binary(0x20, 0x00, 65_520, &[0; 65_520]);
    assert_eq!(answer(&fits), "accepted 65536 local\n");
    let too_long = binary(0x20, 0x00, 65_521, &[0; 65_521]);
    assert_eq!(answer(&too_long), "more\n");
    let much_behind = [&b"PROXY UNKNOWN\r\n"[..], &[0; 200_000]].concat();
    assert_eq!(answer(&much_behind), "accepted 15 unspecified\n");
}

#[test]
fn one_line_for_each_case() {
    let longest = binary(0x21, 0x31, 65_535, &[0; 65_535]);
    let cases = [
        String::new(),
        hex(b"GET"),
        hex(b"PROXY UNKNOWN\r\n"),
        String::new(),
        hex(&longest),
        hex(&longest[..65_550]),
        hex(b"PROXY TCP4 01"),
    ];
    let answers = "more\nrefused 1 at 0\naccepted 15 unspecified\nmore\n\
        accepted 65551 unix-stream\nmore\nrefused 3 at 12\n";
    for input in [cases.join("\n"), cases.join("\n") + "\n"] {
        let output = run(&["--cases"], input.as_bytes());
        assert!(output.status.success());
        assert_eq!(String::from_utf8(output.stdout).unwrap(), answers);
    }
    assert_eq!(run(&["--cases"], b"").stdout, b"");
    assert_eq!(run(&["--cases"], b"\n").stdout, b"more\n");
}

#[test]
fn a_case_that_is_not_lower_case_hex_is_an_error() {
    for input in ["4", "4G", "4A", "0x41", "41 42", "41\r\n"] {
        let output = run(&["--cases"], format!("47\n{input}\n").as_bytes());
        assert!(!output.status.success(), "{input:?}");
        let message = String::from_utf8(output.stderr).unwrap();
        assert!(message.contains("line 2"), "{message}");
    }
}

#[test]
fn other_arguments_are_an_error() {
    assert!(!run(&["--case"], b"").status.success());
    assert!(!run(&["--cases", "x"], b"").status.success());
}
