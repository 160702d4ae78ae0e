//! The number that "more" carries (document 02, K10): the fewest further bytes
//! with which some continuation is a whole header.
//!
//! The shortest headers are "PROXY UNKNOWN" CR LF with 15 bytes, version 2 with
//! 16, "PROXY TCP6 :: :: 0 0" CR LF with 22, and
//! "PROXY TCP4 0.0.0.0 0.0.0.0 0 0" CR LF with 32.

use crate::helpers::*;
use second::{judge, whole_header, Verdict};

/// Checks the number behind each of the texts, which stand behind `before`.
fn check_behind(before: &str, cases: &[(&str, usize)]) {
    for (text, bytes) in cases {
        let input = format!("{before}{text}");
        assert_eq!(judge(input.as_bytes()), more(*bytes), "{input:?}");
    }
}

/// Checks the number behind the signature and each of the byte strings.
fn check_behind_signature(cases: &[(&[u8], usize)]) {
    for (bytes, expected) in cases {
        let input = behind_signature(bytes);
        assert_eq!(judge(&input), more(*expected), "{bytes:02x?}");
    }
}

#[test]
fn the_examples_of_k10() {
    assert_eq!(judge(b""), more(15));
    assert_eq!(judge(b"PROXY T"), more(15));
    assert_eq!(judge(b"PROXY TCP4 "), more(21));
    assert_eq!(judge(&behind_signature(&[0x21, 0x11])), more(14));
}

#[test]
fn the_program_keeps_the_bare_word() {
    assert_eq!(more(15).to_string(), "more");
    assert_eq!(more(65_535).to_string(), "more");
}

/// UNKNOWN is the shortest word with its line, TCP6 the next.
#[test]
fn before_and_in_the_protocol_word() {
    check_behind(
        "",
        &[
            ("P", 14),
            ("PR", 13),
            ("PRO", 12),
            ("PROX", 11),
            ("PROXY", 10),
            // UNKNOWN CR LF: 7 + 2.
            ("PROXY ", 9),
            ("PROXY U", 8),
            ("PROXY UNKNOW", 3),
            ("PROXY UNKNOWN", 2),
            // "CP6 :: :: 0 0" CR LF: 13 + 2.
            ("PROXY T", 15),
            ("PROXY TC", 14),
            ("PROXY TCP", 13),
            ("PROXY TCP6", 12),
            // A space and then "0.0.0.0 0.0.0.0 0 0" CR LF: 1 + 19 + 2.
            ("PROXY TCP4", 22),
        ],
    );
}

#[test]
fn an_unknown_line_ends_with_cr_lf() {
    check_behind(
        "PROXY UNKNOWN",
        &[
            ("\r", 1),
            (" ", 2),
            (" \r", 1),
            (" \n", 2),
            (" \r\r", 1),
            (" \rx", 2),
            (" \n\r", 1),
            (" x", 2),
            (" TCP4 1.2.3.4", 2),
        ],
    );
}

/// 107 bytes are the most, so byte 105 is the last that may be the CR.
#[test]
fn an_unknown_line_that_grows_to_its_longest() {
    let line = |length: usize| format!("{:x<length$}", "PROXY UNKNOWN ");
    for length in 14..=105 {
        check_behind(&line(length), &[("", 2), ("\r", 1)]);
    }
}

/// Behind the source stand a space, "0.0.0.0 " and "0 0" CR LF: 1 + 8 + 5.
#[test]
fn in_a_tcp4_source() {
    check_behind(
        "PROXY TCP4 ",
        &[
            ("", 7 + 14),
            ("0", 6 + 14),
            ("1", 6 + 14),
            ("25", 6 + 14),
            ("255", 6 + 14),
            ("1.", 5 + 14),
            ("1.2", 4 + 14),
            ("1.2.", 3 + 14),
            ("1.2.3", 2 + 14),
            ("1.2.3.", 1 + 14),
            ("1.2.3.4", 14),
            ("1.2.3.255", 14),
            ("1.2.3.4 ", 13),
        ],
    );
}

/// Behind the destination stand a space and "0 0" CR LF: 1 + 5.
#[test]
fn in_a_tcp4_destination() {
    check_behind(
        "PROXY TCP4 1.2.3.4 ",
        &[
            ("", 7 + 6),
            ("5", 6 + 6),
            ("5.", 5 + 6),
            ("5.6", 4 + 6),
            ("5.6.", 3 + 6),
            ("5.6.7", 2 + 6),
            ("5.6.7.", 1 + 6),
            ("5.6.7.8", 6),
            ("5.6.7.8 ", 5),
        ],
    );
}

#[test]
fn in_the_ports() {
    for before in ["PROXY TCP4 1.2.3.4 5.6.7.8 ", "PROXY TCP6 1::2 ::3 "] {
        check_behind(
            before,
            &[
                ("", 5),
                // A space, "0" and CR LF.
                ("0", 4),
                ("1", 4),
                ("6553", 4),
                ("6554", 4),
                ("65535", 4),
                ("1 ", 3),
                ("1 0", 2),
                ("1 2", 2),
                ("1 6553", 2),
                ("1 65535", 2),
                ("1 2\r", 1),
            ],
        );
    }
}

/// Behind an address, as source a space, ":: " and "0 0" CR LF: 1 + 3 + 5; as
/// destination a space and "0 0" CR LF: 1 + 5.
#[test]
fn in_tcp6_addresses() {
    for (before, behind) in [("PROXY TCP6 ", 9), ("PROXY TCP6 1:2:3:4:5:6:7:8 ", 6)] {
        let in_address = [
            // "::" is the shortest address.
            ("", 2),
            (":", 1),
            ("::", 0),
            // One group, or few, and "::" behind.
            ("1", 2),
            ("12aB", 2),
            ("1:", 1),
            ("1:2:3:4:5:6", 2),
            ("1:2:3:4:5:6:", 1),
            // Seven groups: "::" or a colon and the eighth.
            ("1:2:3:4:5:6:7", 2),
            ("1:2:3:4:5:6:7:", 1),
            ("1:2:3:4:5:6:7:8", 0),
            ("1:2:3:4:5:6:7:89ab", 0),
            ("1:2:3:4:5:6:7::", 0),
            // With "::" there, a group may end the address, a colon may not.
            ("1::", 0),
            ("::1", 0),
            ("::1:", 1),
            ("1::2", 0),
            ("1::2:", 1),
            ("1::2:3:4:5:6:7", 0),
            ("::2:3:4:5:6:7:", 1),
            ("::2:3:4:5:6:7:8", 0),
        ];
        let cases = in_address.map(|(text, rest)| (text, rest + behind));
        check_behind(before, &cases);
    }
    check_behind("PROXY TCP6 :: ", &[("", 8), (":: ", 5)]);
}

/// At the empty input the UNKNOWN line is shorter than version 2 by one byte.
#[test]
fn in_the_signature() {
    let expected = [15, 15, 14, 13, 12, 11, 10, 9, 8, 7, 6, 5, 4];
    for (length, expected) in expected.into_iter().enumerate() {
        assert_eq!(judge(&S[..length]), more(expected), "{length} bytes");
    }
}

/// With a length of 0, or A of the kind.
#[test]
fn behind_the_command_and_the_family() {
    check_behind_signature(&[
        (&[], 4),
        (&[0x20], 3),
        (&[0x21], 3),
        (&[0x21, 0x11], 2 + 12),
        (&[0x21, 0x12], 2 + 12),
        (&[0x21, 0x21], 2 + 36),
        (&[0x21, 0x22], 2 + 36),
        (&[0x21, 0x31], 2 + 216),
        (&[0x21, 0x32], 2 + 216),
    ]);
    for family in UNSPECIFIED {
        check_behind_signature(&[(&[0x21, family], 2)]);
    }
    for family in 0..=0xFF {
        check_behind_signature(&[(&[0x20, family], 2)]);
    }
}

/// With a high byte above 0, the low byte 0 makes the shortest block.
#[test]
fn behind_the_high_length_byte() {
    check_behind_signature(&[
        (&[0x20, 0x11, 0], 1),
        (&[0x20, 0x11, 1], 1 + 256),
        (&[0x20, 0xFF, 255], 1 + 65_280),
        (&[0x21, 0x00, 0], 1),
        (&[0x21, 0x10, 0], 1),
        (&[0x21, 0x10, 1], 1 + 256),
        (&[0x21, 0x00, 255], 1 + 65_280),
        (&[0x21, 0x11, 0], 1 + 12),
        (&[0x21, 0x12, 1], 1 + 256),
        (&[0x21, 0x11, 255], 1 + 65_280),
        (&[0x21, 0x21, 0], 1 + 36),
        (&[0x21, 0x22, 2], 1 + 512),
        (&[0x21, 0x31, 0], 1 + 216),
        (&[0x21, 0x32, 1], 1 + 256),
        (&[0x21, 0x31, 255], 1 + 65_280),
    ]);
}

#[test]
fn behind_the_length_it_is_the_block() {
    check_behind_signature(&[
        (&[0x20, 0x00, 0, 1], 1),
        (&[0x20, 0xEE, 0x12, 0x34], 4_660),
        (&[0x20, 0x00, 255, 255], 65_535),
        (&[0x21, 0x00, 0, 2], 2),
        (&[0x21, 0x30, 255, 255], 65_535),
        (&[0x21, 0x11, 0, 12], 12),
        (&[0x21, 0x11, 0, 15], 15),
        (&[0x21, 0x11, 1, 0], 256),
        (&[0x21, 0x21, 0, 36], 36),
        (&[0x21, 0x31, 0, 219], 219),
        (&[0x21, 0x31, 255, 255], 65_535),
    ]);
}

/// L = 24: the addresses, a TLV of 3 + 5 bytes, and one of 3 + 1.
#[test]
fn inside_the_block() {
    let area = [1, 0, 5, 9, 9, 9, 9, 9, 2, 0, 1, 9];
    let header = binary(0x21, 0x11, 24, &[&[7; 12], &area[..]].concat());
    for (seen, expected) in [
        // In the addresses, and behind them.
        (1, 23),
        (8, 16),
        (11, 13),
        (12, 12),
        // In the first head, behind it, in the value.
        (13, 11),
        (14, 10),
        (15, 9),
        (17, 7),
        // Behind the first TLV, in the second head, before the last value byte.
        (20, 4),
        (21, 3),
        (22, 2),
        (23, 1),
    ] {
        assert_eq!(judge(&header[..16 + seen]), more(expected), "{seen}");
    }
}

#[test]
fn inside_a_block_that_is_not_looked_at() {
    for (command, family) in [(0x20, 0x11), (0x21, 0x00), (0x21, 0x20)] {
        for (seen, expected) in [(1, 999), (12, 988), (500, 500), (999, 1)] {
            let input = binary(command, family, 1000, &vec![0xFF; seen]);
            assert_eq!(judge(&input), more(expected), "{seen}");
        }
    }
}

/// How many bytes are missing to a whole header, if some can make it one.
fn missing(input: &[u8]) -> Option<usize> {
    match judge(input) {
        Verdict::Accepted(_) => Some(0),
        Verdict::More(bytes) => Some(bytes),
        Verdict::Refused { .. } => None,
    }
}

fn with_byte(input: &[u8], byte: u8) -> Vec<u8> {
    [input, &[byte]].concat()
}

/// A whole header that begins with `input`: each byte added is one behind which
/// a byte fewer is missing.
fn completed(input: &[u8]) -> Vec<u8> {
    let mut header = input.to_vec();
    while let Verdict::More(bytes) = judge(&header) {
        let next = (0..=0xFF).find(|&byte| missing(&with_byte(&header, byte)) == Some(bytes - 1));
        header.push(next.expect("a byte that is part of a shortest completion"));
    }
    header
}

/// Headers whose beginnings are tried, with every way to stop in a field.
fn headers() -> Vec<Vec<u8>> {
    let tlvs = [1, 0, 2, 9, 9, 2, 0, 0];
    let long_tlv = [&[4, 1, 2][..], &[9; 258]].concat();
    vec![
        b"PROXY UNKNOWN\r\n".to_vec(),
        b"PROXY UNKNOWN x\n\r\r \r\n".to_vec(),
        b"PROXY TCP4 255.25.2.0 192.168.0.11 65535 6553\r\n".to_vec(),
        b"PROXY TCP6 1:2:3:4:5:6:7:8 2001:db8::c 443 0\r\n".to_vec(),
        b"PROXY TCP6 1:2:3:4:5:6:7:: ::2:3:4:5:6:7:8 1 2\r\n".to_vec(),
        binary(0x20, 0xEE, 5, b"block"),
        binary(0x21, 0x10, 12, &[0xFF; 12]),
        binary(0x21, 0x11, 20, &[&[7; 12], &tlvs[..]].concat()),
        binary(0x21, 0x22, 36, &[7; 36]),
        binary(0x21, 0x12, 273, &[&[7; 12], &long_tlv[..]].concat()),
    ]
}

/// The beginnings of these headers, each with the number that "more" carries.
fn beginnings() -> impl Iterator<Item = (Vec<u8>, usize)> {
    let prefixes = |header: Vec<u8>| (0..header.len()).map(move |end| header[..end].to_vec());
    let with_number = |beginning: Vec<u8>| match judge(&beginning) {
        Verdict::More(bytes) => (beginning, bytes),
        verdict => panic!("{verdict} at {beginning:?}"),
    };
    headers().into_iter().flat_map(prefixes).map(with_number)
}

/// From nothing on, and from every beginning: as many bytes are added as "more"
/// told at first, and the header is whole with the last of them, not before.
#[test]
fn a_shortest_completion_is_accepted_exactly_with_its_last_byte() {
    assert_eq!(completed(b""), b"PROXY UNKNOWN\r\n");
    for (beginning, bytes) in beginnings() {
        let header = completed(&beginning);
        assert_eq!(header.len(), beginning.len() + bytes, "{beginning:?}");
        for end in beginning.len()..header.len() {
            assert_eq!(judge(&header[..end]), more(header.len() - end));
        }
        let whole = whole_header(&header).expect("a whole header");
        assert_eq!(judge(&header), Verdict::Accepted(Box::new(whole)));
    }
}

/// Some byte brings the end nearer by one, and none by more: so no completion
/// is shorter, whatever its bytes are.
#[test]
fn no_byte_brings_the_end_nearer_by_more_than_one() {
    for (beginning, bytes) in beginnings() {
        let behind = (0..=0xFF).filter_map(|byte| missing(&with_byte(&beginning, byte)));
        assert_eq!(behind.min(), Some(bytes - 1), "{beginning:?}");
    }
}

/// True if `input` is whole with at most so many bytes from `from` behind it.
fn is_whole_within(input: &[u8], bytes: usize, from: &[u8]) -> bool {
    let longer = |&byte: &u8| is_whole_within(&with_byte(input, byte), bytes - 1, from);
    whole_header(input).is_some() || bytes > 0 && from.iter().any(longer)
}

/// By trial of all bytes, near the end of a header.
#[test]
fn no_shorter_completion_is_whole() {
    let all: Vec<u8> = (0..=0xFF).collect();
    for (beginning, bytes) in beginnings().filter(|(_, bytes)| *bytes <= 2) {
        assert!(!is_whole_within(&beginning, bytes - 1, &all));
        assert!(is_whole_within(&beginning, bytes, &all));
    }
}

/// By trial of the bytes that a line needs, further from its end.
#[test]
fn no_shorter_completion_is_whole_in_a_line() {
    let lines = beginnings().filter(|(beginning, _)| beginning.starts_with(b"PROXY TCP"));
    for (beginning, bytes) in lines.filter(|(_, bytes)| *bytes <= 7) {
        assert!(!is_whole_within(&beginning, bytes - 1, b"0:. \r\n"));
        assert!(is_whole_within(&beginning, bytes, b"0:. \r\n"));
    }
}
