//! The predicate: which bytes are a whole header and nothing more.

use crate::helpers::*;
use second::{judge, whole_header, Verdict};

#[test]
fn a_whole_header_is_what_the_judge_accepts() {
    for header in [
        b"PROXY TCP4 1.2.3.4 5.6.7.8 9 10\r\n".to_vec(),
        b"PROXY TCP6 1::2 ::3 4 5\r\n".to_vec(),
        b"PROXY UNKNOWN\r\n".to_vec(),
        b"PROXY UNKNOWN \r\n".to_vec(),
        binary(0x20, 0xEE, 2, &[1, 2]),
        binary(0x21, 0x00, 2, &[1, 2]),
        binary(
            0x21,
            0x12,
            16,
            &[0, 0, 0, 0, 0, 0, 0, 0, 0, 0, 0, 0, 9, 0, 1, 9],
        ),
    ] {
        let whole = whole_header(&header).expect("a whole header");
        assert_eq!(judge(&header), Verdict::Accepted(Box::new(whole)));
        for length in 0..header.len() {
            assert_eq!(whole_header(&header[..length]), None);
        }
        for behind in [&b"\0"[..], b"\n", b"\r\n", b"x\r\n"] {
            assert_eq!(whole_header(&[&header[..], behind].concat()), None);
        }
    }
}

#[test]
fn a_line_has_one_end_and_at_most_107_bytes() {
    let unknown = |rest: usize| [&b"PROXY UNKNOWN "[..], &vec![b'x'; rest], b"\r\n"].concat();
    assert!(whole_header(&unknown(91)).is_some());
    assert_eq!(whole_header(&unknown(92)), None);
    assert_eq!(whole_header(b"PROXY UNKNOWN a\r\nb\r\n"), None);
    assert_eq!(whole_header(b"PROXY UNKNOWN\r\n\r\n"), None);
    assert!(whole_header(b"PROXY UNKNOWN a\rb\nc\r\r\n").is_some());
}

#[test]
fn a_line_has_its_words_in_order_with_single_spaces() {
    for line in [
        "",
        "\r\n",
        "PROXY\r\n",
        "PROXY \r\n",
        "PROXY UNKNOWNx\r\n",
        "PROXY UNKNOWN\n",
        "PROXY TCP4\r\n",
        "PROXY TCP5 1.2.3.4 5.6.7.8 9 10\r\n",
        "PROXY TCP4 1.2.3.4 5.6.7.8 9\r\n",
        "PROXY TCP4 1.2.3.4 5.6.7.8 9 10 \r\n",
        "PROXY TCP4 1.2.3.4 5.6.7.8 9 10 11\r\n",
        "PROXY TCP4  1.2.3.4 5.6.7.8 9 10\r\n",
        " PROXY TCP4 1.2.3.4 5.6.7.8 9 10\r\n",
        "PROXY TCP4 1.2.3.4 5.6.7.8 9 10\r\r\n",
        "PROXY TCP4 1.2.3 5.6.7.8 9 10\r\n",
        "PROXY TCP4 ::1 ::1 9 10\r\n",
        "PROXY TCP6 1.2.3.4 5.6.7.8 9 10\r\n",
        "PROXY TCP6 1:2:3:4:5:6:7:8:: :: 9 10\r\n",
    ] {
        assert_eq!(whole_header(line.as_bytes()), None, "{line:?}");
    }
}

#[test]
fn a_block_has_its_length_and_is_filled_by_tlvs() {
    for bytes in [
        behind_signature(&[]),
        behind_signature(&[0x20, 0, 0]),
        binary(0x20, 0, 1, &[]),
        binary(0x20, 0, 1, &[0, 0]),
        binary(0x22, 0, 0, &[]),
        binary(0x10, 0, 0, &[]),
        binary(0x21, 0x33, 0, &[]),
        binary(0x21, 0x11, 11, &[0; 11]),
        binary(0x21, 0x11, 13, &[0; 13]),
        binary(0x21, 0x11, 14, &[0; 14]),
        binary(0x21, 0x11, 16, &[0; 16]),
        binary(0x21, 0x31, 215, &[0; 215]),
    ] {
        assert_eq!(whole_header(&bytes), None, "{bytes:?}");
    }
}
