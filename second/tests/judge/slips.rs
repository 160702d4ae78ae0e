//! Document 01, Slips to expect.

use crate::helpers::*;
use second::{judge, Kind};

#[test]
fn an_octet_is_refused_when_seen_not_at_the_line_end() {
    check_lines(&[
        ("PROXY TCP4 9", "more"),
        ("PROXY TCP4 99", "more"),
        ("PROXY TCP4 999", "refused 3 at 13"),
        ("PROXY TCP4 999.", "refused 3 at 13"),
        ("PROXY TCP4 999.1.1.1 1.1.1.1 1 1\r\n", "refused 3 at 13"),
    ]);
}

#[test]
fn the_zero_byte_of_the_signature_ends_nothing() {
    assert_eq!(judge(&S[..4]), more(12));
    assert_eq!(judge(&S[..5]), more(11));
    assert_eq!(judge(&S[..6]), more(10));
    let behind_zero = [&S[..5], b"\r\nQUIT\r"].concat();
    assert_eq!(judge(&behind_zero), refused(1, 11));
    let without_zero = b"\r\n\r\n\r\nQUIT\n";
    assert_eq!(judge(without_zero), refused(1, 4));
}

#[test]
fn the_block_of_local_belongs_to_the_header() {
    let whole = binary(0x20, 0x00, 5, b"block");
    let answer = accepted(bare(Kind::Local), 2, 21, 21..21);
    assert_eq!(judge(&whole), answer);
    assert_eq!(judge(&[&whole[..], b"payload"].concat()), answer);
    for length in 16..21 {
        assert_eq!(judge(&whole[..length]), more(21 - length));
    }
}

#[test]
fn eight_groups_leave_nothing_to_shorten() {
    check_lines(&[
        ("PROXY TCP6 1:2:3:4:5:6:7:8", "more"),
        ("PROXY TCP6 1:2:3:4:5:6:7:8:", "refused 3 at 26"),
        ("PROXY TCP6 1:2:3:4:5:6:7:8::", "refused 3 at 26"),
        ("PROXY TCP6 :: 1:2:3:4:5:6:7:8::", "refused 3 at 29"),
        ("PROXY TCP6 1:2:3:4:5:6:7:8:: :: 1 1\r\n", "refused 3 at 26"),
    ]);
}

#[test]
fn a_line_end_in_the_payload_alters_nothing() {
    check_lines(&[
        ("PROXY TCP4 1.1.1.1 1.1.1.1 5 5", "more"),
        ("PROXY TCP4 1.1.1.1 1.1.1.1 5 5\n", "refused 4 at 30"),
        (
            "PROXY TCP4 1.1.1.1 1.1.1.1 5 5\nGET / HTTP/1.1\r\n",
            "refused 4 at 30",
        ),
        (
            "PROXY TCP4 1.1.1.1 1.1.1.1 5 5\r\n",
            "accepted 32 ip4-stream",
        ),
        (
            "PROXY TCP4 1.1.1.1 1.1.1.1 5 5\r\n\r\n",
            "accepted 32 ip4-stream",
        ),
        ("PROXY UNKNOWN x\r\n", "accepted 17 unspecified"),
        (
            "PROXY UNKNOWN x\r\nGET / HTTP/1.1\r\n\r\n",
            "accepted 17 unspecified",
        ),
        ("PROXY UNKNOWN\nGET / HTTP/1.1\r\n", "refused 2 at 13"),
        ("GET / HTTP/1.1\r\nPROXY UNKNOWN\r\n", "refused 1 at 0"),
    ]);
}
