//! Consequences of document 01, The text line.

use crate::helpers::*;
use second::{judge, Kind, Transport, Verdict};

/// Puts a byte that fits nowhere on each place of `line` and checks the number.
fn check_wrong_byte_at_each_place(line: &str, numbers: &str) {
    assert_eq!(line.len(), numbers.len());
    for (place, number) in numbers.bytes().enumerate() {
        let mut input = line.as_bytes().to_vec();
        input[place] = b'x';
        assert_eq!(judge(&input), refused(number - b'0', place), "{line:?}");
        assert_eq!(judge(&input[..=place]), refused(number - b'0', place));
        assert!(is_more(&input[..place]));
    }
}

#[test]
fn a_wrong_byte_gets_the_number_of_its_field() {
    check_wrong_byte_at_each_place(
        "PROXY TCP4 192.168.0.1 192.168.0.11 56324 443\r\n",
        "11111122222333333333333333333333333344444444445",
    );
    check_wrong_byte_at_each_place(
        "PROXY TCP6 1::f 2:2:2:2:2:2:2:2 0 1\r\n",
        "1111112222233333333333333333333344445",
    );
    check_wrong_byte_at_each_place("PROXY UNKNOWN\r\n", "111111222222225");
}

#[test]
fn the_opening_is_proxy_and_one_space() {
    check_lines(&[
        ("P", "more"),
        ("PROXY", "more"),
        ("PROXY ", "more"),
        ("proxy ", "refused 1 at 0"),
        ("PROXy ", "refused 1 at 4"),
        ("PROXYTCP4", "refused 1 at 5"),
        ("PROXY\t", "refused 1 at 5"),
        ("PROXY\r\n", "refused 1 at 5"),
        (" PROXY", "refused 1 at 0"),
    ]);
}

#[test]
fn the_word_is_tcp4_tcp6_or_unknown() {
    check_lines(&[
        ("PROXY T", "more"),
        ("PROXY TCP", "more"),
        ("PROXY TCP4", "more"),
        ("PROXY TCP6", "more"),
        ("PROXY UNKNOWN", "more"),
        ("PROXY  ", "refused 2 at 6"),
        ("PROXY tcp4", "refused 2 at 6"),
        ("PROXY UDP4", "refused 2 at 7"),
        ("PROXY TCP ", "refused 2 at 9"),
        ("PROXY TCP5", "refused 2 at 9"),
        ("PROXY TCP44", "refused 2 at 10"),
        ("PROXY TCP4\r\n", "refused 2 at 10"),
        ("PROXY UNKNOWM", "refused 2 at 12"),
        ("PROXY UNKNOWNS", "refused 2 at 13"),
        ("PROXY UNKNOWN\n", "refused 2 at 13"),
        ("PROXY UNKNOWN\r", "more"),
        ("PROXY UNKNOWN\r\r\n", "refused 5 at 14"),
        ("PROXY UNKNOWN\r ", "refused 5 at 14"),
    ]);
}

#[test]
fn ip4_addresses_are_four_decimals() {
    check_lines(&[
        ("PROXY TCP4 0.0.0.0 ", "more"),
        ("PROXY TCP4 255.255.255.255 ", "more"),
        ("PROXY TCP4 26", "more"),
        ("PROXY TCP4 249", "more"),
        ("PROXY TCP4 199.", "more"),
        ("PROXY TCP4  ", "refused 3 at 11"),
        ("PROXY TCP4 .", "refused 3 at 11"),
        ("PROXY TCP4 +1", "refused 3 at 11"),
        ("PROXY TCP4 -1", "refused 3 at 11"),
        ("PROXY TCP4 a", "refused 3 at 11"),
        ("PROXY TCP4 ::", "refused 3 at 11"),
        ("PROXY TCP4 00", "refused 3 at 12"),
        ("PROXY TCP4 0x1", "refused 3 at 12"),
        ("PROXY TCP4 1 ", "refused 3 at 12"),
        ("PROXY TCP4 260", "refused 3 at 13"),
        ("PROXY TCP4 300", "refused 3 at 13"),
        ("PROXY TCP4 1..", "refused 3 at 13"),
        ("PROXY TCP4 1000", "refused 3 at 14"),
        ("PROXY TCP4 0.00", "refused 3 at 14"),
        ("PROXY TCP4 1.1.1 ", "refused 3 at 16"),
        ("PROXY TCP4 1.1.1.\r", "refused 3 at 17"),
        ("PROXY TCP4 1.1.1.1.", "refused 3 at 18"),
        ("PROXY TCP4 1.1.1.1\r", "refused 3 at 18"),
        ("PROXY TCP4 1.1.1.256", "refused 3 at 19"),
        ("PROXY TCP4 1.1.1.1  ", "refused 3 at 19"),
        ("PROXY TCP4 1.1.1.1 2.2.2 ", "refused 3 at 24"),
        ("PROXY TCP4 1.1.1.1 2.2.2.2\r\n", "refused 3 at 26"),
    ]);
}

#[test]
fn ports_are_decimals_up_to_65535() {
    // 27 bytes stand before the source port.
    let behind = "PROXY TCP4 1.1.1.1 1.1.1.1 ";
    for (ports, line) in [
        ("", "more"),
        ("0", "more"),
        ("0 ", "more"),
        ("9999", "more"),
        ("65535 ", "more"),
        ("65535 65535", "more"),
        ("1 2\r", "more"),
        ("1 2\r\n", "accepted 32 ip4-stream"),
        ("0 0\r\n", "accepted 32 ip4-stream"),
        ("60000 6553\r\n", "accepted 39 ip4-stream"),
        (" ", "refused 4 at 27"),
        ("-1", "refused 4 at 27"),
        ("\r\n", "refused 4 at 27"),
        ("00", "refused 4 at 28"),
        ("01", "refused 4 at 28"),
        ("1\r\n", "refused 4 at 28"),
        ("1 \r\n", "refused 4 at 29"),
        ("1  ", "refused 4 at 29"),
        ("1 02", "refused 4 at 30"),
        ("1 2 ", "refused 4 at 30"),
        ("1 2\n", "refused 4 at 30"),
        // Four digits are always a port, so the fifth is the first dead one.
        ("65536", "refused 4 at 31"),
        ("65540", "refused 4 at 31"),
        ("65600", "refused 4 at 31"),
        ("66000", "refused 4 at 31"),
        ("70000", "refused 4 at 31"),
        ("99999", "refused 4 at 31"),
        ("1 2\r\r", "refused 5 at 31"),
        ("1 2\r ", "refused 5 at 31"),
        ("100000", "refused 4 at 32"),
        ("1 65536", "refused 4 at 33"),
        ("65535 655350", "refused 4 at 38"),
    ] {
        let input = format!("{behind}{ports}");
        assert_eq!(judge(input.as_bytes()).to_string(), line, "{input:?}");
    }
}

#[test]
fn every_port_and_no_greater_number_is_accepted() {
    for port in 0..=70_000_u32 {
        let input = format!("PROXY TCP4 1.2.3.4 5.6.7.8 {port} 1\r\n");
        match u16::try_from(port) {
            Ok(port) => {
                let kind = Kind::Ip4(Transport::Stream);
                let record = record(kind, &[1, 2, 3, 4], &[5, 6, 7, 8], port, 1);
                let length = input.len();
                let answer = accepted(record, 1, length, length..length);
                assert_eq!(judge(input.as_bytes()), answer);
            }
            Err(_) => assert!(matches!(
                judge(input.as_bytes()),
                Verdict::Refused { number: 4, .. }
            )),
        }
    }
}

#[test]
fn ip6_addresses_have_eight_groups_or_one_double_colon() {
    // 11 bytes stand before the address.
    for (address, line) in [
        ("", "more"),
        (":", "more"),
        (":: ", "more"),
        ("::1 ", "more"),
        ("1:: ", "more"),
        ("1::8 ", "more"),
        ("1:2:3:4:5:6:7:8 ", "more"),
        ("1:2:3:4:5:6:7:: ", "more"),
        ("::2:3:4:5:6:7:8 ", "more"),
        ("1:2:3::5:6:7:8 ", "more"),
        ("0001:0:00:000:0000:aBcD:EF:9 ", "more"),
        ("0:0:0::0 ", "more"),
        (" ", "refused 3 at 11"),
        ("g", "refused 3 at 11"),
        ("[", "refused 3 at 11"),
        (".", "refused 3 at 11"),
        (":1", "refused 3 at 12"),
        (": ", "refused 3 at 12"),
        ("1 ", "refused 3 at 12"),
        ("1: ", "refused 3 at 13"),
        (":::", "refused 3 at 13"),
        ("1:::", "refused 3 at 14"),
        ("::1.", "refused 3 at 14"),
        ("::1: ", "refused 3 at 15"),
        ("12345", "refused 3 at 15"),
        ("1::2::", "refused 3 at 16"),
        ("::ffff:1.2.3.4", "refused 3 at 19"),
        ("1:2:3:4:5:6:7 ", "refused 3 at 24"),
        ("1:2:3:4:5:6:1.2.3.4", "refused 3 at 24"),
        ("1:2:3:4:5:6:7: ", "refused 3 at 25"),
        ("1:2:3:4:5:6:7:8:", "refused 3 at 26"),
        ("1:2:3:4:5:6:7:::", "refused 3 at 26"),
        ("1:2:3:4:5:6:7::8", "refused 3 at 26"),
        ("::1:2:3:4:5:6:7:", "refused 3 at 26"),
        ("1::2:3:4:5:6:7:", "refused 3 at 25"),
        ("fe80::1%eth0", "refused 3 at 18"),
        ("::/0", "refused 3 at 13"),
    ] {
        let input = format!("PROXY TCP6 {address}");
        assert_eq!(judge(input.as_bytes()).to_string(), line, "{input:?}");
        // As a destination it stands three bytes further on.
        if let Some((number, place)) = line.split_once(" at ") {
            let place: usize = place.parse().unwrap();
            let input = format!("PROXY TCP6 :: {address}");
            let line = format!("{number} at {}", place + 3);
            assert_eq!(judge(input.as_bytes()).to_string(), line, "{input:?}");
        }
    }
}

#[test]
fn ip6_values_are_read_with_zeros_for_the_double_colon() {
    for (text, values) in [
        ("::", [0; 8]),
        ("::1", [0, 0, 0, 0, 0, 0, 0, 1]),
        ("1::", [1, 0, 0, 0, 0, 0, 0, 0]),
        ("1:2:3:4:5:6:7:8", [1, 2, 3, 4, 5, 6, 7, 8]),
        ("1:2:3:4:5:6:7::", [1, 2, 3, 4, 5, 6, 7, 0]),
        ("::2:3:4:5:6:7:8", [0, 2, 3, 4, 5, 6, 7, 8]),
        ("1:2:3::5:6:7:8", [1, 2, 3, 0, 5, 6, 7, 8]),
        ("a:B::00Cd:eF01", [0xA, 0xB, 0, 0, 0, 0, 0xCD, 0xEF01]),
        // Not the longest run of zeros: that is allowed.
        ("0:0:0:1::1:0", [0, 0, 0, 1, 0, 0, 1, 0]),
        ("0:0::0:0", [0; 8]),
    ] {
        let line = format!("PROXY TCP6 {text} ffff::2 65535 9\r\n");
        let kind = Kind::Ip6(Transport::Stream);
        let destination = groups([0xFFFF, 0, 0, 0, 0, 0, 0, 2]);
        let record = record(kind, &groups(values), &destination, 65_535, 9);
        let answer = accepted(record, 1, line.len(), line.len()..line.len());
        assert_eq!(judge(line.as_bytes()), answer, "{line:?}");
    }
}

#[test]
fn the_longest_tcp_lines_have_56_and_104_bytes() {
    let tcp4 = "PROXY TCP4 255.255.255.255 255.255.255.255 65535 65535\r\n";
    let group8 = "FFFF:ffff:FFFF:ffff:FFFF:ffff:FFFF:ffff";
    let tcp6 = format!("PROXY TCP6 {group8} {group8} 65535 65535\r\n");
    check_lines(&[
        (tcp4, "accepted 56 ip4-stream"),
        (&tcp6, "accepted 104 ip6-stream"),
    ]);
    // One more character in any field is refused: no line can be longer.
    check_lines(&[
        ("PROXY TCP4 255.255.255.2550", "refused 3 at 26"),
        (
            "PROXY TCP4 255.255.255.255 255.255.255.255 655350",
            "refused 4 at 48",
        ),
        ("PROXY TCP6 FFFFF", "refused 3 at 15"),
    ]);
    assert_eq!(judge(&tcp6.as_bytes()[..103]), more(1));
}

/// An UNKNOWN line of `length` bytes up to here: the 14 bytes of
/// "PROXY UNKNOWN " and then x.
fn unknown(length: usize) -> Vec<u8> {
    let mut line = b"PROXY UNKNOWN ".to_vec();
    line.resize(length, b'x');
    line
}

fn unspecified(length: usize) -> Verdict {
    accepted(bare(Kind::Unspecified), 1, length, length..length)
}

fn with_end(mut line: Vec<u8>, end: &[u8]) -> Vec<u8> {
    line.extend(end);
    line
}

#[test]
fn unknown_lines_have_at_most_107_bytes() {
    for length in 14..=105 {
        let whole = with_end(unknown(length), b"\r\n");
        assert_eq!(judge(&whole), unspecified(length + 2));
        assert_eq!(judge(&whole[..length + 1]), more(1));
    }
    assert_eq!(judge(&unknown(105)), more(2));
    assert_eq!(judge(&unknown(106)), refused(5, 105));
    assert_eq!(judge(&unknown(107)), refused(5, 105));
    assert_eq!(judge(&with_end(unknown(106), b"\r\n")), refused(5, 105));
    assert_eq!(judge(&unknown(5000)), refused(5, 105));
}

#[test]
fn the_last_two_bytes_of_the_longest_line_are_cr_lf() {
    // The CR is byte 105, so 106 bytes are there and one is missing.
    let up_to_cr = with_end(unknown(105), b"\r");
    assert_eq!(judge(&up_to_cr), more(1));
    assert_eq!(judge(&with_end(up_to_cr.clone(), b"\n")), unspecified(107));
    assert_eq!(
        judge(&with_end(up_to_cr.clone(), b"\n\n")),
        unspecified(107)
    );
    assert_eq!(judge(&with_end(up_to_cr.clone(), b"\r")), refused(5, 106));
    assert_eq!(judge(&with_end(up_to_cr, b"x\r\n")), refused(5, 106));
    // A CR at 104 may be lone, if another follows; an LF ends a shorter line.
    let cr_at_104 = with_end(unknown(104), b"\r");
    assert_eq!(judge(&with_end(cr_at_104.clone(), b"\n")), unspecified(106));
    assert_eq!(judge(&with_end(cr_at_104.clone(), b"\r")), more(1));
    assert_eq!(
        judge(&with_end(cr_at_104.clone(), b"\r\n")),
        unspecified(107)
    );
    assert_eq!(judge(&with_end(cr_at_104, b"x")), refused(5, 105));
    // An LF at 105 that follows no CR ends nothing.
    assert_eq!(judge(&with_end(unknown(105), b"\n")), refused(5, 105));
}

#[test]
fn every_byte_but_cr_is_dead_at_place_105() {
    for byte in 0..=0xFF {
        let answer = match byte {
            b'\r' => more(1),
            _ => refused(5, 105),
        };
        assert_eq!(judge(&with_end(unknown(105), &[byte])), answer);
    }
}

#[test]
fn a_lone_cr_or_lf_in_an_unknown_line_is_like_any_byte() {
    check_lines(&[
        ("PROXY UNKNOWN \r", "more"),
        ("PROXY UNKNOWN \n", "more"),
        ("PROXY UNKNOWN \n\r", "more"),
        ("PROXY UNKNOWN \r\n", "accepted 16 unspecified"),
        ("PROXY UNKNOWN \n\r\n", "accepted 17 unspecified"),
        ("PROXY UNKNOWN \r\r\n", "accepted 17 unspecified"),
        ("PROXY UNKNOWN \r \r\n", "accepted 18 unspecified"),
        ("PROXY UNKNOWN \n\n\r\r\r\n", "accepted 20 unspecified"),
        ("PROXY UNKNOWN a\nb\rc\r\n", "accepted 21 unspecified"),
        ("PROXY UNKNOWN \r\n\r\n", "accepted 16 unspecified"),
        ("PROXY UNKNOWN  \r\n", "accepted 17 unspecified"),
        ("PROXY UNKNOWN TCP4 999\r\n", "accepted 24 unspecified"),
    ]);
}

#[test]
fn any_byte_may_stand_in_an_unknown_line() {
    for byte in 0..=0xFF {
        let input = with_end(b"PROXY UNKNOWN ".to_vec(), &[byte, b'x', b'\r', b'\n']);
        assert_eq!(judge(&input), unspecified(18));
    }
}
