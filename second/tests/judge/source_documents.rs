//! The headers shown in source documents 000 to 003. Documents 002 and 003 are
//! examples only; where they speak otherwise, document 01 decides.

use crate::helpers::*;
use second::{judge, Kind, Record, Transport};

fn tcp4(source: [u8; 4], destination: [u8; 4], ports: [u16; 2]) -> Record {
    let kind = Kind::Ip4(Transport::Stream);
    record(kind, &source, &destination, ports[0], ports[1])
}

/// 001, section 2.1, the example before an HTTP request. 000 leaves it out.
#[test]
fn document_001_example_line() {
    let line = "PROXY TCP4 192.168.0.1 192.168.0.11 56324 443\r\n";
    let request = "GET / HTTP/1.1\r\nHost: 192.168.0.11\r\n\r\n";
    let answer = accepted(
        tcp4([192, 168, 0, 1], [192, 168, 0, 11], [56_324, 443]),
        1,
        47,
        47..47,
    );
    assert_eq!(judge(format!("{line}{request}").as_bytes()), answer);
}

/// 001, section 2.1, and 002, the longest and shortest lines.
#[test]
fn documents_001_and_002_line_lengths() {
    let full = "ffff:ffff:ffff:ffff:ffff:ffff:ffff:ffff";
    let tcp6 = format!("PROXY TCP6 {full} {full} 65535 65535\r\n");
    let unknown = format!("PROXY UNKNOWN {full} {full} 65535 65535\r\n");
    let tcp4 = "PROXY TCP4 255.255.255.255 255.255.255.255 65535 65535\r\n";
    check_lines(&[
        (tcp4, "accepted 56 ip4-stream"),
        (&tcp6, "accepted 104 ip6-stream"),
        ("PROXY UNKNOWN\r\n", "accepted 15 unspecified"),
        (&unknown, "accepted 107 unspecified"),
    ]);
}

/// The documents shorten the addresses of these lines by dots, which are no
/// part of them: as they stand, the TCP6 line has a dot where a digit or colon
/// must be, and the UNKNOWN line is a shorter one (14 + 2 * 16 + 2 * 5 + 1 + 2).
#[test]
fn documents_001_and_002_lines_as_printed() {
    check_lines(&[
        (
            "PROXY TCP6 ffff:f...f:ffff ffff:f...f:ffff 65535 65535\r\n",
            "refused 3 at 17",
        ),
        (
            "PROXY UNKNOWN ffff:f...f:ffff ffff:f...f:ffff 65535 65535\r\n",
            "accepted 59 unspecified",
        ),
    ]);
}

/// 000 and 001, section 2.2: how a receiver knows the version. There byte 12
/// is shown as 20 alone; document 01 has the command in its low half, and
/// asks for "more" where the documents wait for 8 or 16 bytes.
#[test]
fn documents_000_and_001_known_beginnings() {
    let local = *b"\x0D\x0A\x0D\x0A\x00\x0D\x0A\x51\x55\x49\x54\x0A\x20";
    let proxy = *b"\x0D\x0A\x0D\x0A\x00\x0D\x0A\x51\x55\x49\x54\x0A\x21";
    assert_eq!(judge(&local), more(3));
    assert_eq!(judge(&proxy), more(3));
    assert_eq!(judge(b"\x50\x52\x4F\x58\x59"), more(10));
}

/// 002, the example before an HTTP request.
#[test]
fn document_002_example_line() {
    let line = "PROXY TCP4 192.168.0.1 192.168.0.102 12345 443\r\n";
    let request = "GET / HTTP/1.1\r\nHost: 192.168.0.102\r\n\r\n";
    let answer = accepted(
        tcp4([192, 168, 0, 1], [192, 168, 0, 102], [12_345, 443]),
        1,
        48,
        48..48,
    );
    assert_eq!(judge(format!("{line}{request}").as_bytes()), answer);
}

/// 003, three captured lines over IPv4. The capture shows only the line break.
#[test]
fn document_003_tcp4_lines() {
    for (port, behind) in [
        (59_003, "GET / HTTP/1.1\r\nAccept: text/html\r\n"),
        (59_498, "GET / HTTP/1.1\r\nAccept: text/html\r\n"),
        (59_532, "GET / HTTP/1.0\r\nHost: 192.168.37.160:807\r\n"),
    ] {
        let line = format!("PROXY TCP4 192.168.37.154 192.168.37.160 {port} 807\r\n");
        let record = tcp4([192, 168, 37, 154], [192, 168, 37, 160], [port, 807]);
        let answer = accepted(record, 1, 52, 52..52);
        assert_eq!(judge(format!("{line}{behind}").as_bytes()), answer);
    }
}

/// 003, the captured line over IPv6: groups of fewer than four digits, which
/// the specification's wording does not have and document 01 allows.
#[test]
fn document_003_tcp6_line() {
    let line = "PROXY TCP6 2004::192:168:37:161 2004::192:168:37:162 50113 807\r\n";
    let source = groups([0x2004, 0, 0, 0, 0x192, 0x168, 0x37, 0x161]);
    let destination = groups([0x2004, 0, 0, 0, 0x192, 0x168, 0x37, 0x162]);
    let kind = Kind::Ip6(Transport::Stream);
    let record = record(kind, &source, &destination, 50_113, 807);
    let input = format!("{line}GET / HTTP/1.1\r\n");
    assert_eq!(judge(input.as_bytes()), accepted(record, 1, 64, 64..64));
}

/// 003, the captured version 2 header. In the dump two bytes of the packet's
/// own head, E5 98, stand before it.
#[test]
fn document_003_binary_header() {
    let dump = [
        0xE5, 0x98, 0x0D, 0x0A, 0x0D, 0x0A, 0x00, 0x0D, 0x0A, 0x51, 0x55, 0x49, 0x54, 0x0A, 0x21,
        0x11, 0x00, 0x0C, 0xC0, 0xA8, 0x25, 0x9A, 0xC0, 0xA8, 0x25, 0xA7, 0xE0, 0x41, 0x03, 0x27,
        0x47, 0x45, 0x54, 0x20, 0x2F, 0x20, 0x48, 0x54, 0x54, 0x50, 0x2F, 0x31, 0x2E, 0x31, 0x0D,
        0x0A, 0x48, 0x6F,
    ];
    let record = tcp4([192, 168, 37, 154], [192, 168, 37, 167], [57_409, 807]);
    assert_eq!(judge(&dump[2..]), accepted(record, 2, 28, 28..28));
    assert_eq!(judge(&dump), refused(1, 0));
}

/// 003 has other commands and transports "ignored"; document 01 refuses them,
/// and document 02, K1, takes a family without a transport as unspecified.
#[test]
fn document_003_other_commands_and_transports() {
    assert_eq!(judge(&behind_signature(&[0x22])), refused(6, 12));
    assert_eq!(judge(&behind_signature(&[0x21, 0x13])), refused(7, 13));
    assert_eq!(judge(&behind_signature(&[0x21, 0x10])), more(2));
}

/// 000 and 001, section 2.2.6: a PP2_TYPE_SSL TLV that holds others, with the
/// strings named there. What is inside a TLV value is not looked at.
#[test]
fn documents_000_and_001_ssl_tlv() {
    let cipher = b"ECDHE-RSA-AES128-GCM-SHA256";
    let inner = [
        &[0x01, 0, 0, 0, 0, 0x23, 0, 27][..],
        cipher,
        &[0x24, 0, 6],
        b"SHA256",
        &[0x25, 0, 7],
        b"RSA2048",
        &[0x22, 0, 11],
        b"example.com",
    ]
    .concat();
    // 5 + 30 + 9 + 10 + 14 bytes in the value, 71 in the TLV, 12 before it.
    assert_eq!(inner.len(), 68);
    let block = [&[0; 12][..], &[0x20, 0, 68], &inner].concat();
    let input = binary(0x21, 0x11, 83, &block);
    let answer = accepted(tcp4([0; 4], [0; 4], [0, 0]), 2, 99, 28..99);
    assert_eq!(judge(&input), answer);
}
