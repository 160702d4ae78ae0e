//! W01 to W14 (document 01, Examples for the statement table).

use crate::helpers::*;
use second::{judge, Kind, Transport, Verdict};

const W02: &[u8] = b"PROXY TCP4 192.168.0.1 192.168.0.11 56324 443\r\n";

/// Twelve address bytes: 10.1.2.3, port 4660, to 10.4.5.6, port 22136.
const A: [u8; 12] = [10, 1, 2, 3, 10, 4, 5, 6, 0x12, 0x34, 0x56, 0x78];

fn w02_answer() -> Verdict {
    let kind = Kind::Ip4(Transport::Stream);
    let record = record(kind, &[192, 168, 0, 1], &[192, 168, 0, 11], 56_324, 443);
    accepted(record, 1, 47, 47..47)
}

#[test]
fn w01_nothing() {
    assert_eq!(judge(b""), more(15));
}

#[test]
fn w02_tcp4_line() {
    assert_eq!(judge(W02), w02_answer());
    assert_eq!(judge(W02).to_string(), "accepted 47 ip4-stream");
}

#[test]
fn w03_tcp4_line_and_payload() {
    assert_eq!(judge(&[W02, b"GET "].concat()), w02_answer());
}

#[test]
fn w04_bare_unknown_line() {
    let answer = accepted(bare(Kind::Unspecified), 1, 15, 15..15);
    assert_eq!(judge(b"PROXY UNKNOWN\r\n"), answer);
}

#[test]
fn w05_octet_too_large() {
    assert_eq!(judge(b"PROXY TCP4 256"), refused(3, 13));
}

#[test]
fn w06_octet_with_leading_zero() {
    assert_eq!(judge(b"PROXY TCP4 01"), refused(3, 12));
}

#[test]
fn w07_port_too_large() {
    assert_eq!(judge(b"PROXY TCP4 1.1.1.1 1.1.1.1 65536"), refused(4, 31));
}

#[test]
fn w08_no_header() {
    assert_eq!(judge(b"GET"), refused(1, 0));
}

#[test]
fn w09_shortest_ip6_line() {
    let record = record(Kind::Ip6(Transport::Stream), &[0; 16], &[0; 16], 0, 0);
    let answer = accepted(record, 1, 22, 22..22);
    assert_eq!(judge(b"PROXY TCP6 :: :: 0 0\r\n"), answer);
}

#[test]
fn w10_local() {
    let answer = accepted(bare(Kind::Local), 2, 16, 16..16);
    assert_eq!(judge(&behind_signature(&[0x20, 0xFF, 0, 0])), answer);
}

#[test]
fn w11_version_3() {
    assert_eq!(judge(&behind_signature(&[0x30])), refused(6, 12));
}

#[test]
fn w12_length_between_address_block_and_tlv() {
    assert_eq!(
        judge(&behind_signature(&[0x21, 0x11, 0, 0x0D])),
        refused(8, 15)
    );
}

#[test]
fn w13_empty_noop_tlv() {
    let input = binary(0x21, 0x11, 15, &[&A[..], &[4, 0, 0]].concat());
    let kind = Kind::Ip4(Transport::Stream);
    let record = record(kind, &[10, 1, 2, 3], &[10, 4, 5, 6], 0x1234, 0x5678);
    assert_eq!(judge(&input), accepted(record, 2, 31, 28..31));
}

#[test]
fn w14_tlv_longer_than_header() {
    let input = binary(0x21, 0x11, 15, &[&A[..], &[4, 0, 1]].concat());
    assert_eq!(judge(&input), refused(9, 30));
}
