//! The value of TLV 0x20 as it is written (document 02, K2).

use crate::helpers::*;
use crate::ssl_examples::*;
use second::{read_ssl, write_ssl};

const NONE: Pieces = [None; 5];

/// No other piece than the one at `index`.
fn only(index: usize, piece: &[u8]) -> Pieces<'_> {
    let mut pieces = NONE;
    pieces[index] = Some(piece);
    pieces
}

/// No other pieces than the version and the key algorithm.
fn first_and_last<'a>(first: &'a [u8], last: &'a [u8]) -> Pieces<'a> {
    [Some(first), None, None, None, Some(last)]
}

/// Checks that the pieces are written as `value`, in outputs of all lengths, and
/// that the value is read back as them.
fn check(client: u8, verify: u32, pieces: Pieces, value: &[u8]) {
    check_outputs(value, |out| write_ssl(client, verify, pieces, out));
    check_read_back(client, verify, pieces, value);
}

fn check_read_back(client: u8, verify: u32, pieces: Pieces, value: &[u8]) {
    let ssl = read_ssl(value).unwrap();
    assert_eq!((ssl.client, ssl.verify), (client, verify));
    assert_eq!(pieces_in(value, &ssl), pieces);
}

/// Checks that the number is given in short outputs and in one with room for all.
fn check_number(number: u8, client: u8, pieces: Pieces) {
    let write = |out: &mut [u8]| write_ssl(client, 0, pieces, out);
    check_refused(number, write);
    let mut out = vec![0xA5; 350_000];
    assert_eq!(write(&mut out), Err(number));
    assert!(out.iter().all(|&byte| byte == 0xA5));
}

#[test]
fn two_front_ends() {
    for example in examples() {
        let (client, verify) = (example.ssl.client, example.ssl.verify);
        check(client, verify, example.pieces, &example.value);
    }
}

#[test]
fn client_and_verify_alone() {
    check(0, 0, NONE, &[0, 0, 0, 0, 0]);
    check(6, 0x1234_5678, NONE, &[6, 0x12, 0x34, 0x56, 0x78]);
    check(0xFE, 0x8000_0001, NONE, &[0xFE, 0x80, 0, 0, 1]);
    check(2, 0xFFFF_FFFF, NONE, &[2, 0xFF, 0xFF, 0xFF, 0xFF]);
}

#[test]
fn empty_is_not_absent() {
    let value = [
        0x01, 0, 0, 0, 9, 0x21, 0, 0, 0x22, 0, 0, 0x23, 0, 0, 0x24, 0, 0, 0x25, 0, 0,
    ];
    check(1, 9, [Some(b""); 5], &value);
    check(1, 9, only(0, b""), &[1, 0, 0, 0, 9, 0x21, 0, 0]);
    check(0, 9, only(4, b""), &[0, 0, 0, 0, 9, 0x25, 0, 0]);
}

#[test]
fn lengths_have_their_high_byte_first() {
    // 258 = 0x0102.
    let value = [&[1, 0, 0, 0, 0, 0x21, 1, 2][..], &[7; 258]].concat();
    check(1, 0, only(0, &[7; 258]), &value);
}

/// Every choice of the five: those there stand in order of type, and of the others
/// nothing is written.
#[test]
fn all_32_choices_of_pieces() {
    let pieces: [&[u8]; 5] = [b"TLSv1.3", b"a", b"", b"SHA256", b"\x21\0\0"];
    let written: [&[u8]; 5] = [
        b"\x21\0\x07TLSv1.3",
        b"\x22\0\x01a",
        b"\x23\0\0",
        b"\x24\0\x06SHA256",
        b"\x25\0\x03\x21\0\0",
    ];
    for mask in 0..32 {
        let mut chosen = NONE;
        let mut value = vec![0x06, 0xDE, 0xAD, 0xBE, 0xEF];
        for index in 0..5 {
            if mask >> index & 1 == 1 {
                chosen[index] = Some(pieces[index]);
                value.extend(written[index]);
            }
        }
        check(6, 0xDEAD_BEEF, chosen, &value);
        value[0] = 0x07;
        if mask & 1 == 1 {
            check(7, 0xDEAD_BEEF, chosen, &value);
        } else {
            check_refused(20, |out| write_ssl(7, 0xDEAD_BEEF, chosen, out));
        }
    }
}

/// Each piece absent, empty, like a sub-TLV, or with every byte that there is.
#[test]
fn what_is_written_reads_back() {
    let every: Vec<u8> = (0..=0xFF).collect();
    let choices = [None, Some(&b""[..]), Some(b"\x21\0\x01\x22"), Some(&every)];
    for code in 0..1024_usize {
        let pieces: Pieces = [0, 2, 4, 6, 8].map(|shift| choices[code >> shift & 3]);
        for client in [0, 1, 2, 5, 0xFE, 0xFF] {
            let mut out = [0xA5; 5 + 5 * 259];
            let written = write_ssl(client, 0x0102_0304, pieces, &mut out);
            if client % 2 == 1 && pieces[0].is_none() {
                assert_eq!(written, Err(20));
            } else {
                check_read_back(client, 0x0102_0304, pieces, &out[..written.unwrap()]);
            }
        }
    }
}

/// With bit 0x01 and without a version, whatever else is there.
#[test]
fn a_version_must_be_there_for_client_bit_0x01() {
    for client in 0..=0xFF {
        for (pieces, area) in [
            (NONE, &b""[..]),
            (only(1, b"a"), b"\x22\0\x01a"),
            (only(4, b""), b"\x25\0\0"),
        ] {
            if client % 2 == 1 {
                check_refused(20, |out| write_ssl(client, 0, pieces, out));
            } else {
                check(client, 0, pieces, &[&[client, 0, 0, 0, 0], area].concat());
            }
        }
        check(client, 0, only(0, b""), &[client, 0, 0, 0, 0, 0x21, 0, 0]);
    }
}

/// 20 although a piece or the value is too long, 13 although the output is too short.
#[test]
fn checks_20_then_13_then_14() {
    let long = vec![9; 65_536];
    let half = vec![9; 40_000];
    for index in 1..5 {
        check_number(20, 1, only(index, &long));
        check_number(13, 0, only(index, &long));
    }
    let two = [None, Some(&half[..]), Some(&half), None, None];
    check_number(20, 1, two);
    check_number(13, 0, two);
    check_number(13, 1, only(0, &long));
    let empty_version = [Some(&b""[..]), Some(&half), Some(&half), None, None];
    check_number(13, 1, empty_version);
    for room in [0, 4, 5, 7] {
        assert_eq!(write_ssl(1, 0, NONE, &mut vec![0; room]), Err(20));
        assert_eq!(write_ssl(1, 0, only(0, b""), &mut vec![0; room]), Err(14));
    }
}

/// Checks a value of 65,535 bytes, in outputs around that.
fn check_longest(client: u8, pieces: Pieces, value: &[u8]) {
    assert_eq!(value.len(), 65_535);
    for room in [0, 65_534, 65_535, 65_536] {
        check_output(value, room, |out| write_ssl(client, 0, pieces, out));
    }
    check_read_back(client, 0, pieces, value);
}

/// 5 + 3 + 65,527 = 65,535, and 65,527 = 0xFFF7.
#[test]
fn the_longest_piece_alone() {
    let bytes = vec![9; 131_080];
    for index in 0..5 {
        let kind = 0x21 + u8::try_from(index).unwrap();
        let client = u8::from(kind == 0x21);
        let head = [client, 0, 0, 0, 0, kind, 0xFF, 0xF7];
        let value = [&head, &bytes[..65_527]].concat();
        check_longest(client, only(index, &bytes[..65_527]), &value);
        // Up to 65,535 only the value is over.
        for length in [
            65_528, 65_529, 65_534, 65_535, 65_536, 65_537, 131_072, 131_080,
        ] {
            check_number(13, client, only(index, &bytes[..length]));
        }
    }
}

/// 5 + 3 + 3 + 65,524 = 65,535, and 65,524 = 0xFFF4.
#[test]
fn the_longest_value_with_an_empty_piece() {
    let bytes = vec![9; 65_525];
    let head = [1, 0, 0, 0, 0, 0x21, 0, 0, 0x25, 0xFF, 0xF4];
    let value = [&head, &bytes[..65_524]].concat();
    check_longest(1, first_and_last(b"", &bytes[..65_524]), &value);
    check_number(13, 1, first_and_last(b"", &bytes));
    check_number(13, 1, first_and_last(b"a", &bytes[..65_524]));
    // 65,527 bytes had room alone.
    check_number(13, 1, first_and_last(b"", &[9; 65_527]));
}

/// 5 + 5 * (3 + 13,103) = 65,535, and 13,103 = 0x332F.
#[test]
fn the_longest_value_of_five_pieces() {
    let bytes = vec![9; 13_104];
    let pieces = [Some(&bytes[..13_103]); 5];
    let mut value = vec![1, 0, 0, 0, 0];
    for kind in [0x21, 0x22, 0x23, 0x24, 0x25] {
        value.extend([kind, 0x33, 0x2F]);
        value.extend(&bytes[..13_103]);
    }
    check_longest(1, pieces, &value);
    for index in 0..5 {
        let mut longer = pieces;
        longer[index] = Some(&bytes);
        check_number(13, 1, longer);
    }
    // Lengths whose sum is far over.
    check_number(
        13,
        1,
        [Some(&[9; 32_768]), Some(&[9; 32_768]), None, None, None],
    );
    check_number(13, 1, [Some(&[9; 65_535]); 5]);
    check_number(13, 1, [Some(&[9; 65_536]); 5]);
}

#[test]
fn random_pieces_are_written_as_sub_tlvs() {
    let mut random = Random::seeded(0x3031_3233_3435_3637);
    for _ in 0..2000 {
        let mut tlvs = Vec::new();
        for kind in [0x21, 0x22, 0x23, 0x24, 0x25] {
            let length = random.pick(&[0, 1, 2, 3, 20, 255, 256, 300]);
            if kind == 0x21 || !random.once_in(3) {
                tlvs.push((kind, random.bytes(length)));
            }
        }
        let mut pieces = NONE;
        for (kind, piece) in &tlvs {
            pieces[usize::from(kind - 0x21)] = Some(&piece[..]);
        }
        let start = random.bytes(5);
        let verify = u32::from_be_bytes([start[1], start[2], start[3], start[4]]);
        let value = [&start[..], &area_of(&tlvs)].concat();
        let room = random.below(value.len() + 3);
        for room in [room, value.len()] {
            check_output(&value, room, |out| write_ssl(start[0], verify, pieces, out));
        }
        check_read_back(start[0], verify, pieces, &value);
    }
}
