//! What is read in the value of TLV 0x20 (document 02, K2).

use crate::helpers::*;
use crate::ssl_examples::*;
use second::{judge, lookup, read_ssl, Answer, Ssl};
use std::ops::Range;

type Places = [Option<Range<usize>>; 5];

const NONE: Places = [None, None, None, None, None];

/// A value with this client byte, verify 0 and these sub-TLVs, which start at 5.
fn value(client: u8, area: &[u8]) -> Vec<u8> {
    [&[client, 0, 0, 0, 0], area].concat()
}

/// Checks where the pieces lie in a value made by `value`.
fn check(client: u8, area: &[u8], pieces: Places) {
    let ssl = Ssl {
        client,
        verify: 0,
        pieces,
    };
    assert_eq!(read_ssl(&value(client, area)), Ok(ssl), "{area:02X?}");
}

#[test]
fn two_front_ends() {
    for example in examples() {
        assert_eq!(read_ssl(&example.value), Ok(example.ssl.clone()));
        assert_eq!(pieces_in(&example.value, &example.ssl), example.pieces);
    }
}

/// Also where the bytes that are there look like an empty sub-TLV 0x21.
#[test]
fn under_5_bytes_is_19() {
    for bytes in [[0; 4], [1; 4], [0xFF; 4], [1, 0x21, 0, 0]] {
        for length in 0..=4 {
            assert_eq!(read_ssl(&bytes[..length]), Err(19), "{length} bytes");
        }
    }
}

#[test]
fn five_bytes_have_no_pieces() {
    check(0, &[], NONE);
    assert_eq!(read_ssl(&value(1, &[])), Err(20));
}

/// The sub-TLVs of the second front end end at 15, 29, 59, 68 and 78. Cut
/// elsewhere they are ill-formed; cut there the later ones are absent.
#[test]
fn sub_tlvs_cut_at_each_place() {
    let Example { value, ssl, .. } = with_certificate();
    for length in 0..=78 {
        let whole = match length {
            5 => 0,
            15 => 1,
            29 => 2,
            59 => 3,
            68 => 4,
            78 => 5,
            _ => {
                assert_eq!(read_ssl(&value[..length]), Err(19), "{length} bytes");
                continue;
            }
        };
        let mut ssl = ssl.clone();
        ssl.pieces[whole..].fill(None);
        let answer = if whole == 0 { Err(20) } else { Ok(ssl) };
        assert_eq!(read_ssl(&value[..length]), answer, "{length} bytes");
    }
}

#[test]
fn one_or_two_bytes_left_over_are_19() {
    for Example { value, .. } in examples() {
        for byte in [0, 0x21, 0xFF] {
            assert_eq!(read_ssl(&[&value[..], &[byte]].concat()), Err(19));
            assert_eq!(read_ssl(&[&value[..], &[byte, 0]].concat()), Err(19));
        }
    }
    // Three zeros are a sub-TLV.
    let Example { value, ssl, .. } = without_certificate();
    assert_eq!(read_ssl(&[&value[..], &[0; 3]].concat()), Ok(ssl));
}

#[test]
fn a_length_beyond_the_end_is_19() {
    for area in [
        &[0x21, 0, 1][..],
        &[0x21, 1, 0],
        &[0x21, 0xFF, 0xFF],
        &[0x21, 0, 2, 9],
        &[0x21, 0, 0, 0x22, 0, 1],
        &[0x21, 0, 1, 9, 0x26, 0, 3, 9, 9],
    ] {
        for client in [0, 1] {
            assert_eq!(read_ssl(&value(client, area)), Err(19), "{area:02X?}");
        }
    }
    // The second front end's last length byte is at 70.
    let mut longer = with_certificate().value;
    longer[70] += 1;
    assert_eq!(read_ssl(&longer), Err(19));
}

/// Each as 19 while it is ill-formed, with a byte behind it, and then as 20.
#[test]
fn ill_formed_is_19_before_20() {
    for area in [&[][..], &[0x22, 0, 0], &[0x25, 0, 1, 9, 0x20, 0, 0]] {
        assert_eq!(read_ssl(&value(1, area)), Err(20), "{area:02X?}");
        let ill = [area, &[0x21]].concat();
        assert_eq!(read_ssl(&value(1, &ill)), Err(19), "{ill:02X?}");
    }
    for area in ILL_FORMED {
        for client in 0..=0xFF {
            assert_eq!(read_ssl(&value(client, area)), Err(19), "{area:02X?}");
        }
    }
}

/// The other bits say nothing of the version, and all eight are given.
#[test]
fn only_client_bit_0x01_asks_for_a_version() {
    for client in 0..=0xFF {
        for area in [&[][..], &[0x26, 0, 0], &[0, 0, 1, 0x21]] {
            if client % 2 == 1 {
                assert_eq!(read_ssl(&value(client, area)), Err(20), "{client}");
            } else {
                check(client, area, NONE);
            }
        }
        check(client, &[0x21, 0, 0], [Some(8..8), None, None, None, None]);
    }
}

/// 0x21 in verify or in another's value is no type.
#[test]
fn a_version_is_a_sub_tlv() {
    assert_eq!(read_ssl(&[1, 0x21, 0, 0, 0]), Err(20));
    assert_eq!(read_ssl(&[1, 0, 0x21, 0, 0]), Err(20));
    let inside = [0x22, 0, 3, 0x21, 0, 0];
    assert_eq!(read_ssl(&value(1, &inside)), Err(20));
    check(0, &inside, [None, Some(8..11), None, None, None]);
}

#[test]
fn verify_has_its_high_byte_first() {
    for (bytes, verify) in [
        ([0, 0, 0, 0], 0),
        ([0, 0, 0, 1], 1),
        ([0, 0, 1, 0], 256),
        ([0, 1, 0, 0], 65_536),
        ([1, 0, 0, 0], 16_777_216),
        ([0x80, 0, 0, 0], 2_147_483_648),
        ([0xFF, 0xFF, 0xFF, 0xFF], 4_294_967_295),
        ([0x12, 0x34, 0x56, 0x78], 0x1234_5678),
    ] {
        let ssl = Ssl {
            client: 4,
            verify,
            pieces: NONE,
        };
        assert_eq!(read_ssl(&[&[4], &bytes[..]].concat()), Ok(ssl));
    }
}

#[test]
fn each_piece_alone() {
    for index in 0..5 {
        let kind = 0x21 + u8::try_from(index).unwrap();
        let at = |place| {
            let mut pieces = NONE;
            pieces[index] = Some(place);
            pieces
        };
        // Empty is not absent.
        check(0, &[kind, 0, 0], at(8..8));
        check(0, &[kind, 0, 2, 9, 9], at(8..10));
        let long = [&[kind, 1, 2][..], &[9; 258]].concat();
        check(0, &long, at(8..266));
    }
}

/// Of three of a type the first, be it empty or not.
#[test]
fn the_first_of_a_type_counts() {
    for index in 0..5 {
        let kind = 0x21 + u8::try_from(index).unwrap();
        for (area, place) in [
            (&[kind, 0, 1, 7, kind, 0, 1, 8, kind, 0, 0][..], 8..9),
            (&[kind, 0, 0, kind, 0, 2, 8, 8, kind, 0, 1, 9], 8..8),
            (&[kind, 0, 0, kind, 0, 0, kind, 0, 0], 8..8),
            // Behind one of another type, from 5 to 9.
            (&[0x20, 0, 1, kind, kind, 0, 1, 7, kind, 0, 2, 8, 8], 12..13),
        ] {
            let mut pieces = NONE;
            pieces[index] = Some(place);
            if index == 0 {
                check(1, area, pieces.clone());
            }
            check(0, area, pieces);
        }
    }
}

/// The sub-TLVs start at 5, 9, 13, 17 and 21. Repeats stand behind all of them.
#[test]
fn the_order_does_not_matter() {
    let turned = [
        0x25, 0, 1, 5, 0x24, 0, 1, 4, 0x23, 0, 1, 3, 0x22, 0, 1, 2, 0x21, 0, 1, 1,
    ];
    let places = [
        Some(24..25),
        Some(20..21),
        Some(16..17),
        Some(12..13),
        Some(8..9),
    ];
    let mixed = [
        0x23, 0, 1, 3, 0x21, 0, 1, 1, 0x25, 0, 1, 5, 0x22, 0, 1, 2, 0x24, 0, 1, 4,
    ];
    let mixed_places = [
        Some(12..13),
        Some(20..21),
        Some(8..9),
        Some(24..25),
        Some(16..17),
    ];
    for (area, places) in [(turned, places), (mixed, mixed_places)] {
        for client in [0, 1] {
            check(client, &area, places.clone());
            check(client, &[area, area].concat(), places.clone());
        }
    }
}

/// 0x00, 0x20, 0x26 and 0xFF among them.
#[test]
fn other_types_are_passed_over() {
    let others = (0..=0x20).chain(0x26..=0xFF);
    assert_eq!(others.clone().count(), 251);
    for kind in others {
        check(0, &[kind, 0, 1, 7], NONE);
        assert_eq!(read_ssl(&value(1, &[kind, 0, 1, 7])), Err(20));
        // Before, between and behind: the pieces' heads are at 8 and 15.
        let area = [
            kind, 0, 0, 0x21, 0, 1, 1, kind, 0, 0, 0x24, 0, 1, 4, kind, 0, 1, 9,
        ];
        check(1, &area, [Some(11..12), None, None, Some(18..19), None]);
    }
}

/// Only the writer limits lengths.
#[test]
fn values_over_65535_bytes() {
    let mut area = area_of(&[(0x22, vec![9; 65_535]), (0x21, vec![]), (0x25, vec![7])]);
    let pieces = [
        Some(65_546..65_546),
        Some(8..65_543),
        None,
        None,
        Some(65_549..65_550),
    ];
    check(1, &area, pieces);
    area.pop();
    assert_eq!(read_ssl(&value(1, &area)), Err(19));
    // 30,000 empty sub-TLVs before the version.
    let area = [&vec![0; 90_000][..], &[0x21, 0, 1, 9]].concat();
    check(1, &area, [Some(90_008..90_009), None, None, None, None]);
    assert_eq!(read_ssl(&value(1, &area[..90_000])), Err(20));
    assert_eq!(read_ssl(&value(1, &area[..90_001])), Err(19));
}

/// "It plays no part in the header verdict": the TLV's value lies at 31, behind 16
/// bytes, 12 of addresses and 3 of its head.
#[test]
fn the_header_is_judged_without_it() {
    let Example { value: good, .. } = with_certificate();
    for (value, refusal) in [
        (&good[..], None),
        (&good[..77], Some(19)),
        (&good[..5], Some(20)),
        (&[1, 0, 0, 0], Some(19)),
        (&[], Some(19)),
    ] {
        let length = u8::try_from(value.len()).unwrap();
        let area = [&[0x20, 0, length], value].concat();
        let block = [&[0; 12], &area[..]].concat();
        let header = binary(0x21, 0x11, block.len(), &block);
        let end = 31 + value.len();
        assert_eq!(judge(&header), accepted(bare(IP4_STREAM), 2, end, 28..end));
        let found = lookup(&area, 0x20, 1);
        assert_eq!((found.answer, found.start), (Answer::Found, 3));
        let read = read_ssl(&header[31..end]);
        assert_eq!(read.err(), refusal);
    }
    // An ill-formed area is the header's fault, whatever the TLV is.
    let header = binary(0x21, 0x11, 12 + 3, &[&[0; 12][..], &[0x20, 0, 1]].concat());
    assert_eq!(judge(&header), refused(9, 30));
}

/// From left to right, keeping the first of each type.
fn scanned(value: &[u8]) -> Result<Ssl, u8> {
    if value.len() < 5 {
        return Err(19);
    }
    let mut pieces = NONE;
    let mut place = 5;
    while place < value.len() {
        if value.len() - place < 3 {
            return Err(19);
        }
        let start = place + 3;
        let end = start + 256 * usize::from(value[place + 1]) + usize::from(value[place + 2]);
        if end > value.len() {
            return Err(19);
        }
        if let 0x21..=0x25 = value[place] {
            let piece = &mut pieces[usize::from(value[place]) - 0x21];
            *piece = piece.take().or(Some(start..end));
        }
        place = end;
    }
    if value[0] % 2 == 1 && pieces[0].is_none() {
        return Err(20);
    }
    let verify = value[1..5].iter();
    Ok(Ssl {
        client: value[0],
        verify: verify.fold(0, |number, &byte| 256 * number + u32::from(byte)),
        pieces,
    })
}

/// Sub-TLVs of few types with short values, one in three cut or with bytes behind.
#[test]
fn random_values_against_a_scan() {
    let mut random = Random::seeded(0x2021_2223_2425_2627);
    let mut answers = [0; 3];
    for _ in 0..30_000 {
        let mut value = random.bytes(5);
        for _ in 0..random.below(8) {
            let length = random.below(4);
            let kind = random.pick(&[0, 0x20, 0x21, 0x22, 0x23, 0x24, 0x25, 0x26]);
            value.extend([kind, 0, u8::try_from(length).unwrap()]);
            value.extend(random.bytes(length));
        }
        if random.once_in(6) {
            value.truncate(random.below(value.len() + 1));
        } else if random.once_in(6) {
            let behind = random.below(5);
            value.extend(random.bytes(behind));
        }
        let answer = read_ssl(&value);
        assert_eq!(answer, scanned(&value), "{value:02X?}");
        answers[match answer {
            Ok(_) => 0,
            Err(19) => 1,
            Err(_) => 2,
        }] += 1;
    }
    assert!(answers.iter().all(|&count| count > 3000), "{answers:?}");
}
