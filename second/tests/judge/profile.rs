//! The profile of diagnostics (document 02, K14): which headers are admitted, and
//! at which step the others fail.

use crate::admissions::*;
use crate::helpers::*;
use second::{admit, judge, Admission, Verdict};

/// The source of the headers in these tests, and a table that gives it level 2.
const SOURCE: [u8; 4] = [10, 1, 2, 3];

fn table() -> Vec<u8> {
    [ip4([10, 0, 0, 0], 8, 2), ip4([0; 4], 0, 1)].concat()
}

/// A unique ID of so many bytes.
fn id(length: usize) -> Vec<u8> {
    area_of(&[(5, vec![7; length])])
}

/// A header of IPv4 stream with this area.
fn header(area: &[u8]) -> Vec<u8> {
    ip4_header(SOURCE, area)
}

fn answer(bytes: &[u8]) -> Admission {
    admit(&table(), bytes)
}

#[test]
fn an_admitted_header_by_its_bytes() {
    let header = [
        0x0D, 0x0A, 0x0D, 0x0A, 0x00, 0x0D, 0x0A, 0x51, 0x55, 0x49, 0x54, 0x0A, // signature
        0x21, 0x11, 0x00, 0x13, // PROXY, IPv4 stream, 19 bytes
        0x0A, 0x01, 0x02, 0x03, 0xC0, 0x00, 0x02, 0x01, 0x12, 0x34, 0x01, 0xBB, // addresses
        0x05, 0x00, 0x04, 0x61, 0x62, 0x63, 0x64, // the unique ID
    ];
    assert_eq!(answer(&header), admitted(2, 35, 31..35));
    assert_eq!(admit(&[], &header), admitted(0, 35, 31..35));
}

/// The destination of `ip4_header` is 10.4.5.6, that of `ip6_header` 2001:db8::9.
#[test]
fn the_source_has_the_level_and_not_the_destination() {
    let table = [
        ip4([10, 4, 5, 6], 32, 3),
        ip6([0x2001, 0xDB8, 0, 0, 0, 0, 0, 9], 128, 3),
    ];
    assert_eq!(ip4_answer(&table, [10, 1, 2, 3]), ip4_level(0));
    assert_eq!(ip4_answer(&table, [10, 4, 5, 6]), ip4_level(3));
    let source = [0x2001, 0xDB8, 0, 0, 0, 0, 0, 8];
    assert_eq!(ip6_answer(&table, source), ip6_level(0));
    let source = [0x2001, 0xDB8, 0, 0, 0, 0, 0, 9];
    assert_eq!(ip6_answer(&table, source), ip6_level(3));
}

/// "plain verdict accepted, else that answer"
#[test]
fn more_and_refused_are_passed_on() {
    for (bytes, number, place) in [
        (&b"GET"[..], 1, 0),
        (b"PROXY TCP5", 2, 9),
        (b"PROXY TCP4 256", 3, 13),
        (b"PROXY TCP4 1.1.1.1 1.1.1.1 65536", 4, 31),
        (b"PROXY UNKNOWN\rx", 5, 14),
        (&behind_signature(&[0x30]), 6, 12),
        (&behind_signature(&[0x21, 0x13]), 7, 13),
        (&behind_signature(&[0x21, 0x11, 0, 0x0D]), 8, 15),
        (&header(&[5, 0, 1]), 9, 30),
    ] {
        assert_eq!(answer(bytes), Admission::Refused { number, place });
        let behind = [bytes, &header(&ID)].concat();
        assert_eq!(answer(&behind), Admission::Refused { number, place });
    }
    for (bytes, least) in [
        (&b""[..], 15),
        (b"PROXY T", 15),
        (b"PROXY TCP4 ", 21),
        (&behind_signature(&[0x21, 0x11]), 14),
    ] {
        assert_eq!(answer(bytes), Admission::More(least));
    }
}

/// Every beginning of a header that is admitted, and of one that is not.
#[test]
fn nothing_is_said_of_the_profile_before_the_header_is_whole() {
    let local = binary(0x20, 0x00, 521, &[0; 521]);
    let unix = binary(0x21, 0x31, 216, &[1; 216]);
    for header in [header(&ID), header(&id(129)), header(&[]), local, unix] {
        for length in 16..header.len() {
            let missing = header.len() - length;
            assert_eq!(answer(&header[..length]), Admission::More(missing));
        }
        for length in 0..16 {
            let Verdict::More(least) = judge(&header[..length]) else {
                panic!("{length} bytes of a whole header are more");
            };
            assert_eq!(answer(&header[..length]), Admission::More(least));
        }
    }
    let line = b"PROXY TCP4 1.2.3.4 5.6.7.8 9 10\r\n";
    assert_eq!(answer(&line[..line.len() - 1]), Admission::More(1));
}

#[test]
fn version_1_is_30() {
    for line in [
        &b"PROXY TCP4 10.1.2.3 10.4.5.6 1 2\r\n"[..],
        b"PROXY TCP6 :: :: 0 0\r\n",
        b"PROXY UNKNOWN\r\n",
        b"PROXY UNKNOWN \x05\0\x02id\r\n",
    ] {
        assert_eq!(answer(line), not_admitted(30));
    }
}

/// Each with a unique ID as the profile asks for, and in a header that is not too
/// long. A block without addresses is not looked at.
#[test]
fn other_kinds_are_31() {
    for (family, _, _, a) in ADDRESS_KINDS {
        let block = [&vec![1; a][..], &ID].concat();
        let header = binary(0x21, family, block.len(), &block);
        let expected = match family {
            0x11 => admitted(1, 33, 31..33),
            0x21 => admitted(0, 57, 55..57),
            _ => not_admitted(31),
        };
        assert_eq!(answer(&header), expected, "{family:02X}");
    }
    for family in UNSPECIFIED {
        for block in [&[][..], &ID, &[1; 12]] {
            let header = binary(0x21, family, block.len(), block);
            assert_eq!(answer(&header), not_admitted(31), "{family:02X}");
        }
    }
}

/// The unique ID has 10 bytes, and a TLV of zeros fills the header up:
/// 16 + 12 + 3 + 10 + 3 = 44 for IPv4, 16 + 36 + 3 + 10 + 3 = 68 for IPv6.
#[test]
fn more_than_536_bytes_are_32() {
    for (length, expected) in [
        (535, admitted(2, 535, 31..41)),
        (536, admitted(2, 536, 31..41)),
        (537, not_admitted(32)),
        (538, not_admitted(32)),
        (1000, not_admitted(32)),
        (65_551, not_admitted(32)),
    ] {
        let filler = area_of(&[(4, vec![0; length - 44])]);
        let header = header(&[id(10), filler].concat());
        assert_eq!(header.len(), length);
        assert_eq!(answer(&header), expected);
    }
    for (length, expected) in [(536, admitted(0, 536, 526..536)), (537, not_admitted(32))] {
        let filler = area_of(&[(4, vec![0; length - 68])]);
        let header = ip6_header([1, 2, 3, 4, 5, 6, 7, 8], &[filler, id(10)].concat());
        assert_eq!(header.len(), length);
        assert_eq!(answer(&header), expected);
    }
}

/// "exactly one TLV 0x05, of 1 to 128 bytes"
#[test]
fn the_unique_id_has_1_to_128_bytes() {
    for length in 0..=300 {
        let expected = match length {
            1..=128 => admitted(2, 31 + length, 31..31 + length),
            _ => not_admitted(33),
        };
        assert_eq!(answer(&header(&id(length))), expected, "{length}");
        let header = ip6_header([1, 2, 3, 4, 5, 6, 7, 8], &id(length));
        let expected = match length {
            1..=128 => admitted(0, 55 + length, 55..55 + length),
            _ => not_admitted(33),
        };
        assert_eq!(answer(&header), expected, "{length}");
    }
}

/// None at all, several, and such as only look like one.
#[test]
fn there_is_one_unique_id() {
    for area in [
        vec![],
        vec![4, 0, 0],
        // In the value of another TLV.
        vec![4, 0, 5, 5, 0, 2, b'i', b'd'],
        // Types that are near 0x05.
        vec![4, 0, 1, 9],
        vec![6, 0, 1, 9],
        vec![0x25, 0, 1, 9],
        vec![0x85, 0, 1, 9],
        [id(1), id(1)].concat(),
        [id(128), id(128)].concat(),
        [id(1), id(0)].concat(),
        [id(0), id(1)].concat(),
        [id(0), id(0)].concat(),
        [id(1), id(129)].concat(),
        [id(129), id(1)].concat(),
        [id(1), vec![4, 0, 0], id(1)].concat(),
        [id(1), id(1), id(1)].concat(),
    ] {
        assert_eq!(answer(&header(&area)), not_admitted(33), "{area:?}");
    }
}

/// The places count from the first byte of the input; the area starts at 28.
#[test]
fn the_unique_id_may_stand_anywhere_in_the_area() {
    for (area, expected) in [
        ([&ID[..], &[4, 0, 0]].concat(), admitted(2, 36, 31..33)),
        ([&[4, 0, 0], &ID[..]].concat(), admitted(2, 36, 34..36)),
        (
            [&[4, 0, 1, 9], &ID[..], &[4, 0, 0]].concat(),
            admitted(2, 40, 35..37),
        ),
        // What is in the value of another TLV is none.
        (
            [&[4, 0, 3, 5, 0, 0], &ID[..]].concat(),
            admitted(2, 39, 37..39),
        ),
        // A TLV in its own value is none either.
        (vec![5, 0, 3, 5, 0, 0], admitted(2, 34, 31..34)),
    ] {
        assert_eq!(answer(&header(&area)), expected, "{area:?}");
    }
}

/// The plain verdict counts: the checksum here is wrong.
#[test]
fn a_wrong_checksum_plays_no_part() {
    let area = [&[3, 0, 4, 0, 0, 0, 0], &ID[..]].concat();
    assert_eq!(answer(&header(&area)), admitted(2, 40, 38..40));
}

/// Level 0 under every table, any byte 13, and no look at the block: neither at
/// addresses nor at what is no TLV, one of no bytes, or two.
#[test]
fn local_is_admitted_with_level_0() {
    let two = [&[10, 1, 2, 3, 10, 4, 5, 6, 0, 1, 0, 2][..], &ID, &ID].concat();
    for family in [0x00, 0x11, 0x12, 0x21, 0x31, 0xFF] {
        for block in [&[][..], &[5, 0, 0], &[5, 0, 9], &ID, &two, &[0; 520]] {
            let header = binary(0x20, family, block.len(), block);
            let expected = admitted(0, 16 + block.len(), 0..0);
            assert_eq!(answer(&header), expected, "{header:02X?}");
            let all = [ip4([0; 4], 0, 3), ip6([0; 8], 0, 3)].concat();
            assert_eq!(admit(&all, &header), expected, "{header:02X?}");
        }
        let header = binary(0x20, family, 521, &[0; 521]);
        assert_eq!(answer(&header), not_admitted(32));
    }
}

/// Each header fails at its step and at all later ones that it can fail at; the
/// first decides.
#[test]
fn the_first_step_that_fails_decides() {
    let long = vec![9; 700];
    let block = |a: usize| [&vec![1; a][..], &area_of(&[(4, long.clone())])].concat();
    // A datagram, a UNIX stream and an unspecified header, too long and without an ID.
    for (family, a) in [(0x12, 12), (0x22, 36), (0x31, 216), (0x32, 216), (0x00, 0)] {
        let block = block(a);
        let header = binary(0x21, family, block.len(), &block);
        assert_eq!(answer(&header), not_admitted(31), "{family:02X}");
    }
    // A stream, too long, with no ID, an empty one, a long one and two.
    for ids in [vec![], id(0), id(129), [id(1), id(1)].concat()] {
        let area = [ids.clone(), area_of(&[(4, long.clone())])].concat();
        assert_eq!(answer(&header(&area)), not_admitted(32), "{ids:?}");
    }
    // One ID that is too long for both.
    assert_eq!(answer(&header(&id(600))), not_admitted(32));
    assert_eq!(answer(&header(&id(505))), not_admitted(33));
    // Version 1 has none of the rest: unspecified, and a line with no TLVs.
    assert_eq!(answer(b"PROXY UNKNOWN\r\n"), not_admitted(30));
}

/// "answers 34 before anything else"
#[test]
fn a_bad_table_comes_before_everything() {
    let bad = [ip4([10, 0, 0, 0], 8, 1), ip4([10, 0, 0, 0], 8, 2)].concat();
    for bytes in [
        &b""[..],
        b"PROXY",
        b"GET",
        b"PROXY UNKNOWN\r\n",
        &header(&ID),
        &header(&id(129)),
        &header(&id(600)),
        &binary(0x21, 0x12, 12, &[0; 12]),
        &binary(0x20, 0x00, 0, &[]),
    ] {
        assert_eq!(admit(&bad, bytes), not_admitted(34));
        assert_eq!(admit(&[4], bytes), not_admitted(34));
        assert_ne!(admit(&table(), bytes), not_admitted(34));
        assert_ne!(admit(&[], bytes), not_admitted(34));
    }
}

#[test]
fn bytes_that_follow_change_nothing() {
    for header in [
        header(&ID),
        header(&id(129)),
        header(&id(600)),
        header(&[]),
        binary(0x20, 0x00, 0, &[]),
        binary(0x21, 0x00, 0, &[]),
        b"PROXY UNKNOWN\r\n".to_vec(),
    ] {
        for behind in [&b"\0"[..], b"GET /\r\n", &ID, &header, &[0; 600]] {
            let input = [&header[..], behind].concat();
            assert_eq!(answer(&input), answer(&header), "{header:02X?}");
        }
    }
}
