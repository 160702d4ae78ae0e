//! The checked reading (document 02, K6). The checksums in these headers were
//! published, or divided apart from this program.

use crate::checksums::*;
use crate::helpers::*;
use second::{judge, judge_checked, Checksum, Kind, Record, Verdict};

fn caller() -> Record {
    record(IP4_STREAM, &[10, 1, 2, 3], &[10, 4, 5, 6], 0x1234, 0x5678)
}

/// An IPv4 header with this area.
fn with_area(area: &[u8]) -> Vec<u8> {
    let block = [&ADDRESSES, area].concat();
    binary(0x21, 0x11, block.len(), &block)
}

/// The whole area behind an IPv4 address block.
fn matched_with_area(length: usize) -> Result<Verdict, u8> {
    let area = 28..28 + length;
    Ok(accepted(matched(&caller()), 2, 28 + length, area))
}

/// A header of an AWS load balancer, with its endpoint (0xEA) and padding (0x04):
/// the checksum is not of this program's making.
#[test]
fn a_header_from_the_field() {
    let area = [
        &[0x03, 0x00, 0x04, 0xE8, 0xD6, 0x89, 0x2D][..],
        &[0xEA, 0x00, 0x17, 0x01],
        b"vpce-08d2bf15fac5001c9",
        &[0x04, 0x00, 0x24],
        &[0; 36],
    ]
    .concat();
    let addresses = [172, 31, 7, 113, 172, 31, 10, 31, 0xC8, 0xF2, 0x00, 0x50];
    let header = binary(0x21, 0x11, 84, &[&addresses[..], &area].concat());
    assert_eq!(header.len(), 100);
    let caller = record(IP4_STREAM, &addresses[..4], &addresses[4..8], 51_442, 80);
    let read = accepted(matched(&caller), 2, 100, 28..100);
    assert_eq!(judge_checked(&header), Ok(read));
    assert_eq!(judge(&header), accepted(caller, 2, 100, 28..100));
}

/// A health check by the same balancers: the checksum is right, but it stands in a
/// block that is not looked at.
#[test]
fn a_local_header_from_the_field() {
    let block = [0x03, 0x00, 0x04, 0xA9, 0xB8, 0x7E, 0x8F];
    let header = binary(0x20, 0x00, 7, &block);
    let read = accepted(bare(Kind::Local), 2, 23, 23..23);
    assert_eq!(judge_checked(&header), Ok(read));
}

#[test]
fn the_checksum_may_stand_anywhere_in_the_area() {
    for area in [&ALONE, FIRST, MIDDLE, LAST] {
        let header = with_area(area);
        assert_eq!(judge_checked(&header), matched_with_area(area.len()));
        // The plain reading's state is absent.
        let end = 28 + area.len();
        assert_eq!(judge(&header), accepted(caller(), 2, end, 28..end));
    }
}

/// Address blocks of zeros, and the checksum alone. None is right for two.
#[test]
fn every_address_kind_has_a_checksum() {
    for (index, (family, kind, _, a)) in ADDRESS_KINDS.into_iter().enumerate() {
        for (of, value) in OF_ZEROS.iter().enumerate() {
            let block = [&vec![0; a][..], &[3, 0, 4], value].concat();
            let header = binary(0x21, family, a + 7, &block);
            let read = accepted(matched(&bare(kind)), 2, 23 + a, 16 + a..23 + a);
            let answer = if of == index { Ok(read) } else { Err(23) };
            assert_eq!(judge_checked(&header), answer);
        }
    }
}

#[test]
fn every_bit_of_the_value_counts() {
    for bit in 0..32 {
        let mut area = ALONE;
        area[3 + bit / 8] ^= 1 << (bit % 8);
        assert_eq!(judge_checked(&with_area(&area)), Err(23), "bit {bit}");
    }
}

/// D3 FC BF ED is right.
#[test]
fn values_made_in_other_ways_are_wrong() {
    for value in [
        [0xED, 0xBF, 0xFC, 0xD3], // the lowest byte first
        [0x2C, 0x03, 0x40, 0x12], // not turned over at the end
        [0xB7, 0xFD, 0x3F, 0xCB], // mirrored
        [0x00, 0x00, 0x00, 0x00],
        [0xFF, 0xFF, 0xFF, 0xFF],
    ] {
        let area = [&[3, 0, 4], &value[..]].concat();
        assert_eq!(judge_checked(&with_area(&area)), Err(23), "{value:?}");
    }
}

/// The division of this header, as it stands, gives 01 02 03 04: its value. With
/// zeros there it gives 60 55 C4 37.
#[test]
fn the_value_itself_is_taken_as_zero() {
    let addresses = [0x5B, 0x45, 0x08, 0x6D, 10, 4, 5, 6, 0x12, 0x34, 0x56, 0x78];
    let with_value = |value: &[u8]| {
        let block = [&addresses[..], &[3, 0, 4], value].concat();
        binary(0x21, 0x11, 19, &block)
    };
    let as_it_stands = with_value(&[0x01, 0x02, 0x03, 0x04]);
    assert_eq!(second::crc32c(&as_it_stands), 0x0102_0304);
    assert_eq!(judge_checked(&as_it_stands), Err(23));
    let caller = record(IP4_STREAM, &addresses[..4], &[10, 4, 5, 6], 0x1234, 0x5678);
    let read = accepted(matched(&caller), 2, 35, 28..35);
    let right = with_value(&[0x60, 0x55, 0xC4, 0x37]);
    assert_eq!(judge_checked(&right), Ok(read));
}

/// Every bit of MIDDLE's header, turned over alone. Where the plain reading still
/// accepts an address kind and the TLV is still one of type 0x03, it is 23.
#[test]
fn every_bit_of_the_header_counts() {
    let right = with_area(MIDDLE);
    assert_eq!(right.len(), 43);
    for bit in 0..8 * right.len() {
        let (place, mask) = (bit / 8, 1 << (bit % 8));
        let mut header = right.clone();
        header[place] ^= mask;
        let answer = judge_checked(&header);
        let plain = judge(&header);
        let expected = match (place, mask) {
            (0..=11, _) => Ok(refused(1, place)),
            (12, 1) => Ok(accepted(bare(Kind::Local), 2, 43, 43..43)),
            (12, _) => Ok(refused(6, 12)),
            // 10 and 01, which are unspecified.
            (13, 0x01 | 0x10) => Ok(accepted(bare(Kind::Unspecified), 2, 43, 43..43)),
            // 31, with a block of 216 bytes.
            (13, 0x20) => Ok(refused(8, 15)),
            (13, _) => Ok(refused(7, 13)),
            (16..=27, _) => Err(23),
            // Types and values of the others, and the value itself.
            (28 | 31 | 32 | 36..=40, _) => Err(23),
            // The type of the checksum: there is none any more.
            (33, _) => Ok(accepted(caller(), 2, 43, 28..43)),
            // The lengths of the block and of the TLVs: no whole header.
            _ => {
                assert!(!matches!(plain, Verdict::Accepted(_)));
                Ok(plain)
            }
        };
        assert_eq!(answer, expected, "{mask:#x} at {place}");
    }
}

/// Also where each has the value that would be right if it were alone, or if all
/// are taken as zero (53 84 D0 E2).
#[test]
fn several_checksums_are_wrong() {
    let right = ALONE;
    let of_two = [3, 0, 4, 0x53, 0x84, 0xD0, 0xE2];
    for area in [
        [right, right].concat(),
        [of_two, of_two].concat(),
        [&right[..], &[3, 0, 0]].concat(),
        [&[3, 0, 0][..], &right].concat(),
        [&of_two[..], &[4, 0, 0], &of_two].concat(),
        [3, 0, 0, 3, 0, 0].to_vec(),
        [right, right, right].concat(),
    ] {
        let header = with_area(&area);
        assert_eq!(judge_checked(&header), Err(23), "{area:?}");
        let end = header.len();
        assert_eq!(judge(&header), accepted(caller(), 2, end, 28..end));
    }
}

/// One of the two has the value that is right if no other counts.
#[test]
fn a_right_checksum_beside_another_is_wrong() {
    for (right, place) in [(0, 3), (1, 10)] {
        let mut values = [[1, 2, 3, 4]; 2];
        values[right] = [0; 4];
        let mut area = area_of(&values.map(|value| (3, value.to_vec())));
        let value = second::crc32c(&with_area(&area)).to_be_bytes();
        area[place..place + 4].copy_from_slice(&value);
        assert_eq!(judge_checked(&with_area(&area)), Err(23));
    }
}

/// The values hold what the division gives over zeros in their place, as far as
/// there is room for it.
#[test]
fn values_that_have_not_4_bytes_are_wrong() {
    for value in [
        &[][..],
        &[0x35],
        &[0xCD, 0xB6],
        &[0xD9, 0xD8, 0xAB],
        &[0xC2, 0xB1, 0x51, 0xBD, 0x00],
        &[0x00, 0xC2, 0xB1, 0x51, 0xBD],
        &[0xBB, 0x92, 0x47, 0xF6, 0x00, 0x00],
        &[0; 260],
    ] {
        let area = area_of(&[(3, value.to_vec())]);
        assert_eq!(judge_checked(&with_area(&area)), Err(23), "{value:?}");
    }
}

/// Document 02, K1: such a block "is not looked at". The values here are right, or
/// not.
#[test]
fn other_kinds_have_no_checksum() {
    let values = [
        [0x5C, 0xEA, 0x17, 0x2C],
        [0x00, 0xFF, 0xF9, 0x98],
        [0xE4, 0xC1, 0xCA, 0x44],
        [0x8F, 0xE9, 0x51, 0x59],
        [0xFF, 0x00, 0xED, 0x37],
        [0x2C, 0x03, 0xAB, 0x42],
    ];
    for family in UNSPECIFIED {
        for value in values {
            let block = [&ADDRESSES[..], &[3, 0, 4], &value].concat();
            let header = binary(0x21, family, 19, &block);
            let read = accepted(bare(Kind::Unspecified), 2, 35, 35..35);
            assert_eq!(judge_checked(&header), Ok(read));
        }
    }
    for family in [0x00, 0x11, 0x21, 0x31, 0xFF] {
        for value in [[0xA6, 0x2F, 0x4F, 0xD5], [0; 4]] {
            let block = [&ADDRESSES[..], &[3, 0, 4], &value].concat();
            let header = binary(0x20, family, 19, &block);
            let read = accepted(bare(Kind::Local), 2, 35, 35..35);
            assert_eq!(judge_checked(&header), Ok(read));
        }
    }
}

#[test]
fn a_header_without_the_tlv_is_read_as_it_is_plain() {
    for input in [
        b"PROXY TCP4 1.2.3.4 5.6.7.8 9 10\r\n".to_vec(),
        b"PROXY TCP6 ::3 ::3 3 3\r\n".to_vec(),
        b"PROXY UNKNOWN \x03\0\x04\0\0\0\0\r\n".to_vec(),
        binary(0x20, 0x00, 0, &[]),
        binary(0x21, 0x00, 0, &[]),
        binary(0x21, 0x31, 216, &[3; 216]),
        with_area(&[]),
        with_area(&[4, 0, 4, 3, 0, 1, 0]),
        with_area(&[0x13, 0, 0, 0x30, 0, 3, 3, 0, 0]),
    ] {
        let Ok(Verdict::Accepted(header)) = judge_checked(&input) else {
            panic!("{input:?} is not accepted");
        };
        assert_eq!(header.record.checksum, Checksum::Absent);
        assert_eq!(judge(&input), Verdict::Accepted(header));
    }
}

/// Nothing is said of a checksum before the header is whole, be it right or wrong.
#[test]
fn before_the_end_it_is_more_or_refused() {
    let wrong = b"\x03\0\x04\0\0\0\0\x03\0\0\x05\0\x02id";
    for area in [FIRST, MIDDLE, LAST, wrong] {
        let header = with_area(area);
        for length in 16..header.len() {
            let missing = header.len() - length;
            assert_eq!(judge_checked(&header[..length]), Ok(more(missing)));
        }
    }
    // The last TLV's low length byte, at 40 + 2, is dead behind a wrong checksum.
    let mut header = with_area(&[&[3, 0, 4, 0, 0, 0, 0][..], &[5, 0, 2, 1, 2, 4, 0, 0]].concat());
    header[42] = 1;
    assert_eq!(judge_checked(&header), Ok(refused(9, 42)));
    assert_eq!(judge_checked(b"PROXY TCP4 256"), Ok(refused(3, 13)));
    assert_eq!(judge_checked(b""), Ok(more(15)));
}

#[test]
fn bytes_that_follow_change_nothing() {
    let right = with_area(LAST);
    let wrong = with_area(&[3, 0, 4, 0, 0, 0, 0]);
    for behind in [&b"\0"[..], b"GET /\r\n", &right, &wrong, &ALONE] {
        let input = [&right[..], behind].concat();
        assert_eq!(judge_checked(&input), matched_with_area(LAST.len()));
        assert_eq!(judge_checked(&[&wrong[..], behind].concat()), Err(23));
    }
}

#[test]
fn the_longest_headers() {
    for ((_, kind, _, a), (mut header, _)) in ADDRESS_KINDS.into_iter().zip(longest()) {
        let read = accepted(matched(&bare(kind)), 2, 65_551, 16 + a..65_551);
        assert_eq!(judge_checked(&header), Ok(read));
        header[40_000] ^= 0x10;
        assert_eq!(judge_checked(&header), Err(23));
    }
}
