//! Consequences of document 01, The binary block, for the TLVs. R is the number
//! of bytes left after the three head bytes of a TLV.

use crate::helpers::*;
use second::{judge, Kind, Transport, Verdict};

/// An IPv4 header whose first TLV has R bytes behind its head. Bytes 0 to 27
/// are there, and then `seen`: the TLV's type is byte 28, its length 29 and 30.
fn with_tlv(r: usize, seen: &[u8]) -> Vec<u8> {
    binary(0x21, 0x11, 12 + 3 + r, &[&[0; 12], seen].concat())
}

/// An IPv4 header of zeros with this whole TLV area.
fn with_area(area: &[u8]) -> Vec<u8> {
    binary(0x21, 0x11, 12 + area.len(), &[&[0; 12], area].concat())
}

fn accepted_with_area(length: usize) -> Verdict {
    let record = record(Kind::Ip4(Transport::Stream), &[0; 4], &[0; 4], 0, 0);
    accepted(record, 2, 28 + length, 28..28 + length)
}

const RS: [usize; 20] = [
    0, 1, 2, 3, 4, 5, 254, 255, 256, 257, 258, 259, 260, 511, 512, 514, 515, 1000, 65_519, 65_520,
];

#[test]
fn the_high_length_byte_is_dead_if_256_times_it_exceeds_r() {
    for r in RS {
        for high in 0..=0xFF {
            let answer = if 256 * usize::from(high) > r {
                refused(9, 29)
            } else {
                more(1 + r)
            };
            assert_eq!(judge(&with_tlv(r, &[1, high])), answer, "{high} of {r}");
        }
    }
}

#[test]
fn a_length_is_good_if_it_is_r_or_at_most_r_minus_3() {
    for r in RS {
        for length in 0..=65_535_u16 {
            let [high, low] = length.to_be_bytes();
            let value = usize::from(length);
            let input = with_tlv(r, &[1, high, low]);
            let verdict = judge(&input);
            if 256 * usize::from(high) > r {
                assert_eq!(verdict, refused(9, 29), "{value} of {r}");
            } else if value == r || value + 3 <= r {
                assert_ne!(verdict, refused(9, 30), "{value} of {r}");
                assert_eq!(verdict == more(r), r > 0, "{value} of {r}");
            } else {
                assert_eq!(verdict, refused(9, 30), "{value} of {r}");
            }
        }
    }
}

/// The smallest areas, all lengths written out.
#[test]
fn small_areas() {
    // R = 1: only the value of one byte.
    assert_eq!(judge(&with_area(&[1, 0, 1, 9])), accepted_with_area(4));
    assert_eq!(judge(&with_tlv(1, &[1, 0, 0])), refused(9, 30));
    assert_eq!(judge(&with_tlv(1, &[1, 0, 2])), refused(9, 30));
    // R = 2: two bytes are no TLV.
    assert_eq!(judge(&with_area(&[1, 0, 2, 9, 9])), accepted_with_area(5));
    assert_eq!(judge(&with_tlv(2, &[1, 0, 0])), refused(9, 30));
    assert_eq!(judge(&with_tlv(2, &[1, 0, 1])), refused(9, 30));
    // R = 3: three bytes of value, or an empty TLV behind this one.
    assert_eq!(
        judge(&with_area(&[1, 0, 3, 9, 9, 9])),
        accepted_with_area(6)
    );
    assert_eq!(
        judge(&with_area(&[1, 0, 0, 9, 0, 0])),
        accepted_with_area(6)
    );
    assert_eq!(judge(&with_area(&[1, 0, 0, 9, 0, 1])), refused(9, 33));
    assert_eq!(judge(&with_area(&[1, 0, 0, 9, 1, 0])), refused(9, 32));
    assert_eq!(judge(&with_tlv(3, &[1, 0, 1])), refused(9, 30));
    assert_eq!(judge(&with_tlv(3, &[1, 0, 2])), refused(9, 30));
    assert_eq!(judge(&with_tlv(3, &[1, 0, 4])), refused(9, 30));
}

#[test]
fn a_later_tlv_is_judged_by_what_is_left_behind_it() {
    // 3 + 2, then 3 + 1, then 3 + 0 bytes: 12 in all.
    let area = [1, 0, 2, 7, 7, 2, 0, 1, 8, 3, 0, 0];
    let whole = with_area(&area);
    assert_eq!(judge(&whole), accepted_with_area(12));
    for length in 16..40 {
        assert_eq!(judge(&whole[..length]), more(40 - length));
    }
    // The second starts at 33 with R = 4; the third at 37 with R = 0.
    for (place, byte, answer) in [
        (34, 1, refused(9, 34)),
        (35, 2, refused(9, 35)),
        (35, 3, refused(9, 35)),
        (35, 4, accepted_with_area(12)),
        (35, 5, refused(9, 35)),
        (38, 1, refused(9, 38)),
        (39, 1, refused(9, 39)),
    ] {
        let mut input = whole.clone();
        input[place] = byte;
        assert_eq!(judge(&input), answer, "{byte} at {place}");
    }
}

#[test]
fn type_and_value_bytes_may_be_any() {
    for byte in 0..=0xFF {
        let area = [byte, 0, 3, byte, byte, byte];
        assert_eq!(judge(&with_area(&area)), accepted_with_area(6));
    }
}

#[test]
fn a_tlv_type_may_repeat() {
    let area = [5, 0, 1, 1, 5, 0, 1, 1, 5, 0, 0];
    assert_eq!(judge(&with_area(&area)), accepted_with_area(11));
}

#[test]
fn values_longer_than_255_bytes() {
    let long = [&[1, 1, 2][..], &[9; 258]].concat();
    assert_eq!(judge(&with_area(&long)), accepted_with_area(261));
    let two = [&long[..], &[4, 0, 0]].concat();
    assert_eq!(judge(&with_area(&two)), accepted_with_area(264));
}

/// For each kind: the end of the longest header is 16 + 65535 = 65551, and the
/// first TLV of it has R = 65535 - A - 3.
#[test]
fn longest_headers_with_one_tlv() {
    for (family, kind, _, a, high, low) in longest() {
        let r = 65_535 - a - 3;
        assert_eq!(256 * usize::from(high) + usize::from(low), r);
        let block = [vec![0; a], vec![1, high, low], vec![9; r]].concat();
        let input = binary(0x21, family, 65_535, &block);
        assert_eq!(judge(&input), accepted_longest(kind, a));
        assert_eq!(judge(&input[..65_550]), more(1));
        let beginning = |length: u8| [&input[..16 + a + 2], &[length]].concat();
        let low_place = 16 + a + 2;
        assert_eq!(judge(&beginning(low + 1)), refused(9, low_place));
        assert_eq!(judge(&beginning(low - 1)), refused(9, low_place));
        assert_eq!(judge(&beginning(low - 2)), refused(9, low_place));
        assert_eq!(judge(&beginning(low - 3)), more(r));
    }
}

/// 65535 - A is a multiple of 3 for every kind: 21841, 21833 and 21773 empty
/// TLVs. The last but one starts at 65545, the last at 65548.
#[test]
fn longest_headers_with_only_empty_tlvs() {
    for (family, kind, _, a, ..) in longest() {
        let input = binary(0x21, family, 65_535, &vec![0; 65_535]);
        assert_eq!(judge(&input), accepted_longest(kind, a));
        for (place, byte, answer) in [
            (65_549, 1, refused(9, 65_549)),
            (65_550, 1, refused(9, 65_550)),
            (65_546, 1, refused(9, 65_546)),
            (65_547, 1, refused(9, 65_547)),
            (65_547, 2, refused(9, 65_547)),
            (65_547, 3, accepted_longest(kind, a)),
            (65_547, 4, refused(9, 65_547)),
        ] {
            let mut input = input.clone();
            input[place] = byte;
            assert_eq!(judge(&input), answer, "{byte} at {place}");
        }
    }
}

/// Each address kind with the length bytes of R = 65535 - A - 3, which is
/// 65520, 65496 and 65316.
fn longest() -> Vec<(u8, Kind, &'static str, usize, u8, u8)> {
    let with_length = |(family, kind, word, a)| {
        let (high, low) = match a {
            12 => (0xFF, 0xF0),
            36 => (0xFF, 0xD8),
            _ => (0xFF, 0x24),
        };
        (family, kind, word, a, high, low)
    };
    ADDRESS_KINDS.into_iter().map(with_length).collect()
}

fn accepted_longest(kind: Kind, a: usize) -> Verdict {
    accepted(bare(kind), 2, 65_551, 16 + a..65_551)
}
