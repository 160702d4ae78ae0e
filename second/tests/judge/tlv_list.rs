//! TLV lists and the walker's steps (document 01, Looking into TLVs).

use crate::helpers::*;
use second::{judge, next, step, tlv_list, Step, Verdict};
use std::ops::Range;

const REFUSED: Step = Step::Refused { number: 12 };

fn shown(kind: u8, value: Range<usize>, next: usize) -> Step {
    Step::Shown { kind, value, next }
}

/// Four TLVs of 5, 4, 3 and 6 bytes, at 0, 5, 9 and 12.
const AREA: [u8; 18] = [1, 0, 2, 7, 7, 5, 0, 1, 8, 5, 0, 0, 4, 0, 3, 9, 9, 9];

#[test]
fn a_list_has_the_tlvs_in_order() {
    assert_eq!(tlv_list(&[]), Some(vec![]));
    assert_eq!(tlv_list(&[4, 0, 0]), Some(vec![(4, 3..3)]));
    let list = vec![(1, 3..5), (5, 8..9), (5, 12..12), (4, 15..18)];
    assert_eq!(tlv_list(&AREA), Some(list));
}

#[test]
fn an_ill_formed_area_has_no_list() {
    for area in [
        &[4][..],
        &[4, 0],
        &[4, 0, 1],
        &[4, 0, 0, 4],
        &[4, 0, 0, 4, 0],
        &[4, 0, 1, 9, 9],
        &[4, 1, 0, 9],
        &[4, 0xFF, 0xFF],
        &AREA[..17],
        &AREA[1..],
    ] {
        assert_eq!(tlv_list(area), None, "{area:?}");
    }
}

#[test]
fn long_values_and_long_areas() {
    let longest = area_of(&[(7, vec![0; 65_535])]);
    assert_eq!(tlv_list(&longest), Some(vec![(7, 3..65_538)]));
    assert_eq!(step(&longest, 0), shown(7, 3..65_538, 65_538));
    // Zeros are empty TLVs, also behind the longest value.
    let two = vec![(7, 3..65_538), (0, 65_541..65_541)];
    assert_eq!(tlv_list(&[longest, vec![0; 3]].concat()), Some(two));
    let empty = tlv_list(&vec![0; 75_000]).unwrap();
    assert_eq!(empty.len(), 25_000);
    assert_eq!(empty[24_999], (0, 75_000..75_000));
    assert_eq!(tlv_list(&vec![0; 75_001]), None);
    assert_eq!(tlv_list(&vec![0; 75_002]), None);
}

#[test]
fn steps_show_the_list_and_then_the_end() {
    assert_eq!(step(&AREA, 0), shown(1, 3..5, 5));
    assert_eq!(step(&AREA, 5), shown(5, 8..9, 9));
    assert_eq!(step(&AREA, 9), shown(5, 12..12, 12));
    assert_eq!(step(&AREA, 12), shown(4, 15..18, 18));
    assert_eq!(step(&AREA, 18), Step::End);
    assert_eq!(step(&[], 0), Step::End);
}

#[test]
fn a_place_beyond_the_area_is_refused() {
    for place in [19, 20, 21, 1000, usize::MAX - 2, usize::MAX] {
        assert_eq!(step(&AREA, place), REFUSED);
    }
    assert_eq!(step(&[], 1), REFUSED);
    assert_eq!(step(&[], usize::MAX), REFUSED);
}

/// From the places inside its TLVs nothing of `AREA` is filled; that from 10 is
/// 4 bytes of value and then one byte.
#[test]
fn a_step_is_refused_if_the_rest_is_ill_formed() {
    for place in [1, 2, 3, 4, 6, 7, 8, 10, 11, 13, 14, 15, 16, 17] {
        assert_eq!(step(&AREA, place), REFUSED, "{place}");
    }
    // The first TLV is whole, the byte behind it is none.
    assert_eq!(step(&[4, 0, 0, 1], 0), REFUSED);
    assert_eq!(step(&[4, 0, 0, 1], 3), REFUSED);
    assert_eq!(step(&[4, 0, 0, 1], 4), Step::End);
    // The second is cut.
    assert_eq!(step(&[4, 0, 1, 9, 5, 0, 1], 0), REFUSED);
    assert_eq!(step(&[4, 0, 1, 9, 5, 0, 1], 4), REFUSED);
}

/// Only what remains counts, not how the area begins.
#[test]
fn a_step_may_start_inside_a_tlv_or_an_ill_formed_area() {
    assert_eq!(step(&[1, 0, 3, 4, 0, 0], 0), shown(1, 3..6, 6));
    assert_eq!(step(&[1, 0, 3, 4, 0, 0], 3), shown(4, 6..6, 6));
    let ill_formed = [9, 9, 4, 0, 1, 8];
    assert_eq!(step(&ill_formed, 0), REFUSED);
    assert_eq!(step(&ill_formed, 1), REFUSED);
    assert_eq!(step(&ill_formed, 2), shown(4, 5..6, 6));
}

/// `next` looks at one TLV: what lies behind it does not matter, and where the rest is well-formed it is the step.
#[test]
fn next_looks_at_one_tlv() {
    for place in [0, 5, 9, 12, 18, 19, usize::MAX] {
        assert_eq!(next(&AREA, place), step(&AREA, place), "{place}");
    }
    assert_eq!(next(&[4, 0, 0, 1], 0), shown(4, 3..3, 3));
    assert_eq!(next(&[4, 0, 0, 1], 3), REFUSED);
    assert_eq!(next(&[4, 0, 1, 9, 5, 0, 1], 0), shown(4, 3..4, 4));
    assert_eq!(next(&[4, 0, 1, 9, 5, 0, 1], 4), REFUSED);
    assert_eq!(next(&[4, 0], 0), REFUSED);
    assert_eq!(next(&[4, 1, 0], 0), REFUSED);
    assert_eq!(next(&[], 0), Step::End);
    assert_eq!(next(&[], 1), REFUSED);
}

#[test]
fn random_areas_have_the_list_they_were_made_of() {
    let mut random = Random::seeded(0x1234_5678_9ABC_DEF1);
    for _ in 0..2000 {
        let tlvs = random.tlvs(8);
        let area = area_of(&tlvs);
        let list = tlv_list(&area).unwrap();
        let seen = |(kind, value): &(u8, Range<usize>)| (*kind, area[value.clone()].to_vec());
        assert_eq!(list.iter().map(seen).collect::<Vec<_>>(), tlvs);
        let mut place = 0;
        for (kind, value) in list {
            assert_eq!(value.start, place + 3);
            assert_eq!(step(&area, place), shown(kind, value.clone(), value.end));
            place = value.end;
        }
        assert_eq!(place, area.len());
        assert_eq!(step(&area, place), Step::End);
    }
}

/// A left-to-right scan: the list, if TLVs fill `area` from `place` on.
fn scanned(area: &[u8], mut place: usize) -> Option<Vec<(u8, Range<usize>)>> {
    let mut list = Vec::new();
    while let [kind, high, low, ref rest @ ..] = *area.get(place..)? {
        let length = usize::from(u16::from_be_bytes([high, low]));
        if length > rest.len() {
            return None;
        }
        list.push((kind, place + 3..place + 3 + length));
        place += 3 + length;
    }
    (place == area.len()).then_some(list)
}

/// Short random bytes, good and bad, against a scan and against the judge.
#[test]
fn random_bytes_from_every_place() {
    let mut random = Random::seeded(0xFEDC_BA98_7654_3211);
    let mut good = 0;
    for _ in 0..20_000 {
        let length = random.below(20);
        let byte = |_| random.pick(&[0, 0, 0, 0, 1, 2, 3, 9]);
        let area: Vec<u8> = (0..length).map(byte).collect();
        let list = tlv_list(&area);
        assert_eq!(list, scanned(&area, 0), "{area:?}");
        let header = binary(0x21, 0x11, 12 + length, &[&[0; 12], &area[..]].concat());
        let is_accepted = matches!(judge(&header), Verdict::Accepted(_));
        assert_eq!(list.is_some(), is_accepted, "{area:?}");
        good += usize::from(list.is_some());
        for place in 0..length + 3 {
            let answer = match scanned(&area, place).as_deref() {
                None => REFUSED,
                Some([]) => Step::End,
                Some([(kind, value), ..]) => shown(*kind, value.clone(), value.end),
            };
            assert_eq!(step(&area, place), answer, "{area:?} from {place}");
        }
    }
    assert!((1000..19_000).contains(&good), "{good} areas are good");
}
