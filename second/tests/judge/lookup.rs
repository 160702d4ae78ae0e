//! Lookup (document 01, Looking into TLVs).

use crate::helpers::*;
use second::{lookup, Answer, Lookup};

fn found(count: usize, start: usize, length: usize) -> Lookup {
    Lookup {
        answer: Answer::Found,
        count,
        start,
        length,
    }
}

/// An answer without a value.
fn without(answer: Answer, count: usize) -> Lookup {
    Lookup {
        answer,
        count,
        start: 0,
        length: 0,
    }
}

fn absent(count: usize) -> Lookup {
    without(Answer::Absent, count)
}

fn gave_up(count: usize) -> Lookup {
    without(Answer::GaveUp, count)
}

/// Four TLVs of the types 1, 5, 5 and 4; the values start at 3, 8, 12 and 15.
const AREA: [u8; 18] = [1, 0, 2, 7, 7, 5, 0, 1, 8, 5, 0, 0, 4, 0, 3, 9, 9, 9];

/// Limits 0 to 6 and the largest.
#[test]
fn every_limit_around_four_tlvs() {
    for (kind, answers) in [
        (
            1,
            [
                gave_up(0),
                found(1, 3, 2),
                found(1, 3, 2),
                found(1, 3, 2),
                found(1, 3, 2),
            ],
        ),
        (
            5,
            [
                gave_up(0),
                gave_up(1),
                found(2, 8, 1),
                found(2, 8, 1),
                found(2, 8, 1),
            ],
        ),
        (
            4,
            [
                gave_up(0),
                gave_up(1),
                gave_up(2),
                gave_up(3),
                found(4, 15, 3),
            ],
        ),
        (
            6,
            [gave_up(0), gave_up(1), gave_up(2), gave_up(3), absent(4)],
        ),
        (
            0,
            [gave_up(0), gave_up(1), gave_up(2), gave_up(3), absent(4)],
        ),
    ] {
        for (limit, answer) in answers.into_iter().enumerate() {
            assert_eq!(lookup(&AREA, kind, limit), answer, "{kind} up to {limit}");
        }
        for limit in [5, 6, 65_535, usize::MAX] {
            assert_eq!(lookup(&AREA, kind, limit), answers[4], "{kind}");
        }
    }
}

#[test]
fn in_an_empty_area_every_type_is_absent() {
    for kind in 0..=0xFF {
        for limit in [0, 1, 2, usize::MAX] {
            assert_eq!(lookup(&[], kind, limit), absent(0));
        }
    }
}

/// An empty value is found too, at the area's end.
#[test]
fn one_empty_tlv() {
    assert_eq!(lookup(&[4, 0, 0], 4, 0), gave_up(0));
    assert_eq!(lookup(&[4, 0, 0], 4, 1), found(1, 3, 0));
    assert_eq!(lookup(&[4, 0, 0], 5, 0), gave_up(0));
    assert_eq!(lookup(&[4, 0, 0], 5, 1), absent(1));
}

/// Also where the type stands in front of the fault.
#[test]
fn an_ill_formed_area_is_refused_with_count_0() {
    let refused = without(Answer::Refused { number: 12 }, 0);
    for area in [&[4][..], &[4, 0], &[4, 0, 1], &[4, 0, 0, 4], &AREA[..17]] {
        for kind in [1, 4, 5, 6] {
            for limit in [0, 1, 2, 3, 4, 5, usize::MAX] {
                assert_eq!(lookup(area, kind, limit), refused, "{area:?}");
            }
        }
    }
}

/// Document 02, K13: AREA is the join of its first two TLVs and its last two, of nine bytes each.
#[test]
fn lookup_in_a_join_is_lookup_in_the_two() {
    let (first, second) = AREA.split_at(9);
    for (kind, limit, in_first, in_second, in_join) in [
        // Found in the first: the second is not asked.
        (5, 4, found(2, 8, 1), found(1, 3, 0), found(2, 8, 1)),
        // Given up there: so in the join.
        (4, 1, gave_up(1), gave_up(0), gave_up(1)),
        // Absent, count 2: two less for the second, 2 + 2 examined, 9 + 6 the start.
        (4, 4, absent(2), found(2, 6, 3), found(4, 15, 3)),
        (4, 3, absent(2), gave_up(1), gave_up(3)),
        (4, 2, absent(2), gave_up(0), gave_up(2)),
        (6, 4, absent(2), absent(2), absent(4)),
    ] {
        assert_eq!(lookup(first, kind, limit), in_first, "{kind} up to {limit}");
        let left = limit - in_first.count;
        assert_eq!(lookup(second, kind, left), in_second, "{kind} up to {left}");
        assert_eq!(lookup(&AREA, kind, limit), in_join, "{kind} up to {limit}");
    }
}

#[test]
fn a_type_behind_a_long_value_and_the_longest_list() {
    let area = area_of(&[(1, vec![5; 65_535]), (5, vec![0; 300])]);
    assert_eq!(lookup(&area, 5, 2), found(2, 65_541, 300));
    assert_eq!(lookup(&area, 1, 1), found(1, 3, 65_535));
    let empty = [vec![0; 65_532], vec![5, 0, 0]].concat();
    assert_eq!(lookup(&empty, 5, 21_844), gave_up(21_844));
    assert_eq!(lookup(&empty, 5, 21_845), found(21_845, 65_535, 0));
    assert_eq!(lookup(&empty, 6, 21_844), gave_up(21_844));
    assert_eq!(lookup(&empty, 6, 21_845), absent(21_845));
}

/// The answer by examining one TLV after the other.
fn examined(tlvs: &[(u8, Vec<u8>)], kind: u8, limit: usize) -> Lookup {
    let (mut count, mut start) = (0, 0);
    for (seen, value) in tlvs {
        if count == limit {
            return gave_up(count);
        }
        count += 1;
        if *seen == kind {
            return found(count, start + 3, value.len());
        }
        start += 3 + value.len();
    }
    absent(count)
}

#[test]
fn random_areas_with_all_limits_around_their_number() {
    let mut random = Random::seeded(0x0F1E_2D3C_4B5A_6978);
    for _ in 0..1000 {
        let tlvs = random.tlvs(8);
        let area = area_of(&tlvs);
        for kind in [1, 4, 5, 0xEE, 9] {
            let limits = 0..tlvs.len() + 3;
            let answers: Vec<Lookup> = limits.map(|limit| lookup(&area, kind, limit)).collect();
            for (limit, answer) in answers.iter().enumerate() {
                assert_eq!(*answer, examined(&tlvs, kind, limit));
                assert!(answer.count <= limit);
                // A larger limit never alters found or absent.
                if answer.answer != Answer::GaveUp {
                    assert!(answers[limit..].iter().all(|later| later == answer));
                }
            }
        }
    }
}
