//! The stored form (document 01, Stored form, version 1, and document 02, K7).

use crate::forms::*;
use crate::helpers::*;
use second::{load, store, Kind, Record, StoredVersion};

/// Checks that the record is stored as `form`, in outputs of all lengths, and
/// that the form is read back as the record.
fn check_form(version: StoredVersion, record: &Record, form: &[u8]) {
    check_outputs(form, |out| store(version, record, out));
    assert_eq!(load(version, form), Ok(record.clone()));
}

#[test]
fn every_kind_in_both_versions() {
    for ((record, one, two), (_, _, lengths)) in worked().into_iter().zip(CODES) {
        assert_eq!([one.len(), two.len()], lengths);
        check_form(ONE, &record, &one);
        check_form(TWO, &record, &two);
    }
}

/// "one byte of state (0 absent, 1 matched, else 24)"
#[test]
fn version_2_has_the_state() {
    for (record, _, two) in worked().into_iter().skip(2) {
        check_form(TWO, &matched(&record), &with_state(&two, 1));
        for state in 2..=0xFF {
            assert_eq!(load(TWO, &with_state(&two, state)), Err(24));
        }
    }
}

/// "Matched beside local or unspecified reads as 24"
#[test]
fn without_addresses_the_state_is_absent() {
    for (_, _, two) in worked().into_iter().take(2) {
        for state in 1..=0xFF {
            assert_eq!(load(TWO, &with_state(&two, state)), Err(24));
        }
    }
}

/// Also in outputs too short for the form, and beside matched: 11 comes before 24
/// and 14.
#[test]
fn what_a_kind_does_not_use_must_be_zero() {
    for (kind, ..) in KINDS {
        let dirty = with_unused_set(&bare(kind));
        assert!(!dirty.is_empty());
        for record in dirty {
            for version in VERSIONS {
                check_refused(11, |out| store(version, &record, out));
                check_refused(11, |out| store(version, &matched(&record), out));
            }
        }
    }
}

/// "every writer keeps 11 for it", before 24 and 14.
#[test]
fn matched_beside_local_or_unspecified_is_refused() {
    for version in VERSIONS {
        for kind in [Kind::Local, Kind::Unspecified] {
            check_refused(11, |out| store(version, &matched(&bare(kind)), out));
        }
    }
}

/// "and so does the stored version 1 writer, between 11 and 14"
#[test]
fn version_1_has_no_form_for_matched() {
    for (record, ..) in worked().into_iter().skip(2) {
        check_refused(24, |out| store(ONE, &matched(&record), out));
    }
}

/// "under 7 bytes is 18" in version 2: before mark, version, code and state, which
/// are wrong in some of these.
#[test]
fn what_is_shorter_than_a_head_is_refused_for_its_length() {
    for bytes in [
        [0x43, 0x53, 0x52, 0, 1, 0],
        [0x43, 0x53, 0x52, 0, 2, 0],
        [0x43, 0x53, 0x52, 0, 2, 0x99],
        [0x43, 0x53, 0x52, 0, 3, 0x99],
        [0; 6],
    ] {
        for length in 0..=5 {
            assert_eq!(load(ONE, &bytes[..length]), Err(18));
        }
        for length in 0..=6 {
            assert_eq!(load(TWO, &bytes[..length]), Err(18));
        }
    }
}

#[test]
fn every_byte_of_mark_and_version_counts() {
    for version in VERSIONS {
        let right = head(version, 0x00);
        for (place, number) in [(0, 15), (1, 15), (2, 15), (3, 16), (4, 16)] {
            for byte in 0..=0xFF {
                let mut bytes = right.clone();
                bytes[place] = byte;
                let answer = match byte == right[place] {
                    true => Ok(bare(Kind::Local)),
                    false => Err(number),
                };
                assert_eq!(load(version, &bytes), answer, "{byte} at {place}");
            }
        }
    }
}

/// As long as the other version's form is, too.
#[test]
fn a_form_of_the_other_version_is_refused() {
    for (_, one, two) in worked() {
        assert_eq!(load(ONE, &two), Err(16));
        assert_eq!(load(ONE, &two[..two.len() - 1]), Err(16));
        assert_eq!(load(TWO, &[&one[..], &[0]].concat()), Err(16));
        let number = if one.len() < 7 { 18 } else { 16 };
        assert_eq!(load(TWO, &one), Err(number));
    }
}

#[test]
fn there_are_eight_kind_codes() {
    for (n, version) in VERSIONS.into_iter().enumerate() {
        for code in 0..=0xFF {
            let known = CODES.iter().find(|known| known.0 == code);
            let mut bytes = head(version, code);
            if let Some(known) = known {
                bytes.resize(known.2[n], 0);
            }
            let answer = known.map(|known| bare(known.1)).ok_or(17);
            assert_eq!(load(version, &bytes), answer, "{code}");
        }
    }
}

/// Document 02, K1: "Stored kind codes stay".
#[test]
fn half_specified_bytes_are_no_kind_codes() {
    for code in [0x02, 0x10, 0x20, 0x30] {
        for block in [0, 12, 36, 216] {
            for version in VERSIONS {
                let bytes = form(version, code, &vec![0; block]);
                assert_eq!(load(version, &bytes), Err(17));
            }
        }
    }
}

#[test]
fn the_total_length_must_be_that_of_the_kind() {
    for (code, kind, lengths) in CODES {
        for (version, right) in VERSIONS.into_iter().zip(lengths) {
            let mut bytes = head(version, code);
            for length in bytes.len()..=300 {
                bytes.resize(length, 0);
                let answer = match length == right {
                    true => Ok(bare(kind)),
                    false => Err(18),
                };
                assert_eq!(load(version, &bytes), answer, "{code} in {length}");
            }
        }
    }
}

/// Each case has all the faults that come later, too.
#[test]
fn mark_version_code_and_length_in_this_order() {
    for (bytes, number) in [
        (&[0x00, 0x53, 0x52, 0x00, 0x02][..], 18),
        (&[0x43, 0x53, 0x00, 0x00, 0x02, 0x99, 0x00], 15),
        (&[0x43, 0x53, 0x52, 0x00, 0x02, 0x99, 0x00], 16),
        (&[0x43, 0x53, 0x52, 0x00, 0x01, 0x99, 0x00], 17),
        (&[0x43, 0x53, 0x52, 0x00, 0x01, 0x01, 0x00], 18),
    ] {
        assert_eq!(load(ONE, bytes), Err(number), "{bytes:02X?}");
    }
}

/// "24 between 17 and the final length check". Each case has all the faults that
/// come later, too.
#[test]
fn mark_version_code_state_and_length_in_this_order() {
    for (bytes, number) in [
        (&[0x00, 0x53, 0x52, 0x00, 0x01, 0x99][..], 18),
        (&[0x43, 0x00, 0x52, 0x00, 0x01, 0x99, 0x02, 0x00], 15),
        (&[0x43, 0x53, 0x52, 0x00, 0x01, 0x99, 0x02, 0x00], 16),
        (&[0x43, 0x53, 0x52, 0x01, 0x02, 0x99, 0x02, 0x00], 16),
        (&[0x43, 0x53, 0x52, 0x00, 0x02, 0x99, 0x02, 0x00], 17),
        (&[0x43, 0x53, 0x52, 0x00, 0x02, 0x99, 0x01, 0x00], 17),
        (&[0x43, 0x53, 0x52, 0x00, 0x02, 0x00, 0x02, 0x00], 24),
        (&[0x43, 0x53, 0x52, 0x00, 0x02, 0x01, 0x01, 0x00], 24),
        (&[0x43, 0x53, 0x52, 0x00, 0x02, 0x11, 0xFF, 0x00], 24),
        (&[0x43, 0x53, 0x52, 0x00, 0x02, 0x32, 0x02], 24),
        (&[0x43, 0x53, 0x52, 0x00, 0x02, 0x01, 0x00, 0x00], 18),
        (&[0x43, 0x53, 0x52, 0x00, 0x02, 0x11, 0x01, 0x00], 18),
        (&[0x43, 0x53, 0x52, 0x00, 0x02, 0x32, 0x00], 18),
    ] {
        assert_eq!(load(TWO, bytes), Err(number), "{bytes:02X?}");
    }
}

#[test]
fn random_records_are_read_back() {
    let mut random = Random::seeded(0x9999_AAAA_BBBB_CCCC);
    for _ in 0..3000 {
        let record = random.record(&KINDS);
        let lengths = CODES.iter().find(|code| code.1 == record.kind).unwrap().2;
        check_read_back(ONE, &record, lengths[0], &mut random);
        check_read_back(TWO, &record, lengths[1], &mut random);
        if lengths[0] > 6 {
            check_read_back(TWO, &matched(&record), lengths[1], &mut random);
        }
    }
}

fn check_read_back(version: StoredVersion, record: &Record, length: usize, random: &mut Random) {
    let mut out = [0xA5; 223];
    assert_eq!(store(version, record, &mut out), Ok(length));
    assert_eq!(load(version, &out[..length]), Ok(record.clone()));
    check_output(&out[..length], random.below(length + 3), |out| {
        store(version, record, out)
    });
}

/// One record, one byte string: what is read is stored as it was.
#[test]
fn random_forms_are_stored_again() {
    let mut random = Random::seeded(0xDDDD_EEEE_FFFF_1111);
    for _ in 0..3000 {
        let (code, _, lengths) = random.pick(&CODES);
        let block = random.bytes(lengths[0] - 6);
        check_stored_again(ONE, &form(ONE, code, &block));
        let two = form(TWO, code, &block);
        check_stored_again(TWO, &two);
        if !block.is_empty() {
            check_stored_again(TWO, &with_state(&two, 1));
        }
    }
}

fn check_stored_again(version: StoredVersion, bytes: &[u8]) {
    let record = load(version, bytes).unwrap();
    let mut out = vec![0xA5; bytes.len()];
    assert_eq!(store(version, &record, &mut out), Ok(bytes.len()));
    assert_eq!(out, bytes);
}
