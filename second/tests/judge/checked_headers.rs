//! The version 2 writer on request to add a checksum (document 02, K6).

use crate::checksums::*;
use crate::helpers::*;
use second::{judge, judge_checked, write_v2, write_v2_checked, Kind, Record};

/// Checks that the record, in either state, is written as `header` with this area,
/// in outputs of all lengths, and that the header is read back.
fn check_header(record: &Record, area: &[u8], header: &[u8]) {
    check_outputs(header, |out| write_v2_checked(record, area, out));
    check_outputs(header, |out| write_v2_checked(&matched(record), area, out));
    check_read_back(record, area, header);
}

/// A checked reading gives matched and the area with seven bytes at its end, also
/// with bytes behind; a plain one gives absent.
fn check_read_back(record: &Record, area: &[u8], header: &[u8]) {
    let end = header.len();
    let tlvs = end - area.len() - 7..end;
    assert_eq!(&header[tlvs.start..end - 7], area);
    assert_eq!(header[end - 7..end - 4], [3, 0, 4]);
    let plain = accepted(record.clone(), 2, end, tlvs.clone());
    let read = accepted(matched(record), 2, end, tlvs);
    for behind in [&b""[..], b"\0", b"GET /\r\n", &[3, 0, 4, 0, 0, 0, 0]] {
        let input = [header, behind].concat();
        assert_eq!(judge_checked(&input), Ok(read.clone()));
        assert_eq!(judge(&input), plain);
    }
}

#[test]
fn the_checksum_stands_last() {
    let caller = record(IP4_STREAM, &[10, 1, 2, 3], &[10, 4, 5, 6], 0x1234, 0x5678);
    // 12 + 7 bytes.
    let start = behind_signature(&[0x21, 0x11, 0x00, 0x13]);
    let header = [&start[..], &ADDRESSES, &ALONE].concat();
    check_header(&caller, &[], &header);
    // 12 + 8 + 7 bytes.
    let start = behind_signature(&[0x21, 0x11, 0x00, 0x1B]);
    let header = [&start[..], &ADDRESSES, LAST].concat();
    check_header(&caller, &[5, 0, 2, b'i', b'd', 4, 0, 0], &header);
}

#[test]
fn every_address_kind() {
    for ((family, kind, _, a), value) in ADDRESS_KINDS.into_iter().zip(OF_ZEROS) {
        let block = [&vec![0; a][..], &[3, 0, 4], &value].concat();
        check_header(&bare(kind), &[], &binary(0x21, family, a + 7, &block));
    }
}

/// Before 12, 13 and 14.
#[test]
fn what_a_kind_does_not_use_must_be_zero() {
    for (kind, ..) in KINDS {
        for dirty in with_unused_set(&bare(kind)) {
            for area in [&[][..], &[4, 0, 0], &[4], &[3, 0, 0]] {
                check_refused(11, |out| write_v2_checked(&dirty, area, out));
                check_refused(11, |out| write_v2_checked(&matched(&dirty), area, out));
            }
        }
        for dirty in with_unused_set(&bare(kind)).into_iter().take(2) {
            check_refused(11, |out| write_v2_checked(&dirty, &filled(65_536), out));
        }
    }
}

/// Good for other kinds, ill-formed, with a checksum, and too long.
fn lent_areas() -> [Vec<u8>; 5] {
    let long = filled(65_536);
    [vec![], vec![4, 0, 0], vec![4], vec![3, 0, 0], long]
}

/// "beside local or unspecified always": before 12.
#[test]
fn matched_beside_local_or_unspecified_is_refused() {
    for kind in [Kind::Local, Kind::Unspecified] {
        for area in lent_areas() {
            let record = matched(&bare(kind));
            check_refused(11, |out| write_v2_checked(&record, &area, out));
        }
    }
}

/// Their block is not looked at, so a checksum would not be found.
#[test]
fn local_and_unspecified_get_no_checksum() {
    for kind in [Kind::Local, Kind::Unspecified] {
        for area in lent_areas() {
            check_refused(12, |out| write_v2_checked(&bare(kind), &area, out));
        }
    }
}

#[test]
fn an_area_must_be_filled_by_tlvs() {
    for (_, kind, ..) in ADDRESS_KINDS {
        for area in ILL_FORMED {
            check_refused(12, |out| write_v2_checked(&bare(kind), area, out));
            check_refused(12, |out| write_v2_checked(&matched(&bare(kind)), area, out));
        }
    }
}

/// Whatever its value is. Inside another value 0x03 is no type.
#[test]
fn a_checksum_that_is_there_is_refused() {
    for (_, kind, ..) in ADDRESS_KINDS {
        for area in [
            &[3, 0, 4, 0, 0, 0, 0][..],
            &[3, 0, 0],
            &[3, 0, 0, 4, 0, 0],
            &[4, 0, 0, 3, 0, 0],
            &[4, 0, 0, 3, 0, 1, 9, 5, 0, 0],
            &[3, 0, 5, 0, 0, 0, 0, 0],
        ] {
            check_refused(12, |out| write_v2_checked(&bare(kind), area, out));
            check_refused(12, |out| write_v2_checked(&matched(&bare(kind)), area, out));
        }
        let area = [4, 0, 4, 3, 0, 1, 3, 3 + 0x10, 0, 0, 0x30, 0, 3, 3, 0, 0];
        let mut out = [0; 300];
        let end = write_v2_checked(&bare(kind), &area, &mut out).unwrap();
        check_read_back(&bare(kind), &area, &out[..end]);
    }
    // Before 13.
    let area = [&[3, 0, 0][..], &filled(65_536)].concat();
    check_refused(12, |out| write_v2_checked(&bare(IP4_STREAM), &area, out));
}

#[test]
fn the_seven_bytes_count() {
    for ((_, kind, ..), (header, most)) in ADDRESS_KINDS.into_iter().zip(longest()) {
        let area = filled(most);
        for length in [0, 65_543, 65_544, 65_550, 65_551, 65_553] {
            let write = |out: &mut [u8]| write_v2_checked(&bare(kind), &area, out);
            check_output(&header, length, write);
        }
        check_read_back(&bare(kind), &area, &header);
        // Up to seven bytes more there is room without the checksum.
        for more in 1..=8 {
            let area = filled(most + more);
            check_refused(13, |out| write_v2_checked(&bare(kind), &area, out));
            let mut out = vec![0; 70_000];
            let checked = write_v2_checked(&bare(kind), &area, &mut out);
            assert_eq!(checked, Err(13));
            let plain = write_v2(&bare(kind), &area, &mut out);
            assert_eq!(plain.is_ok(), more <= 7, "{more} bytes more");
            // Ill-formed by its last byte: 12 comes first.
            let ill = [&area[..], &[0]].concat();
            check_refused(12, |out| write_v2_checked(&bare(kind), &ill, out));
        }
    }
}

#[test]
fn random_records_and_areas_are_read_back() {
    let mut random = Random::seeded(0x5555_6666_7777_9999);
    for _ in 0..1000 {
        let record = random.record(&KINDS[2..]);
        let area = area_of(&random.tlvs(6));
        let lent = random.pick(&[&record, &matched(&record)]).clone();
        let mut out = vec![0xA5; 4000];
        let end = write_v2_checked(&lent, &area, &mut out).unwrap();
        check_read_back(&record, &area, &out[..end]);
        check_output(&out[..end], random.below(end + 3), |out| {
            write_v2_checked(&lent, &area, out)
        });
    }
}

/// All of the header but its length and the seven bytes is as without the request.
#[test]
fn the_rest_is_as_without_the_request() {
    let mut random = Random::seeded(0x5555_6666_7777_AAAA);
    for _ in 0..300 {
        let record = random.record(&KINDS[2..]);
        let area = area_of(&random.tlvs(6));
        let (mut checked, mut plain) = (vec![0; 4000], vec![0; 4000]);
        let end = write_v2_checked(&record, &area, &mut checked).unwrap() - 7;
        assert_eq!(write_v2(&record, &area, &mut plain), Ok(end));
        assert_eq!(checked[..14], plain[..14]);
        assert_eq!(checked[16..end], plain[16..end]);
    }
}
