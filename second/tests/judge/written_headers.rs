//! The version 2 writer (document 01, The binary block and Numbered answers).

use crate::helpers::*;
use second::{judge, write_v2, Kind, Record};

/// Checks that the record is written as `header` with this area, in outputs of
/// all lengths, and that the header is read back as the record and the area.
fn check_header(record: &Record, area: &[u8], header: &[u8]) {
    check_outputs(header, |out| write_v2(record, area, out));
    check_read_back(record, area, header);
}

fn check_read_back(record: &Record, area: &[u8], header: &[u8]) {
    let end = header.len();
    let tlvs = end - area.len()..end;
    assert_eq!(&header[tlvs.clone()], area);
    assert_eq!(judge(header), accepted(record.clone(), 2, end, tlvs));
}

#[test]
fn local_and_unspecified_have_16_bytes() {
    let local = behind_signature(&[0x20, 0x00, 0x00, 0x00]);
    check_header(&bare(Kind::Local), &[], &local);
    let unspecified = behind_signature(&[0x21, 0x00, 0x00, 0x00]);
    check_header(&bare(Kind::Unspecified), &[], &unspecified);
    assert_eq!((local.len(), unspecified.len()), (16, 16));
}

#[test]
fn ip4_has_28_bytes() {
    for (kind, family) in [(IP4_STREAM, 0x11), (IP4_DATAGRAM, 0x12)] {
        let record = record(kind, &[192, 168, 0, 1], &[10, 0, 0, 255], 0x1234, 443);
        let header = behind_signature(&[
            0x21, family, 0x00, 0x0C, // L = 12
            0xC0, 0xA8, 0x00, 0x01, 0x0A, 0x00, 0x00, 0xFF, // addresses
            0x12, 0x34, 0x01, 0xBB, // ports
        ]);
        assert_eq!(header.len(), 28);
        check_header(&record, &[], &header);
    }
}

#[test]
fn ip6_has_52_bytes() {
    for (kind, family) in [(IP6_STREAM, 0x21), (IP6_DATAGRAM, 0x22)] {
        let source = groups([0x2001, 0xDB8, 0, 0, 0, 0, 0, 1]);
        let destination = groups([1, 2, 3, 4, 5, 6, 7, 0x89AB]);
        let header = behind_signature(&[
            0x21, family, 0x00, 0x24, // L = 36
            0x20, 0x01, 0x0D, 0xB8, 0, 0, 0, 0, 0, 0, 0, 0, 0, 0, 0, 1, // source
            0, 1, 0, 2, 0, 3, 0, 4, 0, 5, 0, 6, 0, 7, 0x89, 0xAB, // destination
            0xFF, 0xFF, 0x00, 0x01, // ports
        ]);
        assert_eq!(header.len(), 52);
        check_header(&record(kind, &source, &destination, 65535, 1), &[], &header);
    }
}

#[test]
fn unix_has_232_bytes() {
    for (kind, family) in [(UNIX_STREAM, 0x31), (UNIX_DATAGRAM, 0x32)] {
        let mut header = behind_signature(&[0x21, family, 0x00, 0xD8]); // L = 216
        header.extend(b"/a.sock");
        header.extend([0; 101]);
        header.extend([0xEE; 108]);
        assert_eq!(header.len(), 232);
        check_header(&record(kind, b"/a.sock", &[0xEE; 108], 0, 0), &[], &header);
    }
}

#[test]
fn the_area_stands_behind_the_address_block() {
    let area = [5, 0, 2, 7, 8, 4, 0, 0];
    for (family, kind, _, a) in ADDRESS_KINDS {
        let header = binary(0x21, family, a + 8, &[vec![0; a], area.to_vec()].concat());
        check_header(&bare(kind), &area, &header);
    }
    // 256 bytes of value: 12 + 259 = 271 = 0x010F.
    let area = [&[1, 1, 0][..], &[9; 256]].concat();
    let start = behind_signature(&[0x21, 0x11, 0x01, 0x0F]);
    let header = [&start[..], &[0; 12], &area].concat();
    check_header(&bare(IP4_STREAM), &area, &header);
}

/// Unused bytes come first, before 12 and 14.
#[test]
fn what_a_kind_does_not_use_must_be_zero() {
    for (kind, ..) in KINDS {
        let dirty = with_unused_set(&bare(kind));
        assert!(!dirty.is_empty());
        for record in dirty {
            for area in [&[][..], &[4, 0, 0], &[4]] {
                check_refused(11, |out| write_v2(&record, area, out));
            }
        }
    }
}

#[test]
fn unused_bytes_are_refused_before_a_block_too_long() {
    let area = filled(65_536);
    for (kind, ..) in KINDS {
        for record in with_unused_set(&bare(kind)).into_iter().take(2) {
            check_refused(11, |out| write_v2(&record, &area, out));
        }
    }
}

/// Document 02, K6: "Without it [...] matched is 11", before 12, 13 and 14.
#[test]
fn matched_is_refused_without_the_request() {
    for (kind, ..) in KINDS {
        for area in [vec![], vec![4, 0, 0], vec![4], filled(65_536)] {
            check_refused(11, |out| write_v2(&matched(&bare(kind)), &area, out));
        }
    }
}

/// Document 02, K6, speaks of the request only: 0x03 is a type as any other here.
#[test]
fn a_checksum_tlv_is_written_as_it_is_lent() {
    for area in [
        vec![3, 0, 4, 1, 2, 3, 4],
        vec![3, 0, 0, 3, 0, 0],
        vec![3, 0, 1, 9, 4, 0, 0],
    ] {
        let block = [vec![0; 12], area.clone()].concat();
        let header = binary(0x21, 0x11, block.len(), &block);
        check_header(&bare(IP4_STREAM), &area, &header);
    }
}

#[test]
fn an_area_must_be_filled_by_tlvs() {
    for (kind, ..) in KINDS {
        for area in ILL_FORMED {
            check_refused(12, |out| write_v2(&bare(kind), area, out));
        }
    }
}

#[test]
fn local_and_unspecified_have_no_tlvs() {
    for kind in [Kind::Local, Kind::Unspecified] {
        for area in [vec![4, 0, 0], vec![4, 0, 1, 9], filled(65_536)] {
            check_refused(12, |out| write_v2(&bare(kind), &area, out));
        }
    }
}

/// The longest area is 65535 - A: 65523, 65499 and 65319 bytes.
#[test]
fn the_block_has_at_most_65535_bytes() {
    for (family, kind, _, a) in ADDRESS_KINDS {
        let longest = match a {
            12 => 65_523,
            36 => 65_499,
            _ => 65_319,
        };
        let area = filled(longest);
        let start = behind_signature(&[0x21, family, 0xFF, 0xFF]);
        let header = [&start[..], &vec![0; a], &area].concat();
        assert_eq!(header.len(), 65_551);
        for length in [0, 16, 65_549, 65_550, 65_551, 65_553] {
            check_output(&header, length, |out| write_v2(&bare(kind), &area, out));
        }
        check_read_back(&bare(kind), &area, &header);
        for length in [longest + 1, longest + 2, 65_535, 65_536, 65_538, 65_541] {
            // Before 14 in a short output.
            let area = filled(length);
            check_refused(13, |out| write_v2(&bare(kind), &area, out));
            let mut out = vec![0; 70_000];
            assert_eq!(write_v2(&bare(kind), &area, &mut out), Err(13));
            // Ill-formed by its last byte: 12 comes first.
            let ill = [&area[..], &[0]].concat();
            check_refused(12, |out| write_v2(&bare(kind), &ill, out));
        }
    }
}

#[test]
fn random_records_and_areas_are_read_back() {
    let mut random = Random::seeded(0x5555_6666_7777_8888);
    for _ in 0..2000 {
        let record = random.record(&KINDS);
        let has_block = !matches!(record.kind, Kind::Local | Kind::Unspecified);
        let area = area_of(&random.tlvs(6));
        if !area.is_empty() && !has_block {
            check_refused(12, |out| write_v2(&record, &area, out));
            continue;
        }
        let mut out = vec![0xA5; 4000];
        let end = write_v2(&record, &area, &mut out).unwrap();
        check_read_back(&record, &area, &out[..end]);
        check_output(&out[..end], random.below(end + 3), |out| {
            write_v2(&record, &area, out)
        });
    }
}
