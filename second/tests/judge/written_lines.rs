//! The version 1 writer (document 01, The text line and Numbered answers;
//! document 02, K3).

use crate::helpers::*;
use second::{judge, write_v1, Kind, Record};

/// Checks that the record is written as `line`, in outputs of all lengths, and
/// that the line is read back as the record.
fn check_line(record: &Record, line: &str) {
    assert_eq!(written(record), line);
    let line = line.as_bytes();
    check_outputs(line, |out| write_v1(record, out));
    let end = line.len();
    assert_eq!(judge(line), accepted(record.clone(), 1, end, end..end));
}

/// The line that is written for the record.
fn written(record: &Record) -> String {
    let mut out = [0xA5; 110];
    let end = write_v1(record, &mut out).unwrap();
    String::from_utf8(out[..end].to_vec()).unwrap()
}

#[test]
fn unspecified_is_unknown_in_15_bytes() {
    let line = "PROXY UNKNOWN\r\n";
    assert_eq!(line.len(), 15);
    check_line(&bare(Kind::Unspecified), line);
}

#[test]
fn ip4_streams() {
    let w02 = record(
        IP4_STREAM,
        &[192, 168, 0, 1],
        &[192, 168, 0, 11],
        56324,
        443,
    );
    let line = "PROXY TCP4 192.168.0.1 192.168.0.11 56324 443\r\n";
    assert_eq!(line.len(), 47);
    check_line(&w02, line);
    let shortest = "PROXY TCP4 0.0.0.0 0.0.0.0 0 0\r\n";
    assert_eq!(shortest.len(), 32);
    check_line(&bare(IP4_STREAM), shortest);
    let longest = "PROXY TCP4 255.255.255.255 255.255.255.255 65535 65535\r\n";
    assert_eq!(longest.len(), 56);
    check_line(
        &record(IP4_STREAM, &[255; 4], &[255; 4], 65535, 65535),
        longest,
    );
    check_line(
        &record(IP4_STREAM, &[9, 10, 99, 100], &[0, 1, 200, 249], 9, 10),
        "PROXY TCP4 9.10.99.100 0.1.200.249 9 10\r\n",
    );
    check_line(
        &record(IP4_STREAM, &[1, 2, 3, 4], &[5, 6, 7, 8], 9999, 10000),
        "PROXY TCP4 1.2.3.4 5.6.7.8 9999 10000\r\n",
    );
}

/// Checks the text of each address, as a source and as a destination.
fn check_ip6_texts(cases: &[([u16; 8], &str)]) {
    let other = groups([0xA, 0xB, 0xC, 0xD, 0xE, 0xF, 0x10, 0x11]);
    for (address, text) in cases {
        let address = groups(*address);
        check_line(
            &record(IP6_STREAM, &address, &other, 80, 443),
            &format!("PROXY TCP6 {text} a:b:c:d:e:f:10:11 80 443\r\n"),
        );
        check_line(
            &record(IP6_STREAM, &other, &address, 80, 443),
            &format!("PROXY TCP6 a:b:c:d:e:f:10:11 {text} 80 443\r\n"),
        );
    }
}

#[test]
fn ip6_streams_have_22_to_104_bytes() {
    let shortest = "PROXY TCP6 :: :: 0 0\r\n";
    // 11 before the addresses, 2 + 1 + 2 + 1, then 1 + 1 + 1 and CR LF.
    assert_eq!(shortest.len(), 22);
    check_line(&bare(IP6_STREAM), shortest);
    let longest = "PROXY TCP6 ffff:ffff:ffff:ffff:ffff:ffff:ffff:ffff \
        ffff:ffff:ffff:ffff:ffff:ffff:ffff:ffff 65535 65535\r\n";
    // 11 before the addresses, 39 + 1 + 39 + 1, then 5 + 1 + 5 and CR LF.
    assert_eq!(longest.len(), 104);
    check_line(
        &record(IP6_STREAM, &[255; 16], &[255; 16], 65535, 65535),
        longest,
    );
    let both = "PROXY TCP6 2001:db8::1 fe80:: 80 443\r\n";
    // 11 before the addresses, 11 + 1 + 6 + 1, then 2 + 1 + 3 and CR LF.
    assert_eq!(both.len(), 38);
    check_line(
        &record(
            IP6_STREAM,
            &groups([0x2001, 0xDB8, 0, 0, 0, 0, 0, 1]),
            &groups([0xFE80, 0, 0, 0, 0, 0, 0, 0]),
            80,
            443,
        ),
        both,
    );
}

/// The addresses of RFC 5952, sections 2 and 4, and what section 4 makes of them.
#[test]
fn examples_of_rfc_5952() {
    check_ip6_texts(&[
        // 4.1 and 4.2.1: no leading zeros, "::" for as many groups as can be.
        ([0x2001, 0xDB8, 0, 0, 0, 0, 0, 1], "2001:db8::1"),
        ([0x2001, 0xDB8, 0, 0, 0, 0, 2, 1], "2001:db8::2:1"),
        // 4.2.2: not for one group.
        ([0x2001, 0xDB8, 0, 1, 1, 1, 1, 1], "2001:db8:0:1:1:1:1:1"),
        (
            [0x2001, 0xDB8, 0xAAAA, 0xBBBB, 0xCCCC, 0xDDDD, 0, 1],
            "2001:db8:aaaa:bbbb:cccc:dddd:0:1",
        ),
        // 4.2.3: the longest, and the first of equals.
        ([0x2001, 0, 0, 1, 0, 0, 0, 1], "2001:0:0:1::1"),
        ([0x2001, 0xDB8, 0, 0, 1, 0, 0, 1], "2001:db8::1:0:0:1"),
        (
            [0x2001, 0xDB8, 0, 0, 0xAAAA, 0, 0, 1],
            "2001:db8::aaaa:0:0:1",
        ),
        // 4.3: lower case.
        (
            [0x2001, 0xDB8, 0xAAAA, 0xBBBB, 0xCCCC, 0xDDDD, 0xEEEE, 1],
            "2001:db8:aaaa:bbbb:cccc:dddd:eeee:1",
        ),
        (
            [
                0x2001, 0xDB8, 0xAAAA, 0xBBBB, 0xCCCC, 0xDDDD, 0xEEEE, 0xAAAA,
            ],
            "2001:db8:aaaa:bbbb:cccc:dddd:eeee:aaaa",
        ),
    ]);
}

#[test]
fn groups_have_no_leading_zeros() {
    check_ip6_texts(&[
        (
            [0xABCD, 0xF, 0x10, 0xFF, 0x100, 0xFFF, 0x1000, 0],
            "abcd:f:10:ff:100:fff:1000:0",
        ),
        (
            [
                0x123, 0x4567, 0x89AB, 0xCDEF, 0xFEDC, 0xBA98, 0x7654, 0x3210,
            ],
            "123:4567:89ab:cdef:fedc:ba98:7654:3210",
        ),
        (
            [0x1, 0x20, 0x300, 0x4000, 0x5006, 0x708, 0x90, 0xA],
            "1:20:300:4000:5006:708:90:a",
        ),
        // Zero bytes side by side, but in different groups.
        (
            [0x100, 1, 0x100, 1, 0x100, 1, 0x100, 1],
            "100:1:100:1:100:1:100:1",
        ),
        ([0x100, 0, 1, 2, 0x300, 0, 4, 5], "100:0:1:2:300:0:4:5"),
        ([0x100, 0, 0, 1, 2, 3, 4, 5], "100::1:2:3:4:5"),
    ]);
}

/// Here and below most groups that are not zero have their place, from 1 to 8.
#[test]
fn one_run_of_zeros() {
    check_ip6_texts(&[
        ([0, 0, 0, 0, 0, 0, 0, 0], "::"),
        // At the front.
        ([0, 0, 3, 4, 5, 6, 7, 8], "::3:4:5:6:7:8"),
        ([0, 0, 0, 4, 5, 6, 7, 8], "::4:5:6:7:8"),
        ([0, 0, 0, 0, 5, 6, 7, 8], "::5:6:7:8"),
        ([0, 0, 0, 0, 0, 6, 7, 8], "::6:7:8"),
        ([0, 0, 0, 0, 0, 0, 7, 8], "::7:8"),
        ([0, 0, 0, 0, 0, 0, 0, 8], "::8"),
        ([0, 0, 0, 0, 0, 0, 0, 1], "::1"),
        // At the end.
        ([1, 2, 3, 4, 5, 6, 0, 0], "1:2:3:4:5:6::"),
        ([1, 2, 3, 4, 5, 0, 0, 0], "1:2:3:4:5::"),
        ([1, 2, 3, 4, 0, 0, 0, 0], "1:2:3:4::"),
        ([1, 2, 3, 0, 0, 0, 0, 0], "1:2:3::"),
        ([1, 2, 0, 0, 0, 0, 0, 0], "1:2::"),
        ([1, 0, 0, 0, 0, 0, 0, 0], "1::"),
        // In the middle.
        ([1, 0, 0, 4, 5, 6, 7, 8], "1::4:5:6:7:8"),
        ([1, 2, 0, 0, 5, 6, 7, 8], "1:2::5:6:7:8"),
        ([1, 2, 3, 0, 0, 6, 7, 8], "1:2:3::6:7:8"),
        ([1, 2, 3, 4, 0, 0, 7, 8], "1:2:3:4::7:8"),
        ([1, 2, 3, 4, 5, 0, 0, 8], "1:2:3:4:5::8"),
        ([1, 0, 0, 0, 5, 6, 7, 8], "1::5:6:7:8"),
        ([1, 2, 3, 0, 0, 0, 7, 8], "1:2:3::7:8"),
        ([1, 2, 0, 0, 0, 0, 7, 8], "1:2::7:8"),
        ([1, 2, 0, 0, 0, 0, 0, 8], "1:2::8"),
        ([1, 0, 0, 0, 0, 0, 0, 8], "1::8"),
    ]);
}

#[test]
fn single_zeros_stay() {
    check_ip6_texts(&[
        ([0, 2, 3, 4, 5, 6, 7, 8], "0:2:3:4:5:6:7:8"),
        ([1, 0, 3, 4, 5, 6, 7, 8], "1:0:3:4:5:6:7:8"),
        ([1, 2, 0, 4, 5, 6, 7, 8], "1:2:0:4:5:6:7:8"),
        ([1, 2, 3, 0, 5, 6, 7, 8], "1:2:3:0:5:6:7:8"),
        ([1, 2, 3, 4, 0, 6, 7, 8], "1:2:3:4:0:6:7:8"),
        ([1, 2, 3, 4, 5, 0, 7, 8], "1:2:3:4:5:0:7:8"),
        ([1, 2, 3, 4, 5, 6, 0, 8], "1:2:3:4:5:6:0:8"),
        ([1, 2, 3, 4, 5, 6, 7, 0], "1:2:3:4:5:6:7:0"),
        ([0, 2, 3, 4, 5, 6, 7, 0], "0:2:3:4:5:6:7:0"),
        ([0, 2, 0, 4, 0, 6, 0, 8], "0:2:0:4:0:6:0:8"),
        ([1, 0, 3, 0, 5, 0, 7, 0], "1:0:3:0:5:0:7:0"),
        ([0, 1, 0, 1, 0, 1, 0, 1], "0:1:0:1:0:1:0:1"),
        ([1, 0, 1, 0, 1, 0, 1, 0], "1:0:1:0:1:0:1:0"),
        ([1, 2, 3, 4, 5, 6, 7, 8], "1:2:3:4:5:6:7:8"),
    ]);
}

#[test]
fn the_first_of_equal_runs() {
    check_ip6_texts(&[
        ([0, 0, 3, 0, 0, 6, 7, 8], "::3:0:0:6:7:8"),
        ([0, 0, 3, 4, 5, 6, 0, 0], "::3:4:5:6:0:0"),
        ([0, 0, 3, 0, 0, 6, 0, 0], "::3:0:0:6:0:0"),
        ([1, 0, 0, 4, 0, 0, 7, 8], "1::4:0:0:7:8"),
        ([1, 0, 0, 4, 5, 0, 0, 8], "1::4:5:0:0:8"),
        ([1, 0, 0, 4, 5, 6, 0, 0], "1::4:5:6:0:0"),
        ([1, 2, 0, 0, 5, 0, 0, 8], "1:2::5:0:0:8"),
        ([1, 2, 3, 0, 0, 6, 0, 0], "1:2:3::6:0:0"),
        ([0, 2, 0, 0, 5, 0, 0, 8], "0:2::5:0:0:8"),
        ([0, 0, 0, 4, 0, 0, 0, 8], "::4:0:0:0:8"),
        ([0, 0, 0, 4, 5, 0, 0, 0], "::4:5:0:0:0"),
        ([1, 0, 0, 0, 5, 0, 0, 0], "1::5:0:0:0"),
    ]);
}

#[test]
fn the_longest_run() {
    check_ip6_texts(&[
        // It stands later.
        ([0, 2, 0, 0, 5, 6, 7, 8], "0:2::5:6:7:8"),
        ([1, 0, 3, 4, 5, 6, 0, 0], "1:0:3:4:5:6::"),
        ([0, 0, 3, 0, 0, 0, 7, 8], "0:0:3::7:8"),
        ([0, 0, 3, 0, 0, 0, 7, 0], "0:0:3::7:0"),
        ([0, 0, 3, 4, 5, 0, 0, 0], "0:0:3:4:5::"),
        ([1, 0, 0, 4, 0, 0, 0, 8], "1:0:0:4::8"),
        ([1, 0, 0, 4, 5, 0, 0, 0], "1:0:0:4:5::"),
        ([1, 0, 0, 4, 0, 0, 0, 0], "1:0:0:4::"),
        // It stands first.
        ([0, 0, 3, 0, 5, 6, 7, 8], "::3:0:5:6:7:8"),
        ([1, 0, 0, 4, 5, 6, 7, 0], "1::4:5:6:7:0"),
        ([0, 0, 0, 4, 0, 0, 7, 8], "::4:0:0:7:8"),
        ([0, 0, 0, 4, 5, 6, 0, 0], "::4:5:6:0:0"),
        ([1, 0, 0, 0, 5, 0, 0, 8], "1::5:0:0:8"),
        ([1, 2, 0, 0, 0, 6, 0, 0], "1:2::6:0:0"),
        ([0, 0, 0, 0, 5, 0, 0, 8], "::5:0:0:8"),
    ]);
}

#[test]
fn seven_zeros() {
    check_ip6_texts(&[
        ([1, 0, 0, 0, 0, 0, 0, 0], "1::"),
        ([0, 2, 0, 0, 0, 0, 0, 0], "0:2::"),
        ([0, 0, 3, 0, 0, 0, 0, 0], "0:0:3::"),
        ([0, 0, 0, 4, 0, 0, 0, 0], "0:0:0:4::"),
        ([0, 0, 0, 0, 5, 0, 0, 0], "::5:0:0:0"),
        ([0, 0, 0, 0, 0, 6, 0, 0], "::6:0:0"),
        ([0, 0, 0, 0, 0, 0, 7, 0], "::7:0"),
        ([0, 0, 0, 0, 0, 0, 0, 8], "::8"),
    ]);
}

/// Addresses that others write with an IPv4 address at the end, such as
/// ::ffff:192.0.2.128 and ::1.2.3.4.
#[test]
fn no_dotted_tail() {
    check_ip6_texts(&[
        ([0, 0, 0, 0, 0, 0xFFFF, 0xC000, 0x280], "::ffff:c000:280"),
        ([0, 0, 0, 0, 0, 0xFFFF, 0, 0], "::ffff:0:0"),
        ([0, 0, 0, 0, 0, 0, 0x102, 0x304], "::102:304"),
        (
            [0x64, 0xFF9B, 0, 0, 0, 0, 0xC000, 0x221],
            "64:ff9b::c000:221",
        ),
        (
            [0xFE80, 0, 0, 0, 0, 0x5EFE, 0xC000, 0x280],
            "fe80::5efe:c000:280",
        ),
    ]);
}

/// Checks that this is the text of the address's bytes by RFC 5952, section 4,
/// without a dotted tail.
fn check_rfc_5952(text: &str, bytes: &[u8]) {
    let digits = "0123456789abcdef";
    assert!(
        text.chars().all(|c| c == ':' || digits.contains(c)),
        "{text}"
    );
    assert!(!text.contains(":::"), "{text}");
    assert!(text.matches("::").count() <= 1, "{text}");

    let (before, behind) = match text.split_once("::") {
        None => (groups_in(text), vec![]),
        Some((before, behind)) => (groups_in(before), groups_in(behind)),
    };
    let replaced = 8 - before.len() - behind.len();
    let zeros = vec![0; 2 * replaced];
    let values = [values_of(&before), zeros, values_of(&behind)].concat();
    assert_eq!(values, bytes, "{text}");

    for group in before.iter().chain(&behind) {
        assert!(*group == "0" || !group.starts_with('0'), "{text}");
    }
    if text.contains("::") {
        assert!(replaced >= 2, "{text}");
        // The whole run, none as long before it, none longer behind it.
        assert!(
            before.last() != Some(&"0") && behind.first() != Some(&"0"),
            "{text}"
        );
        assert!(!have_zeros(&before, replaced), "{text}");
        assert!(!have_zeros(&behind, replaced + 1), "{text}");
    } else {
        assert!(!have_zeros(&before, 2), "{text}");
    }
}

/// The groups in a text with single colons.
fn groups_in(text: &str) -> Vec<&str> {
    match text {
        "" => vec![],
        _ => text.split(':').collect(),
    }
}

/// The bytes that these groups stand for.
fn values_of(groups: &[&str]) -> Vec<u8> {
    let value = |group: &&str| u16::from_str_radix(group, 16).unwrap();
    let values = groups.iter().map(value);
    values.flat_map(u16::to_be_bytes).collect()
}

/// True if so many of these groups, one behind the other, are "0".
fn have_zeros(groups: &[&str], count: usize) -> bool {
    let mut windows = groups.windows(count);
    windows.any(|window| window.iter().all(|group| *group == "0"))
}

/// Checks that the line written for the record is read back as the record, and
/// that IPv6 addresses have the text of RFC 5952.
fn check_written(record: &Record) {
    let line = written(record);
    let end = line.len();
    let answer = accepted(record.clone(), 1, end, end..end);
    assert_eq!(judge(line.as_bytes()), answer, "{line}");
    if record.kind == IP6_STREAM {
        let words: Vec<&str> = line.split(' ').collect();
        check_rfc_5952(words[2], &record.source[..16]);
        check_rfc_5952(words[3], &record.destination[..16]);
    }
}

/// Each of the eight groups zero or not: 256 ways.
#[test]
fn zeros_at_all_places() {
    let mut random = Random::seeded(0x5952_5952_5952_5952);
    for zeros in 0..256 {
        let mut address = || {
            groups(
                [0, 1, 2, 3, 4, 5, 6, 7].map(|place| match (zeros >> place) & 1 {
                    0 => random.pick(&[1, 0xF, 0x10, 0xAB, 0x100, 0xCDE, 0x1000, 0xFFFF]),
                    _ => 0,
                }),
            )
        };
        check_written(&record(IP6_STREAM, &address(), &address(), 80, 443));
    }
}

#[test]
fn the_other_kinds_have_no_form() {
    for kind in [
        Kind::Local,
        IP4_DATAGRAM,
        IP6_DATAGRAM,
        UNIX_STREAM,
        UNIX_DATAGRAM,
    ] {
        check_refused(10, |out| write_v1(&bare(kind), out));
        // Before 11, and before 14 in an empty output.
        for record in with_unused_set(&bare(kind)) {
            check_refused(10, |out| write_v1(&record, out));
        }
    }
}

/// Also in outputs too short for the line: 11 comes before 14.
#[test]
fn what_a_kind_does_not_use_must_be_zero() {
    for kind in [Kind::Unspecified, IP4_STREAM, IP6_STREAM] {
        let dirty = with_unused_set(&bare(kind));
        assert!(!dirty.is_empty());
        for record in dirty {
            check_refused(11, |out| write_v1(&record, out));
        }
    }
}

/// Document 02, K6: "in version 1 [...] matched is 11": behind 10, before 14.
#[test]
fn matched_is_refused() {
    for (kind, ..) in KINDS {
        let number = match kind {
            Kind::Unspecified | IP4_STREAM | IP6_STREAM => 11,
            _ => 10,
        };
        check_refused(number, |out| write_v1(&matched(&bare(kind)), out));
    }
}

#[test]
fn random_records_are_read_back() {
    let mut random = Random::seeded(0x1111_2222_3333_4444);
    for _ in 0..3000 {
        let record = random.record(&KINDS);
        match record.kind {
            Kind::Unspecified | IP4_STREAM | IP6_STREAM => {
                check_written(&record);
                let line = written(&record);
                check_output(line.as_bytes(), random.below(line.len() + 3), |out| {
                    write_v1(&record, out)
                });
            }
            _ => check_refused(10, |out| write_v1(&record, out)),
        }
    }
}
