//! The table of address prefixes (document 02, K14): which tables are good, and
//! which level they give.

use crate::admissions::*;
use crate::helpers::*;
use second::{admit, Admission};
use std::net::{Ipv4Addr, Ipv6Addr};

const BAD: Admission = Admission::NotAdmitted { number: 34 };

/// Three rows that no row of a test equals.
fn others() -> [Vec<u8>; 3] {
    [
        ip4([203, 0, 113, 0], 24, 1),
        ip6([0x2001, 0xDB8, 0xAAAA, 0, 0, 0, 0, 0], 48, 2),
        ip4([203, 0, 113, 7], 32, 3),
    ]
}

/// The row alone, and before, between and behind other ones.
fn among_others(row: &[u8]) -> [Vec<u8>; 5] {
    let [a, b, c] = &others();
    [
        row.to_vec(),
        [row, a, b, c].concat(),
        [a, row, b, c].concat(),
        [a, b, row, c].concat(),
        [a, b, c, row].concat(),
    ]
}

/// Checks whether a table with this row is good; 172.16.0.1 is in no other row.
fn check_row(row: &[u8], good: bool) {
    for table in among_others(row) {
        let answer = admit(&table, &ip4_header([172, 16, 0, 1], &ID));
        assert_eq!(answer != BAD, good, "{table:02X?}");
    }
}

/// Sixteen address bytes with one bit set; the first bit is the highest of the
/// first byte.
fn bit(place: usize) -> [u8; 16] {
    let mut bytes = [0; 16];
    bytes[place / 8] = 0x80 >> (place % 8);
    bytes
}

#[test]
fn a_row_by_its_bytes() {
    let row = [4, 8, 2, 10, 0, 0, 0, 0, 0, 0, 0, 0, 0, 0, 0, 0, 0, 0, 0];
    assert_eq!(admit(&row, &ip4_header([10, 1, 2, 3], &ID)), ip4_level(2));
    assert_eq!(admit(&row, &ip4_header([11, 1, 2, 3], &ID)), ip4_level(0));
    let row = [6, 4, 3, 16, 0, 0, 0, 0, 0, 0, 0, 0, 0, 0, 0, 0, 0, 0, 0];
    let source = [0x1FFF, 2, 3, 4, 5, 6, 7, 8];
    assert_eq!(admit(&row, &ip6_header(source, &ID)), ip6_level(3));
    let source = [0x2000, 2, 3, 4, 5, 6, 7, 8];
    assert_eq!(admit(&row, &ip6_header(source, &ID)), ip6_level(0));
}

#[test]
fn under_the_empty_table_every_source_has_level_0() {
    for source in [[0; 4], [10, 1, 2, 3], [255; 4]] {
        assert_eq!(ip4_answer(&[], source), ip4_level(0));
    }
    for source in [[0; 8], [0x2001, 0xDB8, 0, 0, 0, 0, 0, 1], [0xFFFF; 8]] {
        assert_eq!(ip6_answer(&[], source), ip6_level(0));
    }
}

#[test]
fn a_row_gives_any_level() {
    for level in 0..=3 {
        let table = [ip4([10, 0, 0, 0], 8, level)];
        assert_eq!(ip4_answer(&table, [10, 9, 9, 9]), ip4_level(level));
        let table = [ip6([0xFD00, 0, 0, 0, 0, 0, 0, 0], 8, level)];
        let source = [0xFD99, 9, 9, 9, 9, 9, 9, 9];
        assert_eq!(ip6_answer(&table, source), ip6_level(level));
    }
}

/// The words of a case: a prefix, the address before it, its last address, and the
/// one behind. Where there is none before or behind, it is one from the other end.
fn words(case: &str) -> [&str; 4] {
    let words: Vec<&str> = case.split_whitespace().collect();
    words.try_into().unwrap()
}

#[test]
fn both_borders_of_ip4_prefixes() {
    let source = |text: &str| text.parse::<Ipv4Addr>().unwrap().octets();
    for case in [
        "0.0.0.0/1 255.255.255.255 127.255.255.255 128.0.0.0",
        "128.0.0.0/1 127.255.255.255 255.255.255.255 0.0.0.0",
        "10.0.0.0/7 9.255.255.255 11.255.255.255 12.0.0.0",
        "10.0.0.0/8 9.255.255.255 10.255.255.255 11.0.0.0",
        "10.0.0.0/9 9.255.255.255 10.127.255.255 10.128.0.0",
        "192.168.0.0/16 192.167.255.255 192.168.255.255 192.169.0.0",
        "192.168.254.0/23 192.168.253.255 192.168.255.255 192.169.0.0",
        "192.0.2.64/26 192.0.2.63 192.0.2.127 192.0.2.128",
        "192.0.2.2/31 192.0.2.1 192.0.2.3 192.0.2.4",
        "192.0.2.0/32 192.0.1.255 192.0.2.0 192.0.2.1",
        "255.255.255.255/32 255.255.255.254 255.255.255.255 0.0.0.0",
        "0.0.0.0/32 255.255.255.255 0.0.0.0 0.0.0.1",
    ] {
        let [prefix, before, last, behind] = words(case);
        let (first, bits) = prefix.split_once('/').unwrap();
        let table = [ip4(source(first), bits.parse().unwrap(), 3)];
        for (text, level) in [(before, 0), (first, 3), (last, 3), (behind, 0)] {
            let answer = ip4_answer(&table, source(text));
            assert_eq!(answer, ip4_level(level), "{text} under {prefix}");
        }
    }
}

#[test]
fn both_borders_of_ip6_prefixes() {
    let source = |text: &str| text.parse::<Ipv6Addr>().unwrap().segments();
    for case in [
        "2000::/3 1fff:ffff:ffff:ffff:ffff:ffff:ffff:ffff 3fff:ffff:ffff:ffff:ffff:ffff:ffff:ffff 4000::",
        "fd00::/8 fcff:ffff:ffff:ffff:ffff:ffff:ffff:ffff fdff:ffff:ffff:ffff:ffff:ffff:ffff:ffff fe00::",
        "1:2:3:4::/62 1:2:3:3:ffff:ffff:ffff:ffff 1:2:3:7:ffff:ffff:ffff:ffff 1:2:3:8::",
        "1:2:3:ffff::/64 1:2:3:fffe:ffff:ffff:ffff:ffff 1:2:3:ffff:ffff:ffff:ffff:ffff 1:2:4::",
        "1:2:3:4:8000::/65 1:2:3:4:7fff:ffff:ffff:ffff 1:2:3:4:ffff:ffff:ffff:ffff 1:2:3:5::",
        "::ffff:0:0/96 ::fffe:ffff:ffff ::ffff:ffff:ffff ::1:0:0:0",
        "1:2:3:4:5:6:7:8/127 1:2:3:4:5:6:7:7 1:2:3:4:5:6:7:9 1:2:3:4:5:6:7:a",
        "1:2:3:4:5:6:7:0/128 1:2:3:4:5:6:6:ffff 1:2:3:4:5:6:7:0 1:2:3:4:5:6:7:1",
        "ffff:ffff:ffff:ffff:ffff:ffff:ffff:ffff/128 ffff:ffff:ffff:ffff:ffff:ffff:ffff:fffe ffff:ffff:ffff:ffff:ffff:ffff:ffff:ffff ::",
        "::/128 ffff:ffff:ffff:ffff:ffff:ffff:ffff:ffff :: ::1",
    ] {
        let [prefix, before, last, behind] = words(case);
        let (first, bits) = prefix.split_once('/').unwrap();
        let table = [ip6(source(first), bits.parse().unwrap(), 3)];
        for (text, level) in [(before, 0), (first, 3), (last, 3), (behind, 0)] {
            let answer = ip6_answer(&table, source(text));
            assert_eq!(answer, ip6_level(level), "{text} under {prefix}");
        }
    }
}

/// "bits (0 to 32 or 0 to 128)": no bits are every address of the family.
#[test]
fn no_bits_match_every_address_of_the_family() {
    let four = [ip4([0; 4], 0, 2)];
    let six = [ip6([0; 8], 0, 3)];
    for source in [[0; 4], [127, 0, 0, 1], [255; 4]] {
        assert_eq!(ip4_answer(&four, source), ip4_level(2));
        assert_eq!(ip4_answer(&six, source), ip4_level(0));
    }
    for source in [[0; 8], [0, 0, 0, 0, 0, 0, 0, 1], [0xFFFF; 8]] {
        assert_eq!(ip6_answer(&six, source), ip6_level(3));
        assert_eq!(ip6_answer(&four, source), ip6_level(0));
    }
}

/// Every number of bits: a source that differs from the address in one bit matches
/// exactly if that bit lies beyond the prefix.
#[test]
fn the_first_bits_count_and_no_other() {
    for bits in 0..=32_u8 {
        let table = [ip4([0; 4], bits, 1)].concat();
        for place in 0..32 {
            let [a, b, c, d, ..] = bit(place);
            let level = u8::from(place >= usize::from(bits));
            let answer = admit(&table, &ip4_header([a, b, c, d], &ID));
            assert_eq!(answer, ip4_level(level), "bit {place} of {bits}");
        }
    }
    for bits in 0..=128_u8 {
        let table = [ip6([0; 8], bits, 1)].concat();
        for place in 0..128 {
            let mut source = [0; 8];
            source[place / 16] = 0x8000 >> (place % 16);
            let level = u8::from(place >= usize::from(bits));
            let answer = admit(&table, &ip6_header(source, &ID));
            assert_eq!(answer, ip6_level(level), "bit {place} of {bits}");
        }
    }
}

/// "Mapped IPv4 counts as IPv6": ::ffff:10.1.2.3 is under no row of IPv4.
#[test]
fn a_mapped_address_is_one_of_ip6() {
    let mapped = [0, 0, 0, 0, 0, 0xFFFF, 0x0A01, 0x0203];
    let table = [
        ip4([10, 0, 0, 0], 8, 1),
        ip4([10, 1, 2, 3], 32, 2),
        ip4([0; 4], 0, 3),
    ];
    assert_eq!(ip6_answer(&table, mapped), ip6_level(0));
    assert_eq!(ip4_answer(&table, [10, 1, 2, 3]), ip4_level(2));
    let table = [ip6([0, 0, 0, 0, 0, 0xFFFF, 0x0A00, 0], 104, 3)];
    assert_eq!(ip6_answer(&table, mapped), ip6_level(3));
    assert_eq!(ip4_answer(&table, [10, 1, 2, 3]), ip4_level(0));
}

/// The bytes of an IPv4 address at the start of an IPv6 one, and an address of
/// both families under rows of both.
#[test]
fn a_row_of_the_other_family_never_matches() {
    let four = ip4([10, 0, 0, 0], 8, 1);
    let six = ip6([0x0A00, 0, 0, 0, 0, 0, 0, 0], 8, 2);
    let source = [0x0A01, 0x0203, 0, 0, 0, 0, 0, 0];
    for (table, ip4, ip6) in [
        (vec![four.clone()], 1, 0),
        (vec![six.clone()], 0, 2),
        (vec![four.clone(), six.clone()], 1, 2),
        (vec![six, four], 1, 2),
    ] {
        assert_eq!(ip4_answer(&table, [10, 1, 2, 3]), ip4_level(ip4));
        assert_eq!(ip6_answer(&table, source), ip6_level(ip6));
    }
}

/// All orders of these rows.
fn orders(rows: &[Vec<u8>]) -> Vec<Vec<Vec<u8>>> {
    let Some((first, rest)) = rows.split_first() else {
        return vec![vec![]];
    };
    let with_first = |order: Vec<Vec<u8>>| {
        (0..=order.len()).map(move |place| {
            let mut order = order.clone();
            order.insert(place, first.clone());
            order
        })
    };
    orders(rest).into_iter().flat_map(with_first).collect()
}

/// "the longest matching prefix decides", also where its level is lower, or 0.
#[test]
fn nested_prefixes_in_every_order() {
    let rows = [
        ip4([0; 4], 0, 1),
        ip4([10, 0, 0, 0], 8, 3),
        ip4([10, 1, 0, 0], 16, 2),
        ip4([10, 1, 2, 0], 24, 0),
        ip4([10, 1, 2, 3], 32, 3),
    ];
    assert_eq!(orders(&rows).len(), 120);
    for table in orders(&rows) {
        for (source, level) in [
            ([9, 255, 255, 255], 1),
            ([10, 0, 255, 255], 3),
            ([10, 1, 1, 255], 2),
            ([10, 1, 2, 2], 0),
            ([10, 1, 2, 3], 3),
            ([10, 1, 2, 4], 0),
            ([10, 1, 3, 0], 2),
            ([10, 2, 0, 0], 3),
            ([11, 0, 0, 0], 1),
        ] {
            assert_eq!(ip4_answer(&table, source), ip4_level(level), "{source:?}");
        }
    }
    let rows = [
        ip6([0; 8], 0, 2),
        ip6([0xFD00, 0, 0, 0, 0, 0, 0, 0], 8, 0),
        ip6([0xFD00, 1, 2, 3, 0, 0, 0, 0], 64, 1),
        ip6([0xFD00, 1, 2, 3, 4, 5, 6, 6], 127, 3),
        ip6([0xFD00, 1, 2, 3, 4, 5, 6, 7], 128, 2),
    ];
    for table in orders(&rows) {
        for (source, level) in [
            ([0; 8], 2),
            ([0xFDFF, 0, 0, 0, 0, 0, 0, 0], 0),
            ([0xFD00, 1, 2, 3, 4, 5, 6, 5], 1),
            ([0xFD00, 1, 2, 3, 4, 5, 6, 6], 3),
            ([0xFD00, 1, 2, 3, 4, 5, 6, 7], 2),
            ([0xFD00, 1, 2, 3, 4, 5, 6, 8], 1),
            ([0xFD00, 1, 2, 4, 0, 0, 0, 0], 0),
            ([0xFE00, 0, 0, 0, 0, 0, 0, 0], 2),
        ] {
            assert_eq!(ip6_answer(&table, source), ip6_level(level), "{source:?}");
        }
    }
}

/// Prefixes with the same address, and with the same bits.
#[test]
fn neighbours_are_no_duplicates() {
    let table: Vec<Vec<u8>> = (0..=32).map(|bits| ip4([0; 4], bits, bits % 4)).collect();
    assert_eq!(ip4_answer(&table, [0; 4]), ip4_level(0));
    assert_eq!(ip4_answer(&table, [0, 0, 0, 1]), ip4_level(3));
    assert_eq!(ip4_answer(&table, [0, 0, 0, 2]), ip4_level(2));
    assert_eq!(ip4_answer(&table, [128, 0, 0, 0]), ip4_level(0));
    let table = [ip4([10, 1, 2, 2], 31, 1), ip4([10, 1, 2, 4], 31, 2)];
    assert_eq!(ip4_answer(&table, [10, 1, 2, 3]), ip4_level(1));
    assert_eq!(ip4_answer(&table, [10, 1, 2, 4]), ip4_level(2));
}

/// The level plays no part. The two may stand anywhere.
#[test]
fn a_duplicate_is_bad() {
    let [a, b, c] = others();
    for (one, other) in [
        (ip4([10, 0, 0, 0], 8, 1), ip4([10, 0, 0, 0], 8, 1)),
        (ip4([10, 0, 0, 0], 8, 1), ip4([10, 0, 0, 0], 8, 2)),
        (ip4([0; 4], 0, 0), ip4([0; 4], 0, 3)),
        (ip4([10, 1, 2, 3], 32, 3), ip4([10, 1, 2, 3], 32, 0)),
        (ip6([0; 8], 0, 2), ip6([0; 8], 0, 2)),
        (
            ip6([1, 2, 3, 4, 5, 6, 7, 8], 128, 0),
            ip6([1, 2, 3, 4, 5, 6, 7, 8], 128, 1),
        ),
    ] {
        for table in [
            vec![one.clone(), other.clone()],
            vec![a.clone(), one.clone(), other.clone()],
            vec![one.clone(), a.clone(), other.clone()],
            vec![one.clone(), a.clone(), b.clone(), c.clone(), other.clone()],
            vec![a.clone(), other.clone(), b.clone(), one.clone(), c.clone()],
            vec![one.clone(), other.clone(), a.clone(), one.clone()],
        ] {
            assert_eq!(ip4_answer(&table, [172, 16, 0, 1]), BAD, "{table:02X?}");
        }
    }
}

#[test]
fn the_same_bits_in_both_families_are_no_duplicate() {
    let table = [ip4([0; 4], 0, 1), ip6([0; 8], 0, 2)];
    assert_eq!(ip4_answer(&table, [1, 2, 3, 4]), ip4_level(1));
    assert_eq!(ip6_answer(&table, [1, 2, 3, 4, 5, 6, 7, 8]), ip6_level(2));
    let six = ip6([0x0A00, 0, 0, 0, 0, 0, 0, 0], 8, 3);
    let table = [ip4([10, 0, 0, 0], 8, 2), six];
    assert_eq!(ip4_answer(&table, [10, 0, 0, 0]), ip4_level(2));
}

/// Each bit of the sixteen bytes alone: for IPv4 also those behind the address.
#[test]
fn a_bit_beyond_the_prefix_is_bad() {
    for (family, most) in [(4, 32), (6, 128)] {
        for bits in 0..=most {
            for place in 0..128 {
                let row = [&[family, bits, 1], &bit(place)[..]].concat();
                let answer = admit(&row, &ip4_header([172, 16, 0, 1], &ID));
                let good = place < usize::from(bits);
                assert_eq!(answer != BAD, good, "bit {place} of {family}/{bits}");
            }
        }
    }
}

#[test]
fn a_bit_beyond_the_prefix_is_bad_in_any_row() {
    check_row(&ip4([10, 0, 0, 0], 8, 1), true);
    check_row(&ip4([10, 128, 0, 0], 8, 1), false);
    check_row(&ip4([10, 0, 0, 1], 31, 1), false);
    check_row(&ip4([0, 0, 0, 1], 0, 1), false);
    for place in 7..19 {
        let mut row = ip4([10, 1, 2, 3], 32, 1);
        row[place] = 1;
        check_row(&row, false);
    }
    check_row(&ip6([1, 2, 3, 4, 5, 6, 7, 9], 128, 1), true);
    check_row(&ip6([1, 2, 3, 4, 5, 6, 7, 9], 127, 1), false);
    check_row(&ip6([0x8000, 0, 0, 0, 0, 0, 0, 0], 0, 1), false);
}

#[test]
fn a_number_out_of_range_is_bad() {
    for number in 0..=0xFF {
        let zeros = [0; 16];
        let row = |family: u8, bits: u8, level: u8| [&[family, bits, level], &zeros[..]].concat();
        check_row(&row(number, 0, 0), number == 4 || number == 6);
        check_row(&row(number, 32, 3), number == 4 || number == 6);
        check_row(&row(4, number, 1), number <= 32);
        check_row(&row(6, number, 1), number <= 128);
        check_row(&row(4, 8, number), number <= 3);
        check_row(&row(6, 128, number), number <= 3);
    }
}

/// Every length up to three rows.
#[test]
fn bytes_that_are_not_whole_rows_are_bad() {
    let rows = [
        ip4([10, 0, 0, 0], 8, 1),
        ip6([0; 8], 0, 2),
        ip4([0; 4], 0, 3),
    ]
    .concat();
    for length in 0..=rows.len() {
        let answer = admit(&rows[..length], &ip4_header([172, 16, 0, 1], &ID));
        assert_eq!(answer != BAD, length % 19 == 0, "{length} bytes");
    }
}

/// 64 rows, 4.0.0.0/32 and so on; the first and the last count too.
#[test]
fn a_table_has_at_most_64_rows() {
    let row = |n: u8| ip4([4, 0, 0, n], 32, 1 + n % 3);
    let table: Vec<Vec<u8>> = (0..64).map(row).collect();
    for n in 0..64 {
        assert_eq!(ip4_answer(&table, [4, 0, 0, n]), ip4_level(1 + n % 3));
    }
    assert_eq!(ip4_answer(&table, [4, 0, 0, 64]), ip4_level(0));
    for more in 65..70 {
        let table: Vec<Vec<u8>> = (0..more).map(row).collect();
        assert_eq!(ip4_answer(&table, [4, 0, 0, 0]), BAD, "{more} rows");
    }
    let rows = table.concat();
    for length in 64 * 19 + 1..65 * 19 {
        let mut longer = rows.clone();
        longer.resize(length, 0);
        assert_eq!(admit(&longer, &ip4_header([4, 0, 0, 0], &ID)), BAD);
    }
}

/// Several faults at once are 34 as well.
#[test]
fn bad_in_several_ways() {
    let duplicate = ip4([10, 0, 0, 0], 8, 1);
    for table in [
        vec![duplicate.clone(), duplicate.clone(), vec![4]],
        vec![ip4([10, 0, 0, 1], 40, 9), duplicate.clone()],
        vec![duplicate; 65],
        vec![vec![0xFF; 19 * 70 + 3]],
    ] {
        assert_eq!(ip4_answer(&table, [10, 0, 0, 0]), BAD);
    }
}

/// The level of a source by the definition: of the rows of its family with the
/// same first bits the one with the most bits.
fn level_by_bits(table: &[Vec<u8>], family: u8, source: &[u8]) -> u8 {
    let bit = |bytes: &[u8], place: usize| bytes[place / 8] >> (7 - place % 8) & 1;
    let matches = |row: &&Vec<u8>| {
        let bits = usize::from(row[1]);
        row[0] == family && (0..bits).all(|place| bit(&row[3..], place) == bit(source, place))
    };
    let longest = table.iter().filter(matches).max_by_key(|row| row[1]);
    longest.map_or(0, |row| row[2])
}

/// Rows and sources whose bytes are 0, 1, 254 or 255, so that prefixes nest.
#[test]
fn random_tables_by_the_definition() {
    let mut random = Random::seeded(0x1414_1414_2525_2525);
    let mut levels = [0; 4];
    for _ in 0..3000 {
        let mut table: Vec<Vec<u8>> = Vec::new();
        for _ in 0..random.below(12) {
            let (family, most) = random.pick(&[(4, 32), (6, 128)]);
            let bits = random.below(most + 1);
            let mut row = vec![family, bits as u8, random.below(4) as u8];
            for place in 0..16 {
                // The bits of this byte that the prefix has.
                let kept = bits.saturating_sub(8 * place).min(8);
                let mask = (0xFF00_u16 >> kept) as u8;
                row.push(random.pick(&[0, 0, 0, 0, 1, 254, 255]) & mask);
            }
            if table
                .iter()
                .all(|other| other[..2] != row[..2] || other[3..] != row[3..])
            {
                table.push(row);
            }
        }
        for _ in 0..10 {
            let bytes: Vec<u8> = (0..16)
                .map(|_| random.pick(&[0, 0, 0, 0, 1, 254, 255]))
                .collect();
            let source = [bytes[0], bytes[1], bytes[2], bytes[3]];
            let level = level_by_bits(&table, 4, &source);
            assert_eq!(ip4_answer(&table, source), ip4_level(level), "{table:02X?}");
            levels[usize::from(level)] += 1;
            let mut source = [0; 8];
            for (group, pair) in source.iter_mut().zip(bytes.chunks(2)) {
                *group = u16::from_be_bytes([pair[0], pair[1]]);
            }
            let level = level_by_bits(&table, 6, &bytes);
            assert_eq!(ip6_answer(&table, source), ip6_level(level), "{table:02X?}");
            levels[usize::from(level)] += 1;
        }
    }
    assert!(levels.iter().all(|&count| count > 1000), "{levels:?}");
}
