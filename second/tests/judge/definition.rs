//! The judge against the words of document 01, taken literally: a verdict is
//! found by trying prefixes and continuations with the whole-header predicate.
//! Inputs are random, from fixed seeds, or all of a small size.

use crate::helpers::*;
use second::{judge, whole_header, Judge, Verdict};

/// The verdict by the definition. `fewest` tells of bytes without a whole header
/// at their beginning how few further bytes make them one, if any do.
fn defined_verdict(input: &[u8], fewest: impl Fn(&[u8]) -> Option<usize>) -> Verdict {
    let prefixes: Vec<&[u8]> = (0..=input.len()).map(|length| &input[..length]).collect();
    let mut whole = prefixes.iter().filter_map(|prefix| whole_header(prefix));
    if let Some(header) = whole.next() {
        assert_eq!(whole.next(), None, "two headers begin {input:?}");
        return Verdict::Accepted(Box::new(header));
    }
    // What continues a prefix continues the shorter ones as well.
    let live = prefixes.partition_point(|prefix| fewest(prefix).is_some());
    let before = prefixes[live - 1];
    if before == input {
        return more(fewest(input).unwrap());
    }
    refused(number_behind(before), before.len())
}

/// The number of the field that holds the byte behind the live bytes `before`.
fn number_behind(before: &[u8]) -> u8 {
    let place = before.len();
    if before.first() == Some(&S[0]) {
        return match place {
            0..=11 => 1,
            12 => 6,
            13 => 7,
            14 | 15 => 8,
            _ => 9,
        };
    }
    if before.starts_with(b"PROXY UNKNOWN") {
        return if place == 13 { 2 } else { 5 };
    }
    let spaces = before.iter().filter(|&&byte| byte == b' ').count();
    match spaces {
        0 => 1,
        1 => 2,
        2 | 3 => 3,
        _ if before.ends_with(b"\r") => 5,
        _ => 4,
    }
}

/// The bytes behind `prefix` in the shortest of some candidates that are whole
/// headers and begin with it. They are chosen so that if any header begins with
/// it, a shortest one is among them.
fn fewest_by_candidates(prefix: &[u8]) -> Option<usize> {
    let candidates = if prefix.first() == Some(&S[0]) {
        binary_candidates(prefix)
    } else {
        text_candidates(prefix)
    };
    let headers = candidates
        .iter()
        .filter(|bytes| bytes.starts_with(prefix) && whole_header(bytes).is_some());
    headers.map(|header| header.len() - prefix.len()).min()
}

/// The prefix with the ends of a few lines. Wherever a live prefix stops, the
/// open word, number or address can be closed as one of these closes it, with
/// no more characters than are needed; and the fields behind it are as short as
/// they can be.
fn text_candidates(prefix: &[u8]) -> Vec<Vec<u8>> {
    let lines: [&[u8]; 6] = [
        b"PROXY TCP4 0.0.0.0 0.0.0.0 0 0\r\n",
        b"PROXY TCP6 :: :: 0 0\r\n",
        b"PROXY TCP6 ::0 :: 0 0\r\n",
        b"PROXY TCP6 :: ::0 0 0\r\n",
        b"PROXY UNKNOWN\r\n",
        b"PROXY UNKNOWN \r\n",
    ];
    let shared = prefix.len().min("PROXY TCP4".len());
    let alike = lines
        .into_iter()
        .filter(|line| line[..shared] == prefix[..shared]);
    let with_ends = |line: &[u8]| -> Vec<Vec<u8>> {
        let starts = 0..=line.len();
        starts
            .map(|start| [prefix, &line[start..]].concat())
            .collect()
    };
    alike.flat_map(with_ends).collect()
}

fn binary_candidates(prefix: &[u8]) -> Vec<Vec<u8>> {
    let with_lengths = |start: &[u8]| -> Vec<Vec<u8>> {
        let lows = [0, 12, 36, 216].into_iter();
        lows.flat_map(|low| block_candidates(&[start, &[low]].concat()))
            .collect()
    };
    match prefix.len() {
        // With byte 13 and the length zero, LOCAL and PROXY are whole at once,
        // and no header of version 2 is shorter.
        0..=13 => {
            let end = [&S[..], &[0x20, 0, 0, 0]].concat();
            vec![[prefix, &end[prefix.len()..]].concat()]
        }
        // A length of 0, or A of one of the kinds, is always good, and the
        // shortest that is.
        14 => with_lengths(&[prefix, &[0]].concat()),
        // So it is here with a high byte 0. With another, any low byte is good,
        // 0 too.
        15 => with_lengths(prefix),
        _ => block_candidates(prefix),
    }
}

/// Headers that begin with `start`, which has sixteen bytes or more: zeros are
/// added, and the next TLV takes all the rest. As one TLV fills any three bytes
/// or more, nothing else need be tried; only if the high length byte is there
/// and does not allow the TLV to take all, the low one is 0, and the TLV behind
/// takes the rest.
fn block_candidates(start: &[u8]) -> Vec<Vec<u8>> {
    let length = usize::from(u16::from_be_bytes([start[14], start[15]]));
    let mut zeros = start.to_vec();
    zeros.resize(start.len().max(16 + length), 0);
    let next = next_tlv(start);
    let mut candidates = vec![with_last_tlv(&zeros, next)];
    if start.len() == next + 2 {
        let behind = next + 3 + 256 * usize::from(start[next + 1]);
        candidates.push(with_last_tlv(&zeros, behind));
    }
    candidates.push(zeros);
    candidates
}

/// Where the first TLV starts whose head is not all in `start`.
fn next_tlv(start: &[u8]) -> usize {
    let address_block = match start[13] {
        0x11 | 0x12 => 12,
        0x21 | 0x22 => 36,
        _ => 216,
    };
    let mut next = 16 + address_block;
    while let Some(&[_, high, low]) = start.get(next..next + 3) {
        next += 3 + usize::from(u16::from_be_bytes([high, low]));
    }
    next
}

/// The header with a TLV at `place` that takes all the rest, if there is room.
fn with_last_tlv(header: &[u8], place: usize) -> Vec<u8> {
    let mut header = header.to_vec();
    if let Some(rest) = header.len().checked_sub(place + 3) {
        let length = u16::try_from(rest).unwrap().to_be_bytes();
        header[place + 1..place + 3].copy_from_slice(&length);
    }
    header
}

/// Bytes that matter in a text line, and some that do not.
const TEXT_BYTES: &[u8] = b"PROXYTCPUNKNOWN46  ..::0123456789afAFgx-+\r\r\n\n\0\xFF";

fn random_ip4(random: &mut Random) -> String {
    let octet = |random: &mut Random| random.pick(&[0, 1, 9, 10, 99, 100, 199, 200, 249, 250, 255]);
    let [a, b, c, d] = [0; 4].map(|_| octet(random));
    format!("{a}.{b}.{c}.{d}")
}

fn random_groups(random: &mut Random, count: usize) -> String {
    let group = |_| random.pick(&["0", "1", "a", "F0", "0c9", "ABCD", "ffff", "0000"]);
    let groups: Vec<&str> = (0..count).map(group).collect();
    groups.join(":")
}

fn random_ip6(random: &mut Random) -> String {
    if random.once_in(3) {
        return random_groups(random, 8);
    }
    let before = random.below(8);
    let after = random.below(8 - before);
    let (before, after) = (random_groups(random, before), random_groups(random, after));
    format!("{before}::{after}")
}

fn random_line(random: &mut Random) -> Vec<u8> {
    let [source, destination] =
        [0; 2].map(|_| random.pick(&[0, 7, 10, 443, 6_553, 9_999, 59_999, 65_499, 65_529, 65_535]));
    let line = match random.below(3) {
        0 => {
            let [from, to] = [0; 2].map(|_| random_ip4(random));
            format!("PROXY TCP4 {from} {to} {source} {destination}\r\n")
        }
        1 => {
            let [from, to] = [0; 2].map(|_| random_ip6(random));
            format!("PROXY TCP6 {from} {to} {source} {destination}\r\n")
        }
        _ => {
            let mut line = b"PROXY UNKNOWN".to_vec();
            if random.once_in(4) {
                line.extend(b"\r\n");
                return line;
            }
            let length = random.pick(&[0, 1, 2, 5, 30, 88, 89, 90, 91, 92, 93]);
            line.push(b' ');
            line.extend((0..length).map(|_| random.pick(b"xxxxxxx\r\n\0")));
            line.extend(b"\r\n");
            return line;
        }
    };
    line.into_bytes()
}

/// An area of TLVs, not longer than some three hundred bytes.
fn random_area(random: &mut Random) -> Vec<u8> {
    let mut area = Vec::new();
    for _ in 0..random.below(5) {
        let length = random.pick(&[0, 0, 1, 2, 3, 4, 17]);
        let length = if random.once_in(20) {
            253 + length
        } else {
            length
        };
        let [high, low] = u16::try_from(length).unwrap().to_be_bytes();
        area.extend([random.byte(), high, low]);
        area.extend((0..length).map(|_| random.byte()));
    }
    area
}

fn random_binary(random: &mut Random) -> Vec<u8> {
    let family = match random.once_in(4) {
        true => random.pick(&UNSPECIFIED),
        false => random.pick(&[0x11, 0x12, 0x21, 0x22, 0x31, 0x32]),
    };
    let command = if random.once_in(6) { 0x20 } else { 0x21 };
    let a = match family {
        0x11 | 0x12 => 12,
        0x21 | 0x22 => 36,
        0x31 | 0x32 => 216,
        _ => 0,
    };
    let mut block: Vec<u8> = (0..a).map(|_| random.byte()).collect();
    block.extend(random_area(random));
    let wrong = if random.once_in(3) {
        random.below(5)
    } else {
        0
    };
    binary(command, family, block.len() + wrong, &block)
}

/// Alters a few bytes, drops the end or adds one.
fn disturbed(random: &mut Random, mut input: Vec<u8>, bytes: &[u8]) -> Vec<u8> {
    for _ in 0..random.below(3) {
        let place = random.below(input.len());
        match random.below(3) {
            0 => input[place] = random.pick(bytes),
            1 => input.insert(place, random.pick(bytes)),
            _ => {
                input.remove(place);
            }
        }
    }
    match random.below(3) {
        0 => input.truncate(random.below(input.len() + 1)),
        1 => input.extend((0..random.below(6)).map(|_| random.pick(bytes))),
        _ => {}
    }
    input
}

/// Checks one input in every way that is open to all inputs.
fn check(input: &[u8]) {
    let verdict = judge(input);
    assert_eq!(
        verdict,
        defined_verdict(input, fewest_by_candidates),
        "{input:?}"
    );
    let mut one_by_one = Judge::new();
    let mut over = None;
    for length in 0..=input.len() {
        let so_far = one_by_one.verdict();
        assert_eq!(so_far, judge(&input[..length]), "{length} of {input:?}");
        // Once a verdict is not "more", it stays as it is.
        let first = over.get_or_insert_with(|| so_far.clone());
        if matches!(first, Verdict::More(_)) {
            over = None;
        } else {
            assert_eq!(so_far, *first, "{length} of {input:?}");
        }
        if let Some(&next) = input.get(length) {
            one_by_one.push(next);
        }
    }
    assert_eq!(one_by_one.verdict(), verdict);
}

#[test]
fn random_text_lines() {
    let mut random = Random::seeded(0x5EED_0001);
    for _ in 0..10_000 {
        let line = random_line(&mut random);
        check(&line);
        check(&disturbed(&mut random, line, TEXT_BYTES));
    }
}

#[test]
fn random_binary_headers() {
    let mut random = Random::seeded(0x5EED_0002);
    let bytes: Vec<u8> = (0..=0xFF).chain([0; 200]).chain(0..=20).collect();
    for _ in 0..4_000 {
        let header = random_binary(&mut random);
        check(&disturbed(&mut random, header, &bytes));
    }
}

#[test]
fn random_bytes() {
    let mut random = Random::seeded(0x5EED_0003);
    for _ in 0..2_000 {
        let opening: &[u8] = random.pick(&[b"", b"PROXY ", b"PROXY TCP6 ", &S, &S[..5]]);
        let behind = (0..random.below(8)).map(|_| random.byte());
        let input: Vec<u8> = opening.iter().copied().chain(behind).collect();
        check(&input);
    }
}

/// All inputs of up to three bytes from those that matter at the start.
#[test]
fn all_shortest_inputs() {
    let bytes = b"\0\n\rPROX ";
    check(&[]);
    for &first in bytes {
        check(&[first]);
        for &second in bytes {
            check(&[first, second]);
            for &third in bytes {
                check(&[first, second, third]);
            }
        }
    }
}

/// What can come behind one byte, for all bytes at each place of some headers.
#[test]
fn every_byte_at_every_place() {
    for header in [
        b"PROXY TCP4 25.0.10.199 255.1.2.3 6553 65535\r\n".to_vec(),
        b"PROXY TCP6 1:2:3:4:5:6:7:: a::B:c 0 1\r\n".to_vec(),
        b"PROXY UNKNOWN \r\r\n".to_vec(),
        b"PROXY UNKNOWN\r\n".to_vec(),
        binary(0x21, 0x11, 22, &[0; 22]),
        binary(0x20, 0xFF, 1, &[0]),
    ] {
        for place in 0..header.len() {
            for byte in 0..=0xFF {
                let mut input = header[..=place].to_vec();
                input[place] = byte;
                let defined = defined_verdict(&input, fewest_by_candidates);
                assert_eq!(judge(&input), defined, "{input:?}");
            }
        }
    }
}

/// All areas of up to seven bytes 0 to 4. Values have at most four bytes there,
/// so the whole areas among them show every good length.
#[test]
fn all_small_tlv_areas() {
    for length in 3..=7 {
        let start = binary(0x21, 0x11, 12 + length, &[0; 12]);
        let count = 5_usize.pow(length as u32);
        let area = |code: usize| -> Vec<u8> {
            let byte = |place| (code / 5_usize.pow(place as u32) % 5) as u8;
            (0..length).map(byte).collect()
        };
        let header = |code| [&start[..], &area(code)].concat();
        let headers: Vec<Vec<u8>> = (0..count).map(header).collect();
        let mut live = std::collections::HashSet::new();
        for whole in headers.iter().filter(|bytes| whole_header(bytes).is_some()) {
            live.extend((0..=whole.len()).map(|end| whole[..end].to_vec()));
        }
        for input in &headers {
            let behind = |prefix: &[u8]| start.len() + length - prefix.len();
            let fewest = |prefix: &[u8]| live.contains(prefix).then(|| behind(prefix));
            let defined = defined_verdict(input, fewest);
            assert_eq!(judge(input), defined, "{input:?}");
        }
    }
}
