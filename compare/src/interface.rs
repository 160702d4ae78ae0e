//! Comparisons through the C interface.
use crate::connection::{SIZE, STATE};
use crate::outcome::Outcome;
use crate::random::Random;
use crate::{checksum_headers, connection, expected, headers, hex, library, records, whole, Left, NUMBERS, STORED_VERSIONS};
use second::Verdict;

/// Byte 13 with every value under LOCAL and PROXY, and a block of each of these lengths: every prefix, also with bytes behind; of the longest those
/// around the head's end and the block's. Zeros are TLVs behind an address block; the bytes of `addresses` are none.
pub fn bytes_13() -> Outcome {
    let mut outcome = Outcome::new("values of byte 13");
    for length in [0, 1, 2, 11, 12, 13, 14, 15, 35, 36, 39, 216, 219, 65_535] {
        for block in [vec![0; length], headers::addresses(length)] {
            for (command, family) in (0..=255).flat_map(|family| [(0x20, family), (0x21, family)]) {
                let header = headers::block(command, family, &block);
                let in_the_middle = |end| header.len() > 300 && 17 < end && end + 3 < header.len();
                whole::read_prefixes(&mut outcome, &[&header[..], b"GET "].concat(), |end| 13 <= end && !in_the_middle(end));
            }
        }
    }
    outcome
}

/// Record, version, length and TLV area of every input, or how few bytes are missing; read plain and checked.
pub fn readings<'a>(inputs: impl Iterator<Item = &'a Vec<u8>>) -> Outcome {
    let mut outcome = Outcome::new("");
    let mut more = 0;
    for input in inputs {
        let verdict = second::judge(input);
        more += usize::from(matches!(verdict, Verdict::More(_)));
        outcome.reads_checked(input, verdict.clone());
        outcome.reads(input, verdict);
    }
    outcome.name = format!("whole readings, {more} of them \"more\"");
    outcome
}

/// A header that was written is whole, says this connection, and both readers read it; where it fills its room, every prefix of it too.
fn reads_back(outcome: &mut Outcome, written: &Left, connection: &[u8]) {
    if written.answer != 0 {
        return;
    }
    let header = &written.bytes[..written.numbers[0] as usize];
    let verdict = second::judge(header);
    outcome.add(match &verdict {
        Verdict::Accepted(read) if read.length == header.len() && connection::bytes(&read.record)[..] == *connection => Ok(()),
        verdict => Err(format!("{} is read back as {verdict:?}", hex(header))),
    });
    outcome.reads(header, verdict);
    if header.len() == written.bytes.len() {
        whole::read_prefixes(outcome, header, |_| true);
        whole::walk(outcome, header);
    }
}

/// Types of the TLVs in areas at random.
const TYPES: [u8; 4] = [0, 1, 2, 3];

/// Every place of each area, and two beyond it.
pub fn steps(random: &mut Random, areas: usize) -> Outcome {
    let mut outcome = Outcome::new("steps");
    for _ in 0..areas {
        let area = records::area(&TYPES, random);
        for at in (0..=area.len() + 2).chain([usize::MAX]) {
            let input = || format!("{} at {at}", hex(&area));
            outcome.same(&library::step(&area, at, NUMBERS), &expected::step(&area, at, NUMBERS), input);
            outcome.same(&library::next(&area, at, NUMBERS), &expected::next(&area, at, NUMBERS), input);
        }
    }
    outcome
}

/// Every limit from 0 to two more than the TLVs, for types that are there and one that is not.
pub fn lookups(random: &mut Random, areas: usize) -> Outcome {
    let mut outcome = Outcome::new("lookups");
    for _ in 0..areas {
        let area = records::area(&TYPES, random);
        for wanted in 0..6 {
            for limit in (0..10).chain([usize::MAX]) {
                outcome.same(&library::lookup(&area, wanted, limit, NUMBERS), &expected::lookup(&area, wanted, limit, NUMBERS), || {
                    format!("{} for {wanted}, limit {limit}", hex(&area))
                });
            }
        }
    }
    outcome
}

/// Every room from none at all to three bytes more than what is to be written; for long output those at both ends.
pub fn rooms(length: usize) -> impl Iterator<Item = usize> {
    (0..length + 4).filter(move |room| length < 300 || *room < 20 || length < *room + 4)
}

/// Room for the numbers to spare, or now and then any number of them.
pub fn numbers(random: &mut Random) -> usize {
    if random.below(4) == 0 {
        random.below(NUMBERS)
    } else {
        NUMBERS
    }
}

/// The bytes of a connection's address block; 0 if it is none.
pub fn address_block(connection: &[u8]) -> usize {
    connection::record(connection).map_or(0, |record| record.kind.address_block_length())
}

/// Version 1 lines in every room.
pub fn lines(random: &mut Random, count: usize) -> Outcome {
    let mut outcome = Outcome::new("version 1 lines");
    for _ in 0..count {
        let connection = records::any(random);
        line(&mut outcome, &connection, numbers(random));
    }
    outcome
}

/// The version 1 line of a connection in every room; what is written reads back.
pub fn line(outcome: &mut Outcome, connection: &[u8], numbers: usize) {
    for room in rooms(104) {
        let here = library::write_v1(connection, room, numbers);
        reads_back(outcome, &here, connection);
        outcome.same(&here, &expected::write_v1(connection, room, numbers), || format!("{} with {numbers} numbers in {room} bytes", hex(connection)));
    }
}

/// Version 2 headers with whole and damaged TLV areas, now and then of 65,535 bytes and about, in every room; what is written reads back.
pub fn blocks(random: &mut Random, count: usize) -> Outcome {
    let mut outcome = Outcome::new("version 2 headers");
    for _ in 0..count {
        let connection = records::any(random);
        let mut area = records::area(&TYPES, random);
        let block = address_block(&connection);
        if random.below(20) == 0 {
            area = records::longest_area(block, random);
        }
        let numbers = numbers(random);
        for room in rooms(16 + block + area.len()) {
            let here = library::write_v2(&connection, &area, room, numbers);
            reads_back(&mut outcome, &here, &connection);
            outcome.same(&here, &expected::write_v2(&connection, &area, room, numbers), || {
                format!("{} with {} and {numbers} numbers in {room} bytes", hex(&connection), hex(&area))
            });
        }
    }
    outcome
}

/// Every kind code, of a connection of zeros and another of ones.
pub fn kind_codes() -> Outcome {
    let mut outcome = Outcome::new("kind codes");
    for code in 0..=255 {
        for fill in [0, 1] {
            let mut connection = [fill; SIZE];
            connection[0] = code;
            for area in [&[][..], &[4, 0, 0]] {
                writes(&mut outcome, &connection, area, 300, NUMBERS);
            }
        }
    }
    outcome
}

/// Every state byte with every kind code, of connections of zeros, in room enough and none.
pub fn states() -> Outcome {
    let mut outcome = Outcome::new("state bytes");
    for (code, state) in (0..=255).flat_map(|code| (0..=255).map(move |state| (code, state))) {
        let mut connection = [0; SIZE];
        connection[0] = code;
        connection[STATE] = state;
        for room in [0, 300] {
            writes(&mut outcome, &connection, &[], room, NUMBERS);
        }
    }
    outcome
}

/// Every writer with the same connection, room and numbers.
fn writes(outcome: &mut Outcome, connection: &[u8], area: &[u8], room: usize, numbers: usize) {
    let input = || format!("{} with {} and {numbers} numbers in {room} bytes", hex(connection), hex(area));
    outcome.same(&library::write_v1(connection, room, numbers), &expected::write_v1(connection, room, numbers), input);
    outcome.same(&library::write_v2(connection, area, room, numbers), &expected::write_v2(connection, area, room, numbers), input);
    outcome.same(&library::write_v2_checked(connection, area, room, numbers), &expected::write_v2_checked(connection, area, room, numbers), input);
    for version in STORED_VERSIONS {
        outcome.same(&library::store(version, connection, room, numbers), &expected::store(version, connection, room, numbers), || {
            format!("{} in stored version {}", input(), version as u8)
        });
    }
}

/// Every length of the numbers and of the connection, lent and given, up to eight bytes too many.
pub fn buffers() -> Outcome {
    let mut outcome = Outcome::new("buffer lengths");
    let line = b"PROXY TCP4 192.168.0.1 192.168.0.11 56324 443\r\n";
    let Verdict::Accepted(header) = second::judge(line) else { panic!("W02 is a whole header") };
    let area = [4, 0, 1, 9];
    let mut given = [&connection::bytes(&header.record)[..], &[0; 8]].concat();
    for (state, numbers) in [0, 1].into_iter().flat_map(|state| (0..=NUMBERS).map(move |numbers| (state, numbers))) {
        given[STATE] = state;
        for length in 0..=given.len() {
            writes(&mut outcome, &given[..length], &area, 60, numbers);
        }
        for room in 0..60 {
            writes(&mut outcome, &given[..SIZE], &area, room, numbers);
        }
    }
    // Accepted, matched, with a wrong checksum, more and refused.
    let [right, wrong] = [checksum_headers::right().swap_remove(0), checksum_headers::wrong().swap_remove(0)];
    for (input, numbers) in [line, &right[..], &wrong, b"PROXY", b"GET"].into_iter().flat_map(|input| (0..=NUMBERS).map(move |numbers| (input, numbers))) {
        for length in 0..=given.len() {
            let told = || format!("{} with {numbers} numbers and {length} bytes", hex(input));
            outcome.same(&library::read(input, numbers, length), &expected::read(input, numbers, length), told);
            outcome.same(&library::read_checked(input, numbers, length), &expected::read_checked(input, numbers, length), told);
        }
    }
    for numbers in 0..=NUMBERS {
        outcome.same(&library::step(&area, 0, numbers), &expected::step(&area, 0, numbers), || format!("{numbers} numbers"));
        outcome.same(&library::next(&area, 0, numbers), &expected::next(&area, 0, numbers), || format!("{numbers} numbers"));
        outcome.same(&library::lookup(&area, 4, 1, numbers), &expected::lookup(&area, 4, 1, numbers), || format!("{numbers} numbers"));
    }
    outcome
}
