//! The version 2 writer with the request for a checksum (document 02, K6), compared through the C interface.
use crate::checksum_headers::CHECKSUM;
use crate::connection::STATE;
use crate::headers::{self, tlv, FAMILIES};
use crate::interface::{address_block, numbers, rooms};
use crate::outcome::Outcome;
use crate::random::Random;
use crate::{checked_reading, connection, expected, hex, library, records, Left, CONNECTION, NUMBERS};
use second::Verdict;

/// The bytes of the TLV that is added.
const ADDED: usize = 7;

/// Connections in either state with areas whole and damaged, some with a checksum TLV already, in every room; what is written reads back.
pub fn generated(random: &mut Random, count: usize) -> Outcome {
    let mut outcome = Outcome::new("version 2 headers with a checksum");
    for _ in 0..count {
        let mut connection = records::any(random);
        connection[STATE] ^= random.below(2) as u8;
        let block = address_block(&connection);
        let area = match random.below(40) {
            0 => records::longest_area(block + ADDED, random),
            1..=9 => records::area(&[0, 1, 2, CHECKSUM], random),
            _ => records::area(&[0, 1, 2, 4], random),
        };
        let numbers = numbers(random);
        for room in rooms(16 + block + area.len() + ADDED) {
            writes(&mut outcome, &connection, &area, room, numbers);
        }
    }
    outcome
}

/// Listed connections with good areas and bad ones, rooms at the header's end, and numbers enough or not: every refusal, alone and beside the later ones.
pub fn refusals() -> Outcome {
    let mut outcome = Outcome::new("version 2 headers with a checksum, written or refused");
    for connection in records::listed() {
        for area in areas() {
            let length = 16 + address_block(&connection) + area.len() + ADDED;
            for room in [0, length - ADDED - 1, length - ADDED, length - 1, length, length + 1] {
                for numbers in [0, 3, 4, NUMBERS] {
                    writes(&mut outcome, &connection, &area, room, numbers);
                }
            }
        }
    }
    outcome
}

fn areas() -> Vec<Vec<u8>> {
    let [other, checksum] = [tlv(5, 2), tlv(CHECKSUM, 4)];
    vec![
        vec![],
        other.clone(),
        [&other[..], &[4, 0, 0]].concat(),
        [&[4, 0, 4], &[3, 0, 1, 9][..]].concat(),
        checksum.clone(),
        [&checksum[..], &other].concat(),
        [&other[..], &checksum].concat(),
        [&other[..], &checksum, &other].concat(),
        [&checksum[..], &checksum].concat(),
        tlv(CHECKSUM, 0),
        tlv(CHECKSUM, 5),
        vec![4],
        vec![4, 0],
        vec![4, 0, 1],
        [&other[..], &[0]].concat(),
        [&checksum[..], &[0]].concat(),
    ]
}

/// Areas with which block and added TLV have 65,535 bytes, up to nine more and one fewer: of one TLV, of as many as there is room for, with a checksum TLV, and
/// ill-formed.
pub fn longest() -> Outcome {
    let mut outcome = Outcome::new("the longest version 2 headers with a checksum");
    for (family, size) in FAMILIES {
        let connection = connection_of(&headers::block(0x21, family, &headers::addresses(size)));
        for more in 0..=10 {
            let length = 65_534 - size - ADDED + more;
            for area in long_areas(length) {
                for room in [0, 65_543, 65_544, 65_550, 65_551, 65_552, 65_562] {
                    writes(&mut outcome, &connection, &area, room, NUMBERS);
                }
            }
        }
    }
    outcome
}

fn long_areas(length: usize) -> [Vec<u8>; 4] {
    let one = tlv(4, length - 3);
    let empty = vec![tlv(5, 0); length / 3 - 2].concat();
    let many = [&empty[..], &tlv(4, length - empty.len() - 3)].concat();
    let mut there = many.clone();
    there[3] = CHECKSUM;
    let mut ill = one.clone();
    ill[2] ^= 1;
    [one, many, there, ill]
}

/// The connection that the second program reads in the header.
fn connection_of(header: &[u8]) -> Vec<u8> {
    let Verdict::Accepted(header) = second::judge(header) else { panic!("{} is a whole header", hex(header)) };
    connection::bytes(&header.record).to_vec()
}

fn writes(outcome: &mut Outcome, connection: &[u8], area: &[u8], room: usize, numbers: usize) {
    let here = library::write_v2_checked(connection, area, room, numbers);
    if here.answer == 0 {
        reads_back(outcome, &here, connection, area);
    }
    outcome.same(&here, &expected::write_v2_checked(connection, area, room, numbers), || {
        format!("{} with {} and {numbers} numbers in {room} bytes", hex(connection), hex(area))
    });
}

/// What was written, with what is left of its room behind it, is a header of this connection, matched, with this area and the added TLV; both readers read it, and
/// where it fills its room every prefix of it.
fn reads_back(outcome: &mut Outcome, written: &Left, connection: &[u8], area: &[u8]) {
    let input = &written.bytes;
    let start = 16 + address_block(connection);
    let length = start + area.len() + ADDED;
    let read = library::read_checked(input, NUMBERS, CONNECTION);
    let same = read.answer == 0
        && read.numbers[..4] == [length, 2, start, area.len() + ADDED].map(|number| number as u64)
        && read.bytes[..STATE] == connection[..STATE]
        && read.bytes[STATE] == 1
        && input.get(start..length - 4) == Some(&[area, &[CHECKSUM, 0, 4]].concat());
    outcome.add(if same { Ok(()) } else { Err(format!("{} is read back as {read}", hex(input))) });
    if input.len() == length && length < 1000 {
        checked_reading::prefixes(outcome, input);
    } else {
        checked_reading::reads(outcome, input);
    }
}
