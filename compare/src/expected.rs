//! What the C functions must leave: the words of include/dawnhawse.h, with the second program's answers.
use crate::connection::{self, SIZE};
use crate::ssl_values::Given;
use crate::{Left, BYTE, NUMBER, SSL_NUMBERS};
use second::{Admission, Answer, Kind, Record, Ssl, Step, StoredVersion, Verdict};

const NO_ROOM: u32 = 14;
pub const END: u32 = 252;
pub const ABSENT: u32 = 253;
pub const GAVE_UP: u32 = 254;
pub const MORE: u32 = 255;

/// What is left where nothing is written.
pub fn untouched(answer: u32, numbers_len: usize, bytes_len: usize) -> Left {
    Left { answer, numbers: vec![NUMBER; numbers_len], bytes: vec![BYTE; bytes_len] }
}

/// So many numbers at the front of the numbers, which have room.
fn told<const N: usize>(answer: u32, first: [u64; N], numbers_len: usize, bytes: Vec<u8>) -> Left {
    let mut left = untouched(answer, numbers_len, 0);
    left.numbers[..N].copy_from_slice(&first);
    left.bytes = bytes;
    left
}

/// A connection at the front of its buffer, which has room.
fn with_connection(record: &Record, connection_len: usize) -> Vec<u8> {
    let mut bytes = vec![BYTE; connection_len];
    bytes[..SIZE].copy_from_slice(&connection::bytes(record));
    bytes
}

/// What is told of a caller, where there is room for it.
fn told_of(record: &Record, answer: u32, four: [u64; 4], numbers_len: usize, connection_len: usize) -> Left {
    if numbers_len < 4 || connection_len < SIZE {
        return untouched(NO_ROOM, numbers_len, connection_len);
    }
    told(answer, four, numbers_len, with_connection(record, connection_len))
}

pub fn read(bytes: &[u8], numbers_len: usize, connection_len: usize) -> Left {
    reading(second::judge(bytes), numbers_len, connection_len)
}

/// What is told of bytes with this verdict.
pub fn reading(verdict: Verdict, numbers_len: usize, connection_len: usize) -> Left {
    let nobody = Record::blank(Kind::Unspecified);
    let (answer, four, record) = match verdict {
        Verdict::Accepted(header) => {
            let area = &header.tlv_area;
            (0, [header.length as u64, u64::from(header.version), area.start as u64, area.len() as u64], header.record)
        }
        Verdict::More(least) => (MORE, [least as u64, 0, 0, 0], nobody),
        Verdict::Refused { number, place } => (u32::from(number), [place as u64, 0, 0, 0], nobody),
    };
    told_of(&record, answer, four, numbers_len, connection_len)
}

pub fn read_checked(bytes: &[u8], numbers_len: usize, connection_len: usize) -> Left {
    checked_reading(second::judge_checked(bytes), numbers_len, connection_len)
}

/// What is told of bytes with this verdict, or of a wrong checksum.
pub fn checked_reading(checked: Result<Verdict, u8>, numbers_len: usize, connection_len: usize) -> Left {
    match checked {
        Ok(verdict) => reading(verdict, numbers_len, connection_len),
        Err(number) => told_of(&Record::blank(Kind::Unspecified), u32::from(number), [0; 4], numbers_len, connection_len),
    }
}

pub fn step(area: &[u8], at: usize, numbers_len: usize) -> Left {
    stepped(second::step(area, at), at, numbers_len)
}

pub fn next(area: &[u8], at: usize, numbers_len: usize) -> Left {
    stepped(second::next(area, at), at, numbers_len)
}

/// What is told of a step from a place.
fn stepped(step: Step, at: usize, numbers_len: usize) -> Left {
    if numbers_len < 4 {
        return untouched(NO_ROOM, numbers_len, 0);
    }
    let (answer, four) = match step {
        Step::Shown { kind, value, next } => (0, [next as u64, u64::from(kind), value.start as u64, value.len() as u64]),
        Step::End => (END, [at as u64, 0, 0, 0]),
        Step::Refused { number } => (u32::from(number), [at as u64, 0, 0, 0]),
    };
    told(answer, four, numbers_len, Vec::new())
}

pub fn lookup(area: &[u8], wanted: u8, limit: usize, numbers_len: usize) -> Left {
    if numbers_len < 4 {
        return untouched(NO_ROOM, numbers_len, 0);
    }
    let found = second::lookup(area, wanted, limit);
    let answer = match found.answer {
        Answer::Found => 0,
        Answer::Absent => ABSENT,
        Answer::GaveUp => GAVE_UP,
        Answer::Refused { number } => u32::from(number),
    };
    told(answer, [found.count as u64, u64::from(wanted), found.start as u64, found.length as u64], numbers_len, Vec::new())
}

/// What is left where bytes are written. A refusal changes no buffer; too few numbers are refused where a short output is.
fn written(room: usize, numbers_len: usize, write: impl FnOnce(&mut [u8]) -> Result<usize, u32>) -> Left {
    let mut out = vec![BYTE; room];
    match write(&mut out) {
        Ok(_) if numbers_len < 4 => untouched(NO_ROOM, numbers_len, room),
        Ok(length) => told(0, [length as u64, 0, 0, 0], numbers_len, out),
        Err(number) => Left { answer: number, numbers: vec![NUMBER; numbers_len], bytes: out },
    }
}

/// The same of a connection's bytes.
fn written_of(connection: &[u8], room: usize, numbers_len: usize, write: impl FnOnce(&Record, &mut [u8]) -> Result<usize, u8>) -> Left {
    written(room, numbers_len, |out| write(&connection::record(connection)?, out).map_err(u32::from))
}

pub fn write_v1(connection: &[u8], room: usize, numbers_len: usize) -> Left {
    written_of(connection, room, numbers_len, second::write_v1)
}

pub fn write_v2(connection: &[u8], area: &[u8], room: usize, numbers_len: usize) -> Left {
    written_of(connection, room, numbers_len, |record, out| second::write_v2(record, area, out))
}

pub fn write_v2_checked(connection: &[u8], area: &[u8], room: usize, numbers_len: usize) -> Left {
    written_of(connection, room, numbers_len, |record, out| second::write_v2_checked(record, area, out))
}

pub fn store(version: StoredVersion, connection: &[u8], room: usize, numbers_len: usize) -> Left {
    written_of(connection, room, numbers_len, |record, out| second::store(version, record, out))
}

/// Forward from version 1, back from version 2.
pub fn move_from(version: StoredVersion, stored: &[u8], room: usize, numbers_len: usize) -> Left {
    let moving = match version {
        StoredVersion::One => second::forward,
        StoredVersion::Two => second::back,
    };
    written(room, numbers_len, |out| moving(stored, out).map_err(u32::from))
}

pub fn load(version: StoredVersion, stored: &[u8], connection_len: usize) -> Left {
    if connection_len < SIZE {
        return untouched(NO_ROOM, 0, connection_len);
    }
    let (answer, record) = match second::load(version, stored) {
        Ok(record) => (0, record),
        Err(number) => (u32::from(number), Record::blank(Kind::Unspecified)),
    };
    Left { answer, numbers: Vec::new(), bytes: with_connection(&record, connection_len) }
}

pub fn crc32c(bytes: &[u8]) -> Left {
    untouched(second::crc32c(bytes), 0, 0)
}

pub fn doorman(table: &[u8], bytes: &[u8], numbers_len: usize) -> Left {
    if numbers_len < 4 {
        return untouched(NO_ROOM, numbers_len, 0);
    }
    let (answer, four) = match second::admit(table, bytes) {
        Admission::Admitted { level, length, unique_id } => (0, [u64::from(level), length as u64, unique_id.start as u64, unique_id.len() as u64]),
        Admission::More(least) => (MORE, [least as u64, 0, 0, 0]),
        Admission::Refused { number, place } => (u32::from(number), [place as u64, 0, 0, 0]),
        Admission::NotAdmitted { number } => (u32::from(number), [0; 4]),
    };
    told(answer, four, numbers_len, Vec::new())
}

pub fn read_ssl(value: &[u8], numbers_len: usize) -> Left {
    if numbers_len < SSL_NUMBERS {
        return untouched(NO_ROOM, numbers_len, 0);
    }
    let (answer, twelve) = match second::read_ssl(value) {
        Ok(ssl) => (0, ssl_numbers(ssl)),
        Err(number) => (u32::from(number), [0; SSL_NUMBERS]),
    };
    told(answer, twelve, numbers_len, Vec::new())
}

/// Client and verify, then the start and the length of each piece, which are 0 and 0 where it is absent.
fn ssl_numbers(ssl: Ssl) -> [u64; SSL_NUMBERS] {
    let mut twelve = [0; SSL_NUMBERS];
    (twelve[0], twelve[1]) = (u64::from(ssl.client), u64::from(ssl.verify));
    for (two, piece) in twelve[2..].chunks_mut(2).zip(ssl.pieces) {
        let piece = piece.unwrap_or_default();
        two.copy_from_slice(&[piece.start as u64, piece.len() as u64]);
    }
    twelve
}

pub fn write_ssl(given: &Given, room: usize, numbers_len: usize) -> Left {
    written(room, numbers_len, |out| second::write_ssl(given.client, given.verify, given.there(), out).map_err(u32::from))
}
