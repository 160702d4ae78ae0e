//! The proved library through its C interface (include/dawnhawse.h), with canaries on both sides of each buffer that it may write, of the connections and
//! forms that are stored, loaded and moved, of a table of prefixes and the bytes that it is used on, and of the value of TLV 0x20 and its pieces.
use crate::ssl_values::Given;
use crate::{hex, Left, BYTE, NUMBER};
use second::StoredVersion;

extern "C" {
    fn dawnhawse_read(bytes: *const u8, bytes_len: usize, numbers: *mut u64, numbers_len: usize, connection: *mut u8, connection_len: usize) -> u32;
    fn dawnhawse_read_checked(bytes: *const u8, bytes_len: usize, numbers: *mut u64, numbers_len: usize, connection: *mut u8, connection_len: usize) -> u32;
    fn dawnhawse_step(area: *const u8, area_len: usize, at: usize, numbers: *mut u64, numbers_len: usize) -> u32;
    fn dawnhawse_next(area: *const u8, area_len: usize, at: usize, numbers: *mut u64, numbers_len: usize) -> u32;
    fn dawnhawse_lookup(area: *const u8, area_len: usize, wanted: u8, limit: usize, numbers: *mut u64, numbers_len: usize) -> u32;
    fn dawnhawse_write_v1(connection: *const u8, connection_len: usize, out: *mut u8, out_len: usize, numbers: *mut u64, numbers_len: usize) -> u32;
    #[rustfmt::skip]
    fn dawnhawse_write_v2(connection: *const u8, connection_len: usize, area: *const u8, area_len: usize, out: *mut u8, out_len: usize, numbers: *mut u64, numbers_len: usize) -> u32;
    #[rustfmt::skip]
    fn dawnhawse_write_v2_checked(connection: *const u8, connection_len: usize, area: *const u8, area_len: usize, out: *mut u8, out_len: usize, numbers: *mut u64, numbers_len: usize) -> u32;
    fn dawnhawse_store(connection: *const u8, connection_len: usize, out: *mut u8, out_len: usize, numbers: *mut u64, numbers_len: usize) -> u32;
    fn dawnhawse_store_v2(connection: *const u8, connection_len: usize, out: *mut u8, out_len: usize, numbers: *mut u64, numbers_len: usize) -> u32;
    fn dawnhawse_load(stored: *const u8, stored_len: usize, connection: *mut u8, connection_len: usize) -> u32;
    fn dawnhawse_load_v2(stored: *const u8, stored_len: usize, connection: *mut u8, connection_len: usize) -> u32;
    fn dawnhawse_forward(stored: *const u8, stored_len: usize, out: *mut u8, out_len: usize, numbers: *mut u64, numbers_len: usize) -> u32;
    fn dawnhawse_back(stored: *const u8, stored_len: usize, out: *mut u8, out_len: usize, numbers: *mut u64, numbers_len: usize) -> u32;
    fn dawnhawse_crc32c(bytes: *const u8, bytes_len: usize) -> u32;
    fn dawnhawse_doorman(table: *const u8, table_len: usize, bytes: *const u8, bytes_len: usize, numbers: *mut u64, numbers_len: usize) -> u32;
    fn dawnhawse_read_ssl(value: *const u8, value_len: usize, numbers: *mut u64, numbers_len: usize) -> u32;
    #[rustfmt::skip]
    fn dawnhawse_write_ssl(
        client: u8, verify: u32, present: u8, version: *const u8, version_len: usize, common_name: *const u8, common_name_len: usize, cipher: *const u8,
        cipher_len: usize, signature: *const u8, signature_len: usize, key: *const u8, key_len: usize, out: *mut u8, out_len: usize, numbers: *mut u64,
        numbers_len: usize,
    ) -> u32;
}

/// How many canaries stand on either side.
const EDGE: usize = 8;

/// A lent buffer between its canaries; it is filled with them too.
struct Lent<T> {
    all: Vec<T>,
    canary: T,
}

impl<T: Copy + PartialEq> Lent<T> {
    fn new(canary: T, length: usize) -> Self {
        Lent { all: vec![canary; EDGE + length + EDGE], canary }
    }

    fn pointer(&mut self) -> *mut T {
        self.all[EDGE..].as_mut_ptr()
    }

    /// What it holds after a call on this input; the canaries must stand.
    fn left(mut self, input: &[u8]) -> Vec<T> {
        let end = self.all.len() - EDGE;
        let stand = self.all[..EDGE].iter().chain(&self.all[end..]).all(|x| *x == self.canary);
        assert!(stand, "{}: a byte beside a lent buffer was written", hex(input));
        self.all.truncate(end);
        self.all.drain(..EDGE);
        self.all
    }
}

impl Lent<u8> {
    /// Bytes to be read, between canaries.
    fn holding(bytes: &[u8]) -> Self {
        let mut lent = Lent::new(BYTE, bytes.len());
        lent.all[EDGE..][..bytes.len()].copy_from_slice(bytes);
        lent
    }

    /// They must be as they were.
    fn unchanged(self, input: &[u8]) {
        assert!(self.left(input) == input, "{}: bytes lent to be read were written", hex(input));
    }
}

/// Lends numbers and bytes of these lengths to a call on this input.
fn lend(input: &[u8], numbers_len: usize, bytes_len: usize, call: impl FnOnce(*mut u64, *mut u8) -> u32) -> Left {
    let mut numbers = Lent::new(NUMBER, numbers_len);
    let mut bytes = Lent::new(BYTE, bytes_len);
    let answer = call(numbers.pointer(), bytes.pointer());
    Left { answer, numbers: numbers.left(input), bytes: bytes.left(input) }
}

/// Lends the input to a call, which must leave it as it was.
fn lend_input(input: &[u8], call: impl FnOnce(*const u8) -> Left) -> Left {
    let mut lent = Lent::holding(input);
    let left = call(lent.pointer());
    lent.unchanged(input);
    left
}

/// Lends the input, numbers and bytes.
fn lend_all(input: &[u8], numbers_len: usize, bytes_len: usize, call: impl FnOnce(*const u8, *mut u64, *mut u8) -> u32) -> Left {
    lend_input(input, |lent| lend(input, numbers_len, bytes_len, |numbers, bytes| call(lent, numbers, bytes)))
}

// SAFETY, of each call below: a pointer is valid for the length beside it, and what may be written overlaps nothing.

pub fn read(bytes: &[u8], numbers_len: usize, connection_len: usize) -> Left {
    lend(bytes, numbers_len, connection_len, |numbers, connection| unsafe {
        dawnhawse_read(bytes.as_ptr(), bytes.len(), numbers, numbers_len, connection, connection_len)
    })
}

pub fn read_checked(bytes: &[u8], numbers_len: usize, connection_len: usize) -> Left {
    lend(bytes, numbers_len, connection_len, |numbers, connection| unsafe {
        dawnhawse_read_checked(bytes.as_ptr(), bytes.len(), numbers, numbers_len, connection, connection_len)
    })
}

pub fn step(area: &[u8], at: usize, numbers_len: usize) -> Left {
    lend(area, numbers_len, 0, |numbers, _| unsafe { dawnhawse_step(area.as_ptr(), area.len(), at, numbers, numbers_len) })
}

pub fn next(area: &[u8], at: usize, numbers_len: usize) -> Left {
    lend(area, numbers_len, 0, |numbers, _| unsafe { dawnhawse_next(area.as_ptr(), area.len(), at, numbers, numbers_len) })
}

pub fn lookup(area: &[u8], wanted: u8, limit: usize, numbers_len: usize) -> Left {
    lend(area, numbers_len, 0, |numbers, _| unsafe { dawnhawse_lookup(area.as_ptr(), area.len(), wanted, limit, numbers, numbers_len) })
}

pub fn write_v1(connection: &[u8], room: usize, numbers_len: usize) -> Left {
    lend(connection, numbers_len, room, |numbers, out| unsafe { dawnhawse_write_v1(connection.as_ptr(), connection.len(), out, room, numbers, numbers_len) })
}

pub fn write_v2(connection: &[u8], area: &[u8], room: usize, numbers_len: usize) -> Left {
    lend(connection, numbers_len, room, |numbers, out| unsafe {
        dawnhawse_write_v2(connection.as_ptr(), connection.len(), area.as_ptr(), area.len(), out, room, numbers, numbers_len)
    })
}

pub fn write_v2_checked(connection: &[u8], area: &[u8], room: usize, numbers_len: usize) -> Left {
    lend(connection, numbers_len, room, |numbers, out| unsafe {
        dawnhawse_write_v2_checked(connection.as_ptr(), connection.len(), area.as_ptr(), area.len(), out, room, numbers, numbers_len)
    })
}

pub fn store(version: StoredVersion, connection: &[u8], room: usize, numbers_len: usize) -> Left {
    let store = match version {
        StoredVersion::One => dawnhawse_store,
        StoredVersion::Two => dawnhawse_store_v2,
    };
    lend_all(connection, numbers_len, room, |lent, numbers, out| unsafe { store(lent, connection.len(), out, room, numbers, numbers_len) })
}

pub fn load(version: StoredVersion, stored: &[u8], connection_len: usize) -> Left {
    let load = match version {
        StoredVersion::One => dawnhawse_load,
        StoredVersion::Two => dawnhawse_load_v2,
    };
    lend_all(stored, 0, connection_len, |lent, _, connection| unsafe { load(lent, stored.len(), connection, connection_len) })
}

/// Forward from version 1, back from version 2.
pub fn move_from(version: StoredVersion, stored: &[u8], room: usize, numbers_len: usize) -> Left {
    let moving = match version {
        StoredVersion::One => dawnhawse_forward,
        StoredVersion::Two => dawnhawse_back,
    };
    lend_all(stored, numbers_len, room, |lent, numbers, out| unsafe { moving(lent, stored.len(), out, room, numbers, numbers_len) })
}

/// The checksum's number is its answer.
pub fn crc32c(bytes: &[u8]) -> Left {
    lend(bytes, 0, 0, |_, _| unsafe { dawnhawse_crc32c(bytes.as_ptr(), bytes.len()) })
}

/// A written canary is told with the table and the bytes behind it.
pub fn doorman(table: &[u8], bytes: &[u8], numbers_len: usize) -> Left {
    let input = [table, bytes].concat();
    lend_input(table, |rows| {
        lend_input(bytes, |lent| {
            lend(&input, numbers_len, 0, |numbers, _| unsafe { dawnhawse_doorman(rows, table.len(), lent, bytes.len(), numbers, numbers_len) })
        })
    })
}

pub fn read_ssl(value: &[u8], numbers_len: usize) -> Left {
    lend_all(value, numbers_len, 0, |lent, numbers, _| unsafe { dawnhawse_read_ssl(lent, value.len(), numbers, numbers_len) })
}

/// Each piece is lent, those too that are not there. A written canary is told with client, verify and present, and the pieces behind them.
pub fn write_ssl(given: &Given, room: usize, numbers_len: usize) -> Left {
    let Given { client, verify, present, pieces } = *given;
    let mut lent = pieces.map(|piece| piece.map(Lent::holding));
    let [a, b, c, d, e] = lent.each_mut().map(|piece| piece.as_mut().map_or(std::ptr::null(), |piece| piece.pointer().cast_const()));
    let [a_len, b_len, c_len, d_len, e_len] = pieces.map(|piece| piece.map_or(0, <[u8]>::len));
    let input = [&[client][..], &verify.to_be_bytes(), &[present], &pieces.map(Option::unwrap_or_default).concat()].concat();
    let left = lend(&input, numbers_len, room, |numbers, out| unsafe {
        dawnhawse_write_ssl(client, verify, present, a, a_len, b, b_len, c, c_len, d, d_len, e, e_len, out, room, numbers, numbers_len)
    });
    for (lent, piece) in lent.into_iter().zip(pieces) {
        if let (Some(lent), Some(piece)) = (lent, piece) {
            lent.unchanged(piece);
        }
    }
    left
}
