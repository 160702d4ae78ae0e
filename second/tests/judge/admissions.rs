//! Rows of a prefix table, and headers from a source that the profile admits, by
//! hand.

use crate::helpers::*;
use second::{admit, Admission};
use std::ops::Range;

/// A row of IPv4: its address stands in the first four bytes.
pub fn ip4(address: [u8; 4], bits: u8, level: u8) -> Vec<u8> {
    [&[4, bits, level], &address[..], &[0; 12]].concat()
}

/// A row of IPv6, its address in groups.
pub fn ip6(address: [u16; 8], bits: u8, level: u8) -> Vec<u8> {
    [&[6, bits, level], &groups(address)[..]].concat()
}

/// A header from this IPv4 source with this TLV area, to 10.4.5.6.
pub fn ip4_header(source: [u8; 4], area: &[u8]) -> Vec<u8> {
    let block = [&source[..], &[10, 4, 5, 6, 0x12, 0x34, 0x56, 0x78], area].concat();
    binary(0x21, 0x11, block.len(), &block)
}

/// A header from this IPv6 source with this TLV area, to 2001:db8::9.
pub fn ip6_header(source: [u16; 8], area: &[u8]) -> Vec<u8> {
    let destination = groups([0x2001, 0xDB8, 0, 0, 0, 0, 0, 9]);
    let ports = [0x12, 0x34, 0x56, 0x78];
    let block = [&groups(source)[..], &destination, &ports, area].concat();
    binary(0x21, 0x21, block.len(), &block)
}

/// An area with one unique ID, "id".
pub const ID: [u8; 5] = [5, 0, 2, b'i', b'd'];

/// The answer with the level that the table gives to an IPv4 source: the header
/// has 28 bytes before the area.
pub fn ip4_answer(table: &[Vec<u8>], source: [u8; 4]) -> Admission {
    admit(&table.concat(), &ip4_header(source, &ID))
}

/// The same of an IPv6 source: here they are 52.
pub fn ip6_answer(table: &[Vec<u8>], source: [u16; 8]) -> Admission {
    admit(&table.concat(), &ip6_header(source, &ID))
}

/// What is answered to `ip4_header` with `ID`, and to `ip6_header`.
pub fn ip4_level(level: u8) -> Admission {
    admitted(level, 33, 31..33)
}

pub fn ip6_level(level: u8) -> Admission {
    admitted(level, 57, 55..57)
}

pub fn admitted(level: u8, length: usize, unique_id: Range<usize>) -> Admission {
    Admission::Admitted {
        level,
        length,
        unique_id,
    }
}

pub fn not_admitted(number: u8) -> Admission {
    Admission::NotAdmitted { number }
}
