//! Checksums that were divided apart from this program, of headers that several
//! tests use.

use crate::helpers::*;

/// 10.1.2.3, port 4660, to 10.4.5.6, port 22136, as IPv4 stream.
pub const ADDRESSES: [u8; 12] = [10, 1, 2, 3, 10, 4, 5, 6, 0x12, 0x34, 0x56, 0x78];

/// The area behind these, if the checksum TLV is all of it.
pub const ALONE: [u8; 7] = [3, 0, 4, 0xD3, 0xFC, 0xBF, 0xED];

/// The area behind them with the checksum TLV first, in the middle and last.
pub const FIRST: &[u8] = b"\x03\0\x04\x60\xDC\x0E\x8E\x05\0\x02id\x04\0\0";
pub const MIDDLE: &[u8] = b"\x05\0\x02id\x03\0\x04\xFD\x05\x19\xCC\x04\0\0";
pub const LAST: &[u8] = b"\x05\0\x02id\x04\0\0\x03\0\x04\x61\xFD\x7B\xCA";

/// For each address kind: the checksum behind an address block of zeros.
pub const OF_ZEROS: [[u8; 4]; 6] = [
    [0xA0, 0xB2, 0x87, 0x95],
    [0x44, 0x8C, 0xB4, 0x49],
    [0x6C, 0x93, 0xBD, 0xA4],
    [0xAC, 0xA3, 0x1F, 0x96],
    [0x40, 0xE4, 0xE1, 0x6F],
    [0x48, 0xB2, 0xA7, 0x9C],
];

/// The same with a TLV of nines before it, with which the block has 65535 bytes.
const OF_NINES: [[u8; 4]; 6] = [
    [0x7C, 0xAD, 0xFD, 0xAF],
    [0x5E, 0x69, 0x81, 0x0C],
    [0xE4, 0xA2, 0xDD, 0x7C],
    [0xC6, 0x66, 0xA1, 0xDF],
    [0x6C, 0x9F, 0x51, 0x8D],
    [0x4E, 0x5B, 0x2D, 0x2E],
];

/// For each address kind in order: the longest header, and the bytes of its area
/// that are not the checksum TLV's. These are 65535 - A - 7.
pub fn longest() -> Vec<(Vec<u8>, usize)> {
    let header = |((family, _, _, a), value): ((u8, _, _, usize), [u8; 4])| {
        let nines = match a {
            12 => 65_516,
            36 => 65_492,
            _ => 65_312,
        };
        let area = [&filled(nines)[..], &[3, 0, 4], &value].concat();
        let block = [vec![0; a], area].concat();
        (binary(0x21, family, 65_535, &block), nines)
    };
    let kinds = ADDRESS_KINDS.into_iter();
    kinds.zip(OF_NINES).map(header).collect()
}
