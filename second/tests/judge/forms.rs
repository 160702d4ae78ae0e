//! Stored forms by hand: the same record in version 1 and in version 2.

use crate::helpers::*;
use second::{Kind, Record, StoredVersion};

pub const ONE: StoredVersion = StoredVersion::One;
pub const TWO: StoredVersion = StoredVersion::Two;
pub const VERSIONS: [StoredVersion; 2] = [ONE, TWO];

/// Kind codes, and the length of their form in each version.
pub const CODES: [(u8, Kind, [usize; 2]); 8] = [
    (0x00, Kind::Local, [6, 7]),
    (0x01, Kind::Unspecified, [6, 7]),
    (0x11, IP4_STREAM, [18, 19]),
    (0x12, IP4_DATAGRAM, [18, 19]),
    (0x21, IP6_STREAM, [42, 43]),
    (0x22, IP6_DATAGRAM, [42, 43]),
    (0x31, UNIX_STREAM, [222, 223]),
    (0x32, UNIX_DATAGRAM, [222, 223]),
];

/// What stands before the block: in version 2 with the state absent.
pub fn head(version: StoredVersion, code: u8) -> Vec<u8> {
    match version {
        StoredVersion::One => vec![0x43, 0x53, 0x52, 0x00, 0x01, code],
        StoredVersion::Two => vec![0x43, 0x53, 0x52, 0x00, 0x02, code, 0x00],
    }
}

/// The head and this block.
pub fn form(version: StoredVersion, code: u8, block: &[u8]) -> Vec<u8> {
    [&head(version, code), block].concat()
}

/// The version 2 form with this state byte.
pub fn with_state(form: &[u8], state: u8) -> Vec<u8> {
    let mut form = form.to_vec();
    form[6] = state;
    form
}

/// Records with state absent, and their forms in versions 1 and 2.
pub fn worked() -> Vec<(Record, Vec<u8>, Vec<u8>)> {
    let mut all = vec![
        (
            bare(Kind::Local),
            vec![0x43, 0x53, 0x52, 0x00, 0x01, 0x00],
            vec![0x43, 0x53, 0x52, 0x00, 0x02, 0x00, 0x00],
        ),
        (
            bare(Kind::Unspecified),
            vec![0x43, 0x53, 0x52, 0x00, 0x01, 0x01],
            vec![0x43, 0x53, 0x52, 0x00, 0x02, 0x01, 0x00],
        ),
    ];
    for (code, kind) in [(0x11, IP4_STREAM), (0x12, IP4_DATAGRAM)] {
        let one = vec![
            0x43, 0x53, 0x52, 0x00, 0x01, code, // mark, version, code
            0xC0, 0xA8, 0x00, 0x01, 0x0A, 0x00, 0x00, 0xFF, // addresses
            0x12, 0x34, 0x01, 0xBB, // ports
        ];
        let two = vec![
            0x43, 0x53, 0x52, 0x00, 0x02, code, 0x00, // mark, version, code, state
            0xC0, 0xA8, 0x00, 0x01, 0x0A, 0x00, 0x00, 0xFF, // addresses
            0x12, 0x34, 0x01, 0xBB, // ports
        ];
        let record = record(kind, &[192, 168, 0, 1], &[10, 0, 0, 255], 0x1234, 443);
        all.push((record, one, two));
    }
    for (code, kind) in [(0x21, IP6_STREAM), (0x22, IP6_DATAGRAM)] {
        let one = vec![
            0x43, 0x53, 0x52, 0x00, 0x01, code, // mark, version, code
            0x20, 0x01, 0x0D, 0xB8, 0, 0, 0, 0, 0, 0, 0, 0, 0, 0, 0, 1, // source
            0, 1, 0, 2, 0, 3, 0, 4, 0, 5, 0, 6, 0, 7, 0x89, 0xAB, // destination
            0xFF, 0xFF, 0x00, 0x01, // ports
        ];
        let two = vec![
            0x43, 0x53, 0x52, 0x00, 0x02, code, 0x00, // mark, version, code, state
            0x20, 0x01, 0x0D, 0xB8, 0, 0, 0, 0, 0, 0, 0, 0, 0, 0, 0, 1, // source
            0, 1, 0, 2, 0, 3, 0, 4, 0, 5, 0, 6, 0, 7, 0x89, 0xAB, // destination
            0xFF, 0xFF, 0x00, 0x01, // ports
        ];
        let source = groups([0x2001, 0xDB8, 0, 0, 0, 0, 0, 1]);
        let destination = groups([1, 2, 3, 4, 5, 6, 7, 0x89AB]);
        all.push((record(kind, &source, &destination, 65535, 1), one, two));
    }
    for (code, kind) in [(0x31, UNIX_STREAM), (0x32, UNIX_DATAGRAM)] {
        let block = [&b"/a.sock"[..], &[0; 101], &[0xEE; 108]].concat();
        let one = [&[0x43, 0x53, 0x52, 0x00, 0x01, code], &block[..]].concat();
        let two = [&[0x43, 0x53, 0x52, 0x00, 0x02, code, 0x00], &block[..]].concat();
        all.push((record(kind, b"/a.sock", &[0xEE; 108], 0, 0), one, two));
    }
    all
}
