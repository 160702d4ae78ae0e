//! Records and TLV areas, listed and at random.
use crate::connection::{self, SIZE, STATE};
use crate::headers;
use crate::random::Random;
use second::{Kind, Record, Transport};

/// A record of any kind whose unused bytes and ports are zero, without a checksum.
pub fn clean(random: &mut Random) -> Record {
    let transport = [Transport::Stream, Transport::Datagram][random.below(2)];
    let kinds = [
        Kind::Local,
        Kind::Unspecified,
        Kind::Ip4(transport),
        Kind::Ip6(transport),
        Kind::Ip4(Transport::Stream),
        Kind::Ip6(Transport::Stream),
        Kind::Unix(transport),
    ];
    let mut record = Record::blank(kinds[random.below(kinds.len())]);
    let n = record.kind.address_length();
    for i in 0..n {
        record.source[i] = if random.below(3) == 0 { 0 } else { random.byte() };
        record.destination[i] = if random.below(3) == 0 { 0 } else { random.byte() };
    }
    if record.kind.has_ports() {
        record.source_port = u16::from(random.byte()) * [0, 1, 257][random.below(3)];
        record.destination_port = u16::from(random.byte()) * [0, 1, 257][random.below(3)];
    }
    record
}

/// A connection: of a clean record, now and then matched, or with one byte changed.
pub fn any(random: &mut Random) -> [u8; SIZE] {
    let mut bytes = connection::bytes(&clean(random));
    bytes[STATE] = u8::from(random.below(8) == 0);
    if random.below(5) == 0 {
        bytes[random.below(SIZE)] ^= 1 << random.below(8);
    }
    bytes
}

/// Connections of zeros of every kind, and of codes that are none, in states that there are and others; clean, and with one byte set that a kind does not use.
pub fn listed() -> Vec<Vec<u8>> {
    let mut all = Vec::new();
    for code in [0x00, 0x01, 0x02, 0x11, 0x12, 0x13, 0x21, 0x22, 0x31, 0x32, 0xFF] {
        for state in [0, 1, 2, 0xFF] {
            let mut clean = [0; SIZE];
            clean[0] = code;
            clean[STATE] = state;
            all.push(clean.to_vec());
            // The last address byte of every kind but UNIX, and a port of UNIX.
            for unused in [108, 216, 217, 220] {
                let mut dirty = clean;
                dirty[unused] = 1;
                all.push(dirty.to_vec());
            }
        }
    }
    all
}

/// A TLV area of these types, whole or damaged.
pub fn area(types: &[u8], random: &mut Random) -> Vec<u8> {
    let mut area = Vec::new();
    for _ in 0..random.below(7) {
        let length = if random.below(5) == 0 { random.below(300) } else { random.below(4) };
        area.extend(headers::tlv(types[random.below(types.len())], length));
    }
    if random.below(3) == 0 && !area.is_empty() {
        let place = random.below(area.len());
        area[place] = random.byte();
    }
    if random.below(5) == 0 {
        area.truncate(random.below(area.len() + 1));
    }
    area
}

/// An area that fills a header with such an address block to 65,535 bytes behind the length, or one byte more.
pub fn longest_area(block: usize, random: &mut Random) -> Vec<u8> {
    headers::tlv(4, 65_535 - 3 - block + random.below(2))
}
