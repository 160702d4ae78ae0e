//! A connection's 222 bytes, as include/dawnhawse.h lays them out.
use second::{Checksum, Kind, Record, Transport};

pub const SIZE: usize = 222;

/// Where the source stands.
pub const SOURCE: usize = 1;

/// Where the checksum state stands.
pub const STATE: usize = 221;

const CODES: [(u8, Kind); 8] = [
    (0x00, Kind::Local),
    (0x01, Kind::Unspecified),
    (0x11, Kind::Ip4(Transport::Stream)),
    (0x12, Kind::Ip4(Transport::Datagram)),
    (0x21, Kind::Ip6(Transport::Stream)),
    (0x22, Kind::Ip6(Transport::Datagram)),
    (0x31, Kind::Unix(Transport::Stream)),
    (0x32, Kind::Unix(Transport::Datagram)),
];

const STATES: [(u8, Checksum); 2] = [(0, Checksum::Absent), (1, Checksum::Matched)];

pub fn bytes(record: &Record) -> [u8; SIZE] {
    let mut bytes = [0; SIZE];
    bytes[0] = CODES.iter().find(|(_, kind)| *kind == record.kind).expect("all kinds").0;
    bytes[1..109].copy_from_slice(&record.source);
    bytes[109..217].copy_from_slice(&record.destination);
    bytes[217..219].copy_from_slice(&record.source_port.to_be_bytes());
    bytes[219..221].copy_from_slice(&record.destination_port.to_be_bytes());
    bytes[STATE] = STATES.iter().find(|(_, checksum)| *checksum == record.checksum).expect("all states").0;
    bytes
}

/// The record of such bytes; else DAWNHAWSE_WRONG_SIZE or DAWNHAWSE_UNKNOWN_KIND.
pub fn record(bytes: &[u8]) -> Result<Record, u32> {
    if bytes.len() != SIZE {
        return Err(18);
    }
    let kind = CODES.iter().find(|(code, _)| *code == bytes[0]).ok_or(17u32)?.1;
    let checksum = STATES.iter().find(|(state, _)| *state == bytes[STATE]).ok_or(17u32)?.1;
    let port = |at: usize| u16::from_be_bytes([bytes[at], bytes[at + 1]]);
    let record = Record::new(kind, &bytes[1..109], &bytes[109..217], [port(217), port(219)]);
    Ok(Record { checksum, ..record })
}
