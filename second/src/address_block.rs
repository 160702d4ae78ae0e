//! The address block (document 01, The binary block): source, destination,
//! source port, destination port, as far as the kind has them.

use crate::record::{Kind, Record};

/// The block with the record's addresses and ports.
pub fn address_block(record: &Record) -> Vec<u8> {
    let length = record.kind.address_length();
    let mut block = [&record.source[..length], &record.destination[..length]].concat();
    if record.kind.has_ports() {
        block.extend(record.source_port.to_be_bytes());
        block.extend(record.destination_port.to_be_bytes());
    }
    block
}

/// The record of a block that has just the length of the kind's.
pub fn record_of_block(kind: Kind, block: &[u8]) -> Record {
    let (source, rest) = block.split_at(kind.address_length());
    let (destination, ports) = rest.split_at(kind.address_length());
    let ports = match *ports {
        [a, b, c, d] => [u16::from_be_bytes([a, b]), u16::from_be_bytes([c, d])],
        _ => [0, 0],
    };
    Record::new(kind, source, destination, ports)
}
