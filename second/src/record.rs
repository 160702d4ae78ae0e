//! The connection record (document 01, The record, and document 02, K6) and byte
//! 13 of version 2 that names its kind.

use std::fmt;

/// Room for the longest address, that of a UNIX socket.
pub const LONGEST_ADDRESS: usize = 108;

#[derive(Clone, Copy, Debug, PartialEq, Eq)]
pub enum Transport {
    Stream,
    Datagram,
}

#[derive(Clone, Copy, Debug, PartialEq, Eq)]
pub enum Kind {
    Local,
    Unspecified,
    Ip4(Transport),
    Ip6(Transport),
    Unix(Transport),
}

/// The address kinds, each with the byte it is written as: byte 13 of a PROXY
/// header, and the kind code of the stored form.
pub const ADDRESS_KINDS: [(u8, Kind); 6] = [
    (0x11, Kind::Ip4(Transport::Stream)),
    (0x12, Kind::Ip4(Transport::Datagram)),
    (0x21, Kind::Ip6(Transport::Stream)),
    (0x22, Kind::Ip6(Transport::Datagram)),
    (0x31, Kind::Unix(Transport::Stream)),
    (0x32, Kind::Unix(Transport::Datagram)),
];

impl Kind {
    /// What byte 13 of a PROXY header says: the family in its high half and the
    /// transport in its low half. A byte that leaves one of them open, as 0,
    /// says nothing of the caller (document 02, K1).
    pub fn of_byte_13(byte: u8) -> Option<Kind> {
        let transport = match byte & 0x0F {
            0 => None,
            1 => Some(Transport::Stream),
            2 => Some(Transport::Datagram),
            _ => return None,
        };
        let family: Option<fn(Transport) -> Kind> = match byte >> 4 {
            0 => None,
            1 => Some(Kind::Ip4),
            2 => Some(Kind::Ip6),
            3 => Some(Kind::Unix),
            _ => return None,
        };
        let kind = family.zip(transport).map(|(of, transport)| of(transport));
        Some(kind.unwrap_or(Kind::Unspecified))
    }

    /// The address kind that is written as this byte.
    pub fn of_written_byte(byte: u8) -> Option<Kind> {
        ADDRESS_KINDS
            .into_iter()
            .find(|&(written, _)| written == byte)
            .map(|(_, kind)| kind)
    }

    /// The byte that this kind is written as, if it is an address kind.
    pub fn written_byte(self) -> Option<u8> {
        ADDRESS_KINDS
            .into_iter()
            .find(|&(_, kind)| kind == self)
            .map(|(written, _)| written)
    }

    pub fn has_addresses(self) -> bool {
        self.address_length() > 0
    }

    /// Bytes of one address.
    pub fn address_length(self) -> usize {
        match self {
            Kind::Local | Kind::Unspecified => 0,
            Kind::Ip4(_) => 4,
            Kind::Ip6(_) => 16,
            Kind::Unix(_) => LONGEST_ADDRESS,
        }
    }

    pub fn has_ports(self) -> bool {
        matches!(self, Kind::Ip4(_) | Kind::Ip6(_))
    }

    /// Bytes of the address block, A in document 01.
    pub fn address_block_length(self) -> usize {
        let ports = if self.has_ports() { 4 } else { 0 };
        2 * self.address_length() + ports
    }
}

impl fmt::Display for Transport {
    fn fmt(&self, f: &mut fmt::Formatter) -> fmt::Result {
        f.write_str(match self {
            Transport::Stream => "stream",
            Transport::Datagram => "datagram",
        })
    }
}

impl fmt::Display for Kind {
    fn fmt(&self, f: &mut fmt::Formatter) -> fmt::Result {
        match self {
            Kind::Local => f.write_str("local"),
            Kind::Unspecified => f.write_str("unspecified"),
            Kind::Ip4(transport) => write!(f, "ip4-{transport}"),
            Kind::Ip6(transport) => write!(f, "ip6-{transport}"),
            Kind::Unix(transport) => write!(f, "unix-{transport}"),
        }
    }
}

/// What a checked reading found of the header's checksum. A plain one looks for
/// none.
#[derive(Clone, Copy, Debug, PartialEq, Eq)]
pub enum Checksum {
    Absent,
    Matched,
}

/// Address bytes behind the kind's address length, and the ports of a kind
/// that has none, are zero.
#[derive(Clone, Debug, PartialEq, Eq)]
pub struct Record {
    pub kind: Kind,
    pub source: [u8; LONGEST_ADDRESS],
    pub destination: [u8; LONGEST_ADDRESS],
    pub source_port: u16,
    pub destination_port: u16,
    pub checksum: Checksum,
}

impl Record {
    /// A record whose addresses and ports are all zero, without a checksum.
    pub fn blank(kind: Kind) -> Record {
        Record {
            kind,
            source: [0; LONGEST_ADDRESS],
            destination: [0; LONGEST_ADDRESS],
            source_port: 0,
            destination_port: 0,
            checksum: Checksum::Absent,
        }
    }

    /// A record with these addresses, each at most 108 bytes, and these ports,
    /// without a checksum.
    pub fn new(kind: Kind, source: &[u8], destination: &[u8], ports: [u16; 2]) -> Record {
        let mut record = Record::blank(kind);
        record.source[..source.len()].copy_from_slice(source);
        record.destination[..destination.len()].copy_from_slice(destination);
        [record.source_port, record.destination_port] = ports;
        record
    }
}
