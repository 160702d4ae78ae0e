//! Short ways to write inputs and expected answers.

use second::{judge, Checksum, Header, Kind, Record, Transport, Verdict};
use std::ops::Range;

/// The signature of version 2.
pub const S: [u8; 12] = [
    0x0D, 0x0A, 0x0D, 0x0A, 0x00, 0x0D, 0x0A, 0x51, 0x55, 0x49, 0x54, 0x0A,
];

/// Byte 13, the words of the program and A for each address kind.
pub const ADDRESS_KINDS: [(u8, Kind, &str, usize); 6] = [
    (0x11, Kind::Ip4(Transport::Stream), "ip4-stream", 12),
    (0x12, Kind::Ip4(Transport::Datagram), "ip4-datagram", 12),
    (0x21, Kind::Ip6(Transport::Stream), "ip6-stream", 36),
    (0x22, Kind::Ip6(Transport::Datagram), "ip6-datagram", 36),
    (0x31, Kind::Unix(Transport::Stream), "unix-stream", 216),
    (0x32, Kind::Unix(Transport::Datagram), "unix-datagram", 216),
];

/// Bytes 13 of PROXY that read as unspecified: 00, and those of document 02, K1.
pub const UNSPECIFIED: [u8; 6] = [0x00, 0x01, 0x02, 0x10, 0x20, 0x30];

pub const IP4_STREAM: Kind = Kind::Ip4(Transport::Stream);
pub const IP4_DATAGRAM: Kind = Kind::Ip4(Transport::Datagram);
pub const IP6_STREAM: Kind = Kind::Ip6(Transport::Stream);
pub const IP6_DATAGRAM: Kind = Kind::Ip6(Transport::Datagram);
pub const UNIX_STREAM: Kind = Kind::Unix(Transport::Stream);
pub const UNIX_DATAGRAM: Kind = Kind::Unix(Transport::Datagram);

/// Every kind, with the bytes of an address and whether it has ports.
pub const KINDS: [(Kind, usize, bool); 8] = [
    (Kind::Local, 0, false),
    (Kind::Unspecified, 0, false),
    (IP4_STREAM, 4, true),
    (IP4_DATAGRAM, 4, true),
    (IP6_STREAM, 16, true),
    (IP6_DATAGRAM, 16, true),
    (UNIX_STREAM, 108, false),
    (UNIX_DATAGRAM, 108, false),
];

/// The signature, bytes 12 and 13, the length L, and then `block`, which may be
/// shorter or longer than L.
pub fn binary(command: u8, family: u8, length: usize, block: &[u8]) -> Vec<u8> {
    let length = u16::try_from(length).unwrap().to_be_bytes();
    [&S[..], &[command, family], &length, block].concat()
}

/// The signature and further bytes.
pub fn behind_signature(bytes: &[u8]) -> Vec<u8> {
    [&S[..], bytes].concat()
}

pub fn accepted(record: Record, version: u8, length: usize, tlv_area: Range<usize>) -> Verdict {
    Verdict::Accepted(Box::new(Header {
        record,
        length,
        version,
        tlv_area,
    }))
}

pub fn refused(number: u8, place: usize) -> Verdict {
    Verdict::Refused { number, place }
}

pub fn more(bytes: usize) -> Verdict {
    Verdict::More(bytes)
}

/// True if the verdict is "more", with whatever number.
pub fn is_more(input: &[u8]) -> bool {
    matches!(judge(input), Verdict::More(_))
}

/// A record with no addresses and ports.
pub fn bare(kind: Kind) -> Record {
    record(kind, &[], &[], 0, 0)
}

pub fn record(
    kind: Kind,
    source: &[u8],
    destination: &[u8],
    source_port: u16,
    destination_port: u16,
) -> Record {
    Record {
        kind,
        source: padded(source),
        destination: padded(destination),
        source_port,
        destination_port,
        checksum: Checksum::Absent,
    }
}

/// The record after a checked reading of a header with a right checksum.
pub fn matched(record: &Record) -> Record {
    Record {
        checksum: Checksum::Matched,
        ..record.clone()
    }
}

fn padded(address: &[u8]) -> [u8; 108] {
    let mut bytes = [0; 108];
    bytes[..address.len()].copy_from_slice(address);
    bytes
}

/// The record in all ways in which one unused address byte or port is not zero.
pub fn with_unused_set(clean: &Record) -> Vec<Record> {
    let (_, address, ports) = *KINDS.iter().find(|kind| kind.0 == clean.kind).unwrap();
    let mut records = Vec::new();
    let mut add = |set: &dyn Fn(&mut Record)| {
        let mut record = clean.clone();
        set(&mut record);
        records.push(record);
    };
    for place in address..108 {
        for byte in [1, 0x80, 0xFF] {
            add(&|record| record.source[place] = byte);
            add(&|record| record.destination[place] = byte);
        }
    }
    if !ports {
        for port in [1, 0x100, 0xFFFF] {
            add(&|record| record.source_port = port);
            add(&|record| record.destination_port = port);
        }
    }
    records
}

/// Checks that `write` writes `expected` to an output of `length` bytes, or
/// refuses with 14 if that is too short, and leaves all other bytes.
pub fn check_output(
    expected: &[u8],
    length: usize,
    write: impl Fn(&mut [u8]) -> Result<usize, u8>,
) {
    for canary in [0xA5, 0x5A] {
        let mut memory = vec![canary; length + 4];
        let written = write(&mut memory[..length]);
        let changed = if length < expected.len() {
            assert_eq!(written, Err(14), "{length} bytes of output");
            0
        } else {
            assert_eq!(written, Ok(expected.len()), "{length} bytes of output");
            expected.len()
        };
        assert_eq!(memory[..changed], expected[..changed]);
        assert!(memory[changed..].iter().all(|&byte| byte == canary));
    }
}

/// As `check_output`, for all lengths from 0 to the needed one plus two.
pub fn check_outputs(expected: &[u8], write: impl Fn(&mut [u8]) -> Result<usize, u8>) {
    for length in 0..=expected.len() + 2 {
        check_output(expected, length, &write);
    }
}

/// Checks that `write` refuses with `number` and leaves the output, be it long
/// enough or not.
pub fn check_refused(number: u8, write: impl Fn(&mut [u8]) -> Result<usize, u8>) {
    for length in [0, 1, 300] {
        let mut out = vec![0xA5; length];
        assert_eq!(write(&mut out), Err(number), "{length} bytes of output");
        assert_eq!(out, vec![0xA5; length]);
    }
}

/// TLVs, each a type and a value, one behind the other.
pub fn area_of(tlvs: &[(u8, Vec<u8>)]) -> Vec<u8> {
    let bytes = tlvs.iter().map(|(kind, value)| {
        let [high, low] = u16::try_from(value.len()).unwrap().to_be_bytes();
        [&[*kind, high, low], &value[..]].concat()
    });
    bytes.collect::<Vec<_>>().concat()
}

/// A well-formed area of `length` bytes: one TLV, behind an empty one where its
/// value would be longer than 65535 bytes.
pub fn filled(length: usize) -> Vec<u8> {
    let empty = if length > 65_538 { 3 } else { 0 };
    let last = area_of(&[(2, vec![9; length - empty - 3])]);
    [vec![0; empty], last].concat()
}

/// Bytes that TLVs do not fill.
pub const ILL_FORMED: [&[u8]; 6] = [
    &[4],
    &[4, 0],
    &[4, 0, 1],
    &[4, 0, 0, 4],
    &[4, 0, 2, 9],
    &[4, 0, 0, 4, 1, 0],
];

/// The sixteen bytes of eight groups.
pub fn groups(groups: [u16; 8]) -> Vec<u8> {
    groups
        .iter()
        .flat_map(|group| group.to_be_bytes())
        .collect()
}

/// Checks the line that the program writes for each input.
pub fn check_lines(cases: &[(&str, &str)]) {
    for (input, line) in cases {
        assert_eq!(judge(input.as_bytes()).to_string(), *line, "{input:?}");
    }
}

/// Random numbers from a fixed seed (Marsaglia's xorshift).
pub struct Random(u64);

impl Random {
    pub fn seeded(seed: u64) -> Random {
        Random(seed)
    }

    fn next(&mut self) -> u64 {
        self.0 ^= self.0 << 13;
        self.0 ^= self.0 >> 7;
        self.0 ^= self.0 << 17;
        self.0
    }

    /// A number from 0 to less than `bound`.
    pub fn below(&mut self, bound: usize) -> usize {
        usize::try_from(self.next() >> 16).unwrap() % bound
    }

    pub fn byte(&mut self) -> u8 {
        u8::try_from(self.below(256)).unwrap()
    }

    pub fn pick<T: Copy>(&mut self, from: &[T]) -> T {
        from[self.below(from.len())]
    }

    /// True once in `times` on average.
    pub fn once_in(&mut self, times: usize) -> bool {
        self.below(times) == 0
    }

    pub fn bytes(&mut self, length: usize) -> Vec<u8> {
        (0..length).map(|_| self.byte()).collect()
    }

    /// A record of any of these kinds that uses all it may. Zeros are frequent.
    pub fn record(&mut self, kinds: &[(Kind, usize, bool)]) -> Record {
        let (kind, address, ports) = self.pick(kinds);
        let mut bytes = self.bytes(2 * address + 4);
        for byte in &mut bytes {
            if self.once_in(3) {
                *byte = 0;
            }
        }
        let port = |place: usize| match ports {
            true => u16::from_be_bytes([bytes[place], bytes[place + 1]]),
            false => 0,
        };
        let (source, destination) = (&bytes[..address], &bytes[address..2 * address]);
        record(
            kind,
            source,
            destination,
            port(2 * address),
            port(2 * address + 2),
        )
    }

    /// Up to `most` TLVs with few types, some of them with a long value.
    pub fn tlvs(&mut self, most: usize) -> Vec<(u8, Vec<u8>)> {
        let count = self.below(most + 1);
        let tlv = |_| {
            let length = match self.once_in(9) {
                true => 250 + self.below(20),
                false => self.below(5),
            };
            (self.pick(&[1, 4, 5, 0xEE]), self.bytes(length))
        };
        (0..count).map(tlv).collect()
    }
}
