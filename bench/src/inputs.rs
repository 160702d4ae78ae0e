//! The headers, connections, stored forms and SSL values that are taken, each with the ratio to the C code that the library is to keep
//! to, and the table of prefixes.

/// What is done with the bytes.
#[derive(Clone, Copy, PartialEq)]
pub enum Call {
    Read,
    /// The header's checksum is compared.
    ReadChecked,
    /// A connection is written as a version 1 line.
    WriteLine,
    /// A connection is stored in version 2.
    Store,
    /// A stored form of version 2 is loaded.
    Load,
    /// A stored form of version 1 is moved to version 2.
    Forward,
    /// A header is held to the profile, and its source gets a level by the table.
    Admit,
    /// The value of TLV 0x20 is read.
    ReadSsl,
    /// The value of TLV 0x20 is written from client, verify, which pieces are there, and the pieces.
    WriteSsl,
}

pub struct Input {
    pub name: &'static str,
    pub what: &'static str,
    pub call: Call,
    pub bytes: Vec<u8>,
    /// Rows of prefixes for Admit; the others have none.
    pub table: Vec<u8>,
    /// The bytes are judged after this many of them and after each further one; all of that counts as one header.
    pub first: usize,
    pub target: Option<f64>,
}

impl Input {
    /// The bytes so far of each reading.
    pub fn readings(&self) -> Vec<&[u8]> {
        (self.first..=self.bytes.len()).map(|n| &self.bytes[..n]).collect()
    }

    /// The bytes with one of them changed so that they are refused: the last of a checksum, the first of a connection or a mark, the type
    /// of the unique ID or of an SSL value's version, or whether that version is there.
    pub fn spoilt(&self) -> Option<Vec<u8>> {
        let place = match self.call {
            Call::Read => return None,
            Call::ReadChecked => self.bytes.len() - 1,
            Call::WriteLine | Call::Store | Call::Load | Call::Forward => 0,
            Call::Admit => self.bytes.len() - UNIQUE_ID.len() - 3,
            Call::ReadSsl => self.bytes.len() - sub_tlvs().len(),
            Call::WriteSsl => SSL_HEAD.len(),
        };
        let mut spoilt = self.bytes.clone();
        spoilt[place] ^= 1;
        Some(spoilt)
    }
}

const SIGNATURE: &[u8] = b"\r\n\r\n\0\r\nQUIT\n";
const LONGEST_TCP6: &[u8] = b"PROXY TCP6 2001:0db8:85a3:1234:5678:8a2e:0370:7334 2001:0db8:85a3:4321:8765:8a2e:0370:7335 56324 44321\r\n";

pub fn inputs() -> Vec<Input> {
    vec![
        whole("v1-tcp4", "version 1, TCP4 (W02)", b"PROXY TCP4 192.168.0.1 192.168.0.11 56324 443\r\n".to_vec(), 0.6),
        whole("v1-tcp6", "version 1, longest TCP6", LONGEST_TCP6.to_vec(), 1.0),
        whole("v2-ip4", "version 2, IPv4", block(0x11, &[&SOURCE, &DESTINATION, &PORTS]), 2.5),
        whole("v2-ip6-tlvs", "version 2, IPv6, three TLVs", with_tlvs(), 2.5),
        whole("v2-unix", "version 2, UNIX", block(0x31, &[&path("/run/screen/tester.sock"), &path("/run/screen/services.sock")]), 2.5),
        Input { first: 1, ..taken("scraps", "longest TCP6, byte by byte", Call::Read, LONGEST_TCP6.to_vec()) },
        taken("v2-checked", "version 2, checked", Call::ReadChecked, with_checksum(200)),
        taken("v2-longest-checked", "version 2, longest, checked", Call::ReadChecked, with_checksum(65551)),
        taken("write-tcp4", "version 1, TCP4, written", Call::WriteLine, connection(0x11, &SOURCE, &DESTINATION, 0)),
        taken("write-tcp6", "version 1, TCP6, written", Call::WriteLine, connection(0x21, &SHORTENED, &SHORTENED_TO, 0)),
        taken("write-longest", "version 1, longest, written", Call::WriteLine, connection(0x21, &[0xff; 16], &[0xff; 16], 0)),
        taken("store", "IPv4, stored", Call::Store, connection(0x11, &SOURCE, &DESTINATION, 1)),
        taken("load", "IPv4, loaded", Call::Load, form(&[2, 0x11, 1])),
        taken("forward", "IPv4, moved forward", Call::Forward, form(&[1, 0x11])),
        Input { table: table(), ..taken("admit", "IPv6, a table of 64 rows", Call::Admit, with_tlvs()) },
        taken("read-ssl", "SSL value read", Call::ReadSsl, [&SSL_HEAD[..], &sub_tlvs()].concat()),
        taken("read-ssl-ten", "SSL value read, ten in front", Call::ReadSsl, [&SSL_HEAD[..], &ten_sub_tlvs(), &sub_tlvs()].concat()),
        taken("write-ssl", "SSL value written", Call::WriteSsl, [&SSL_HEAD[..], &[0b11111], &PIECES.concat()].concat()),
    ]
}

fn whole(name: &'static str, what: &'static str, bytes: Vec<u8>, target: f64) -> Input {
    Input { target: Some(target), ..taken(name, what, Call::Read, bytes) }
}

fn taken(name: &'static str, what: &'static str, call: Call, bytes: Vec<u8>) -> Input {
    Input { name, what, call, first: bytes.len(), bytes, table: Vec::new(), target: None }
}

const SOURCE: [u8; 4] = [192, 168, 0, 1];
const DESTINATION: [u8; 4] = [192, 168, 0, 11];

/// fe80::1c2a:3bff:fe4d:5e6f and 2001:db8::1.
const SHORTENED: [u8; 16] = [0xfe, 0x80, 0, 0, 0, 0, 0, 0, 0x1c, 0x2a, 0x3b, 0xff, 0xfe, 0x4d, 0x5e, 0x6f];
const SHORTENED_TO: [u8; 16] = [0x20, 0x01, 0x0d, 0xb8, 0, 0, 0, 0, 0, 0, 0, 0, 0, 0, 0, 1];

/// 56324 and 443.
const PORTS: [u8; 4] = [0xDC, 0x04, 0x01, 0xBB];

/// A connection of this kind and checksum state.
fn connection(kind: u8, source: &[u8], destination: &[u8], state: u8) -> Vec<u8> {
    let unused = vec![0; 108 - source.len()];
    [&[kind][..], source, &unused, destination, &unused, &PORTS, &[state]].concat()
}

/// The stored form of the IPv4 connection, with this between the mark and the address block.
fn form(head: &[u8]) -> Vec<u8> {
    [b"CSR\0", head, &SOURCE, &DESTINATION, &PORTS].concat()
}

/// A version 2 header under PROXY.
fn block(family: u8, parts: &[&[u8]]) -> Vec<u8> {
    let block = parts.concat();
    let length = u16::try_from(block.len()).expect("at most 65535").to_be_bytes();
    [SIGNATURE, &[0x21, family], &length, &block].concat()
}

fn address6(last: u8) -> [u8; 16] {
    [0x20, 0x01, 0x0d, 0xb8, 0x85, 0xa3, 0x12, 0x34, 0x56, 0x78, 0x8a, 0x2e, 0x03, 0x70, 0x73, last]
}

fn path(name: &str) -> [u8; 108] {
    let mut bytes = [0; 108];
    bytes[..name.len()].copy_from_slice(name.as_bytes());
    bytes
}

const UNIQUE_ID: &[u8] = b"0123456789abcdef";

fn tlv(kind: u8, value: &[u8]) -> Vec<u8> {
    [&[kind, 0, value.len() as u8], value].concat()
}

/// ALPN, AUTHORITY and UNIQUE_ID.
fn tlvs() -> Vec<u8> {
    [tlv(0x01, b"h2"), tlv(0x02, b"screen.example.com"), tlv(0x05, UNIQUE_ID)].concat()
}

/// A version 2 header with these TLVs: IPv6.
fn with_tlvs() -> Vec<u8> {
    block(0x21, &[&address6(0x34), &address6(0x35), &PORTS, &tlvs()])
}

/// 64 rows, of IPv6 and IPv4 by turns, the prefixes of each family nested from short to long. Those of IPv6 are the source's up to 64
/// bits, and then those of an address that differs from it in the next bit: the row of 64 bits decides, the 31st.
fn table() -> Vec<u8> {
    let source = u128::from_be_bytes(address6(0x34));
    let beside = source ^ 1 << 63;
    let source4 = u128::from(u32::from_be_bytes(SOURCE)) << 96;
    let row = |family: u8, bits: u8, address: u128| {
        let (level, prefix) = (bits % 3 + 1, address & u128::MAX << (128 - bits));
        [&[family, bits, level][..], &prefix.to_be_bytes()].concat()
    };
    let pair = |n: u8| [row(6, 4 * n, if 4 * n <= 64 { source } else { beside }), row(4, n, source4)].concat();
    (1..=32).flat_map(pair).collect()
}

/// A version 2 header of this many bytes with a checksum: IPv6, the TLVs above, NOOP to fill it, and CRC32C.
fn with_checksum(size: usize) -> Vec<u8> {
    let tlvs = tlvs();
    let (head, addresses, noop, checksum) = (16, 36, 3, 7);
    let filled = u16::try_from(size - head - addresses - tlvs.len() - noop - checksum).expect("at most 65535");
    let noop = [&[0x04][..], &filled.to_be_bytes(), &vec![0; filled.into()]].concat();
    let mut bytes = block(0x21, &[&address6(0x34), &address6(0x35), &PORTS, &tlvs, &noop, &[0x03, 0, 4, 0, 0, 0, 0]]);
    let sum = second::crc32c(&bytes).to_be_bytes();
    bytes[size - sum.len()..].copy_from_slice(&sum);
    bytes
}

/// Client, over TLS and with a certificate, and a verify number whose bytes differ.
const SSL_HEAD: [u8; 5] = [0x07, 1, 2, 3, 4];

/// Version, common name, cipher, signature algorithm and key algorithm.
pub const PIECES: [&[u8]; 5] = [b"TLSv1.3", b"tester-7.screens.north.example.com", b"TLS_AES_256_GCM_SHA384", b"RSA-SHA256", b"RSA2048"];

/// The pieces in order of type, from 0x21.
fn sub_tlvs() -> Vec<u8> {
    (0x21..).zip(PIECES).flat_map(|(kind, piece)| tlv(kind, piece)).collect()
}

/// Six of other types, then all types but that of the version: where these stand in front, theirs are the first.
fn ten_sub_tlvs() -> Vec<u8> {
    (0xE0..=0xE5).chain(0x22..=0x25).flat_map(|kind| tlv(kind, b"other")).collect()
}
