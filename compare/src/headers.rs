//! Whole headers of every kind, from which the inputs are made.
use crate::random::Random;

pub const SIGNATURE: [u8; 12] = *b"\r\n\r\n\0\r\nQUIT\n";

/// A version 2 header with this command, byte 13 and block.
pub fn block(command: u8, family: u8, block: &[u8]) -> Vec<u8> {
    let mut header = SIGNATURE.to_vec();
    header.extend_from_slice(&[command, family]);
    header.extend_from_slice(&(block.len() as u16).to_be_bytes());
    header.extend_from_slice(block);
    header
}

pub fn tlv(kind: u8, size: usize) -> Vec<u8> {
    let mut bytes = vec![kind];
    bytes.extend_from_slice(&(size as u16).to_be_bytes());
    bytes.extend((0..size).map(|i| (i * 7 + kind as usize) as u8));
    bytes
}

/// Address bytes that are all different, so that a swap shows.
pub fn addresses(size: usize) -> Vec<u8> {
    (0..size).map(|i| (i * 11 + 1) as u8).collect()
}

pub const FAMILIES: [(u8, usize); 6] = [(0x11, 12), (0x12, 12), (0x21, 36), (0x22, 36), (0x31, 216), (0x32, 216)];

/// Bytes 13 that leave the family or the transport open (document 02, K1), after 00, which leaves both.
pub const OPEN: [u8; 6] = [0x00, 0x01, 0x02, 0x10, 0x20, 0x30];

fn with_tlvs(size: usize, tlvs: &[Vec<u8>]) -> Vec<u8> {
    let mut bytes = addresses(size);
    for tlv in tlvs {
        bytes.extend_from_slice(tlv);
    }
    bytes
}

pub fn short() -> Vec<Vec<u8>> {
    let mut all: Vec<Vec<u8>> = [
        &b"PROXY TCP4 192.168.0.1 192.168.0.11 56324 443\r\n"[..],
        b"PROXY TCP4 255.255.255.255 255.255.255.255 65535 65535\r\n",
        b"PROXY TCP4 0.0.0.0 1.20.103.0 0 9\r\n",
        b"PROXY TCP6 :: :: 0 0\r\n",
        b"PROXY TCP6 2001:db8::1 ::ffff:c0a8:1 1 65535\r\n",
        b"PROXY TCP6 1:2:3:4:5:6:7:8 1:2:3:4:5:6:7:: 80 443\r\n",
        b"PROXY TCP6 ffff:ffff:ffff:ffff:ffff:ffff:ffff:ffff ffff:ffff:ffff:ffff:ffff:ffff:ffff:ffff 65535 65535\r\n",
        b"PROXY TCP6 aB:00C::0:Ef ::1:2:3:4:5:6:7 10000 2\r\n",
        b"PROXY UNKNOWN\r\n",
        b"PROXY UNKNOWN \r\n",
        b"PROXY UNKNOWN anything \r up \n to here\r\n",
    ]
    .map(<[u8]>::to_vec)
    .to_vec();
    let mut longest = b"PROXY UNKNOWN ".to_vec();
    longest.resize(105, b'x');
    longest.extend_from_slice(b"\r\n");
    all.push(longest);
    all.push(block(0x20, 0x00, b""));
    all.push(block(0x20, 0xff, &addresses(21)));
    for family in OPEN {
        all.push(block(0x21, family, b""));
        all.push(block(0x21, family, &addresses(13)));
    }
    for (family, size) in FAMILIES {
        all.push(block(0x21, family, &addresses(size)));
        all.push(block(0x21, family, &with_tlvs(size, &[tlv(4, 0), tlv(5, 1), tlv(0x20, 5)])));
    }
    all.push(block(0x21, 0x11, &with_tlvs(12, &[tlv(1, 255), tlv(2, 256)])));
    all.push(block(0x21, 0x11, &with_tlvs(12, &vec![tlv(5, 0); 40])));
    // A wrong checksum, of which the plain reading says nothing.
    all.push(block(0x21, 0x11, &with_tlvs(12, &[tlv(3, 4)])));
    all
}

/// Headers with long TLV areas, up to the longest that the program reads whole.
pub fn long() -> Vec<Vec<u8>> {
    vec![
        block(0x21, 0x11, &with_tlvs(12, &[tlv(9, 65_505)])),
        block(0x21, 0x31, &with_tlvs(216, &[tlv(9, 30_000), tlv(8, 0), tlv(7, 35_295)])),
        block(0x21, 0x21, &with_tlvs(36, &vec![tlv(5, 0); 21_828])),
        block(0x20, 0x77, &addresses(65_520)),
        block(0x21, 0x00, &addresses(65_519)),
        block(0x21, 0x10, &addresses(65_520)),
    ]
}

/// A line at random.
pub fn line(random: &mut Random) -> Vec<u8> {
    let (word, address): (_, fn(&mut Random) -> String) = match random.below(8) {
        0 => return unknown(random),
        1 | 2 => ("TCP4", ip4),
        _ => ("TCP6", ip6),
    };
    let [source, destination] = [address(random), address(random)];
    let [from, to] = [number(65_535, random), number(65_535, random)];
    format!("PROXY {word} {source} {destination} {from} {to}\r\n").into_bytes()
}

/// An UNKNOWN line with many CRs and LFs, of which none ends it early.
fn unknown(random: &mut Random) -> Vec<u8> {
    let mut line = b"PROXY UNKNOWN ".to_vec();
    for _ in 0..random.below(92) {
        let byte = b"\r\n x"[random.below(4)];
        line.push(if line.ends_with(b"\r") && byte == b'\n' { b'x' } else { byte });
    }
    line.extend_from_slice(b"\r\n");
    line
}

fn ip4(random: &mut Random) -> String {
    [(); 4].map(|()| number(255, random)).join(".")
}

/// Eight groups, or "::" with fewer on either side of it.
fn ip6(random: &mut Random) -> String {
    if random.below(3) == 0 {
        return groups(8, random);
    }
    let before = random.below(8);
    let after = random.below(8 - before);
    format!("{}::{}", groups(before, random), groups(after, random))
}

fn groups(count: usize, random: &mut Random) -> String {
    let digit = |random: &mut Random| char::from(b"0123456789abcdefABCDEF"[random.below(22)]);
    let group = |random: &mut Random| (0..1 + random.below(4)).map(|_| digit(random)).collect::<String>();
    (0..count).map(|_| group(random)).collect::<Vec<_>>().join(":")
}

/// A number up to the bound, as often a short one as a long one.
fn number(bound: usize, random: &mut Random) -> String {
    let below = [1, 10, 100, bound + 1][random.below(4)];
    random.below(below).to_string()
}
