//! Headers for the profile of diagnostics (document 02, K14): such as it admits, such as fail at one of its steps or at several, and bytes that are no header.
use crate::headers::{self, addresses, block, tlv, FAMILIES, OPEN, SIGNATURE};
use crate::inputs;
use crate::prefix_tables::Address;
use crate::random::Random;
use second::{Kind, Verdict};

/// The type of the TLV with the unique ID.
const UNIQUE_ID: u8 = 5;

/// A stream header from this source with these TLVs.
fn with_tlvs(source: Address, tlvs: &[u8]) -> Vec<u8> {
    let size = usize::from(source.bits() / 8);
    let family = if size == 4 { 0x11 } else { 0x21 };
    let behind = addresses(size + 4);
    block(0x21, family, &[&source.number.to_be_bytes()[..size], &behind, tlvs].concat())
}

/// A header from this source that is admitted.
pub fn from(source: Address) -> Vec<u8> {
    with_tlvs(source, &tlv(UNIQUE_ID, 9))
}

/// The source in the header that the bytes begin with.
pub fn source(bytes: &[u8]) -> Option<Address> {
    let Verdict::Accepted(header) = second::judge(bytes) else { return None };
    let number = u128::from_be_bytes(*header.record.source.first_chunk()?);
    match header.record.kind {
        Kind::Ip4(_) => Some(Address { family: 4, number }),
        Kind::Ip6(_) => Some(Address { family: 6, number }),
        _ => None,
    }
}

/// Bytes that are refused, with 1 to 9 in this order.
pub fn refused() -> [Vec<u8>; 9] {
    [
        b"GET".to_vec(),
        b"PROXY TCP5".to_vec(),
        b"PROXY TCP4 256".to_vec(),
        b"PROXY TCP4 1.1.1.1 1.1.1.1 65536".to_vec(),
        b"PROXY UNKNOWN\rx".to_vec(),
        [&SIGNATURE[..], &[0x30]].concat(),
        [&SIGNATURE[..], &[0x21, 0x13]].concat(),
        [&SIGNATURE[..], &[0x21, 0x11, 0, 0x0D]].concat(),
        block(0x21, 0x11, &[&addresses(12)[..], &[4, 0, 1]].concat()),
    ]
}

/// Headers that fail the profile, with 30 to 33 in this order.
pub fn not_admitted() -> [Vec<u8>; 4] {
    let source = Address::ip4([10, 1, 2, 3]);
    let id = tlv(UNIQUE_ID, 9);
    [
        b"PROXY UNKNOWN\r\n".to_vec(),
        block(0x21, 0x12, &[&addresses(12)[..], &id].concat()),
        with_tlvs(source, &[&id[..], &tlv(4, 600)].concat()),
        with_tlvs(source, &[]),
    ]
}

/// Bytes of the unique IDs in a header: one as the profile asks for, none, one that is too short or too long, also by its high length byte only, and several.
const UNIQUE_IDS: [&[usize]; 16] =
    [&[1], &[2], &[127], &[128], &[], &[0], &[129], &[0x0100], &[0x0101], &[0x0180], &[1, 1], &[128, 128], &[0, 1], &[1, 0], &[1, 129], &[1, 1, 1]];

/// Headers of every kind with every list of unique IDs: as short as they can be, and filled up to lengths about the longest that is admitted. They fail at no
/// step, at each, and at any several.
pub fn listed() -> Vec<Vec<u8>> {
    let proxy = FAMILIES.into_iter().chain(OPEN.map(|family| (family, 0))).map(|(family, size)| (0x21, family, size));
    let local = [(0x20, 0x00, 0), (0x20, 0x11, 12), (0x20, 0xFF, 3)];
    let mut all = headers::short();
    for (command, family, size) in proxy.chain(local) {
        for lengths in UNIQUE_IDS {
            let ids: Vec<u8> = lengths.iter().flat_map(|length| tlv(UNIQUE_ID, *length)).collect();
            all.push(block(command, family, &[addresses(size), ids.clone()].concat()));
            for length in [535_usize, 536, 537, 600] {
                let Some(rest) = length.checked_sub(16 + size + ids.len() + 3) else { continue };
                let filler = tlv(4, rest);
                all.push(block(command, family, &[&addresses(size)[..], &ids, &filler].concat()));
                all.push(block(command, family, &[&addresses(size)[..], &filler, &ids].concat()));
            }
        }
    }
    all.extend(disguised());
    all
}

/// What looks like a unique ID in the value of another TLV, alone and beside one; and in a unique ID.
fn disguised() -> [Vec<u8>; 4] {
    let source = Address::ip4([10, 1, 2, 3]);
    let inside = [4, 0, 4, 5, 0, 1, 9];
    let id = tlv(UNIQUE_ID, 3);
    [&inside[..], &[&inside[..], &id].concat(), &[&id[..], &inside].concat(), &[5, 0, 4, 5, 0, 1, 9]].map(|tlvs| with_tlvs(source, tlvs))
}

/// A header from this source, most often admitted; now and then local, one of the others or of any inputs, or refused; some cut, with a byte changed, or with
/// bytes behind.
pub fn any(source: Address, others: &[Vec<u8>], random: &mut Random) -> Vec<u8> {
    let mut bytes = match random.below(12) {
        0 => inputs::any(others, random),
        1 => others[random.below(others.len())].clone(),
        2 => block(0x20, random.byte(), &tlvs(16, random)),
        3 => refused()[random.below(9)].clone(),
        _ => {
            let start = with_tlvs(source, &[]).len();
            with_tlvs(source, &tlvs(start, random))
        }
    };
    match random.below(8) {
        0 => bytes.truncate(random.below(bytes.len() + 1)),
        1 if !bytes.is_empty() => {
            let place = random.below(bytes.len());
            bytes[place] = random.byte();
        }
        2 => bytes.extend((0..1 + random.below(9)).map(|_| random.byte())),
        _ => (),
    }
    bytes
}

/// TLVs behind so many bytes, most often with one unique ID; now and then filled up so that the header is about the longest that is admitted.
fn tlvs(start: usize, random: &mut Random) -> Vec<u8> {
    let mut tlvs: Vec<Vec<u8>> = (0..random.below(3)).map(|_| tlv(1 + random.below(4) as u8, random.below(20))).collect();
    for _ in 0..[1, 1, 1, 1, 1, 1, 0, 2][random.below(8)] {
        let length = match random.below(3) {
            0 => [0, 1, 128, 129][random.below(4)],
            _ => 1 + random.below(128),
        };
        tlvs.insert(random.below(tlvs.len() + 1), tlv(UNIQUE_ID, length));
    }
    if random.below(6) == 0 {
        let length = start + tlvs.concat().len() + 3;
        tlvs.push(tlv(4, 534 - length + random.below(5)));
    }
    tlvs.concat()
}
