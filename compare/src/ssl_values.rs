//! Values of TLV 0x20 (document 02, K2), well-formed and damaged, and what is given to write one.
use crate::headers::tlv;
use crate::random::Random;
use crate::{hex, SSL_NUMBERS};
use std::array::from_fn;
use std::fmt;

/// The types of the pieces, in order.
pub const TYPES: [u8; 5] = [0x21, 0x22, 0x23, 0x24, 0x25];

/// The longest value, and the longest piece, that a TLV can carry.
pub const LONGEST: usize = 65_535;

/// A verify number whose bytes are all different, so that a swap shows.
pub const VERIFY: u32 = 0x0102_0304;

/// What is lent for the pieces, in order of type. None is NULL, with a length of 0.
pub type Pieces<'a> = [Option<&'a [u8]>; 5];

/// What is given to write a value.
#[derive(Clone, Copy)]
pub struct Given<'a> {
    pub client: u8,
    pub verify: u32,
    /// Bit i says that piece 0x21 + i is there; of the others nothing is to be looked at.
    pub present: u8,
    pub pieces: Pieces<'a>,
}

impl<'a> Given<'a> {
    /// What twelve numbers tell of a value; none if there are fewer, or a piece is not in the value.
    pub fn told(value: &'a [u8], numbers: &[u64]) -> Option<Self> {
        let numbers = numbers.get(..SSL_NUMBERS)?;
        let mut given = Given { client: numbers[0] as u8, verify: numbers[1] as u32, present: 0, pieces: [None; 5] };
        for (i, two) in numbers[2..].chunks(2).enumerate() {
            if two[0] != 0 {
                given.present |= 1 << i;
                given.pieces[i] = Some(value.get(two[0] as usize..)?.get(..two[1] as usize)?);
            }
        }
        Some(given)
    }

    /// The pieces that are there.
    pub fn there(&self) -> Pieces<'a> {
        from_fn(|i| (self.present >> i & 1 == 1).then(|| self.pieces[i].unwrap_or_default()))
    }

    /// Whether another says the same.
    pub fn says_as(&self, other: &Given) -> bool {
        (self.client, self.verify, self.there()) == (other.client, other.verify, other.there())
    }

    /// The length of the value: 5 + 3 for each piece that is there, and its bytes.
    pub fn length(&self) -> usize {
        5 + self.there().iter().flatten().map(|piece| 3 + piece.len()).sum::<usize>()
    }

    /// The same, with this lent for each piece that is not there, and other bits beyond the fifth.
    pub fn with_absent(&self, lent: Option<&'a [u8]>, beyond: u8) -> Self {
        let pieces = from_fn(|i| if self.present >> i & 1 == 1 { self.pieces[i] } else { lent });
        Given { present: self.present & 31 | beyond << 5, pieces, ..*self }
    }
}

impl fmt::Display for Given<'_> {
    fn fmt(&self, f: &mut fmt::Formatter) -> fmt::Result {
        let piece = |piece: Option<&[u8]>| piece.map_or("NULL".to_string(), |piece| format!("{} ({} bytes)", hex(piece), piece.len()));
        let pieces = self.pieces.map(piece).join(", ");
        write!(f, "client {:02x}, verify {:08x}, present {:08b}, pieces [{pieces}]", self.client, self.verify, self.present)
    }
}

/// A value with this client byte and these sub-TLVs.
pub fn value(client: u8, sub_tlvs: &[Vec<u8>]) -> Vec<u8> {
    [&[client][..], &VERIFY.to_be_bytes(), &sub_tlvs.concat()].concat()
}

/// A sub-TLV with this value.
fn sub_tlv(kind: u8, value: &[u8]) -> Vec<u8> {
    [&[kind][..], &(value.len() as u16).to_be_bytes(), value].concat()
}

/// Each of the listed sub-TLVs behind each of these client bytes.
pub fn listed(clients: impl IntoIterator<Item = u8>) -> impl Iterator<Item = Vec<u8>> {
    let lists = listed_sub_tlvs();
    clients.into_iter().flat_map(move |client| lists.iter().map(|list| value(client, list)).collect::<Vec<_>>())
}

/// Lists of sub-TLVs: none, a front end's, each type alone, repeats, other types, and values that are sub-TLVs themselves.
fn listed_sub_tlvs() -> Vec<Vec<Vec<u8>>> {
    let front_end = vec![
        sub_tlv(0x21, b"TLSv1.2"),
        sub_tlv(0x22, b"example.com"),
        sub_tlv(0x23, b"ECDHE-RSA-AES128-GCM-SHA256"),
        sub_tlv(0x24, b"SHA256"),
        sub_tlv(0x25, b"RSA2048"),
    ];
    let inside = [tlv(0x21, 0), tlv(0x22, 1)].concat();
    let mut all = vec![vec![], front_end.clone(), front_end.into_iter().rev().collect(), TYPES.map(|kind| tlv(kind, 0)).to_vec()];
    for kind in TYPES {
        all.extend([0, 1, 258].map(|size| vec![tlv(kind, size)]));
        // The first empty and the second not, and the other way round.
        all.extend([[0, 2, 1], [2, 0, 1]].map(|sizes| sizes.map(|size| tlv(kind, size)).to_vec()));
        all.extend([vec![sub_tlv(kind, &inside)], vec![sub_tlv(kind, &inside), tlv(0x22, 2), tlv(0x21, 2)]]);
    }
    for other in [0x00, 0x01, 0x20, 0x26, 0xFF] {
        all.push(vec![tlv(other, 2)]);
        all.push(vec![tlv(other, 0), tlv(0x21, 1), tlv(other, 2), tlv(0x25, 0), tlv(other, 1)]);
        all.push(vec![sub_tlv(other, &inside), tlv(0x22, 0)]);
    }
    all
}

/// Every list of so many of these types or fewer.
pub fn lists(types: &[u8], most: usize) -> Vec<Vec<u8>> {
    let mut all = vec![vec![]];
    let mut begin = 0;
    for _ in 0..most {
        let end = all.len();
        for place in begin..end {
            all.extend(types.iter().map(|kind| [&all[place][..], &[*kind]].concat()).collect::<Vec<_>>());
        }
        begin = end;
    }
    all
}

/// Values over 65,535 bytes, and pieces of so many; sub-TLVs that start beyond.
pub fn long() -> Vec<Vec<u8>> {
    let empty = vec![0; 3 * 22_000];
    let mut lists = vec![
        TYPES.map(|kind| tlv(kind, 30_000)).to_vec(),
        TYPES.map(|kind| tlv(kind, LONGEST)).to_vec(),
        vec![tlv(0x26, LONGEST), tlv(0x21, 3), tlv(0x25, 0)],
        [vec![empty], TYPES.map(|kind| tlv(kind, 2)).to_vec()].concat(),
        vec![tlv(0x23, 65_527)],
        vec![tlv(0x23, 65_528)],
    ];
    lists.extend(TYPES.map(|kind| vec![tlv(kind, LONGEST)]));
    lists.iter().flat_map(|list| [value(0, list), value(1, list)]).collect()
}

/// A value of few sub-TLVs, whole or up to twice cut, lengthened, or with a byte changed or left out.
pub fn any(random: &mut Random) -> Vec<u8> {
    let mut value: Vec<u8> = (0..5).map(|_| random.byte()).collect();
    for _ in 0..random.below(8) {
        value.extend(any_sub_tlv(random));
    }
    for _ in 0..random.below(3) {
        let place = random.below(value.len() + 1);
        match random.below(5) {
            0 => value.truncate(place),
            1 => value.insert(place, random.byte()),
            2 if place < value.len() => drop(value.remove(place)),
            3 => value.extend(any_sub_tlv(random)),
            _ => {
                if let Some(byte) = value.get_mut(place) {
                    // Lengths are small numbers.
                    *byte = random.byte() >> random.below(8);
                }
            }
        }
    }
    value
}

fn any_sub_tlv(random: &mut Random) -> Vec<u8> {
    let kind = match random.below(8) {
        0 => random.byte(),
        _ => 0x20 + random.below(7) as u8,
    };
    let piece = any_piece(random);
    sub_tlv(kind, &piece)
}

/// A short piece as a rule, often an empty one.
pub fn any_piece(random: &mut Random) -> Vec<u8> {
    let most = [1, 4, 4, 30, 300][random.below(5)];
    (0..random.below(most)).map(|_| random.byte()).collect()
}

/// What to write, cut from bytes: client, verify and present, the lengths of four pieces, and the pieces; the fifth is what is left.
pub fn cut(bytes: &[u8]) -> Option<Given<'_>> {
    let (head, rest) = bytes.split_at_checked(6)?;
    let (lengths, mut rest) = rest.split_at_checked(8)?;
    let pieces = from_fn(|i| {
        let length = lengths.chunks(2).nth(i).map_or(usize::MAX, |length| 256 * usize::from(length[0]) + usize::from(length[1]));
        let (piece, behind) = rest.split_at(length.min(rest.len()));
        rest = behind;
        (!piece.is_empty()).then_some(piece)
    });
    Some(Given { client: head[0], verify: u32::from_be_bytes([head[1], head[2], head[3], head[4]]), present: head[5], pieces })
}
