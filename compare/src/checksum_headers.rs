//! Headers with a checksum TLV (document 02, K6), right and wrong.
use crate::headers::{self, tlv, FAMILIES, OPEN};
use crate::random::Random;
use second::{crc32c, Verdict};

/// The type of the checksum TLV.
pub const CHECKSUM: u8 = 3;

/// A header with these TLVs behind address bytes, and the places of its checksum values of 4 bytes.
fn header(command: u8, family: u8, addresses: usize, tlvs: &[Vec<u8>]) -> (Vec<u8>, Vec<usize>) {
    let mut body = headers::addresses(addresses);
    let mut values = Vec::new();
    for tlv in tlvs {
        if tlv.starts_with(&[CHECKSUM, 0, 4]) {
            values.push(16 + body.len() + 3);
        }
        body.extend_from_slice(tlv);
    }
    (headers::block(command, family, &body), values)
}

/// The header with the right checksum at this place.
fn right_at(header: &[u8], place: usize) -> Vec<u8> {
    let zeroed = [&header[..place], &[0; 4], &header[place + 4..]].concat();
    with_value(header, place, &crc32c(&zeroed).to_be_bytes())
}

fn with_value(header: &[u8], place: usize, value: &[u8]) -> Vec<u8> {
    [&header[..place], value, &header[place + value.len()..]].concat()
}

/// The input with a right checksum in the header that it begins with, if that has a checksum TLV of 4 bytes.
pub fn righted(input: &[u8]) -> Vec<u8> {
    let place = || {
        let Verdict::Accepted(header) = second::judge(input) else { return None };
        let tlvs = second::tlv_list(&input[header.tlv_area.clone()])?;
        let (_, value) = tlvs.into_iter().find(|(kind, value)| *kind == CHECKSUM && value.len() == 4)?;
        Some((header.tlv_area.start + value.start, header.length))
    };
    match place() {
        Some((place, end)) => [&right_at(&input[..end], place)[..], &input[end..]].concat(),
        None => input.to_vec(),
    }
}

/// The header with these TLVs and every checksum value in it right for itself, one header for each.
fn rights(command: u8, family: u8, addresses: usize, tlvs: &[Vec<u8>]) -> Vec<Vec<u8>> {
    let (header, values) = header(command, family, addresses, tlvs);
    values.iter().map(|place| right_at(&header, *place)).collect()
}

/// Right checksums of every address kind: alone, first, in the middle and last.
pub fn right() -> Vec<Vec<u8>> {
    let [other, last, checksum] = [tlv(5, 2), tlv(4, 0), tlv(CHECKSUM, 4)];
    let areas = [
        vec![checksum.clone()],
        vec![checksum.clone(), other.clone(), last.clone()],
        vec![other.clone(), checksum.clone(), last.clone()],
        vec![other, last, checksum],
    ];
    let of_kind = |(family, size)| areas.iter().flat_map(move |area| rights(0x21, family, size, area)).collect::<Vec<_>>();
    FAMILIES.into_iter().flat_map(of_kind).collect()
}

/// Two headers of load balancers in the field, whose checksums neither program made: the second is a LOCAL one, and its checksum is not looked at. A third is
/// made here: its value is what the division gives if it is not taken as zero.
pub fn known() -> Vec<Vec<u8>> {
    let addresses = [172, 31, 7, 113, 172, 31, 10, 31, 0xC8, 0xF2, 0, 80];
    let endpoint = [&addresses[..], &[3, 0, 4, 0xE8, 0xD6, 0x89, 0x2D], &[0xEA, 0, 23, 1], b"vpce-08d2bf15fac5001c9", &[4, 0, 36], &[0; 36]].concat();
    vec![
        headers::block(0x21, 0x11, &endpoint),
        headers::block(0x20, 0x00, &[3, 0, 4, 0xA9, 0xB8, 0x7E, 0x8F]),
        headers::block(0x21, 0x11, &[0x5B, 0x45, 0x08, 0x6D, 10, 4, 5, 6, 0x12, 0x34, 0x56, 0x78, 3, 0, 4, 1, 2, 3, 4]),
    ]
}

/// Right checksums made wrong: the lowest byte first, not turned over at the end, zero, and of other bytes than the whole header.
pub fn wrong() -> Vec<Vec<u8>> {
    let checksum = [tlv(CHECKSUM, 4)];
    let mut all = Vec::new();
    for (family, size) in FAMILIES {
        let (header, values) = header(0x21, family, size, &checksum);
        let place = values[0];
        let zeroed = with_value(&header, place, &[0; 4]);
        let number = crc32c(&zeroed);
        let parts = [&zeroed[..place - 3], &zeroed[..place], &zeroed[12..], &[&zeroed[..], &[0]].concat()].map(crc32c);
        for value in [number.swap_bytes(), !number, number.reverse_bits(), 0].into_iter().chain(parts) {
            all.push(with_value(&header, place, &value.to_be_bytes()));
        }
    }
    all
}

/// Several checksum TLVs: each in turn right for itself, none right, and all as is right if all are taken as zero.
pub fn several() -> Vec<Vec<u8>> {
    let of = |sizes: &[usize]| sizes.iter().map(|size| tlv(CHECKSUM, *size)).collect::<Vec<_>>();
    let apart = vec![tlv(CHECKSUM, 4), tlv(5, 2), tlv(CHECKSUM, 4), tlv(4, 0)];
    let areas = [of(&[4, 4]), of(&[4, 0]), of(&[0, 4]), of(&[5, 4]), of(&[4, 3]), of(&[0, 0]), of(&[4, 4, 4]), apart];
    let mut all = Vec::new();
    for (family, size) in FAMILIES {
        for area in &areas {
            let (header, values) = header(0x21, family, size, area);
            let set = |value: &[u8]| values.iter().fold(header.clone(), |header, place| with_value(&header, *place, value));
            all.push(set(&crc32c(&set(&[0; 4])).to_be_bytes()));
            all.push(header.clone());
            all.extend(rights(0x21, family, size, area));
        }
    }
    all
}

/// Checksum values of 0 to 6 bytes, and of lengths about those with a byte 4: alone, first, last and in the middle. They hold what the division gives over zeros in
/// their place: at their start, and at their end.
pub fn sizes() -> Vec<Vec<u8>> {
    let mut all = Vec::new();
    for size in (0..=6).chain([0x0103, 0x0104, 0x0105, 0x0400, 0x0404]) {
        let [none, other, last] = [vec![], tlv(5, 2), tlv(4, 0)];
        for (before, behind) in [(&none, &none), (&none, &last), (&other, &none), (&other, &last)] {
            let mut body = [&headers::addresses(12)[..], before, &[CHECKSUM]].concat();
            body.extend_from_slice(&(size as u16).to_be_bytes());
            let place = 16 + body.len();
            body.resize(body.len() + size, 0);
            let zeroed = headers::block(0x21, 0x11, &[&body[..], behind].concat());
            let value = crc32c(&zeroed).to_be_bytes();
            let n = size.min(4);
            all.push(with_value(&zeroed, place, &value[..n]));
            all.push(with_value(&zeroed, place + size - n, &value[..n]));
            all.push(zeroed);
        }
    }
    all
}

/// TLVs of every type with what would be a right checksum.
pub fn types() -> Vec<Vec<u8>> {
    let of_type = |kind| {
        let (header, _) = header(0x21, 0x21, 36, &[tlv(kind, 4)]);
        right_at(&header, 16 + 36 + 3)
    };
    (0..=255).map(of_type).collect()
}

/// Checksum TLVs in blocks that are not looked at, those of every byte 13 under LOCAL and of the open ones under PROXY, and in those of all other bytes 13; with
/// and without address bytes before them: right, wrong, several, of another length, and cut.
pub fn bytes_13() -> Vec<Vec<u8>> {
    let areas = [vec![tlv(CHECKSUM, 4)], vec![tlv(CHECKSUM, 4), tlv(CHECKSUM, 4)], vec![tlv(CHECKSUM, 5)], vec![vec![CHECKSUM, 0]]];
    let mut all = Vec::new();
    for (command, family) in (0..=255).flat_map(|family| [(0x20, family), (0x21, family)]) {
        for (size, area) in [0, 12].into_iter().flat_map(|size| areas.iter().map(move |area| (size, area))) {
            all.push(header(command, family, size, area).0);
            all.extend(rights(command, family, size, area));
        }
    }
    all
}

/// The longest headers: a right checksum last, first, and behind as many TLVs as there is room for; then a bit of each changed.
pub fn long(random: &mut Random) -> Vec<Vec<u8>> {
    let checksum = tlv(CHECKSUM, 4);
    let mut all = Vec::new();
    for (family, size) in FAMILIES {
        let filler = tlv(4, 65_535 - size - 7 - 3);
        let many = vec![tlv(5, 0); (65_535 - size - 7) / 3];
        for area in [vec![filler.clone(), checksum.clone()], vec![checksum.clone(), filler], [many, vec![checksum.clone()]].concat()] {
            for header in rights(0x21, family, size, &area) {
                all.push(flipped(&header, random.below(8 * header.len())));
                all.push(header);
            }
        }
    }
    all
}

/// The bytes with one bit changed.
pub fn flipped(bytes: &[u8], bit: usize) -> Vec<u8> {
    let mut bytes = bytes.to_vec();
    bytes[bit / 8] ^= 1 << (bit % 8);
    bytes
}

/// A header at random, with none to several checksum TLVs of which one is right; now and then with a bit changed, with bytes behind, or cut.
pub fn any(random: &mut Random) -> Vec<u8> {
    let (mut family, size) = FAMILIES[random.below(6)];
    if random.below(8) == 0 {
        family = OPEN[random.below(6)];
    }
    let command = if random.below(8) == 0 { 0x20 } else { 0x21 };
    let tlvs: Vec<Vec<u8>> = (0..random.below(5)).map(|_| any_tlv(random)).collect();
    let (mut header, values) = header(command, family, size, &tlvs);
    for byte in &mut header[16..16 + size] {
        *byte = random.byte();
    }
    if !values.is_empty() && random.below(8) > 0 {
        header = right_at(&header, values[random.below(values.len())]);
    }
    if random.below(3) == 0 {
        header = flipped(&header, random.below(8 * header.len()));
    }
    match random.below(8) {
        0 => header.truncate(random.below(header.len())),
        1 | 2 => header.extend((0..1 + random.below(9)).map(|_| random.byte())),
        _ => (),
    }
    header
}

/// As often as not a checksum TLV, mostly of 4 bytes.
fn any_tlv(random: &mut Random) -> Vec<u8> {
    match random.below(6) {
        0 => tlv(CHECKSUM, random.below(7)),
        1 | 2 => tlv(CHECKSUM, 4),
        3 => tlv(random.byte(), random.below(300)),
        _ => tlv(4 + random.below(2) as u8, random.below(6)),
    }
}
