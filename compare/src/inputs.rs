//! The inputs, in groups.
use crate::headers;
use crate::random::Random;

pub struct Group {
    pub name: &'static str,
    pub cases: Vec<Vec<u8>>,
}

pub fn groups(seed: u64, generated: usize) -> Vec<Group> {
    let mut random = Random(seed);
    let short = headers::short();
    let long = headers::long();
    vec![
        Group { name: "every prefix, with and without bytes behind", cases: short.iter().flat_map(|h| prefixes(h)).collect() },
        Group { name: "every one-byte change", cases: short.iter().flat_map(|h| changes(h)).collect() },
        Group { name: "every length from L = 0 to 600 for each family", cases: lengths() },
        Group { name: "every high and low length byte of a first TLV", cases: tlv_lengths() },
        Group { name: "long TLV areas, whole, cut and changed", cases: long.iter().flat_map(|h| long_cases(h, &mut random)).collect() },
        Group { name: "generated text lines", cases: (0..generated).map(|_| text(&mut random)).collect() },
        Group { name: "generated blocks", cases: (0..generated).map(|_| binary(&mut random)).collect() },
        Group { name: "damaged headers", cases: (0..generated).map(|_| damaged(&short, &mut random)).collect() },
        Group { name: "whole lines at random", cases: (0..generated / 4).map(|_| headers::line(&mut random)).collect() },
    ]
}

/// Inputs at and beyond the 65,536 bytes that the program reads.
pub fn whole_runs() -> Vec<(&'static str, Vec<u8>)> {
    let mut full = headers::block(0x20, 1, &headers::addresses(65_535));
    let accepted = headers::block(0x20, 1, &headers::addresses(65_520));
    let mut behind = b"PROXY UNKNOWN\r\n".to_vec();
    behind.resize(70_000, b'G');
    full.extend_from_slice(b"GET ");
    vec![
        ("W02", b"PROXY TCP4 192.168.0.1 192.168.0.11 56324 443\r\n".to_vec()),
        ("no input", Vec::new()),
        ("a header of 65,551 bytes, cut at 65,536", full),
        ("a header of 65,536 bytes", accepted),
        ("70,000 bytes behind a line", behind),
        ("70,000 zero bytes", vec![0; 70_000]),
    ]
}

fn prefixes(header: &[u8]) -> Vec<Vec<u8>> {
    let mut all: Vec<Vec<u8>> = (0..=header.len()).map(|n| header[..n].to_vec()).collect();
    all.push([header, b"GET / HTTP/1.1\r\n"].concat());
    all.push([header, header].concat());
    all
}

fn changes(header: &[u8]) -> Vec<Vec<u8>> {
    let mut all = Vec::with_capacity(header.len() * 255);
    for place in 0..header.len() {
        // The bytes of addresses are all alike: a few changes tell as much as all.
        let step = if place >= 28 && header[0] == b'\r' { 37 } else { 1 };
        for delta in (1..=255u8).step_by(step) {
            let mut changed = header.to_vec();
            changed[place] = changed[place].wrapping_add(delta);
            all.push(changed);
        }
    }
    all
}

fn lengths() -> Vec<Vec<u8>> {
    let mut all = Vec::new();
    for (family, _) in headers::FAMILIES {
        for length in 0..600u16 {
            let mut header = headers::block(0x21, family, &headers::addresses(230));
            header[14..16].copy_from_slice(&length.to_be_bytes());
            all.push(header);
        }
    }
    all
}

fn tlv_lengths() -> Vec<Vec<u8>> {
    let mut all = Vec::new();
    for room in [0usize, 1, 2, 3, 4, 255, 256, 257, 258, 259, 260, 511, 512, 513, 515, 600] {
        for length in 0..=700u16 {
            let mut body = headers::addresses(12);
            body.push(4);
            body.extend_from_slice(&length.to_be_bytes());
            body.resize(12 + 3 + room, 0);
            all.push(headers::block(0x21, 0x11, &body));
        }
    }
    all
}

fn long_cases(header: &[u8], random: &mut Random) -> Vec<Vec<u8>> {
    let mut all = vec![header.to_vec(), header[..header.len() - 1].to_vec()];
    for _ in 0..60 {
        all.push(header[..random.below(header.len())].to_vec());
        let mut changed = header.to_vec();
        let place = random.below(changed.len());
        changed[place] = random.byte();
        all.push(changed);
    }
    all
}

/// A line, whole or not, a block or a damaged header.
pub fn any(headers: &[Vec<u8>], random: &mut Random) -> Vec<u8> {
    match random.below(4) {
        0 => headers::line(random),
        1 => text(random),
        2 => binary(random),
        _ => damaged(headers, random),
    }
}

const WORDS: [&str; 24] = [
    "PROXY ", "TCP4 ", "TCP6 ", "UNKNOWN", " ", "\r\n", "\r", "\n", "0", "1", "255", "256", "65535", "65536", ".", ":", "::", "ffff", "A0", "12345", "1.2.3.4 ",
    "2001:db8::1 ", "80 ", "x",
];

/// A line that begins well and then takes words at random.
fn text(random: &mut Random) -> Vec<u8> {
    let starts = ["PROXY ", "PROXY TCP4 ", "PROXY TCP6 ", "PROXY UNKNOWN", "PROXY UNKNOWN ", "PROXY TCP4 1.2.3.4 ", "PROXY TCP6 ::1 "];
    let mut line = starts[random.below(starts.len())].as_bytes().to_vec();
    for _ in 0..random.below(24) {
        line.extend_from_slice(WORDS[random.below(WORDS.len())].as_bytes());
    }
    line
}

fn binary(random: &mut Random) -> Vec<u8> {
    let (mut family, size) = headers::FAMILIES[random.below(6)];
    if random.below(4) == 0 {
        family = headers::OPEN[random.below(6)];
    }
    let mut body = headers::addresses(size);
    for _ in 0..random.below(5) {
        let length = if random.below(4) == 0 { random.below(400) } else { random.below(6) };
        body.extend(headers::tlv(random.byte(), length));
    }
    let command = if random.below(8) == 0 { random.byte() } else { 0x20 + random.below(2) as u8 };
    let mut header = headers::block(command, family, &body);
    if random.below(3) == 0 {
        let place = 12 + random.below(header.len() - 12);
        header[place] = random.byte();
    }
    header.truncate(1 + random.below(header.len() + 20));
    header
}

fn damaged(headers: &[Vec<u8>], random: &mut Random) -> Vec<u8> {
    let mut header = headers[random.below(headers.len())].clone();
    for _ in 0..1 + random.below(3) {
        let place = random.below(header.len());
        match random.below(4) {
            0 => header[place] = random.byte(),
            1 => {
                header.remove(place);
            }
            2 => header.insert(place, random.byte()),
            _ => {
                let other = random.below(header.len());
                header.swap(place, other);
            }
        }
        if header.is_empty() {
            break;
        }
    }
    header
}
