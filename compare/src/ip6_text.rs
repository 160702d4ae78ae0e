//! IPv6 addresses in version 1 lines (document 02, K3), beside what others write: RFC 5952 in its examples, and the C library's inet_ntop. The second program
//! writes each line too.
use crate::connection::{self, SIZE, SOURCE};
use crate::outcome::Outcome;
use crate::random::Random;
use crate::{hex, interface, library, CONNECTION, NUMBERS};
use second::{Kind, Record, Transport};
use std::ffi::{c_char, c_int, CStr};

extern "C" {
    /// POSIX; libc is linked anyway.
    fn inet_ntop(family: c_int, address: *const u8, text: *mut c_char, room: u32) -> *const c_char;
}

type Address = [u8; 16];

const SOURCE_PORT: u16 = 1;
const DESTINATION_PORT: u16 = 65_535;

/// What RFC 5952 says is to be written, and spellings of the same address that it shows, by section (from memory: docs/DECISIONS.md).
const PUBLISHED: [(&str, &[&str]); 14] = [
    // 1
    (
        "2001:db8::1:0:0:1",
        &[
            "2001:db8:0:0:1:0:0:1",
            "2001:0db8:0:0:1:0:0:1",
            "2001:db8::1:0:0:1",
            "2001:db8::0:1:0:0:1",
            "2001:0db8::1:0:0:1",
            "2001:db8:0:0:1::1",
            "2001:db8:0000:0:1::1",
            "2001:DB8:0:0:1::1",
        ],
    ),
    // 2.1
    (
        "2001:db8:aaaa:bbbb:cccc:dddd:eeee:1",
        &[
            "2001:db8:aaaa:bbbb:cccc:dddd:eeee:0001",
            "2001:db8:aaaa:bbbb:cccc:dddd:eeee:001",
            "2001:db8:aaaa:bbbb:cccc:dddd:eeee:01",
            "2001:db8:aaaa:bbbb:cccc:dddd:eeee:1",
        ],
    ),
    // 2.2
    ("2001:db8:aaaa:bbbb:cccc:dddd:0:1", &["2001:db8:aaaa:bbbb:cccc:dddd::1", "2001:db8:aaaa:bbbb:cccc:dddd:0:1"]),
    ("2001:db8::1", &["2001:db8:0:0:0::1", "2001:db8:0:0::1", "2001:db8:0::1", "2001:db8::1"]),
    ("2001:db8::aaaa:0:0:1", &["2001:db8::aaaa:0:0:1", "2001:db8:0:0:aaaa::1"]),
    // 2.3
    (
        "2001:db8:aaaa:bbbb:cccc:dddd:eeee:aaaa",
        &["2001:db8:aaaa:bbbb:cccc:dddd:eeee:aaaa", "2001:db8:aaaa:bbbb:cccc:dddd:eeee:AAAA", "2001:db8:aaaa:bbbb:cccc:dddd:eeee:AaAa"],
    ),
    // 4.1
    ("2001:db8::1", &["2001:0db8::0001"]),
    // 4.2.1
    ("2001:db8::2:1", &["2001:db8:0:0:0:0:2:1"]),
    ("2001:db8::1", &["2001:db8::0:1"]),
    // 4.2.2
    ("2001:db8:0:1:1:1:1:1", &["2001:db8:0:1:1:1:1:1", "2001:db8::1:1:1:1:1"]),
    // 4.2.3
    ("2001:0:0:1::1", &["2001:0:0:1:0:0:0:1"]),
    ("2001:db8::1:0:0:1", &["2001:db8:0:0:1:0:0:1"]),
    // Not in the RFC: the shortest, and a loopback.
    ("::", &["0:0:0:0:0:0:0:0", "0::", "::0"]),
    ("::1", &["0:0:0:0:0:0:0:1", "0::1"]),
];

/// Each spelling is read, and what was read is written as the RFC says, and as inet_ntop writes it.
pub fn published() -> Outcome {
    let mut outcome = Outcome::new("spellings of RFC 5952");
    for (written, spellings) in PUBLISHED {
        for spelling in spellings {
            let read = library::read(line(spelling, spelling).as_bytes(), NUMBERS, CONNECTION);
            let connection = &read.bytes[..SIZE];
            outcome.holds(read.answer == 0, || format!("{spelling} is not read: {read}"));
            outcome.holds(text_of(connection) == line(written, written), || format!("{spelling} is written {:?}, not {written}", text_of(connection)));
            let address = std::array::from_fn(|i| connection[SOURCE + i]);
            let plain = as_inet_ntop(&address, &address);
            outcome.holds(plain == Ok(2), || format!("{spelling}: {plain:?} beside inet_ntop"));
            interface::line(&mut outcome, connection, NUMBERS);
        }
    }
    outcome
}

/// Every choice of zero groups, among others of one to four digits: as inet_ntop writes them, and in every room.
pub fn zeros() -> Outcome {
    let mut texts = Texts::new("choices of zero groups");
    for pattern in 0..=255u8 {
        for other in [0x1, 0x10, 0xabc, 0xf00d] {
            let address = |pattern: u8| groups(|i| if pattern >> i & 1 == 0 { 0 } else { other });
            texts.pair(&address(pattern), &address(pattern.reverse_bits()));
        }
    }
    texts.all_reached()
}

/// Addresses at random, sparse and structured.
pub fn generated(random: &mut Random, count: usize) -> Outcome {
    let mut texts = Texts::new("pairs of IPv6 addresses");
    for _ in 0..count {
        let source = any(random);
        texts.pair(&source, &any(random));
    }
    texts.all_reached()
}

/// An address: of random bytes, of few groups or few digits that are not zero, or an interface behind a prefix in use.
fn any(random: &mut Random) -> Address {
    const PREFIXES: [(usize, [u16; 6]); 8] = [
        (6, [0; 6]),
        (6, [0, 0, 0, 0, 0, 0xffff]),
        (6, [0, 0, 0, 0, 0xffff, 0]),
        (6, [0x64, 0xff9b, 0, 0, 0, 0]),
        (4, [0xfe80, 0, 0, 0, 0, 0]),
        (4, [0x2001, 0xdb8, 0, 0, 0, 0]),
        (2, [0x2001, 0xdb8, 0, 0, 0, 0]),
        (1, [0xff02, 0, 0, 0, 0, 0]),
    ];
    let (fixed, prefix) = match random.below(4) {
        0 => PREFIXES[random.below(PREFIXES.len())],
        _ => (0, [0; 6]),
    };
    let how = random.below(4);
    groups(|i| match how {
        _ if i < fixed => prefix[i],
        0 => u16::from_be_bytes([random.byte(), random.byte()]),
        1 => u16::from_be_bytes([random.byte(), random.byte()]) * u16::from(random.below(2) == 0),
        2 => u16::from(random.below(4) == 0) << random.below(16),
        _ => [0, 0, 1, 0xffff][random.below(4)],
    })
}

/// The sixteen bytes of eight groups.
fn groups(mut group: impl FnMut(usize) -> u16) -> Address {
    let mut address = [0; 16];
    for (i, bytes) in address.chunks_mut(2).enumerate() {
        bytes.copy_from_slice(&group(i).to_be_bytes());
    }
    address
}

/// What lines have shown, and how many addresses inet_ntop writes without and with a dotted tail.
struct Texts {
    outcome: Outcome,
    plain: usize,
    dotted: usize,
}

impl Texts {
    fn new(name: &str) -> Self {
        Texts { outcome: Outcome::new(name), plain: 0, dotted: 0 }
    }

    fn pair(&mut self, source: &Address, destination: &Address) {
        let compared = as_inet_ntop(source, destination);
        if let Ok(plain) = compared {
            self.plain += plain;
            self.dotted += 2 - plain;
        }
        self.outcome.add(compared.map(drop));
        interface::line(&mut self.outcome, &between(source, destination), NUMBERS);
    }

    /// Addresses of both sorts came.
    fn all_reached(mut self) -> Outcome {
        let Texts { plain, dotted, .. } = self;
        let told = format!("{plain} addresses as inet_ntop writes them, {dotted} to which it gives a dotted tail");
        self.outcome.holds(plain > 0 && dotted > 0, || told.clone());
        self.outcome.name += &format!(", {told}");
        self.outcome
    }
}

/// The library writes both addresses of a line as inet_ntop does, apart from those to which that gives a dotted tail. Answers how many have none.
pub fn as_inet_ntop(source: &Address, destination: &Address) -> Result<usize, String> {
    let line = text_of(&between(source, destination));
    let mut words = line.split(' ').skip(2);
    let mut plain = 0;
    for address in [source, destination] {
        let (here, there) = (words.next().unwrap_or_default(), by_inet_ntop(address));
        if there.contains('.') {
            continue;
        }
        if here != there {
            return Err(format!("{}: the library writes {here}, inet_ntop {there}", hex(address)));
        }
        plain += 1;
    }
    Ok(plain)
}

fn by_inet_ntop(address: &Address) -> String {
    const AF_INET6: c_int = 10;
    let mut text = [0u8; 46];
    // SAFETY: an address is sixteen bytes, and the text has the length beside it.
    let written = unsafe { inet_ntop(AF_INET6, address.as_ptr(), text.as_mut_ptr().cast(), text.len() as u32) };
    assert!(!written.is_null(), "{}: inet_ntop has room for every address", hex(address));
    let text = CStr::from_bytes_until_nul(&text).expect("inet_ntop ends its text");
    text.to_string_lossy().into_owned()
}

/// A stream between two addresses.
fn between(source: &Address, destination: &Address) -> [u8; SIZE] {
    let mut record = Record::blank(Kind::Ip6(Transport::Stream));
    record.source[..16].copy_from_slice(source);
    record.destination[..16].copy_from_slice(destination);
    record.source_port = SOURCE_PORT;
    record.destination_port = DESTINATION_PORT;
    connection::bytes(&record)
}

/// The line with these texts of addresses.
fn line(source: &str, destination: &str) -> String {
    format!("PROXY TCP6 {source} {destination} {SOURCE_PORT} {DESTINATION_PORT}\r\n")
}

/// The line that the library writes, or what it leaves instead.
fn text_of(connection: &[u8]) -> String {
    let left = library::write_v1(connection, 104, NUMBERS);
    left.written().map_or_else(|| left.to_string(), |line| String::from_utf8_lossy(line).into_owned())
}
