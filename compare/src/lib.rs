//! The proved library and the second program on the same inputs: `library` calls the one through its C interface, `expected` says by the
//! other what it must leave, `interface` compares the two on inputs made in `inputs` and `headers`, and `whole` on every prefix of whole headers.
//! The checksum (document 02, K6) has its inputs in `checksum_headers`, and is compared in `crc32c`, `checked_reading` and `checked_writing`; stored forms
//! (K7) are compared in `stored`. The profile of diagnostics (K14) has its inputs in `prefix_tables` and `admission_headers`, and is compared in `admission`.
//! What a TLS front end says in TLV 0x20 (K2) has its inputs in `ssl_values`, and is compared in `ssl_reading` and `ssl_writing`, as `ssl` says.
//! The library is held to the rules of joined TLV areas (K13) in `joining`, and to what others write for an IPv6 address (K3) in `ip6_text`.
pub mod admission;
pub mod admission_headers;
pub mod checked_reading;
pub mod checked_writing;
pub mod checksum_headers;
pub mod connection;
pub mod crc32c;
pub mod expected;
pub mod headers;
pub mod inputs;
pub mod interface;
pub mod ip6_text;
pub mod joining;
pub mod library;
pub mod outcome;
pub mod prefix_tables;
pub mod random;
pub mod records;
pub mod ssl;
pub mod ssl_reading;
pub mod ssl_values;
pub mod ssl_writing;
pub mod stored;
pub mod whole;

use second::StoredVersion;
use std::fmt;

/// What a call leaves: its answer, the numbers, and the bytes of the buffer that it may write.
#[derive(Clone, Debug, PartialEq, Eq)]
pub struct Left {
    pub answer: u32,
    pub numbers: Vec<u64>,
    pub bytes: Vec<u8>,
}

impl Left {
    /// The bytes at the front of the buffer that the call says it wrote.
    pub fn written(&self) -> Option<&[u8]> {
        let length = *self.numbers.first().filter(|_| self.answer == 0)?;
        self.bytes.get(..length as usize)
    }
}

/// A number that was not written is shown as a dash.
impl fmt::Display for Left {
    fn fmt(&self, f: &mut fmt::Formatter) -> fmt::Result {
        let number = |n: &u64| if *n == NUMBER { "-".to_string() } else { n.to_string() };
        let numbers = self.numbers.iter().map(number).collect::<Vec<_>>().join(" ");
        let bytes: String = self.bytes.iter().map(|b| format!("{b:02x}")).collect();
        write!(f, "answer {}, numbers [{numbers}], bytes [{bytes}]", self.answer)
    }
}

/// What a lent buffer holds before a call.
pub const BYTE: u8 = 0xA5;
pub const NUMBER: u64 = 0xA5A5_A5A5_A5A5_A5A5;

/// Lengths of lent buffers with room to spare.
pub const NUMBERS: usize = 6;
pub const CONNECTION: usize = connection::SIZE + 3;

/// How many numbers tell what the value of TLV 0x20 says.
pub const SSL_NUMBERS: usize = 12;

pub const STORED_VERSIONS: [StoredVersion; 2] = [StoredVersion::One, StoredVersion::Two];

/// A first difference, or the number of comparisons without one.
pub fn same(here: &Left, there: &Left, input: impl FnOnce() -> String) -> Result<(), String> {
    if here == there {
        return Ok(());
    }
    Err(format!("{}: the library leaves {here}, the second program asks for {there}", input()))
}

/// The first bytes of an input; a table of 64 prefixes, of 1216 bytes, is shown whole.
pub fn hex(bytes: &[u8]) -> String {
    bytes.iter().take(1250).map(|b| format!("{b:02x}")).collect()
}
