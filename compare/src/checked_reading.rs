//! The checked reading (document 02, K6), compared through the C interface.
use crate::checksum_headers::{self, flipped};
use crate::outcome::Outcome;
use crate::random::Random;
use crate::whole;

/// Listed headers with a checksum TLV: each whole, every prefix, and with bytes behind.
pub fn listed() -> Outcome {
    let mut outcome = Outcome::new("checked readings of headers with a checksum TLV");
    for headers in [
        checksum_headers::right(),
        checksum_headers::known(),
        checksum_headers::wrong(),
        checksum_headers::several(),
        checksum_headers::sizes(),
        checksum_headers::types(),
        checksum_headers::bytes_13(),
    ] {
        headers.iter().for_each(|header| prefixes(&mut outcome, header));
    }
    outcome
}

/// Every prefix of the header, and the header with each of these behind it.
pub fn prefixes(outcome: &mut Outcome, header: &[u8]) {
    whole::read_prefixes_checked(outcome, &[header, b"GET /\r\n"].concat());
    for behind in [&[0][..], &[3, 0, 4, 0, 0, 0, 0], header] {
        reads(outcome, &[header, behind].concat());
    }
}

/// Each bit of a header with a right checksum changed, one at a time: those of the value and all others.
pub fn bits() -> Outcome {
    let mut outcome = Outcome::new("checked readings with one bit changed");
    for header in checksum_headers::right().iter().chain(&checksum_headers::known()) {
        for bit in 0..8 * header.len() {
            let header = flipped(header, bit);
            reads(&mut outcome, &header);
            reads(&mut outcome, &[&header[..], b"GET /\r\n"].concat());
        }
    }
    outcome
}

/// The longest headers, whole, cut by a byte and with a byte behind.
pub fn long(random: &mut Random) -> Outcome {
    let mut outcome = Outcome::new("checked readings of the longest headers");
    for header in checksum_headers::long(random) {
        reads(&mut outcome, &header);
        reads(&mut outcome, &header[..header.len() - 1]);
        reads(&mut outcome, &[&header[..], &[0]].concat());
    }
    outcome
}

pub fn generated(random: &mut Random, count: usize) -> Outcome {
    let mut outcome = Outcome::new("generated headers with checksum TLVs, read plain and checked");
    for _ in 0..count {
        reads(&mut outcome, &checksum_headers::any(random));
    }
    outcome
}

/// Read plain and checked.
pub fn reads(outcome: &mut Outcome, input: &[u8]) {
    let verdict = second::judge(input);
    outcome.reads_checked(input, verdict.clone());
    outcome.reads(input, verdict);
}
