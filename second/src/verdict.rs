//! The three answers, and the line that the program writes for each
//! (document 01, Numbered answers and The program).

use crate::record::Record;
use std::fmt;
use std::ops::Range;

/// What an accepted header holds.
#[derive(Clone, Debug, PartialEq, Eq)]
pub struct Header {
    pub record: Record,
    /// Bytes of the whole header.
    pub length: usize,
    /// 1 or 2.
    pub version: u8,
    /// Where the TLV area lies in the input. An empty one lies at the header's end.
    pub tlv_area: Range<usize>,
}

#[derive(Clone, Debug, PartialEq, Eq)]
pub enum Verdict {
    Accepted(Box<Header>),
    /// The fewest further bytes with which some continuation is a whole header
    /// (document 02, K10).
    More(usize),
    Refused {
        number: u8,
        place: usize,
    },
}

impl fmt::Display for Verdict {
    fn fmt(&self, f: &mut fmt::Formatter) -> fmt::Result {
        match self {
            Verdict::Accepted(header) => {
                write!(f, "accepted {} {}", header.length, header.record.kind)
            }
            Verdict::More(_) => f.write_str("more"),
            Verdict::Refused { number, place } => write!(f, "refused {number} at {place}"),
        }
    }
}
