//! The profile of the headers that diagnostics admit, and the level of their
//! source (document 02, K14).

use crate::judge::judge;
use crate::prefix_table::PrefixTable;
use crate::record::{Kind, Transport};
use crate::refusal::{
    HEADER_TOO_LONG, NOT_LOCAL_OR_STREAM, NOT_VERSION_2, PREFIX_TABLE, UNIQUE_ID,
};
use crate::tlv_area::tlv_list;
use crate::verdict::{Header, Verdict};
use std::ops::{Range, RangeInclusive};

/// The longest header that the profile takes.
const LONGEST: usize = 536;

/// The type of the TLV with the caller's unique ID, and how many bytes it may have.
const UNIQUE_ID_TYPE: u8 = 0x05;
const UNIQUE_ID_LENGTHS: RangeInclusive<usize> = 1..=128;

#[derive(Clone, Debug, PartialEq, Eq)]
pub enum Admission {
    Admitted {
        level: u8,
        /// Bytes of the header.
        length: usize,
        /// Where the unique ID lies in the input; local has none, and 0..0.
        unique_id: Range<usize>,
    },
    /// As the verdict, which is not accepted.
    More(usize),
    Refused {
        number: u8,
        place: usize,
    },
    /// The header fails the profile, 30 to 33, or the table is bad, 34.
    NotAdmitted {
        number: u8,
    },
}

/// What the profile says of `bytes`, with the level that `table` gives.
pub fn admit(table: &[u8], bytes: &[u8]) -> Admission {
    let Some(table) = PrefixTable::of_bytes(table) else {
        return Admission::NotAdmitted {
            number: PREFIX_TABLE,
        };
    };
    match judge(bytes) {
        Verdict::Accepted(header) => admit_header(&table, bytes, &header),
        Verdict::More(least) => Admission::More(least),
        Verdict::Refused { number, place } => Admission::Refused { number, place },
    }
}

/// Every step is judged by itself; the first that does not hold gives the number.
fn admit_header(table: &PrefixTable, bytes: &[u8], header: &Header) -> Admission {
    let kind = header.record.kind;
    let unique_ids = unique_ids(bytes, header);
    let steps = [
        (NOT_VERSION_2, header.version == 2),
        (NOT_LOCAL_OR_STREAM, is_local_or_stream(kind)),
        (HEADER_TOO_LONG, header.length <= LONGEST),
        (UNIQUE_ID, kind == Kind::Local || is_one(&unique_ids)),
    ];
    match steps.into_iter().find(|(_, holds)| !holds) {
        Some((number, _)) => Admission::NotAdmitted { number },
        None => Admission::Admitted {
            level: table.level(&header.record),
            length: header.length,
            unique_id: unique_ids.first().cloned().unwrap_or(0..0),
        },
    }
}

fn is_local_or_stream(kind: Kind) -> bool {
    let stream = Transport::Stream;
    [Kind::Local, Kind::Ip4(stream), Kind::Ip6(stream)].contains(&kind)
}

fn is_one(unique_ids: &[Range<usize>]) -> bool {
    matches!(unique_ids, [one] if UNIQUE_ID_LENGTHS.contains(&one.len()))
}

/// Where the values of the header's 0x05 TLVs lie in the input.
fn unique_ids(bytes: &[u8], header: &Header) -> Vec<Range<usize>> {
    let area = header.tlv_area.clone();
    let tlvs = tlv_list(&bytes[area.clone()]).expect("TLVs fill the area of a whole header");
    let of_type = tlvs.into_iter().filter(|tlv| tlv.0 == UNIQUE_ID_TYPE);
    let in_input = |value: Range<usize>| area.start + value.start..area.start + value.end;
    of_type.map(|tlv| in_input(tlv.1)).collect()
}
