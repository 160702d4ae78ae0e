//! Lookup of a type in a TLV area (document 01, Looking into TLVs), by the
//! area's whole list.

use crate::refusal::TLV_AREA;
use crate::tlv_area::tlv_list;

#[derive(Clone, Copy, Debug, PartialEq, Eq)]
pub enum Answer {
    Found,
    Absent,
    GaveUp,
    /// The area is ill-formed.
    Refused {
        number: u8,
    },
}

#[derive(Clone, Copy, Debug, PartialEq, Eq)]
pub struct Lookup {
    pub answer: Answer,
    /// TLVs examined, never more than the limit.
    pub count: usize,
    /// Where a found value starts in the area, else 0.
    pub start: usize,
    /// Bytes of a found value, else 0.
    pub length: usize,
}

/// Looks for the first TLV of type `kind` among the first `limit` TLVs.
pub fn lookup(area: &[u8], kind: u8, limit: usize) -> Lookup {
    let without_value = |answer, count| Lookup {
        answer,
        count,
        start: 0,
        length: 0,
    };
    let Some(list) = tlv_list(area) else {
        return without_value(Answer::Refused { number: TLV_AREA }, 0);
    };
    match list.iter().position(|tlv| tlv.0 == kind) {
        Some(index) if index < limit => Lookup {
            answer: Answer::Found,
            count: index + 1,
            start: list[index].1.start,
            length: list[index].1.len(),
        },
        None if list.len() <= limit => without_value(Answer::Absent, list.len()),
        _ => without_value(Answer::GaveUp, limit),
    }
}
