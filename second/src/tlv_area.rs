//! The TLVs of a whole area (document 01, Looking into TLVs), found from its
//! end: first which of its suffixes TLVs fill, then the chain from its start.

use crate::refusal::TLV_AREA;
use crate::tlv::HEAD;
use std::iter::successors;
use std::ops::Range;

/// What a step of the walker answers.
#[derive(Clone, Debug, PartialEq, Eq)]
pub enum Step {
    /// A TLV; the walker moves to `next`, just past it.
    Shown {
        kind: u8,
        /// Where the value lies in the area.
        value: Range<usize>,
        next: usize,
    },
    /// The place is the area's end; the walker stays.
    End,
    /// TLVs do not fill what remains, or the place lies beyond the area; the
    /// walker stays.
    Refused { number: u8 },
}

/// The area's TLVs in order, each with its type and where its value lies; none
/// if the area is ill-formed.
pub fn tlv_list(area: &[u8]) -> Option<Vec<(u8, Range<usize>)>> {
    let ends = first_tlv_ends(area);
    let places = successors(Some(0), |&place| ends[place]);
    places
        .take_while(|&place| place < area.len())
        .map(|place| Some((area[place], place + HEAD..ends[place]?)))
        .collect()
}

/// The walker's step from `place`.
pub fn step(area: &[u8], place: usize) -> Step {
    match first_tlv_ends(area).get(place) {
        Some(&Some(next)) if next > place => Step::Shown {
            kind: area[place],
            value: place + HEAD..next,
            next,
        },
        Some(Some(_)) => Step::End,
        Some(None) | None => Step::Refused { number: TLV_AREA },
    }
}

/// The step from `place` with a look at one TLV, whatever lies behind it.
pub fn next(area: &[u8], place: usize) -> Step {
    match area.get(place..) {
        Some([]) => Step::End,
        Some([kind, high, low, rest @ ..]) if rest.len() >= usize::from(u16::from_be_bytes([*high, *low])) => {
            let start = area.len() - rest.len();
            let next = start + usize::from(u16::from_be_bytes([*high, *low]));
            Step::Shown {
                kind: *kind,
                value: start..next,
                next,
            }
        }
        _ => Step::Refused { number: TLV_AREA },
    }
}

/// Entry p is for the suffix from place p, down from the empty one: if TLVs
/// fill it, the place where its first TLV ends. The empty one has its own place.
fn first_tlv_ends(area: &[u8]) -> Vec<Option<usize>> {
    let mut ends = vec![None; area.len() + 1];
    ends[area.len()] = Some(area.len());
    for place in (0..area.len()).rev() {
        ends[place] = tlv_end(area, place).filter(|&end| matches!(ends.get(end), Some(Some(_))));
    }
    ends
}

/// Where a TLV at `place` ends by its length bytes, if they lie in the area.
fn tlv_end(area: &[u8], place: usize) -> Option<usize> {
    let length = area.get(place + 1..place + HEAD)?;
    Some(place + HEAD + 256 * usize::from(length[0]) + usize::from(length[1]))
}
