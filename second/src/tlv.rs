//! TLV areas seen from the bytes that are left: which numbers of bytes can
//! TLVs fill exactly, and can an area still be filled that begins as seen
//! (document 01, The binary block).

use std::ops::RangeInclusive;
use std::sync::OnceLock;

/// Type and two length bytes.
pub const HEAD: usize = 3;

/// The longest area, and the longest value: both lengths have two bytes.
const LONGEST: usize = 0xFFFF;

/// True if `length` bytes can be filled by TLVs exactly.
pub fn fillable(length: usize) -> bool {
    static TABLE: OnceLock<Vec<bool>> = OnceLock::new();
    TABLE.get_or_init(fillable_lengths)[length]
}

/// Entry n tells whether TLVs can fill n bytes: no TLV fills no bytes, and a
/// first TLV may leave behind it any number of bytes up to n less its head.
fn fillable_lengths() -> Vec<bool> {
    let mut table = vec![true];
    for length in 1..=LONGEST {
        let left_by_first = 0..(length + 1).saturating_sub(HEAD);
        let can_go_on = table[left_by_first].contains(&true);
        table.push(can_go_on);
    }
    table
}

/// The value lengths that a TLV may have which begins with `seen`.
fn value_lengths(seen: &[u8]) -> RangeInclusive<usize> {
    let length = |high: u8, low: u8| usize::from(u16::from_be_bytes([high, low]));
    match *seen {
        [_, high, low, ..] => length(high, low)..=length(high, low),
        [_, high] => length(high, 0)..=length(high, 0xFF),
        [_] | [] => 0..=LONGEST,
    }
}

/// True if some `length` bytes that TLVs fill begin with `seen`.
pub fn can_be_filled(seen: &[u8], length: usize) -> bool {
    if seen.is_empty() {
        return fillable(length);
    }
    value_lengths(seen).any(|value| {
        let first = HEAD + value;
        let seen_behind = seen.get(first..).unwrap_or_default();
        first <= length && can_be_filled(seen_behind, length - first)
    })
}

/// The length of the TLV that `seen` begins with, if all of it is there.
pub fn first_tlv_length(seen: &[u8]) -> Option<usize> {
    let length = HEAD + value_lengths(seen).start();
    (seen.len() >= length).then_some(length)
}

#[cfg(test)]
mod tests {
    use super::*;

    /// All ways to fill `length` bytes with TLVs, as lists of value lengths.
    fn fillings(length: usize) -> Vec<Vec<usize>> {
        if length == 0 {
            return vec![vec![]];
        }
        let values = 0..(length + 1).saturating_sub(3);
        let beginning_with = |value| {
            let rests = fillings(length - 3 - value).into_iter();
            rests.map(move |rest| [vec![value], rest].concat())
        };
        values.flat_map(beginning_with).collect()
    }

    /// True if TLVs with these value lengths may begin with `seen`.
    fn agrees(values: &[usize], seen: &[u8]) -> bool {
        let mut start = 0;
        values.iter().all(|&value| {
            let [high, low] = u16::try_from(value).unwrap().to_be_bytes();
            let at = |place: usize, byte| seen.get(place).is_none_or(|&seen| seen == byte);
            let fits = at(start + 1, high) && at(start + 2, low);
            start += 3 + value;
            fits
        })
    }

    #[test]
    fn a_length_is_fillable_if_there_is_a_way_to_fill_it() {
        for length in 0..=20 {
            assert_eq!(fillable(length), !fillings(length).is_empty(), "{length}");
        }
    }

    #[test]
    fn only_one_and_two_bytes_cannot_be_filled() {
        let not_fillable: Vec<usize> = (0..=0xFFFF).filter(|&n| !fillable(n)).collect();
        assert_eq!(not_fillable, [1, 2]);
    }

    /// All beginnings of up to nine bytes in which length bytes are 0 to 3.
    #[test]
    fn a_beginning_can_be_filled_if_a_way_to_fill_agrees_with_it() {
        for length in 0..=12 {
            let fillings = fillings(length);
            for count in 0..=length.min(9) {
                for code in 0..1_usize << (2 * count) {
                    let byte = |place: usize| u8::try_from(code >> (2 * place) & 3).unwrap();
                    let seen: Vec<u8> = (0..count).map(byte).collect();
                    let agreed = fillings.iter().any(|values| agrees(values, &seen));
                    assert_eq!(can_be_filled(&seen, length), agreed, "{seen:?} of {length}");
                }
            }
        }
    }

    #[test]
    fn the_first_tlv_counts_once_it_is_all_there() {
        assert_eq!(first_tlv_length(&[]), None);
        assert_eq!(first_tlv_length(&[4]), None);
        assert_eq!(first_tlv_length(&[4, 0]), None);
        assert_eq!(first_tlv_length(&[4, 0, 0]), Some(3));
        assert_eq!(first_tlv_length(&[4, 0, 2, 9]), None);
        assert_eq!(first_tlv_length(&[4, 0, 2, 9, 9]), Some(5));
        assert_eq!(first_tlv_length(&[4, 0, 2, 9, 9, 4]), Some(5));
    }
}
