//! The checksum TLV of a whole version 2 header (document 02, K6).

use crate::crc32c::crc32c;
use crate::record::Checksum;
use crate::refusal::WRONG_CHECKSUM;
use crate::tlv_area::tlv_list;
use std::ops::Range;

/// The type of the checksum TLV.
pub const CHECKSUM_TYPE: u8 = 0x03;

/// The value that the checksum TLV must have: CRC32C over the whole header, with
/// the bytes where it lies taken as zero, in network order.
pub fn right_value(header: &[u8], value: Range<usize>) -> [u8; 4] {
    let mut zeroed = header.to_vec();
    zeroed[value].fill(0);
    crc32c(&zeroed).to_be_bytes()
}

/// What the header says of its checksum: absent without a 0x03 TLV, matched with
/// one that has the right value, and else 23. The area is its TLV area.
pub fn checksum_in(header: &[u8], area: Range<usize>) -> Result<Checksum, u8> {
    let tlvs = tlv_list(&header[area.clone()]).expect("TLVs fill the area of a whole header");
    let of_type = tlvs.into_iter().filter(|tlv| tlv.0 == CHECKSUM_TYPE);
    let in_header = |value: Range<usize>| area.start + value.start..area.start + value.end;
    let values: Vec<Range<usize>> = of_type.map(|tlv| in_header(tlv.1)).collect();
    match &values[..] {
        [] => Ok(Checksum::Absent),
        [value] if header[value.clone()] == right_value(header, value.clone()) => {
            Ok(Checksum::Matched)
        }
        _ => Err(WRONG_CHECKSUM),
    }
}
