//! The version 2 writer on request to add a checksum (document 02, K6).

use super::binary_header::header;
use crate::checksum::{right_value, CHECKSUM_TYPE};
use crate::output::write_whole;
use crate::record::Record;
use crate::refusal::{TLV_AREA, UNUSED_NOT_ZERO};
use crate::tlv_area::tlv_list;
use crate::unused::only_its_block_and_checksum;

/// The checksum TLV before its value is known.
const BLANK_TLV: [u8; 7] = [CHECKSUM_TYPE, 0, 4, 0, 0, 0, 0];

/// Writes the record's header with the TLVs of `area` and the checksum TLV behind
/// them and gives its length, or refuses with 11, 12, 13 or 14, the first that
/// holds.
pub fn write_v2_checked(record: &Record, area: &[u8], out: &mut [u8]) -> Result<usize, u8> {
    if !only_its_block_and_checksum(record) {
        return Err(UNUSED_NOT_ZERO);
    }
    let tlvs = tlv_list(area).ok_or(TLV_AREA)?;
    let is_there = tlvs.iter().any(|tlv| tlv.0 == CHECKSUM_TYPE);
    if is_there || !record.kind.has_addresses() {
        return Err(TLV_AREA);
    }
    let mut header = header(record, &[area, &BLANK_TLV].concat())?;
    let value = header.len() - 4..header.len();
    let checksum = right_value(&header, value.clone());
    header[value].copy_from_slice(&checksum);
    write_whole(&header, out)
}
