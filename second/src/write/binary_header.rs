//! The version 2 writer (document 01, The binary block).

use crate::address_block::address_block;
use crate::fixed_bytes::{LOCAL, PROXY, SIGNATURE, UNSPECIFIED};
use crate::output::write_whole;
use crate::record::{Kind, Record};
use crate::refusal::{LENGTH_OVER_65535, TLV_AREA, UNUSED_NOT_ZERO};
use crate::tlv_area::tlv_list;
use crate::unused::only_its_block;

/// Writes the record's header with the TLVs of `area` and gives its length, or
/// refuses with 11, 12, 13 or 14, the first that holds.
pub fn write_v2(record: &Record, area: &[u8], out: &mut [u8]) -> Result<usize, u8> {
    if !only_its_block(record) {
        return Err(UNUSED_NOT_ZERO);
    }
    let has_tlvs = !tlv_list(area).ok_or(TLV_AREA)?.is_empty();
    if has_tlvs && !record.kind.has_addresses() {
        return Err(TLV_AREA);
    }
    write_whole(&header(record, area)?, out)
}

/// The header with the record's address block and this area, or 13.
pub fn header(record: &Record, area: &[u8]) -> Result<Vec<u8>, u8> {
    let command = match record.kind {
        Kind::Local => LOCAL,
        _ => PROXY,
    };
    let family = record.kind.written_byte().unwrap_or(UNSPECIFIED);
    let block = [&address_block(record), area].concat();
    let length = u16::try_from(block.len()).map_err(|_| LENGTH_OVER_65535)?;
    let start = [command, family];
    Ok([&SIGNATURE[..], &start, &length.to_be_bytes(), &block].concat())
}
