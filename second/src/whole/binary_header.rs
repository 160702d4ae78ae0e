//! A whole header of version 2 (document 01, The binary block), cut at the
//! places its length field and its kind name.

use crate::address_block::record_of_block;
use crate::fixed_bytes::{LOCAL, PROXY, SIGNATURE};
use crate::record::{Kind, Record};
use crate::verdict::Header;

pub fn header(bytes: &[u8]) -> Option<Header> {
    let [command, family, high, low, ref block @ ..] = *bytes.strip_prefix(&SIGNATURE)? else {
        return None;
    };
    if block.len() != usize::from(u16::from_be_bytes([high, low])) {
        return None;
    }
    let (record, tlvs) = match (command, family) {
        (LOCAL, _) => (Record::blank(Kind::Local), 0),
        (PROXY, _) => record_and_tlvs(Kind::of_byte_13(family)?, block)?,
        _ => return None,
    };
    Some(Header {
        record,
        length: bytes.len(),
        version: 2,
        tlv_area: bytes.len() - tlvs..bytes.len(),
    })
}

/// The record, and the number of bytes behind the address block. The block of a
/// kind without addresses is not looked at.
fn record_and_tlvs(kind: Kind, block: &[u8]) -> Option<(Record, usize)> {
    if !kind.has_addresses() {
        return Some((Record::blank(kind), 0));
    }
    let (addresses, tlvs) = block.split_at_checked(kind.address_block_length())?;
    if !are_tlvs(tlvs) {
        return None;
    }
    Some((record_of_block(kind, addresses), tlvs.len()))
}

/// True if TLVs fill `area` exactly.
fn are_tlvs(mut area: &[u8]) -> bool {
    while let [_, high, low, ref rest @ ..] = *area {
        match rest.get(usize::from(u16::from_be_bytes([high, low]))..) {
            Some(behind) => area = behind,
            None => return false,
        }
    }
    area.is_empty()
}
