//! The stored form of a record, versions 1 and 2, and the way from one to the
//! other (document 01, Stored form, and document 02, K7).
//!
//! What can stand before the address block, a head, is listed for both versions.
//! A form is read by the head that it begins with; what begins with none is
//! refused in the field where it leaves the last one. Moving puts another head
//! before the same block.

use crate::address_block::{address_block, record_of_block};
use crate::output::write_whole;
use crate::record::{Checksum, Kind, Record, ADDRESS_KINDS};
use crate::refusal::{
    STORED_KIND_CODE, STORED_LENGTH, STORED_MARK, STORED_STATE, STORED_VERSION, UNUSED_NOT_ZERO,
};
use crate::unused::only_its_block_and_checksum;
use std::sync::OnceLock;

#[derive(Clone, Copy, Debug, PartialEq, Eq)]
pub enum StoredVersion {
    One = 1,
    Two = 2,
}

const MARK: [u8; 3] = *b"CSR";

/// Kind codes without an address block. The others are as byte 13 is written.
const BARE_KINDS: [(u8, Kind); 2] = [(0x00, Kind::Local), (0x01, Kind::Unspecified)];

/// How each version writes the states that it has.
const STATES: [(StoredVersion, &[u8], Checksum); 3] = [
    (StoredVersion::One, &[], Checksum::Absent),
    (StoredVersion::Two, &[0], Checksum::Absent),
    (StoredVersion::Two, &[1], Checksum::Matched),
];

/// The number of the field that each byte of a head lies in.
const FIELDS: [u8; 7] = [
    STORED_MARK,
    STORED_MARK,
    STORED_MARK,
    STORED_VERSION,
    STORED_VERSION,
    STORED_KIND_CODE,
    STORED_STATE,
];

struct Head {
    version: StoredVersion,
    kind: Kind,
    checksum: Checksum,
    bytes: Vec<u8>,
}

/// The heads of a version, all of one length.
fn heads(version: StoredVersion) -> impl Iterator<Item = &'static Head> {
    static HEADS: OnceLock<Vec<Head>> = OnceLock::new();
    let heads = HEADS.get_or_init(all_heads).iter();
    heads.filter(move |head| head.version == version)
}

/// Every kind in every state, but matched only with addresses.
fn all_heads() -> Vec<Head> {
    let mut heads = Vec::new();
    for (version, state, checksum) in STATES {
        for (code, kind) in BARE_KINDS.into_iter().chain(ADDRESS_KINDS) {
            if checksum == Checksum::Absent || kind.has_addresses() {
                heads.push(Head {
                    version,
                    kind,
                    checksum,
                    bytes: [&MARK, &[0, version as u8, code][..], state].concat(),
                });
            }
        }
    }
    heads
}

/// Writes the record's stored form and gives its length, or refuses with 11, 24
/// or 14, the first that holds.
pub fn store(version: StoredVersion, record: &Record, out: &mut [u8]) -> Result<usize, u8> {
    if !only_its_block_and_checksum(record) {
        return Err(UNUSED_NOT_ZERO);
    }
    let block = address_block(record);
    write_form(version, record.kind, record.checksum, &block, out)
}

/// The record whose stored form `bytes` are, or 18 where they are shorter than a
/// head, 15, 16, 17, 24 or 18, the first that holds.
pub fn load(version: StoredVersion, bytes: &[u8]) -> Result<Record, u8> {
    let (head, block) = parts(version, bytes)?;
    Ok(Record {
        checksum: head.checksum,
        ..record_of_block(head.kind, block)
    })
}

/// Writes as version 2 what `bytes` are in version 1 and gives the length, or
/// refuses with the number that loading them has, or 14.
pub fn forward(bytes: &[u8], out: &mut [u8]) -> Result<usize, u8> {
    move_form(StoredVersion::One, StoredVersion::Two, bytes, out)
}

/// Writes as version 1 what `bytes` are in version 2 and gives the length, or
/// refuses with the number that loading them has, 24 for matched, or 14.
pub fn back(bytes: &[u8], out: &mut [u8]) -> Result<usize, u8> {
    move_form(StoredVersion::Two, StoredVersion::One, bytes, out)
}

fn move_form(
    from: StoredVersion,
    to: StoredVersion,
    bytes: &[u8],
    out: &mut [u8],
) -> Result<usize, u8> {
    let (head, block) = parts(from, bytes)?;
    write_form(to, head.kind, head.checksum, block, out)
}

/// Writes the head of this kind and state before the block, or refuses with 24 if
/// the version has none, or with 14.
fn write_form(
    version: StoredVersion,
    kind: Kind,
    checksum: Checksum,
    block: &[u8],
    out: &mut [u8],
) -> Result<usize, u8> {
    let head = heads(version)
        .find(|head| (head.kind, head.checksum) == (kind, checksum))
        .ok_or(STORED_STATE)?;
    write_whole(&[&head.bytes, block].concat(), out)
}

/// The head that `bytes` begin with, and the block behind it.
fn parts(version: StoredVersion, bytes: &[u8]) -> Result<(&'static Head, &[u8]), u8> {
    let nearest = heads(version).max_by_key(|head| shared(&head.bytes, bytes));
    let head = nearest.expect("each version has heads");
    let block = bytes.get(head.bytes.len()..).ok_or(STORED_LENGTH)?;
    let agreed = shared(&head.bytes, bytes);
    if agreed < head.bytes.len() {
        return Err(FIELDS[agreed]);
    }
    if block.len() != head.kind.address_block_length() {
        return Err(STORED_LENGTH);
    }
    Ok((head, block))
}

/// How many bytes two strings begin with alike.
fn shared(one: &[u8], other: &[u8]) -> usize {
    one.iter().zip(other).take_while(|(a, b)| a == b).count()
}
