//! What a record must not hold where it is written, on pain of 11 (document 01,
//! Numbered answers, and document 02, K6 and K7).

use crate::address_block::{address_block, record_of_block};
use crate::record::{Checksum, Record};

/// True if the record holds no more than its address block: the rest is zero, and
/// no checksum is matched.
pub fn only_its_block(record: &Record) -> bool {
    record_of_block(record.kind, &address_block(record)) == *record
}

/// The same where a checksum will be written, and for stored forms: there either
/// state is taken, but beside local and unspecified matched never is.
pub fn only_its_block_and_checksum(record: &Record) -> bool {
    let mut without = record.clone();
    if record.kind.has_addresses() {
        without.checksum = Checksum::Absent;
    }
    only_its_block(&without)
}
