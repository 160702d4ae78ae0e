//! Whole headers taken apart: whether given bytes are one, and which record
//! and TLV area it has.

mod binary_header;
mod text_line;

use crate::verdict::Header;

/// The header that `bytes` are, if they are a whole header and nothing more.
pub fn whole_header(bytes: &[u8]) -> Option<Header> {
    text_line::header(bytes).or_else(|| binary_header::header(bytes))
}
