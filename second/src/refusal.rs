//! The numbers of the refusals that have no place (document 01, Numbered
//! answers, and document 02).

/// The record has no form in the version asked for.
pub const NO_FORM: u8 = 10;
/// An unused address byte or port is not zero, or a checksum is matched where
/// none can be.
pub const UNUSED_NOT_ZERO: u8 = 11;
/// A TLV area is ill-formed, or non-empty beside local or unspecified, or a
/// checksum cannot be added.
pub const TLV_AREA: u8 = 12;
/// Address block and TLVs, or a piece or the value of TLV 0x20, exceed 65,535 bytes.
pub const LENGTH_OVER_65535: u8 = 13;
/// The output is shorter than what must be written.
pub const OUTPUT_TOO_SHORT: u8 = 14;

pub const STORED_MARK: u8 = 15;
pub const STORED_VERSION: u8 = 16;
pub const STORED_KIND_CODE: u8 = 17;
pub const STORED_LENGTH: u8 = 18;

/// The value of TLV 0x20 has under 5 bytes or ill-formed sub-TLVs.
pub const SSL_VALUE: u8 = 19;
/// Client bit 0x01 is set, but there is no sub-TLV 0x21.
pub const SSL_VERSION: u8 = 20;

/// A whole header's checksum is wrong.
pub const WRONG_CHECKSUM: u8 = 23;

/// The state of a stored form is none or stands beside a kind that cannot have it,
/// or the version has no form for it.
pub const STORED_STATE: u8 = 24;

/// The profile of diagnostics: the header is not of version 2.
pub const NOT_VERSION_2: u8 = 30;
/// It is neither local nor IPv4 or IPv6 stream.
pub const NOT_LOCAL_OR_STREAM: u8 = 31;
/// It has more than 536 bytes.
pub const HEADER_TOO_LONG: u8 = 32;
/// It is not local and has not exactly one 0x05 TLV, of 1 to 128 bytes.
pub const UNIQUE_ID: u8 = 33;

/// A table of prefixes is bad.
pub const PREFIX_TABLE: u8 = 34;
