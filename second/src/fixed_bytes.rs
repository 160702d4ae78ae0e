//! Bytes with a fixed meaning in version 2 (document 01, The binary block).

pub const SIGNATURE: [u8; 12] = *b"\r\n\r\n\0\r\nQUIT\n";

/// Byte 12: version 2 and the command.
pub const LOCAL: u8 = 0x20;
pub const PROXY: u8 = 0x21;

/// Byte 13 as it is written for local and unspecified. The bytes of the address
/// kinds stand with the record.
pub const UNSPECIFIED: u8 = 0x00;
