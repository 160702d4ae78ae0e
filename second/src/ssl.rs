//! What a TLS front end says in the value of TLV 0x20 (document 02, K2): a client
//! byte, a verify number, then sub-TLVs. The value is read by the whole list of its
//! sub-TLVs, and written once all of it is built.

use crate::output::write_whole;
use crate::refusal::{LENGTH_OVER_65535, SSL_VALUE, SSL_VERSION};
use crate::tlv_area::tlv_list;
use std::ops::Range;

/// The client bit that says that the client came over TLS.
const OVER_TLS: u8 = 0x01;

/// The types of the pieces: version, common name, cipher, signature algorithm and
/// key algorithm.
const TYPES: [u8; 5] = [0x21, 0x22, 0x23, 0x24, 0x25];

#[derive(Clone, Debug, PartialEq, Eq)]
pub struct Ssl {
    pub client: u8,
    pub verify: u32,
    /// For each type from 0x21 to 0x25: where its first sub-TLV's value, which may
    /// be empty, lies in the value of the TLV; none if the type is absent.
    pub pieces: [Option<Range<usize>>; 5],
}

/// What `value` says, or refusal 19 or 20, the first that holds.
pub fn read_ssl(value: &[u8]) -> Result<Ssl, u8> {
    let [client, a, b, c, d, ref area @ ..] = *value else {
        return Err(SSL_VALUE);
    };
    let sub_tlvs = tlv_list(area).ok_or(SSL_VALUE)?;
    let start = value.len() - area.len();
    let pieces = TYPES.map(|kind| {
        let (_, first) = sub_tlvs.iter().find(|sub_tlv| sub_tlv.0 == kind)?;
        Some(start + first.start..start + first.end)
    });
    if lacks_version(client, &pieces) {
        return Err(SSL_VERSION);
    }
    Ok(Ssl {
        client,
        verify: u32::from_be_bytes([a, b, c, d]),
        pieces,
    })
}

/// Writes the value with the pieces that are there, in order of type, and gives its
/// length, or refuses with 20, 13 or 14, the first that holds.
pub fn write_ssl(
    client: u8,
    verify: u32,
    pieces: [Option<&[u8]>; 5],
    out: &mut [u8],
) -> Result<usize, u8> {
    if lacks_version(client, &pieces) {
        return Err(SSL_VERSION);
    }
    let mut value = [&[client][..], &verify.to_be_bytes()].concat();
    for (kind, piece) in TYPES.into_iter().zip(pieces) {
        if let Some(piece) = piece {
            value.push(kind);
            value.extend(length_bytes(piece)?);
            value.extend(piece);
        }
    }
    // A TLV must be able to carry it.
    length_bytes(&value)?;
    write_whole(&value, out)
}

/// True if the client came over TLS, but no piece 0x21 tells the version.
fn lacks_version<T>(client: u8, pieces: &[Option<T>; 5]) -> bool {
    client & OVER_TLS != 0 && pieces[0].is_none()
}

/// The two length bytes of a TLV with this value, or 13.
fn length_bytes(value: &[u8]) -> Result<[u8; 2], u8> {
    let length = u16::try_from(value.len()).map_err(|_| LENGTH_OVER_65535)?;
    Ok(length.to_be_bytes())
}
