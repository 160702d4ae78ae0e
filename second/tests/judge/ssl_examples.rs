//! Values of TLV 0x20 by hand: what two TLS front ends say of their clients.

use second::Ssl;

/// The five pieces in order of type: version, common name, cipher, signature
/// algorithm, key algorithm.
pub type Pieces<'a> = [Option<&'a [u8]>; 5];

/// A value, what it is read as, and the pieces it is written from.
pub struct Example {
    pub value: Vec<u8>,
    pub ssl: Ssl,
    pub pieces: Pieces<'static>,
}

pub fn examples() -> [Example; 2] {
    [without_certificate(), with_certificate()]
}

/// The client came over TLS 1.3 and presented no certificate. 001, section 2.2.6:
/// "The <verify> field will be zero if the client presented a certificate and it
/// was successfully verified, and non-zero otherwise." Which other number is left
/// open; here it is 1. A common name would be the client certificate's.
pub fn without_certificate() -> Example {
    let value = vec![
        0x01, // client: PP2_CLIENT_SSL
        0x00, 0x00, 0x00, 0x01, // verify: not zero
        0x21, 0x00, 0x07, // version, 7 bytes
        0x54, 0x4C, 0x53, 0x76, 0x31, 0x2E, 0x33, // "TLSv1.3"
        0x23, 0x00, 0x16, // cipher, 22 bytes
        0x54, 0x4C, 0x53, 0x5F, 0x41, 0x45, 0x53, 0x5F, // "TLS_AES_"
        0x32, 0x35, 0x36, 0x5F, 0x47, 0x43, 0x4D, 0x5F, // "256_GCM_"
        0x53, 0x48, 0x41, 0x33, 0x38, 0x34, // "SHA384"
        0x24, 0x00, 0x06, // signature algorithm, 6 bytes
        0x53, 0x48, 0x41, 0x32, 0x35, 0x36, // "SHA256"
        0x25, 0x00, 0x07, // key algorithm, 7 bytes
        0x52, 0x53, 0x41, 0x32, 0x30, 0x34, 0x38, // "RSA2048"
    ];
    // 5 + (3 + 7) + (3 + 22) + (3 + 6) + (3 + 7) bytes.
    assert_eq!(value.len(), 59);
    Example {
        value,
        ssl: Ssl {
            client: 1,
            verify: 1,
            pieces: [Some(8..15), None, Some(18..40), Some(43..49), Some(52..59)],
        },
        pieces: [
            Some(b"TLSv1.3"),
            None,
            Some(b"TLS_AES_256_GCM_SHA384"),
            Some(b"SHA256"),
            Some(b"RSA2048"),
        ],
    }
}

/// The client came over TLS 1.2 and presented a certificate that was verified, so
/// <verify> is zero. 001, section 2.2.6: "PP2_CLIENT_CERT_CONN indicates that the
/// client provided a certificate over the current connection. PP2_CLIENT_CERT_SESS
/// indicates that the client provided a certificate at least once over the TLS
/// session this connection belongs to." So both bits are set. The strings but the
/// version are those named there.
pub fn with_certificate() -> Example {
    let value = vec![
        0x07, // client: PP2_CLIENT_SSL, PP2_CLIENT_CERT_CONN, PP2_CLIENT_CERT_SESS
        0x00, 0x00, 0x00, 0x00, // verify: zero
        0x21, 0x00, 0x07, // version, 7 bytes
        0x54, 0x4C, 0x53, 0x76, 0x31, 0x2E, 0x32, // "TLSv1.2"
        0x22, 0x00, 0x0B, // common name, 11 bytes
        0x65, 0x78, 0x61, 0x6D, 0x70, 0x6C, 0x65, // "example"
        0x2E, 0x63, 0x6F, 0x6D, // ".com"
        0x23, 0x00, 0x1B, // cipher, 27 bytes
        0x45, 0x43, 0x44, 0x48, 0x45, 0x2D, 0x52, 0x53, 0x41, 0x2D, // "ECDHE-RSA-"
        0x41, 0x45, 0x53, 0x31, 0x32, 0x38, 0x2D, // "AES128-"
        0x47, 0x43, 0x4D, 0x2D, // "GCM-"
        0x53, 0x48, 0x41, 0x32, 0x35, 0x36, // "SHA256"
        0x24, 0x00, 0x06, // signature algorithm, 6 bytes
        0x53, 0x48, 0x41, 0x32, 0x35, 0x36, // "SHA256"
        0x25, 0x00, 0x07, // key algorithm, 7 bytes
        0x52, 0x53, 0x41, 0x32, 0x30, 0x34, 0x38, // "RSA2048"
    ];
    // 5 + (3 + 7) + (3 + 11) + (3 + 27) + (3 + 6) + (3 + 7) bytes.
    assert_eq!(value.len(), 78);
    Example {
        value,
        ssl: Ssl {
            client: 7,
            verify: 0,
            pieces: [
                Some(8..15),
                Some(18..29),
                Some(32..59),
                Some(62..68),
                Some(71..78),
            ],
        },
        pieces: [
            Some(b"TLSv1.2"),
            Some(b"example.com"),
            Some(b"ECDHE-RSA-AES128-GCM-SHA256"),
            Some(b"SHA256"),
            Some(b"RSA2048"),
        ],
    }
}

/// The bytes of a value where its pieces lie.
pub fn pieces_in<'a>(value: &'a [u8], ssl: &Ssl) -> Pieces<'a> {
    let bytes = |piece: &Option<_>| piece.clone().map(|place| &value[place]);
    ssl.pieces.each_ref().map(bytes)
}
