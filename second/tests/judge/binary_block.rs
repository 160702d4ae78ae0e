//! Consequences of document 01, The binary block, but for the TLVs.

use crate::helpers::*;
use second::{judge, Kind};

/// Block bytes that differ from their neighbours.
fn counting(length: usize) -> Vec<u8> {
    (0..length).map(|place| (place % 251 + 1) as u8).collect()
}

#[test]
fn every_byte_of_the_signature_counts() {
    for place in 0..12 {
        assert!(is_more(&S[..place]));
        for byte in (0..=0xFF).filter(|&byte| byte != S[place]) {
            // At place 0 the text line may begin instead.
            let answer = match (place, byte) {
                (0, b'P') => more(14),
                _ => refused(1, place),
            };
            assert_eq!(judge(&[&S[..place], &[byte]].concat()), answer);
        }
    }
    assert_eq!(judge(&S), more(4));
}

#[test]
fn byte_12_is_version_2_with_local_or_proxy() {
    for byte in 0..=0xFF {
        let answer = match byte {
            0x20 | 0x21 => more(3),
            _ => refused(6, 12),
        };
        assert_eq!(judge(&behind_signature(&[byte])), answer);
    }
}

#[test]
fn byte_13_of_proxy_is_one_of_twelve() {
    for byte in 0..=0xFF {
        let input = behind_signature(&[0x21, byte]);
        match byte {
            0x00..=0x02 | 0x10..=0x12 | 0x20..=0x22 | 0x30..=0x32 => assert!(is_more(&input)),
            _ => assert_eq!(judge(&input), refused(7, 13)),
        }
    }
}

#[test]
fn the_high_length_byte_is_never_dead() {
    let address_kinds = ADDRESS_KINDS.map(|(family, ..)| family);
    for family in UNSPECIFIED.into_iter().chain(address_kinds) {
        for high in 0..=0xFF {
            assert!(is_more(&behind_signature(&[0x21, family, high])));
            assert!(is_more(&behind_signature(&[0x20, family, high])));
        }
    }
}

#[test]
fn the_length_is_a_or_at_least_a_plus_3() {
    for (family, _, _, a) in ADDRESS_KINDS {
        for length in 0..=65_535 {
            let answer = if length == a || length >= a + 3 {
                more(length)
            } else {
                refused(8, 15)
            };
            assert_eq!(judge(&binary(0x21, family, length, &[])), answer);
        }
    }
}

/// The four lengths at the border, written out: A, A + 1, A + 2, A + 3.
#[test]
fn lengths_at_the_border_of_each_kind() {
    for (bytes, dead) in [
        ([0x11, 0, 12], false),
        ([0x11, 0, 11], true),
        ([0x12, 0, 13], true),
        ([0x12, 0, 14], true),
        ([0x11, 0, 15], false),
        ([0x21, 0, 36], false),
        ([0x21, 0, 35], true),
        ([0x22, 0, 37], true),
        ([0x22, 0, 38], true),
        ([0x21, 0, 39], false),
        ([0x31, 0, 216], false),
        ([0x31, 0, 215], true),
        ([0x32, 0, 217], true),
        ([0x32, 0, 218], true),
        ([0x31, 0, 219], false),
        ([0x31, 0, 0], true),
        ([0x31, 1, 0], false),
    ] {
        let input = behind_signature(&[&[0x21], &bytes[..]].concat());
        let [_, high, low] = bytes;
        let length = 256 * usize::from(high) + usize::from(low);
        let answer = match dead {
            true => refused(8, 15),
            false => more(length),
        };
        assert_eq!(judge(&input), answer, "{bytes:?}");
    }
}

/// Places in the block: 4 and 16 bytes an address, 2 a port.
#[test]
fn the_address_block_gives_the_record() {
    for (family, kind, word, a) in ADDRESS_KINDS {
        let block = counting(a);
        let record = match a {
            12 => record(kind, &[1, 2, 3, 4], &[5, 6, 7, 8], 0x090A, 0x0B0C),
            36 => record(kind, &block[..16], &block[16..32], 0x2122, 0x2324),
            _ => record(kind, &block[..108], &block[108..], 0, 0),
        };
        let input = binary(0x21, family, a, &block);
        let end = 16 + a;
        assert_eq!(judge(&input), accepted(record, 2, end, end..end));
        assert_eq!(judge(&input).to_string(), format!("accepted {end} {word}"));
        for length in 0..end {
            assert!(is_more(&input[..length]));
        }
    }
}

#[test]
fn a_unix_address_is_kept_behind_a_zero_byte_too() {
    let mut source = [0; 108];
    source[..9].copy_from_slice(b"/a.sock\0b");
    source[107] = 0xFF;
    let destination = [0xEE; 108];
    let input = binary(0x21, 0x32, 216, &[source, destination].concat());
    let kind = Kind::Unix(second::Transport::Datagram);
    let record = record(kind, &source, &destination, 0, 0);
    assert_eq!(judge(&input), accepted(record, 2, 232, 232..232));
}

#[test]
fn a_tlv_behind_the_address_block_is_given_as_the_area() {
    for (family, kind, _, a) in ADDRESS_KINDS {
        let input = binary(0x21, family, a + 3, &[vec![0; a], vec![4, 0, 0]].concat());
        let end = 16 + a + 3;
        let zeros = vec![0; 108];
        let answer = accepted(record(kind, &zeros, &zeros, 0, 0), 2, end, 16 + a..end);
        assert_eq!(judge(&input), answer);
    }
}

#[test]
fn local_takes_any_byte_13_and_any_length() {
    for family in 0..=0xFF {
        for length in [0, 1, 2, 11, 12, 13, 14, 15, 216, 217, 65_535] {
            // As TLVs these bytes would be ill-formed.
            let input = binary(0x20, family, length, &vec![0xFF; length]);
            let end = 16 + length;
            let answer = accepted(bare(Kind::Local), 2, end, end..end);
            assert_eq!(judge(&input), answer);
            if length > 0 {
                assert_eq!(judge(&input[..end - 1]), more(1));
            }
        }
    }
}

#[test]
fn proxy_unspecified_takes_any_length_and_block() {
    for family in UNSPECIFIED {
        for length in [0, 1, 2, 3, 12, 13, 14, 36, 37, 216, 217, 300, 65_535] {
            let input = binary(0x21, family, length, &vec![0xFF; length]);
            let end = 16 + length;
            let answer = accepted(bare(Kind::Unspecified), 2, end, end..end);
            assert_eq!(judge(&input), answer);
            assert_eq!(judge(&[&input[..], &[0; 9]].concat()), answer);
            assert_eq!(judge(&input[..end - 1]), more(1));
        }
    }
}

/// The relay of document 02, K1: PROXY with byte 13 equal to 10 hex. Its block
/// looks like addresses of IPv4 and is not looked at.
#[test]
fn the_suppliers_relay_is_read_as_unspecified() {
    let header = [
        0x0D, 0x0A, 0x0D, 0x0A, 0x00, 0x0D, 0x0A, 0x51, 0x55, 0x49, 0x54, 0x0A, // signature
        0x21, 0x10, 0x00, 0x0C, // PROXY, family without transport, L = 12
        0xC0, 0xA8, 0x00, 0x01, 0xC0, 0xA8, 0x00, 0x0B, 0xDC, 0x04, 0x01, 0xBB,
    ];
    assert_eq!(judge(&header).to_string(), "accepted 28 unspecified");
    let answer = accepted(bare(Kind::Unspecified), 2, 28, 28..28);
    assert_eq!(judge(&header), answer);
}

/// Neighbours of the twelve bytes, with either half one too large.
#[test]
fn other_bytes_13_are_refused() {
    for byte in [0x03, 0x04, 0x13, 0x23, 0x33, 0x40, 0x41, 0x42, 0x80, 0xF0] {
        let input = binary(0x21, byte, 12, &[0; 12]);
        assert_eq!(judge(&input), refused(7, 13), "{byte:#04x}");
    }
}

#[test]
fn bytes_behind_a_verdict_never_change_it() {
    let behinds: [&[u8]; 5] = [
        b"\0",
        b"\r\n",
        b"GET / HTTP/1.1\r\n\r\n",
        &S,
        b"PROXY TCP4 ",
    ];
    let inputs = [
        b"PROXY UNKNOWN\r\n".to_vec(),
        b"PROXY UNKNOWN x\r\n".to_vec(),
        b"PROXY TCP6 ::1 ::2 3 4\r\n".to_vec(),
        b"PROXY TCP4 1.2.3.x".to_vec(),
        b"PROXY TCP4 1.2.3.4 1.2.3.4 1 1\rx".to_vec(),
        binary(0x20, 0x99, 0, &[]),
        binary(0x21, 0x11, 12, &[7; 12]),
        binary(0x21, 0x11, 15, &[7; 15]),
        binary(0x21, 0x12, 18, &[0; 18]),
        binary(0x21, 0x12, 14, &[]),
        binary(0x21, 0x99, 0, &[]),
        binary(0x22, 0x11, 0, &[]),
    ];
    for input in inputs {
        let verdict = judge(&input);
        assert!(!is_more(&input), "{input:?}");
        for behind in behinds {
            assert_eq!(judge(&[&input[..], behind].concat()), verdict);
        }
    }
}
