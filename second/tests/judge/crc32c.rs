//! CRC32C against published numbers, and laws that follow from its being a
//! remainder.

use crate::helpers::*;
use second::crc32c;

/// RFC 3720, B.4, which prints the number's lowest byte first.
#[test]
fn the_examples_of_rfc_3720() {
    let rising: Vec<u8> = (0..32).collect();
    let falling: Vec<u8> = (0..32).rev().collect();
    let read_command = [
        0x01, 0xC0, 0x00, 0x00, 0x00, 0x00, 0x00, 0x00, 0x00, 0x00, 0x00, 0x00, 0x00, 0x00, 0x00,
        0x00, 0x14, 0x00, 0x00, 0x00, 0x00, 0x00, 0x04, 0x00, 0x00, 0x00, 0x00, 0x14, 0x00, 0x00,
        0x00, 0x18, 0x28, 0x00, 0x00, 0x00, 0x00, 0x00, 0x00, 0x00, 0x02, 0x00, 0x00, 0x00, 0x00,
        0x00, 0x00, 0x00,
    ];
    for (bytes, lowest_first) in [
        (&[0x00; 32][..], [0xAA, 0x36, 0x91, 0x8A]),
        (&[0xFF; 32], [0x43, 0xAB, 0xA8, 0x62]),
        (&rising, [0x4E, 0x79, 0xDD, 0x46]),
        (&falling, [0x5C, 0xDB, 0x3F, 0x11]),
        (&read_command, [0x56, 0x3A, 0x96, 0xD9]),
    ] {
        assert_eq!(crc32c(bytes).to_le_bytes(), lowest_first, "{bytes:?}");
    }
}

/// Document 02, K6: "the nine bytes "123456789" give E3 06 92 83".
#[test]
fn nine_digits_and_no_bytes() {
    assert_eq!(crc32c(b"123456789"), 0xE306_9283);
    assert_eq!(crc32c(b"123456789").to_be_bytes(), [0xE3, 0x06, 0x92, 0x83]);
    assert_eq!(crc32c(b""), 0x0000_0000);
}

/// Some entries of the table in RFC 4960, appendix B: what a byte adds to the
/// number of a zero byte.
#[test]
fn the_table_of_rfc_4960() {
    for (byte, entry) in [
        (0, 0x0000_0000),
        (1, 0xF26B_8303),
        (2, 0xE13B_70F7),
        (3, 0x1350_F3F4),
        (4, 0xC79A_971F),
        (5, 0x35F1_141C),
        (6, 0x26A1_E7E8),
        (7, 0xD4CA_64EB),
        (252, 0xBE2D_A0A5),
        (253, 0x4C46_23A6),
        (254, 0x5F16_D052),
        (255, 0xAD7D_5351),
    ] {
        assert_eq!(crc32c(&[byte]) ^ crc32c(&[0]), entry, "{byte}");
    }
}

/// A remainder of a sum is the sum of the remainders; what is turned over is there
/// three times on the left and once on the right.
#[test]
fn three_messages_and_their_sum() {
    let mut random = Random::seeded(0xC3C3_0001);
    for length in 0..200 {
        let [a, b, c] = [(); 3].map(|()| random.bytes(length));
        let sum: Vec<u8> = (0..length).map(|i| a[i] ^ b[i] ^ c[i]).collect();
        assert_eq!(crc32c(&a) ^ crc32c(&b) ^ crc32c(&c), crc32c(&sum));
    }
}

/// The divisor has two terms and more, so it divides no single power of x.
#[test]
fn one_turned_bit_shows() {
    let mut random = Random::seeded(0xC3C3_0002);
    let bytes = random.bytes(300);
    let right = crc32c(&bytes);
    for bit in 0..8 * bytes.len() {
        let mut turned = bytes.clone();
        turned[bit / 8] ^= 1 << (bit % 8);
        assert_ne!(crc32c(&turned), right, "bit {bit}");
    }
}

/// With its number behind it, lowest byte first, a message leaves what 32 ones
/// leave: 1C2D19ED of RFC 3720, 12.1, before it is mirrored and turned over.
#[test]
fn a_message_with_its_number_behind_it() {
    let mut random = Random::seeded(0xC3C3_0003);
    for length in 0..200 {
        let bytes = random.bytes(length);
        let with_number = [&bytes[..], &crc32c(&bytes).to_le_bytes()].concat();
        assert_eq!(crc32c(&with_number), !0x1C2D_19ED_u32.reverse_bits());
    }
}
