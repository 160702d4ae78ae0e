//! What is read in TLV 0x20 (document 02, K2), compared through the C interface.
use crate::headers::tlv;
use crate::outcome::Outcome;
use crate::random::Random;
use crate::ssl::Calls;
use crate::ssl_values::{self, value, TYPES};
use crate::SSL_NUMBERS;

/// Every prefix of listed values, those of 0 to 4 bytes among them, and such with some bytes behind.
pub fn prefixes() -> Outcome {
    let mut calls = Calls::new("values of TLV 0x20, whole, cut and lengthened");
    for value in ssl_values::listed([0, 1]) {
        for end in 0..=value.len() {
            calls.reads(&value[..end]);
        }
        for behind in [&[0][..], &[0x21], &[0x21, 0], &[0, 0, 0], &[0x21, 0, 0], &[0x22, 0, 1], &[0x22, 0, 1, 9], &[0x22, 0xFF, 0xFF]] {
            calls.reads(&[&value[..], behind].concat());
        }
    }
    // Nothing of too few bytes is taken for a sub-TLV.
    for end in 0..=4 {
        calls.reads(&[1, 0x21, 0, 0][..end]);
        calls.reads(&[0x21, 0, 0, 0][..end]);
    }
    calls.reached(&[0, 19, 20])
}

/// Each byte of listed values changed into every other; the bytes of long pieces are all alike.
pub fn changes() -> Outcome {
    let mut calls = Calls::new("values of TLV 0x20 with one byte changed");
    for mut value in ssl_values::listed([0, 1]).filter(|value| value.len() < 100) {
        for place in 0..value.len() {
            for _ in 0..255 {
                value[place] = value[place].wrapping_add(1);
                calls.reads(&value);
            }
            value[place] = value[place].wrapping_add(1);
        }
    }
    calls.reached(&[0, 19, 20])
}

/// Every list of up to five types from 0x20 to 0x26, every order of the five among them; of repeats the first is empty, or the second.
pub fn lists() -> Outcome {
    let mut calls = Calls::new("lists of sub-TLVs");
    for types in ssl_values::lists(&[0x20, 0x21, 0x22, 0x23, 0x24, 0x25, 0x26], 5) {
        for sizes in [[0, 1, 2, 0, 3], [2, 0, 0, 1, 0]] {
            let list: Vec<Vec<u8>> = types.iter().zip(sizes).map(|(kind, size)| tlv(*kind, size)).collect();
            calls.reads(&value(0, &list));
            calls.reads(&value(1, &list));
        }
    }
    calls.reached(&[0, 20])
}

/// Every client byte before listed sub-TLVs, whole and cut by a byte, and verify numbers of one bit.
pub fn heads() -> Outcome {
    let mut calls = Calls::new("client bytes and verify numbers");
    for value in ssl_values::listed(0..=255) {
        calls.reads(&value);
        calls.reads(&value[..value.len() - 1]);
    }
    for mut value in ssl_values::listed([0]) {
        for bit in 0..32 {
            value[1..5].copy_from_slice(&(1u32 << bit).to_be_bytes());
            calls.reads(&value);
        }
    }
    calls.reached(&[0, 19, 20])
}

/// A sub-TLV of every length to 1,300 before another; also where it says a byte more or fewer than it has, or 256.
pub fn lengths() -> Outcome {
    let mut calls = Calls::new("lengths of sub-TLVs");
    for (length, kind) in (0..=1300u16).flat_map(|length| TYPES.map(|kind| (length, kind))) {
        let mut value = value(0, &[tlv(kind, length.into()), tlv(0x23, 2)]);
        for said in [length, length + 1, length.wrapping_sub(1), length + 256, length ^ 256] {
            value[6..8].copy_from_slice(&said.to_be_bytes());
            calls.reads(&value);
        }
    }
    calls.reached(&[0, 19])
}

/// Values over 65,535 bytes, and about that: whole, cut by a byte, and with bytes behind.
pub fn long() -> Outcome {
    let mut calls = Calls::new("long values of TLV 0x20");
    for value in ssl_values::long() {
        calls.reads(&value);
        calls.reads(&value[..value.len() - 1]);
        for behind in [&[0][..], &[0, 0, 0], &[0x25, 0, 1, 9], &[0x25, 0xFF, 0xFF]] {
            calls.reads(&[&value[..], behind].concat());
        }
    }
    calls.reached(&[0, 19, 20])
}

/// Every length of the numbers, for every answer.
pub fn rooms() -> Outcome {
    let mut calls = Calls::new("values of TLV 0x20 by the length of the numbers");
    for value in ssl_values::listed([0, 1]) {
        for numbers in 0..=SSL_NUMBERS + 3 {
            for end in [0, 4, 5, value.len() - 1, value.len()] {
                calls.reads_in(&value[..end], numbers);
            }
        }
    }
    calls.reached(&[0, 14, 19, 20])
}

/// Values at random, whole and damaged.
pub fn generated(random: &mut Random, count: usize) -> Outcome {
    let mut calls = Calls::new("values of TLV 0x20 at random");
    for _ in 0..count {
        let numbers = match random.below(8) {
            0 => random.below(SSL_NUMBERS + 3),
            _ => SSL_NUMBERS,
        };
        calls.reads_in(&ssl_values::any(random), numbers);
    }
    calls.reached(&[0, 14, 19, 20])
}
