//! The number of CRC32C, against published ones and the second program's.
use crate::outcome::Outcome;
use crate::random::Random;
use crate::{expected, hex, library};

/// RFC 3720, B.4; document 02, K6; and no bytes.
pub fn published() -> Outcome {
    let mut outcome = Outcome::new("published CRC32C numbers");
    let rising: Vec<u8> = (0..32).collect();
    let falling: Vec<u8> = (0..32).rev().collect();
    let numbers: [(&[u8], u32); 6] = [
        (&[0; 32], 0x8A91_36AA),
        (&[0xFF; 32], 0x62A8_AB43),
        (&rising, 0x46DD_794E),
        (&falling, 0x113F_DB5C),
        (b"123456789", 0xE306_9283),
        (b"", 0),
    ];
    for (bytes, number) in numbers {
        for (whose, said) in [("the library", library::crc32c(bytes).answer), ("the second program", expected::crc32c(bytes).answer)] {
            let differs = format!("{}: {whose} says {said:08x}, not {number:08x}", hex(bytes));
            outcome.add(if said == number { Ok(()) } else { Err(differs) });
        }
    }
    outcome
}

/// Every byte at every place among zeros, and every length at every alignment.
pub fn short() -> Outcome {
    let mut outcome = Outcome::new("CRC32C numbers of short slices");
    for place in 0..20 {
        for byte in 0..=255 {
            let mut bytes = [0; 20];
            bytes[place] = byte;
            same(&mut outcome, &bytes);
        }
    }
    let bytes: Vec<u8> = (0..300).map(|i| (i * i / 5) as u8).collect();
    for start in 0..8 {
        for end in start..bytes.len() {
            same(&mut outcome, &bytes[start..end]);
        }
    }
    outcome
}

/// Slices at random, now and then a long one.
pub fn generated(random: &mut Random, slices: usize) -> Outcome {
    let mut outcome = Outcome::new("CRC32C numbers of slices at random");
    for _ in 0..slices {
        let most = if random.below(200) == 0 { 70_000 } else { 300 };
        let bytes: Vec<u8> = (0..random.below(most)).map(|_| random.byte()).collect();
        same(&mut outcome, &bytes);
    }
    outcome
}

fn same(outcome: &mut Outcome, bytes: &[u8]) {
    outcome.same(&library::crc32c(bytes), &expected::crc32c(bytes), || format!("{} ({} bytes)", hex(bytes), bytes.len()));
}
