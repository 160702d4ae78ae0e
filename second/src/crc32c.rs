//! CRC32C (RFC 4960, appendix B) by the division that defines it: one
//! polynomial by another, over coefficients 0 and 1, where adding and taking
//! away are the same.

use std::iter::repeat_n;

/// x^32 + x^28 + x^27 + x^26 + x^25 + x^23 + x^22 + x^20 + x^19 + x^18 + x^14 +
/// x^13 + x^11 + x^10 + x^9 + x^8 + x^6 + 1. Bit i is the coefficient of x^i.
const DIVISOR: u64 = 0x1_1EDC_6F41;

/// The degree of the divisor, and so the number of the remainder's coefficients.
const DEGREE: usize = 32;

/// The remainder with every coefficient turned over. That of x^31 is the lowest
/// bit of the number.
pub fn crc32c(bytes: &[u8]) -> u32 {
    let remainder = dividend(bytes).fold(0, bring_down);
    let highest_first = u32::try_from(remainder).expect("the divisor has a higher degree");
    !highest_first.reverse_bits()
}

/// The dividend's coefficients, that of the highest power first: the bits of the
/// bytes, of each byte the lowest first, and 32 zeros behind them. Of all these
/// the first 32 are turned over.
fn dividend(bytes: &[u8]) -> impl Iterator<Item = u64> + '_ {
    let bits_of = |byte: u8| (0..8).map(move |place| u64::from(byte >> place & 1));
    let bits = bytes.iter().flat_map(move |&byte| bits_of(byte));
    let turned_over = |(place, bit): (usize, u64)| bit ^ u64::from(place < DEGREE);
    bits.chain(repeat_n(0, DEGREE)).enumerate().map(turned_over)
}

/// A step of the long division: the next coefficient stands behind the remainder
/// so far, and the divisor is taken away where it goes in.
fn bring_down(remainder: u64, coefficient: u64) -> u64 {
    let longer = remainder << 1 | coefficient;
    match longer >> DEGREE {
        0 => longer,
        _ => longer ^ DIVISOR,
    }
}

#[cfg(test)]
mod tests {
    use super::*;

    /// The exponents in RFC 4960, appendix B.
    const EXPONENTS: [usize; 18] = [
        32, 28, 27, 26, 25, 23, 22, 20, 19, 18, 14, 13, 11, 10, 9, 8, 6, 0,
    ];

    #[test]
    fn the_divisor_has_the_published_exponents() {
        let sum: u64 = EXPONENTS.iter().map(|exponent| 1 << exponent).sum();
        assert_eq!(DIVISOR, sum);
    }

    /// The division on paper: the whole dividend is written down, and the divisor
    /// under every 1 that is left, from the left to the right.
    fn on_paper(bytes: &[u8]) -> u32 {
        let mut paper: Vec<bool> = dividend(bytes).map(|bit| bit == 1).collect();
        for place in 0..paper.len() - 32 {
            if paper[place] {
                for exponent in EXPONENTS {
                    paper[place + 32 - exponent] ^= true;
                }
            }
        }
        let (quotient_gone, remainder) = paper.split_at(paper.len() - 32);
        assert!(quotient_gone.iter().all(|&bit| !bit));
        let bits = remainder.iter().enumerate();
        bits.map(|(place, &bit)| u32::from(!bit) << place).sum()
    }

    #[test]
    fn the_division_is_that_on_paper() {
        let bytes: Vec<u8> = (0..600_usize).map(|n| (n * n / 7 % 256) as u8).collect();
        for length in (0..40).chain([255, 256, 599]) {
            for start in [0, 1] {
                let part = &bytes[start..start + length];
                assert_eq!(crc32c(part), on_paper(part), "{part:?}");
            }
        }
    }

    #[test]
    fn the_dividend_of_few_bytes() {
        let coefficients = |bytes: &[u8]| -> String {
            let digits = dividend(bytes).map(|bit| if bit == 1 { '1' } else { '0' });
            digits.collect()
        };
        assert_eq!(coefficients(&[]), "1".repeat(32));
        let one = format!("01111111{}{}", "1".repeat(24), "0".repeat(8));
        assert_eq!(coefficients(&[0x01]), one);
        let five = format!("{}10000000{}", "0".repeat(32), "0".repeat(32));
        assert_eq!(coefficients(&[0xFF, 0xFF, 0xFF, 0xFF, 0x01]), five);
    }
}
