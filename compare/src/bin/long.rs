//! The long run: the C library against the second program until so many inputs are compared. A round's seed is printed with a difference.
//! Usage: long HOW-MANY [FIRST-SEED]
use compare::random::Random;
use compare::{admission, checked_reading, checked_writing, crc32c, headers, inputs, interface, ip6_text, joining, ssl_reading, ssl_writing, stored, whole};
use std::time::{Duration, Instant};

/// Headers read, and areas and records made, in a round.
const READ: usize = 20_000;
const MADE: usize = 200;

fn main() {
    let mut arguments = std::env::args().skip(1).map(|a| a.replace(['_', ','], "").parse::<u64>().expect("a number"));
    let wanted = arguments.next().expect("how many inputs to compare");
    let first = arguments.next().unwrap_or(1);
    let short = headers::short();
    let mut told = Instant::now();
    let mut compared = 0;
    for seed in first.. {
        for (n, difference) in round(&short, seed) {
            compared += n as u64;
            if let Some(difference) = difference {
                println!("long: seed {seed}: {difference}");
                println!("{compared} inputs compared, a difference found");
                std::process::exit(1);
            }
        }
        if compared >= wanted {
            break;
        }
        if told.elapsed() > Duration::from_secs(10) {
            println!("long: {compared} inputs compared, seed {seed}");
            told = Instant::now();
        }
    }
    println!("{compared} inputs compared, all the same");
}

fn round(short: &[Vec<u8>], seed: u64) -> Vec<(usize, Option<String>)> {
    // Neighbouring seeds would begin alike.
    let mut random = Random(seed.wrapping_mul(0x9E37_79B9_7F4A_7C15) | 1);
    let read: Vec<Vec<u8>> = (0..READ).map(|_| inputs::any(short, &mut random)).collect();
    let whole = whole::among(read.iter());
    [
        interface::readings(read.iter()),
        whole::prefixes(&whole),
        whole::walks(&whole),
        interface::steps(&mut random, MADE),
        interface::lookups(&mut random, MADE),
        joining::generated(&mut random, MADE),
        interface::lines(&mut random, MADE),
        ip6_text::generated(&mut random, MADE),
        interface::blocks(&mut random, MADE),
        stored::records(&mut random, MADE),
        stored::forms(&mut random, READ),
        crc32c::generated(&mut random, MADE),
        checked_reading::generated(&mut random, READ),
        checked_writing::generated(&mut random, MADE),
        admission::generated(&mut random, READ / 4),
        ssl_reading::generated(&mut random, READ),
        ssl_writing::generated(&mut random, MADE),
    ]
    .map(|outcome| (outcome.compared, outcome.difference))
    .into()
}
