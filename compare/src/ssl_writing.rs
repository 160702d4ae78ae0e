//! What is written in TLV 0x20 (document 02, K2), compared through the C interface.
use crate::interface::{self, numbers};
use crate::outcome::Outcome;
use crate::random::Random;
use crate::ssl::Calls;
use crate::ssl_values::{self, Given, Pieces, LONGEST, VERIFY};
use crate::NUMBERS;
use std::array::from_fn;

/// For each piece so many bytes of its fifth of all.
fn pieces(bytes: &[u8], sizes: [usize; 5]) -> Pieces<'_> {
    from_fn(|i| Some(&bytes[bytes.len() / 5 * i..][..sizes[i]]))
}

/// So many bytes, each another than the next.
fn bytes(count: usize) -> Vec<u8> {
    (0..count).map(|i| (i * 7 / 5) as u8).collect()
}

/// Every choice of pieces that are there, each of none, one and nine bytes. Of the others something is lent too.
pub fn choices() -> Outcome {
    let mut calls = Calls::new("choices of pieces, written");
    let bytes = bytes(5 * 9);
    for (present, choice) in (0..32).flat_map(|present| (0..243).map(move |choice| (present, choice))) {
        let sizes = [1, 3, 9, 27, 81].map(|power| [0, 1, 9][choice / power % 3]);
        for client in [0, 1] {
            let given = Given { client, verify: VERIFY, present, pieces: pieces(&bytes, sizes) };
            for room in [given.length() - 1, given.length(), given.length() + 3] {
                calls.writes(&given, room, NUMBERS);
            }
            calls.leaves_the_same(&given, &[9; 20], given.length());
        }
    }
    calls.reached(&[0, 14, 20])
}

/// Every client byte with every byte that says what is there, and verify numbers of one bit.
pub fn heads() -> Outcome {
    let mut calls = Calls::new("client bytes and verify numbers, written");
    let bytes = bytes(5 * 3);
    let given = Given { client: 0, verify: VERIFY, present: 0, pieces: pieces(&bytes, [3, 0, 1, 2, 3]) };
    for (client, present) in (0..=255).flat_map(|client| (0..=255).map(move |present| (client, present))) {
        calls.writes(&Given { client, present, ..given }, 40, NUMBERS);
    }
    for (bit, present) in (0..32).flat_map(|bit| (0..32).map(move |present| (bit, present))) {
        calls.writes(&Given { verify: 1 << bit, present, ..given }, 40, NUMBERS);
    }
    calls.reached(&[0, 20])
}

/// A piece of every length to 1,300, alone and among all.
pub fn lengths() -> Outcome {
    let mut calls = Calls::new("lengths of pieces, written");
    let bytes = bytes(5 * 1300);
    for (length, place) in (0..=1300).flat_map(|length| (0..5).map(move |place| (length, place))) {
        let sizes = from_fn(|i| if i == place { length } else { 2 });
        for present in [1 << place, 31] {
            let given = Given { client: 0, verify: VERIFY, present, pieces: pieces(&bytes, sizes) };
            calls.writes(&given, given.length(), NUMBERS);
        }
    }
    calls.reached(&[0])
}

/// Every room and every length of the numbers, for every choice of pieces.
pub fn rooms() -> Outcome {
    let mut calls = Calls::new("values of TLV 0x20 written in every room");
    let bytes = bytes(5 * 5);
    for (client, present) in (0..4).flat_map(|client| (0..32).map(move |present| (client, present))) {
        let given = Given { client, verify: VERIFY, present, pieces: pieces(&bytes, [2, 0, 1, 5, 3]) };
        for (room, numbers) in interface::rooms(given.length()).flat_map(|room| (0..=NUMBERS).map(move |numbers| (room, numbers))) {
            calls.writes(&given, room, numbers);
        }
    }
    calls.reached(&[0, 14, 20])
}

/// Values of 65,535 bytes, up to two more and one fewer, of every choice of pieces, each in turn the longest; in rooms at their end, with numbers enough or
/// not: every refusal, alone and beside the later ones.
pub fn borders() -> Outcome {
    let mut calls = Calls::new("values of TLV 0x20 of 65,535 bytes and about, written or refused");
    let bytes = bytes(5 * LONGEST);
    let choices = (1..32u8).flat_map(|present| (0..5).map(move |place| (present, place)));
    for (present, place) in choices.filter(|(present, place)| present >> place & 1 == 1) {
        for length in LONGEST - 1..=LONGEST + 2 {
            let count = present.count_ones() as usize;
            let others = (length - 5) / 8;
            let longest = length - 5 - 3 * count - (count - 1) * others;
            let sizes = from_fn(|i| if i == place { longest } else { others });
            for client in [0, 1] {
                let given = Given { client, verify: VERIFY, present, pieces: pieces(&bytes, sizes) };
                for (room, numbers) in [(0, 0), (0, 4), (length - 1, 4), (length, 3), (length, 4), (length + 3, NUMBERS)] {
                    calls.writes(&given, room, numbers);
                }
            }
        }
    }
    calls.reached(&[0, 13, 14, 20])
}

/// Pieces of 65,535 bytes and more, alone and beside others; and as long ones lent for the pieces that are not there.
pub fn long() -> Outcome {
    let mut calls = Calls::new("long pieces of TLV 0x20, written or refused");
    let bytes = bytes(131_100);
    for size in [65_527, 65_528, 65_535, 65_536, 65_537, 65_544, 131_072, 131_100] {
        for (client, place) in [0, 1].into_iter().flat_map(|client| (0..5).map(move |place| (client, place))) {
            let pieces = from_fn(|i| (i == place).then_some(&bytes[..size]));
            for present in [0, 1, 1 << place, 1 | 1 << place, 31] {
                for (room, numbers) in [(0, 0), (0, 4), (20, 4), (140_000, 0), (140_000, 4)] {
                    calls.writes(&Given { client, verify: VERIFY, present, pieces }, room, numbers);
                }
            }
        }
    }
    for size in [32_768, LONGEST, LONGEST + 1] {
        calls.writes(&Given { client: 1, verify: VERIFY, present: 31, pieces: [Some(&bytes[..size]); 5] }, 400_000, NUMBERS);
    }
    for (client, present) in [0, 1].into_iter().flat_map(|client| (0..32).map(move |present| (client, present))) {
        let given = Given { client, verify: VERIFY, present, pieces: [Some(&bytes[..2]); 5] };
        calls.leaves_the_same(&given, &bytes[..LONGEST + 1], 30);
    }
    calls.reached(&[0, 13, 14, 20])
}

/// Pieces at random in every room, empty ones lent as NULL. One value in forty has 65,535 bytes, and one a byte more.
pub fn generated(random: &mut Random, count: usize) -> Outcome {
    let mut calls = Calls::new("pieces of TLV 0x20 at random");
    for n in 0..count {
        let long = n % 20 == 0;
        let verify = u32::from_be_bytes([(); 4].map(|()| random.byte()));
        let head = Given { client: random.byte(), verify, present: random.byte() | u8::from(long), pieces: [None; 5] };
        let mut pieces = [(); 5].map(|()| ssl_values::any_piece(random));
        if long {
            let missing = LONGEST + n / 20 % 2 - Given { pieces: lent(&pieces), ..head }.length();
            pieces[0].extend(bytes(missing));
        }
        let given = Given { pieces: lent(&pieces), ..head };
        let numbers = numbers(random);
        for room in interface::rooms(given.length()) {
            calls.writes(&given, room, numbers);
        }
        calls.leaves_the_same(&given, &ssl_values::any_piece(random), given.length());
    }
    calls.reached(&[0, 13, 14, 20])
}

fn lent(pieces: &[Vec<u8>; 5]) -> Pieces<'_> {
    pieces.each_ref().map(|piece| (!piece.is_empty()).then_some(&piece[..]))
}
