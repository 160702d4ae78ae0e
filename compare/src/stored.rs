//! The stored form in both versions, and moving from one to the other (document 02, K7), compared through the C interface.
use crate::connection::{SIZE, STATE};
use crate::headers::{addresses, FAMILIES};
use crate::interface::{address_block, numbers, rooms};
use crate::outcome::Outcome;
use crate::random::Random;
use crate::{expected, hex, library, records, Left, CONNECTION, NUMBERS, STORED_VERSIONS};
use second::StoredVersion;
use std::collections::BTreeMap;

/// Room for every form, and to spare.
const ROOM: usize = 230;

/// The states of each version; version 1 does not write its own.
const STATES: [(StoredVersion, u8); 3] = [(StoredVersion::One, 0), (StoredVersion::Two, 0), (StoredVersion::Two, 1)];

/// Connections of every kind in either state, clean or not, in every room; each form that is written is moved, in every room too.
pub fn records(random: &mut Random, count: usize) -> Outcome {
    let mut outcome = Outcome::new("stored records");
    for _ in 0..count {
        let mut connection = records::any(random);
        connection[STATE] ^= random.below(2) as u8;
        let numbers = numbers(random);
        for version in STORED_VERSIONS {
            for room in rooms(7 + 216) {
                stores(&mut outcome, version, &connection, room, numbers);
            }
            if let Some(form) = library::store(version, &connection, ROOM, NUMBERS).written() {
                for room in rooms(form.len() + 1) {
                    moves(&mut outcome, version, form, room, numbers);
                }
            }
        }
    }
    outcome
}

/// Forms of either version, whole, cut, lengthened and damaged.
pub fn forms(random: &mut Random, forms: usize) -> Outcome {
    let mut outcome = Outcome::new("stored forms, loaded and moved");
    for _ in 0..forms {
        reads(&mut outcome, &any(random), random.below(ROOM), numbers(random));
    }
    outcome
}

/// A form of any kind, in any state, whole or up to twice cut, lengthened, or with a byte changed or left out.
fn any(random: &mut Random) -> Vec<u8> {
    let (code, length) = kinds()[random.below(8)];
    let block: Vec<u8> = (0..length).map(|_| random.byte()).collect();
    let mut form = form(STORED_VERSIONS[random.below(2)], code, random.below(2) as u8, &block);
    for _ in 0..random.below(3) {
        let place = random.below(form.len() + 1);
        match random.below(4) {
            0 => form.truncate(place),
            1 => form.insert(place, random.byte()),
            2 if place < form.len() => drop(form.remove(place)),
            _ => {
                if let Some(byte) = form.get_mut(place % 7) {
                    // Codes and states are small numbers.
                    *byte = random.byte() >> random.below(8);
                }
            }
        }
    }
    form
}

/// Every kind code, and in version 2 with every state byte, in the lengths of all kinds; in version 1 also a byte more or fewer.
pub fn codes_and_states() -> Outcome {
    let mut outcome = Outcome::new("kind codes and states of stored forms");
    for (code, block) in (0..=255).flat_map(|code| [0, 12, 36, 216].map(|block| (code, block))) {
        let longer = form(StoredVersion::One, code, 0, &addresses(block + 1));
        for fewer in 0..=2 {
            reads(&mut outcome, &longer[..longer.len() - fewer], ROOM, NUMBERS);
        }
        for state in 0..=255 {
            let form = form(StoredVersion::Two, code, state, &addresses(block));
            loads(&mut outcome, StoredVersion::Two, &form, CONNECTION);
            moves(&mut outcome, StoredVersion::Two, &form, ROOM, NUMBERS);
        }
    }
    outcome
}

/// Every length from 0 to 230 of every kind, version and state, right or with one of the first seven bytes changed; in room enough and none.
pub fn lengths() -> Outcome {
    let mut outcome = Outcome::new("lengths of stored forms");
    for (version, state) in STATES {
        for (code, _) in kinds() {
            for (place, change) in (0..7).map(|place| (place, 2)).chain([(0, 0)]) {
                let mut long = form(version, code, state, &addresses(ROOM));
                long[place] ^= change;
                for length in 0..=ROOM {
                    reads(&mut outcome, &long[..length], ROOM, NUMBERS);
                    reads(&mut outcome, &long[..length], 0, NUMBERS);
                }
            }
        }
    }
    outcome
}

/// Every length of the connection to load into, and of the numbers and the output to move into, for every kind, version and state.
pub fn buffers() -> Outcome {
    let mut outcome = Outcome::new("buffer lengths for stored forms");
    for (version, state) in STATES {
        for (code, block) in kinds() {
            let form = form(version, code, state, &addresses(block));
            for room in 0..=ROOM {
                loads(&mut outcome, version, &form, room);
                for numbers in 0..=NUMBERS {
                    moves(&mut outcome, version, &form, room, numbers);
                }
            }
        }
    }
    outcome
}

/// Connections of every kind and state with one byte set.
pub fn bytes() -> Outcome {
    let mut outcome = Outcome::new("stored records with one byte set");
    for (code, state) in kinds().into_iter().flat_map(|(code, _)| [(code, 0), (code, 1)]) {
        for place in 1..STATE {
            let mut connection = [0; SIZE];
            (connection[0], connection[STATE], connection[place]) = (code, state, 1);
            for version in STORED_VERSIONS {
                stores(&mut outcome, version, &connection, ROOM, NUMBERS);
            }
        }
    }
    outcome
}

/// Listed connections, whole, cut and lengthened, in rooms at the form's end, with numbers enough or not: every refusal, alone and beside the later ones.
pub fn refused_stores() -> Outcome {
    let mut outcome = Outcome::new("stored records, written or refused");
    let mut answers = Answers::default();
    for (connection, version) in records::listed().iter().flat_map(|connection| STORED_VERSIONS.map(|version| (connection, version))) {
        let longer = [&connection[..], &[0]].concat();
        let length = head(version) + address_block(connection);
        for (size, room) in [SIZE - 1, SIZE, SIZE + 1].into_iter().flat_map(|size| [0, length - 1, length, length + 1].map(|room| (size, room))) {
            for numbers in [0, 3, 4, NUMBERS] {
                count(&mut answers, version, stores(&mut outcome, version, &longer[..size], room, numbers));
            }
        }
    }
    all_reached(outcome, answers, [&[0, 11, 14, 17, 18, 24], &[0, 11, 14, 17, 18]])
}

/// Forms with several faults at once, by both readers, with room for a connection or not.
pub fn refused_loads() -> Outcome {
    let mut outcome = Outcome::new("stored forms, loaded or refused");
    let mut answers = Answers::default();
    for (form, version) in faulty().iter().flat_map(|form| STORED_VERSIONS.map(|version| (form, version))) {
        for room in [0, SIZE - 1, SIZE, CONNECTION] {
            count(&mut answers, version, loads(&mut outcome, version, form, room));
        }
    }
    all_reached(outcome, answers, [&[0, 14, 15, 16, 17, 18], &[0, 14, 15, 16, 17, 18, 24]])
}

/// The same forms moved from both versions, in rooms at the other form's end, with numbers enough or not.
pub fn refused_moves() -> Outcome {
    let mut outcome = Outcome::new("stored forms, moved or refused");
    let mut answers = Answers::default();
    for (form, version) in faulty().iter().flat_map(|form| STORED_VERSIONS.map(|version| (form, version))) {
        let length = form.len() + head(other(version)) - head(version);
        for (room, numbers) in [0, length - 1, length, length + 1].into_iter().flat_map(|room| [0, 3, 4, 5].map(|numbers| (room, numbers))) {
            count(&mut answers, version, moves(&mut outcome, version, form, room, numbers));
        }
    }
    all_reached(outcome, answers, [&[0, 14, 15, 16, 17, 18], &[0, 14, 15, 16, 17, 18, 24]])
}

/// Forms, right and with every set of these faults in mark, version, kind code, state and length.
fn faulty() -> Vec<Vec<u8>> {
    let mut all = Vec::new();
    for mark in [b"CSR", b"DSR", b"CTR", b"CSr"] {
        for version in [[0, 1], [0, 2], [0, 0], [0, 3], [1, 1], [1, 2], [2, 0]] {
            for code in [0x00, 0x01, 0x02, 0x10, 0x11, 0x12, 0x13, 0x21, 0x22, 0x31, 0x32, 0x33, 0xFF] {
                for state in [0, 1, 2, 0xFF] {
                    let long = [&mark[..], &version, &[code, state], &addresses(ROOM)].concat();
                    let lengths = (5..=8).chain(17..=20).chain(41..=44).chain(221..=224);
                    all.extend(lengths.map(|length| long[..length].to_vec()));
                }
            }
        }
    }
    all
}

/// A form of these parts; version 1 has no state.
fn form(version: StoredVersion, code: u8, state: u8, block: &[u8]) -> Vec<u8> {
    match version {
        StoredVersion::One => [b"CSR\0\x01", &[code][..], block].concat(),
        StoredVersion::Two => [b"CSR\0\x02", &[code, state][..], block].concat(),
    }
}

/// Kind codes and the bytes of their address block.
fn kinds() -> Vec<(u8, usize)> {
    [&[(0x00, 0), (0x01, 0)], &FAMILIES[..]].concat()
}

/// The bytes before the address block.
fn head(version: StoredVersion) -> usize {
    match version {
        StoredVersion::One => 6,
        StoredVersion::Two => 7,
    }
}

/// How often each answer came, by version.
type Answers = [BTreeMap<u32, usize>; 2];

fn count(answers: &mut Answers, version: StoredVersion, answer: u32) {
    *answers[version as usize - 1].entry(answer).or_default() += 1;
}

/// In each version these answers came, and no other.
fn all_reached(mut outcome: Outcome, answers: Answers, due: [&[u32]; 2]) -> Outcome {
    for (came, due) in answers.iter().zip(due) {
        outcome.holds(came.keys().eq(due), || format!("the answers were {came:?}, and {due:?} are due"));
    }
    outcome.name = format!("{}, by answer {answers:?}", outcome.name);
    outcome
}

/// Loaded and moved from both versions.
fn reads(outcome: &mut Outcome, form: &[u8], room: usize, numbers: usize) {
    for version in STORED_VERSIONS {
        loads(outcome, version, form, CONNECTION);
        moves(outcome, version, form, room, numbers);
    }
}

/// The form that is written is loaded as the connection. The answer is given back.
fn stores(outcome: &mut Outcome, version: StoredVersion, connection: &[u8], room: usize, numbers: usize) -> u32 {
    let input = || format!("{} in version {} with {numbers} numbers in {room} bytes", hex(connection), version as u8);
    let here = library::store(version, connection, room, numbers);
    outcome.same(&here, &expected::store(version, connection, room, numbers), input);
    if let Some(form) = here.written() {
        let loaded = library::load(version, form, SIZE);
        outcome.holds(loaded.answer == 0 && loaded.bytes == connection, || format!("{}: {} is loaded as {loaded}", input(), hex(form)));
    }
    here.answer
}

/// The connection that is loaded is stored as the form. The answer is given back.
fn loads(outcome: &mut Outcome, version: StoredVersion, form: &[u8], room: usize) -> u32 {
    let input = || format!("{} ({} bytes) from version {} in {room} bytes", hex(form), form.len(), version as u8);
    let here = library::load(version, form, room);
    outcome.same(&here, &expected::load(version, form, room), input);
    if let (0, Some(connection)) = (here.answer, here.bytes.get(..SIZE)) {
        let stored = library::store(version, connection, form.len(), NUMBERS);
        outcome.holds(stored.written() == Some(form), || format!("{}: {here} is stored as {stored}", input()));
    }
    here.answer
}

/// Moving is loading from one version and storing in the other, and what is moved comes back as the form. The answer is given back.
fn moves(outcome: &mut Outcome, from: StoredVersion, form: &[u8], room: usize, numbers: usize) -> u32 {
    let input = || format!("{} ({} bytes) moved from version {} with {numbers} numbers in {room} bytes", hex(form), form.len(), from as u8);
    let here = library::move_from(from, form, room, numbers);
    outcome.same(&here, &expected::move_from(from, form, room, numbers), input);
    let stored = load_and_store(from, form, room, numbers);
    outcome.holds(here == stored, || format!("{}: moving leaves {here}, loading and storing {stored}", input()));
    if let Some(moved) = here.written() {
        let again = library::move_from(other(from), moved, form.len(), NUMBERS);
        outcome.holds(again.written() == Some(form), || format!("{}: {} comes back as {again}", input(), hex(moved)));
    }
    here.answer
}

fn load_and_store(from: StoredVersion, form: &[u8], room: usize, numbers: usize) -> Left {
    let loaded = library::load(from, form, SIZE);
    match loaded.answer {
        0 => library::store(other(from), &loaded.bytes, room, numbers),
        refusal => expected::untouched(refusal, numbers, room),
    }
}

fn other(version: StoredVersion) -> StoredVersion {
    match version {
        StoredVersion::One => StoredVersion::Two,
        StoredVersion::Two => StoredVersion::One,
    }
}
