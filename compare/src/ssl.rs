//! What a TLS front end says in TLV 0x20 (document 02, K2): how a reading and a writing are compared through the C interface. The library also writes what it
//! reads, and reads what it writes.
use crate::outcome::Outcome;
use crate::ssl_values::{Given, LONGEST};
use crate::{expected, hex, library, Left, NUMBERS, SSL_NUMBERS};
use std::collections::BTreeMap;

const TOO_LARGE: u32 = 13;

/// What the calls of a comparison have found, and how often each answer came.
pub struct Calls {
    outcome: Outcome,
    answers: BTreeMap<u32, usize>,
}

impl Calls {
    pub fn new(name: &str) -> Self {
        Calls { outcome: Outcome::new(name), answers: BTreeMap::new() }
    }

    /// Compares a reading with numbers to spare.
    pub fn reads(&mut self, value: &[u8]) {
        self.reads_in(value, SSL_NUMBERS + 2);
    }

    pub fn reads_in(&mut self, value: &[u8], numbers: usize) {
        let answer = reads(&mut self.outcome, value, numbers);
        *self.answers.entry(answer).or_default() += 1;
    }

    pub fn writes(&mut self, given: &Given, room: usize, numbers: usize) {
        let answer = writes(&mut self.outcome, given, room, numbers);
        *self.answers.entry(answer).or_default() += 1;
    }

    /// Whatever is lent for the pieces that are not there, and whatever the bits beyond the fifth are, the same is left.
    pub fn leaves_the_same(&mut self, given: &Given, junk: &[u8], room: usize) {
        let here = library::write_ssl(given, room, NUMBERS);
        for (beyond, lent) in [None, Some(&[][..]), Some(&[0x21, 0, 0]), Some(junk)].into_iter().cycle().take(8).enumerate() {
            let other = given.with_absent(lent, beyond as u8);
            let there = library::write_ssl(&other, room, NUMBERS);
            self.outcome.holds(there == here, || format!("in {room} bytes {given} leaves {here}, but {other} leaves {there}"));
        }
    }

    /// These answers came, and no other.
    pub fn reached(self, due: &[u32]) -> Outcome {
        let Calls { mut outcome, answers } = self;
        outcome.holds(answers.keys().eq(due), || format!("the answers were {answers:?}, and {due:?} are due"));
        outcome.name = format!("{}, by answer {answers:?}", outcome.name);
        outcome
    }
}

/// What is read is written again. The answer is given back.
pub fn reads(outcome: &mut Outcome, value: &[u8], numbers: usize) -> u32 {
    let here = library::read_ssl(value, numbers);
    outcome.same(&here, &expected::read_ssl(value, numbers), || format!("value {} ({} bytes) with {numbers} numbers", hex(value), value.len()));
    if here.answer == 0 {
        writes_again(outcome, value, &here);
    }
    here.answer
}

/// What was read in the value is written as a value that says the same. It is no longer than the first, and as long where each sub-TLV is a piece; where these
/// also stand in order, it is the first.
fn writes_again(outcome: &mut Outcome, value: &[u8], read: &Left) {
    let input = || format!("value {} ({} bytes) is read as {read}", hex(value), value.len());
    let Some(said) = Given::told(value, &read.numbers) else {
        return outcome.holds(false, || format!("{}, but not all of that is in it", input()));
    };
    let written = library::write_ssl(&said, said.length(), NUMBERS);
    if said.length() > LONGEST {
        return outcome.holds(written.answer == TOO_LARGE, || format!("{}, which leaves {written}", input()));
    }
    let again = written.written().unwrap_or_default();
    outcome.holds(is_read_as(again, &said), || format!("{}, which leaves {written}, and that is not read so", input()));
    let sub_tlvs = second::tlv_list(value.get(5..).unwrap_or_default()).unwrap_or_default();
    let right = match sub_tlvs.len() == said.there().iter().flatten().count() {
        true if sub_tlvs.is_sorted_by_key(|(kind, _)| *kind) => again == value,
        true => again.len() == value.len(),
        false => again.len() < value.len(),
    };
    outcome.holds(right, || format!("{}, which leaves {written}, of another length or in another order", input()));
}

/// What is written is read back. The answer is given back.
pub fn writes(outcome: &mut Outcome, given: &Given, room: usize, numbers: usize) -> u32 {
    let input = || format!("{given} with {numbers} numbers in {room} bytes");
    let here = library::write_ssl(given, room, numbers);
    outcome.same(&here, &expected::write_ssl(given, room, numbers), input);
    if here.answer == 0 {
        let value = here.written().unwrap_or_default();
        outcome.holds(is_read_as(value, given), || format!("{}: {} is not read back so", input(), hex(value)));
    }
    here.answer
}

/// Whether the library reads the value as this.
fn is_read_as(value: &[u8], given: &Given) -> bool {
    let read = library::read_ssl(value, SSL_NUMBERS);
    read.answer == 0 && Given::told(value, &read.numbers).is_some_and(|said| said.says_as(given))
}
