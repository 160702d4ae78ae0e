//! Whole headers from their first byte to their last: every prefix, and the way through by the number of bytes that "more" tells.
use crate::expected::MORE;
use crate::outcome::Outcome;
use crate::{hex, library, CONNECTION, NUMBERS};
use second::{Judge, Verdict};
use std::collections::BTreeSet;

/// What follows a header: a line's end, in case a reader looks for the last one.
const PAYLOAD: &[u8] = b"GET /\r\n";

/// The whole headers that inputs begin with, as the library says.
pub fn among<'a>(inputs: impl Iterator<Item = &'a Vec<u8>>) -> BTreeSet<&'a [u8]> {
    let header = |input: &'a Vec<u8>| {
        let left = library::read(input, NUMBERS, CONNECTION);
        (left.answer == 0).then(|| &input[..left.numbers[0] as usize])
    };
    inputs.filter_map(header).collect()
}

/// Every prefix of each header, and the header with payload behind it, which is read checked too. What a header shares with the one before it is
/// read once.
pub fn prefixes(headers: &BTreeSet<&[u8]>) -> Outcome {
    let mut outcome = Outcome::new(&format!("prefixes of {} whole headers", headers.len()));
    let mut before = None;
    for header in headers {
        let known = before.map_or(0, |before| 1 + shared(header, before));
        let input = [header, PAYLOAD].concat();
        let verdict = read_prefixes(&mut outcome, &input, |end| known <= end);
        outcome.reads_checked(&input, verdict);
        before = Some(header);
    }
    outcome
}

/// How many bytes two headers begin with alike.
fn shared(one: &[u8], other: &[u8]) -> usize {
    one.iter().zip(other).take_while(|(a, b)| a == b).count()
}

/// Reads the prefixes of the input whose length is chosen. The second program's verdict on all of it is given back.
pub fn read_prefixes(outcome: &mut Outcome, input: &[u8], chosen: impl Fn(usize) -> bool) -> Verdict {
    judge_prefixes(input, |prefix, judge| {
        if chosen(prefix.len()) {
            outcome.reads(prefix, judge.verdict());
        }
    })
}

/// Reads every prefix of the input plain and checked.
pub fn read_prefixes_checked(outcome: &mut Outcome, input: &[u8]) {
    judge_prefixes(input, |prefix, judge| {
        outcome.reads(prefix, judge.verdict());
        outcome.reads_checked(prefix, judge.verdict());
    });
}

/// The second program takes each byte once for all prefixes. Its verdict on the last is given back.
fn judge_prefixes(input: &[u8], mut compare: impl FnMut(&[u8], &Judge)) -> Verdict {
    let mut judge = Judge::new();
    for end in 0..=input.len() {
        if 0 < end {
            judge.push(input[end - 1]);
        }
        compare(&input[..end], &judge);
    }
    judge.verdict()
}

/// From nothing on, always as many further bytes as "more" tells, or half as many: once the library accepts, just the payload is left.
pub fn walks(headers: &BTreeSet<&[u8]>) -> Outcome {
    let mut outcome = Outcome::new("walks to the end of a whole header");
    headers.iter().for_each(|header| walk(&mut outcome, header));
    outcome
}

pub fn walk(outcome: &mut Outcome, header: &[u8]) {
    outcome.add(walk_by(header, |least| least));
    outcome.add(walk_by(header, |least| least.div_ceil(2)));
}

fn walk_by(header: &[u8], take: impl Fn(usize) -> usize) -> Result<(), String> {
    let sent = [header, PAYLOAD].concat();
    let mut reads = Vec::new();
    loop {
        let (received, unread) = sent.split_at(reads.iter().sum());
        let left = library::read(received, NUMBERS, CONNECTION);
        let number = left.numbers[0] as usize;
        match left.answer {
            MORE if 0 < number && number <= unread.len() => reads.push(take(number)),
            0 if number == received.len() && unread == PAYLOAD => return Ok(()),
            answer => {
                let (input, length) = (hex(header), header.len());
                return Err(format!("{input} ({length} bytes): after reads of {reads:?} the library answers {answer} with {number}, not accepted at its end"));
            }
        }
    }
}
