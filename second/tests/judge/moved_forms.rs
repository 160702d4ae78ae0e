//! Stored forms moved from one version to the other (document 02, K7).

use crate::forms::*;
use crate::helpers::*;
use second::{back, forward, load, store};

/// "Moving forward sets absent." Outputs are of all lengths.
#[test]
fn every_kind_both_ways() {
    for (_, one, two) in worked() {
        check_outputs(&two, |out| forward(&one, out));
        check_outputs(&one, |out| back(&two, out));
    }
}

/// "Moving back answers 24 and writes nothing when the state is matched", also in
/// outputs too short for the form.
#[test]
fn matched_is_not_moved_back() {
    for (_, _, two) in worked().into_iter().skip(2) {
        check_refused(24, |out| back(&with_state(&two, 1), out));
    }
}

#[test]
fn a_form_of_the_other_version_is_refused() {
    for (_, one, two) in worked() {
        check_refused(16, |out| forward(&two, out));
        let number = if one.len() < 7 { 18 } else { 16 };
        check_refused(number, |out| back(&one, out));
    }
}

/// "An invalid input first gives its reader's number, a wrong length included."
/// Each case has all the faults that come later, too, and is moved to outputs too
/// short for any form.
#[test]
fn what_cannot_be_read_is_not_moved_forward() {
    for (bytes, number) in [
        (&[][..], 18),
        (&[0x43, 0x53, 0x52, 0x00, 0x01], 18),
        (&[0x00, 0x53, 0x52, 0x00, 0x02], 18),
        (&[0x43, 0x53, 0x53, 0x00, 0x02, 0x99, 0x00], 15),
        (&[0x43, 0x53, 0x52, 0x00, 0x02, 0x99, 0x00], 16),
        (&[0x43, 0x53, 0x52, 0x00, 0x01, 0x99, 0x00], 17),
        (&[0x43, 0x53, 0x52, 0x00, 0x01, 0x02], 17),
        (&[0x43, 0x53, 0x52, 0x00, 0x01, 0x01, 0x00], 18),
        (&[0x43, 0x53, 0x52, 0x00, 0x01, 0x11], 18),
    ] {
        check_refused(number, |out| forward(bytes, out));
    }
}

/// Matched with a wrong length is refused for the length, matched beside local
/// for what the reader says of it.
#[test]
fn what_cannot_be_read_is_not_moved_back() {
    for (bytes, number) in [
        (&[][..], 18),
        (&[0x43, 0x53, 0x52, 0x00, 0x02, 0x00], 18),
        (&[0x00, 0x53, 0x52, 0x00, 0x01, 0x99], 18),
        (&[0x44, 0x53, 0x52, 0x00, 0x01, 0x99, 0x01, 0x00], 15),
        (&[0x43, 0x53, 0x52, 0x00, 0x01, 0x99, 0x01, 0x00], 16),
        (&[0x43, 0x53, 0x52, 0x00, 0x02, 0x99, 0x01, 0x00], 17),
        (&[0x43, 0x53, 0x52, 0x00, 0x02, 0x11, 0x02, 0x00], 24),
        (&[0x43, 0x53, 0x52, 0x00, 0x02, 0x00, 0x01, 0x00], 24),
        (&[0x43, 0x53, 0x52, 0x00, 0x02, 0x01, 0x01], 24),
        (&[0x43, 0x53, 0x52, 0x00, 0x02, 0x11, 0x01, 0x00], 18),
        (&[0x43, 0x53, 0x52, 0x00, 0x02, 0x11, 0x00, 0x00], 18),
        (&[0x43, 0x53, 0x52, 0x00, 0x02, 0x00, 0x00, 0x00], 18),
    ] {
        check_refused(number, |out| back(bytes, out));
    }
}

/// A byte more or less than the form has, in any state that its kind may have.
#[test]
fn a_wrong_length_is_refused_both_ways() {
    for (_, one, two) in worked() {
        check_refused(18, |out| forward(&[&one[..], &[0]].concat(), out));
        check_refused(18, |out| forward(&one[..one.len() - 1], out));
        let states = if two.len() > 7 { 0..=1 } else { 0..=0 };
        for two in states.map(|state| with_state(&two, state)) {
            check_refused(18, |out| back(&[&two[..], &[0]].concat(), out));
            check_refused(18, |out| back(&two[..two.len() - 1], out));
        }
    }
}

/// "forward and back gives the same bytes; back and forward does where back was
/// accepted"
#[test]
fn random_forms_come_back() {
    let mut random = Random::seeded(0x3333_4444_5555_7777);
    for _ in 0..3000 {
        let (code, _, lengths) = random.pick(&CODES);
        let block = random.bytes(lengths[0] - 6);
        let (mut one, mut two) = (vec![0; lengths[0]], vec![0; lengths[1]]);
        assert_eq!(forward(&form(ONE, code, &block), &mut two), Ok(lengths[1]));
        assert_eq!(two, form(TWO, code, &block));
        assert_eq!(back(&two, &mut one), Ok(lengths[0]));
        assert_eq!(one, form(ONE, code, &block));
    }
}

/// Moving is loading in one version and storing in the other.
#[test]
fn random_forms_are_loaded_and_stored() {
    let mut random = Random::seeded(0x3333_4444_5555_8888);
    for _ in 0..3000 {
        let (code, _, lengths) = random.pick(&CODES);
        let (from, to) = random.pick(&[(ONE, TWO), (TWO, ONE)]);
        let mut bytes = form(from, code, &random.bytes(lengths[0] - 6));
        if random.once_in(2) {
            let place = random.below(7).min(bytes.len() - 1);
            bytes[place] = random.pick(&[0, 1, 2, 0x11, 0x31]);
        }
        bytes.truncate(bytes.len() - random.pick(&[0, 0, 0, 1]));
        let room = random.below(230);
        let (mut moved, mut stored) = (vec![0xA5; room], vec![0xA5; room]);
        let here = if from == ONE { forward } else { back }(&bytes, &mut moved);
        let there = load(from, &bytes).and_then(|record| store(to, &record, &mut stored));
        assert_eq!((here, moved), (there, stored), "{bytes:02X?}");
    }
}
