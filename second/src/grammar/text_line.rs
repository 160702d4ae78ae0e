//! The text line of version 1 (document 01, The text line).

use super::byte_set::ByteSet;
use super::expression::{Expr, Grammar};
use crate::field::Field;

const LONGEST_UNKNOWN_LINE: usize = 107;

pub fn text_line(g: &Grammar) -> Expr {
    g.either([
        tcp_line(g, "TCP4 ", ip4_address(g)),
        tcp_line(g, "TCP6 ", ip6_address(g)),
        short_unknown_line(g),
        long_unknown_line(g),
    ])
}

fn tcp_line(g: &Grammar, word: &str, address: Expr) -> Expr {
    let port = decimal(g, 65_535);
    g.sequence([
        opening(g),
        g.in_field(Field::ProtocolWord, g.text(word)),
        g.in_field(Field::Address, g.then(address, g.text(" "))),
        g.in_field(Field::Address, g.then(address, g.text(" "))),
        g.in_field(Field::Port, g.then(port, g.text(" "))),
        g.in_field(Field::Port, g.then(port, g.text("\r"))),
        g.in_field(Field::LineEnd, g.text("\n")),
    ])
}

fn short_unknown_line(g: &Grammar) -> Expr {
    g.sequence([
        opening(g),
        g.in_field(Field::ProtocolWord, g.text("UNKNOWN\r")),
        g.in_field(Field::LineEnd, g.text("\n")),
    ])
}

/// The line ends at the first CR followed by LF, so none stands before its end.
fn long_unknown_line(g: &Grammar) -> Expr {
    let line_end = g.text("\r\n");
    let holds_line_end = g.sequence([g.anything(), line_end, g.anything()]);
    let line = g.sequence([
        opening(g),
        g.in_field(Field::ProtocolWord, g.text("UNKNOWN ")),
        g.in_field(Field::LineEnd, g.then(g.not(holds_line_end), line_end)),
    ]);
    g.both(line, g.repeat(g.any_byte(), 0, LONGEST_UNKNOWN_LINE))
}

fn opening(g: &Grammar) -> Expr {
    g.in_field(Field::Opening, g.text("PROXY "))
}

fn ip4_address(g: &Grammar) -> Expr {
    let octet = decimal(g, 255);
    g.then(octet, g.repeat(g.then(g.text("."), octet), 3, 3))
}

/// Eight groups, or one "::" anywhere with at most seven.
fn ip6_address(g: &Grammar) -> Expr {
    let shortened = |before, after| g.sequence([groups(g, before), g.text("::"), groups(g, after)]);
    let counts = (0..=7).flat_map(|before| (0..=7 - before).map(move |after| (before, after)));
    let mut forms = vec![groups(g, 8)];
    forms.extend(counts.map(|(before, after)| shortened(before, after)));
    g.either(forms)
}

/// So many groups of hex digits, with a colon between any two.
fn groups(g: &Grammar, count: usize) -> Expr {
    if count == 0 {
        return g.empty();
    }
    let hex_digit = g.one_of(ByteSet::of(|byte| byte.is_ascii_hexdigit()));
    let group = g.repeat(hex_digit, 1, 4);
    g.then(
        group,
        g.repeat(g.then(g.text(":"), group), count - 1, count - 1),
    )
}

/// The decimals from 0 to `bound` without leading zeros: "0", those with fewer
/// digits than the bound, and those with as many, which are the bound itself
/// or like it up to a digit that is smaller.
fn decimal(g: &Grammar, bound: u32) -> Expr {
    let bound = bound.to_string().into_bytes();
    let digit = g.one_of(ByteSet::of(|byte| byte.is_ascii_digit()));
    let nonzero = g.one_of(ByteSet::of(|byte| (b'1'..=b'9').contains(&byte)));
    let fewer_digits = match bound.len() {
        1 => g.nothing(),
        length => g.then(nonzero, g.repeat(digit, 0, length - 2)),
    };
    let smaller_at = |place: usize| {
        let least = if place == 0 { b'1' } else { b'0' };
        let smaller = ByteSet::of(|byte| (least..bound[place]).contains(&byte));
        let behind = bound.len() - place - 1;
        let any_digits = g.repeat(digit, behind, behind);
        g.sequence([g.text(&bound[..place]), g.one_of(smaller), any_digits])
    };
    let mut forms = vec![g.text("0"), fewer_digits, g.text(&bound)];
    forms.extend((0..bound.len()).map(smaller_at));
    g.either(forms)
}

#[cfg(test)]
mod tests {
    use super::*;
    use crate::grammar::automaton::{Automaton, Step};
    use std::collections::HashSet;
    use std::net::Ipv6Addr;

    /// The automaton of `inner` with a space to end it.
    fn with_space(g: &Grammar, inner: Expr) -> Automaton {
        Automaton::of(g, g.in_field(Field::Address, g.then(inner, g.text(" "))))
    }

    /// The step by the last byte of `text`, all bytes before it being live.
    fn last_step(automaton: &Automaton, text: &str) -> Step {
        let mut last = Step::Partial(Automaton::START);
        for byte in text.bytes() {
            let Step::Partial(state) = last else {
                return Step::Dead(Field::Address);
            };
            last = automaton.step(state, byte);
        }
        last
    }

    fn is_whole(automaton: &Automaton, text: &str) -> bool {
        last_step(automaton, &format!("{text} ")) == Step::Whole
    }

    fn is_live(automaton: &Automaton, text: &str) -> bool {
        matches!(last_step(automaton, text), Step::Partial(_))
    }

    /// All digit strings of up to `longest` digits.
    fn digit_strings(longest: usize) -> impl Iterator<Item = String> {
        let of_length = |n: usize| (0..10_usize.pow(n as u32)).map(move |i| format!("{i:0n$}"));
        std::iter::once(String::new()).chain((1..=longest).flat_map(of_length))
    }

    /// Compares with the written list of all numbers up to the bound.
    fn check_decimal(bound: u32, longest: usize) {
        let g = Grammar::default();
        let automaton = with_space(&g, decimal(&g, bound));
        let whole: HashSet<String> = (0..=bound).map(|n| n.to_string()).collect();
        let begun = |number: &String| (0..=number.len()).map(|n| number[..n].to_owned()).collect();
        let live: HashSet<String> = whole.iter().flat_map::<Vec<_>, _>(begun).collect();
        for text in digit_strings(longest) {
            assert_eq!(is_whole(&automaton, &text), whole.contains(&text), "{text}");
            assert_eq!(is_live(&automaton, &text), live.contains(&text), "{text}");
        }
    }

    #[test]
    fn decimals_are_the_numbers_up_to_the_bound_as_they_are_written() {
        check_decimal(65_535, 6);
        check_decimal(255, 5);
        check_decimal(100, 4);
        check_decimal(9, 3);
        check_decimal(0, 2);
    }

    /// All strings of up to 17 characters over one hex digit and the colon;
    /// the standard library's reader decides which are addresses.
    #[test]
    fn ip6_addresses_are_those_of_the_standard_library() {
        let g = Grammar::default();
        let automaton = with_space(&g, ip6_address(&g));
        let is_address = |text: &str| text.parse::<Ipv6Addr>().is_ok();
        // A beginning that can be completed at all can be completed by some
        // end of this, or by the second colon of "::".
        let ends = "0:0:0:0:0:0:0:0";
        let ends: Vec<&str> = (0..=ends.len()).map(|n| &ends[n..]).chain([":"]).collect();
        for length in 0..=17 {
            for code in 0..1_u32 << length {
                let character = |place: u32| if code >> place & 1 == 1 { ':' } else { 'e' };
                let text: String = (0..length).map(character).collect();
                let live = ends.iter().any(|end| is_address(&format!("{text}{end}")));
                assert_eq!(is_whole(&automaton, &text), is_address(&text), "{text}");
                assert_eq!(is_live(&automaton, &text), live, "{text}");
            }
        }
    }

    #[test]
    fn ip6_groups_take_hex_digits_in_either_case_and_nothing_else() {
        let g = Grammar::default();
        let automaton = with_space(&g, ip6_address(&g));
        for byte in 0..=0x7F {
            let character = char::from(byte);
            let goes_on = character.is_ascii_hexdigit() || character == ':';
            assert_eq!(is_live(&automaton, &character.to_string()), goes_on);
        }
    }
}
