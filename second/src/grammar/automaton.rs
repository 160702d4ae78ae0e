//! All derivatives of an expression as a table to walk. A state is live if a
//! state that holds the empty string can be reached from it; a byte that leads
//! to no live state is dead.

use super::byte_set::ByteSet;
use super::expression::{Expr, Grammar};
use crate::field::Field;
use std::collections::HashMap;

pub type State = usize;

/// What a byte leads to.
#[derive(Clone, Copy, Debug, PartialEq, Eq)]
pub enum Step {
    /// The bytes up to here are a whole string.
    Whole,
    /// They can be continued to one.
    Partial(State),
    /// They cannot; the last of them lies in this field.
    Dead(Field),
}

pub struct Automaton {
    classes: ByteClasses,
    /// One for each state. States that are not walked from, the dead and the
    /// whole ones, have none.
    rows: Vec<Option<Row>>,
}

struct Row {
    /// The field of the next byte.
    field: Field,
    /// The steps by byte class.
    steps: Vec<Step>,
}

impl Automaton {
    pub const START: State = 0;

    /// Fails if a whole string begins another one, or if it is open to which
    /// field a byte belongs.
    pub fn of(grammar: &Grammar, expr: Expr) -> Automaton {
        let classes = ByteClasses::separating(&grammar.byte_sets());
        let (exprs, successors) = all_derivatives(grammar, expr, &classes.examples);
        let whole: Vec<bool> = exprs.iter().map(|&e| grammar.holds_empty(e)).collect();
        let live = reaching(&whole, &successors);

        let row = |state: State| {
            if !live[state] {
                return None;
            }
            if whole[state] {
                let goes_on = successors[state].iter().any(|&next| live[next]);
                assert!(!goes_on, "a whole string begins no other");
                return None;
            }
            let field = only_field(grammar, exprs[state]);
            let step_to = |&next: &State| match (whole[next], live[next]) {
                (true, _) => Step::Whole,
                (false, true) => Step::Partial(next),
                (false, false) => Step::Dead(field),
            };
            let steps = successors[state].iter().map(step_to).collect();
            Some(Row { field, steps })
        };
        let rows = (0..exprs.len()).map(row).collect();
        Automaton { classes, rows }
    }

    pub fn step(&self, state: State, byte: u8) -> Step {
        self.row(state).steps[self.classes.class_of[usize::from(byte)]]
    }

    /// The field that the byte behind this state belongs to.
    pub fn field(&self, state: State) -> Field {
        self.row(state).field
    }

    fn row(&self, state: State) -> &Row {
        let row = self.rows[state].as_ref();
        row.expect("only states in the middle of a string are walked from")
    }
}

/// Classes of bytes that no byte set of the grammar tells apart.
struct ByteClasses {
    class_of: [usize; 256],
    /// One byte of each class.
    examples: Vec<u8>,
}

impl ByteClasses {
    fn separating(sets: &[ByteSet]) -> ByteClasses {
        let mut class_of = [0; 256];
        let mut examples = Vec::new();
        let mut known = HashMap::new();
        for byte in 0..=0xFF {
            let memberships: Vec<bool> = sets.iter().map(|set| set.contains(byte)).collect();
            class_of[usize::from(byte)] = *known.entry(memberships).or_insert_with(|| {
                examples.push(byte);
                examples.len() - 1
            });
        }
        ByteClasses { class_of, examples }
    }
}

/// Every expression that deriving `start` leads to, itself first, and for each
/// the indices of its derivatives by `bytes`.
fn all_derivatives(grammar: &Grammar, start: Expr, bytes: &[u8]) -> (Vec<Expr>, Vec<Vec<State>>) {
    let mut exprs = vec![start];
    let mut state_of = HashMap::from([(start, Automaton::START)]);
    let mut successors = Vec::new();
    while successors.len() < exprs.len() {
        let expr = exprs[successors.len()];
        let row = bytes.iter().map(|&byte| {
            let next = grammar.derivative(expr, byte);
            *state_of.entry(next).or_insert_with(|| {
                exprs.push(next);
                exprs.len() - 1
            })
        });
        let row = row.collect();
        successors.push(row);
    }
    (exprs, successors)
}

/// The states from which a goal can be reached: the least set that holds the
/// goals and every state with a successor in the set.
fn reaching(goals: &[bool], successors: &[Vec<State>]) -> Vec<bool> {
    let mut reaching = goals.to_vec();
    loop {
        let mut grown = false;
        for state in (0..successors.len()).rev() {
            if !reaching[state] && successors[state].iter().any(|&next| reaching[next]) {
                reaching[state] = true;
                grown = true;
            }
        }
        if !grown {
            return reaching;
        }
    }
}

/// The field of the next byte. The readings that are still possible all agree
/// on it: two refusals never compete.
fn only_field(grammar: &Grammar, expr: Expr) -> Field {
    let fields = grammar.first_fields(expr);
    assert_eq!(fields.len(), 1, "the next byte belongs to one field");
    fields.into_iter().next().unwrap()
}

#[cfg(test)]
mod tests {
    use super::*;

    /// Walks the bytes of `string` up to the first that is not `Partial`.
    fn walk(automaton: &Automaton, string: &str) -> Step {
        let mut state = Automaton::START;
        for byte in string.bytes() {
            match automaton.step(state, byte) {
                Step::Partial(next) => state = next,
                end => return end,
            }
        }
        Step::Partial(state)
    }

    #[test]
    fn a_byte_is_dead_if_it_leads_to_no_whole_string() {
        let g = Grammar::default();
        let abc = g.in_field(Field::ProtocolWord, g.text("abc"));
        let abd = g.in_field(Field::ProtocolWord, g.text("abdd"));
        let automaton = Automaton::of(&g, g.either([abc, abd]));
        assert!(matches!(walk(&automaton, "ab"), Step::Partial(_)));
        assert_eq!(walk(&automaton, "abc"), Step::Whole);
        assert!(matches!(walk(&automaton, "abd"), Step::Partial(_)));
        assert_eq!(walk(&automaton, "abdc"), Step::Dead(Field::ProtocolWord));
        assert_eq!(walk(&automaton, "x"), Step::Dead(Field::ProtocolWord));
    }

    /// No form says that the longer word is too long: the search finds it out.
    #[test]
    fn a_reading_that_cannot_end_in_time_is_dead_from_its_first_byte() {
        let g = Grammar::default();
        let long = g.in_field(Field::ProtocolWord, g.text("aaaaa"));
        let short = g.in_field(Field::ProtocolWord, g.text("bbb"));
        let at_most_four = g.repeat(g.any_byte(), 0, 4);
        let automaton = Automaton::of(&g, g.both(g.either([long, short]), at_most_four));
        assert_eq!(walk(&automaton, "a"), Step::Dead(Field::ProtocolWord));
        assert_eq!(walk(&automaton, "bbb"), Step::Whole);
    }

    #[test]
    #[should_panic(expected = "one field")]
    fn readings_that_disagree_on_the_field_are_found() {
        let g = Grammar::default();
        let one = g.in_field(Field::Port, g.text("a"));
        let other = g.in_field(Field::Address, g.text("b"));
        Automaton::of(&g, g.either([one, other]));
    }

    #[test]
    #[should_panic(expected = "begins no other")]
    fn a_whole_string_that_begins_another_is_found() {
        let g = Grammar::default();
        let inner = g.either([g.text("a"), g.text("ab")]);
        Automaton::of(&g, g.in_field(Field::Port, inner));
    }
}
