//! The beginning of a header, inside its text line or the first sixteen bytes
//! of version 2: what matters of its bytes to those that may follow.

use super::automaton::{Automaton, State, Step};
use super::text_line_or_binary_start;
use crate::field::Field;

#[derive(Clone, Copy, Debug, PartialEq, Eq, Hash)]
pub struct Beginning {
    state: State,
    /// The number that the length bytes in it make; 0 if there are none.
    length: usize,
}

/// What a byte behind a beginning leads to.
#[derive(Clone, Copy, Debug, PartialEq, Eq)]
pub enum Next {
    /// A beginning that is longer by this byte.
    Beginning(Beginning),
    /// A whole text line.
    Line,
    /// The first sixteen bytes of version 2, and then a block of this length.
    Block(usize),
    /// No header; the byte lies in this field.
    Dead(Field),
}

impl Beginning {
    /// Not a byte yet.
    pub const EMPTY: Beginning = Beginning {
        state: Automaton::START,
        length: 0,
    };

    pub fn next(self, byte: u8) -> Next {
        let automaton = text_line_or_binary_start();
        let in_length = automaton.field(self.state) == Field::Length;
        let length = match in_length {
            true => 256 * self.length + usize::from(byte),
            false => self.length,
        };
        match automaton.step(self.state, byte) {
            Step::Partial(state) => Next::Beginning(Beginning { state, length }),
            Step::Whole if in_length => Next::Block(length),
            Step::Whole => Next::Line,
            Step::Dead(field) => Next::Dead(field),
        }
    }
}
