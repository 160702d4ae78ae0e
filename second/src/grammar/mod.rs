//! What a header is, as far as expressions over byte strings can tell: the
//! whole text line of version 1, and the first sixteen bytes of version 2,
//! which say how many bytes follow.

pub mod automaton;
pub mod beginning;
pub mod binary_start;
pub mod byte_set;
pub mod completion;
pub mod expression;
pub mod text_line;

use automaton::Automaton;
use expression::Grammar;
use std::sync::OnceLock;

/// The automaton of both versions, made when first asked for.
pub fn text_line_or_binary_start() -> &'static Automaton {
    static AUTOMATON: OnceLock<Automaton> = OnceLock::new();
    AUTOMATON.get_or_init(|| {
        let g = Grammar::default();
        let both = g.either([text_line::text_line(&g), binary_start::binary_start(&g)]);
        Automaton::of(&g, both)
    })
}
