//! The fewest bytes that complete a beginning to a whole header (document 02,
//! K10), by a search through all ways to go on. Many ways lead to the same
//! beginning, which is searched from once.

use super::beginning::{Beginning, Next};
use std::collections::HashMap;
use std::sync::OnceLock;

pub fn fewest_bytes_behind(beginning: Beginning) -> usize {
    static FEWEST: OnceLock<HashMap<Beginning, usize>> = OnceLock::new();
    let fewest = FEWEST.get_or_init(|| {
        let mut found = HashMap::new();
        search(Beginning::EMPTY, &mut found);
        found
    });
    fewest[&beginning]
}

/// Tries every next byte. What is found is kept in `found`. The search ends,
/// since no text line and no start of version 2 is endless.
fn search(beginning: Beginning, found: &mut HashMap<Beginning, usize>) -> usize {
    if let Some(&fewest) = found.get(&beginning) {
        return fewest;
    }
    let behind_next = |byte| match beginning.next(byte) {
        Next::Beginning(longer) => Some(search(longer, found)),
        Next::Line => Some(0),
        Next::Block(length) => Some(length),
        Next::Dead(_) => None,
    };
    let ways = (0..=0xFF).filter_map(behind_next);
    let fewest = 1 + ways.min().expect("a beginning can be completed");
    found.insert(beginning, fewest);
    fewest
}
