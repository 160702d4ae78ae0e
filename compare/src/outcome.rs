//! What a comparison has found.
use crate::{expected, hex, library, Left, CONNECTION, NUMBERS};
use second::Verdict;

/// How many were compared, and a first difference.
pub struct Outcome {
    pub name: String,
    pub compared: usize,
    pub difference: Option<String>,
}

impl Outcome {
    pub fn new(name: &str) -> Self {
        Outcome { name: name.to_string(), compared: 0, difference: None }
    }

    pub fn add(&mut self, result: Result<(), String>) {
        self.compared += 1;
        self.difference = self.difference.take().or(result.err());
    }

    /// Counts a comparison. Only the first that does not hold is put into words: there may be millions.
    pub fn holds(&mut self, holds: bool, difference: impl FnOnce() -> String) {
        self.compared += 1;
        if !holds && self.difference.is_none() {
            self.difference = Some(difference());
        }
    }

    /// The same of what a call leaves.
    pub fn same(&mut self, here: &Left, there: &Left, input: impl FnOnce() -> String) {
        self.compared += 1;
        if self.difference.is_none() {
            self.difference = crate::same(here, there, input).err();
        }
    }

    /// The library reads the input as the second program, which has this verdict.
    pub fn reads(&mut self, input: &[u8], verdict: Verdict) {
        let here = library::read(input, NUMBERS, CONNECTION);
        self.same(&here, &expected::reading(verdict, NUMBERS, CONNECTION), || format!("{} ({} bytes)", hex(input), input.len()));
    }

    /// The same of the checked reading.
    pub fn reads_checked(&mut self, input: &[u8], verdict: Verdict) {
        let here = library::read_checked(input, NUMBERS, CONNECTION);
        let checked = second::checked(input, verdict);
        self.same(&here, &expected::checked_reading(checked, NUMBERS, CONNECTION), || format!("checked, {} ({} bytes)", hex(input), input.len()));
    }
}
