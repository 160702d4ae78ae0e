//! The judge: takes the bytes of an input one after the other and gives the
//! verdict on those taken so far.

use crate::field::Field;
use crate::fixed_bytes::LOCAL;
use crate::grammar::beginning::{Beginning, Next};
use crate::grammar::completion::fewest_bytes_behind;
use crate::record::Kind;
use crate::tlv::{can_be_filled, first_tlv_length};
use crate::verdict::Verdict;
use crate::whole::whole_header;

/// The verdict on `bytes`.
pub fn judge(bytes: &[u8]) -> Verdict {
    let mut judge = Judge::new();
    for &byte in bytes {
        judge.push(byte);
        if judge.is_over() {
            break;
        }
    }
    judge.verdict()
}

pub struct Judge {
    /// The bytes taken, up to the one that brought a final verdict.
    seen: Vec<u8>,
    stage: Stage,
}

enum Stage {
    /// In the text line, or in the first sixteen bytes of version 2.
    Beginning(Beginning),
    /// In the block of version 2.
    Block(Block),
    /// Accepted or refused: no further byte alters that.
    Over(Verdict),
}

/// The block of a version 2 header, by places in the input.
#[derive(Clone, Copy)]
struct Block {
    /// Where the TLV starts that is being read or comes next.
    tlv: usize,
    /// Where the header ends.
    end: usize,
}

impl Judge {
    pub fn new() -> Judge {
        Judge {
            seen: Vec::new(),
            stage: Stage::Beginning(Beginning::EMPTY),
        }
    }

    /// Takes the next byte.
    pub fn push(&mut self, byte: u8) {
        if self.is_over() {
            return;
        }
        self.seen.push(byte);
        self.stage = match self.stage {
            Stage::Beginning(beginning) => self.in_beginning(beginning, byte),
            Stage::Block(block) => self.in_block(block),
            Stage::Over(_) => unreachable!("no byte is taken any more"),
        };
    }

    /// True if the verdict is final: accepted or refused.
    pub fn is_over(&self) -> bool {
        matches!(self.stage, Stage::Over(_))
    }

    /// The verdict on the bytes taken so far.
    pub fn verdict(&self) -> Verdict {
        match &self.stage {
            Stage::Over(verdict) => verdict.clone(),
            Stage::Beginning(beginning) => Verdict::More(fewest_bytes_behind(*beginning)),
            // However the block goes on, the header ends with it.
            Stage::Block(block) => Verdict::More(block.end - self.seen.len()),
        }
    }

    fn in_beginning(&self, beginning: Beginning, byte: u8) -> Stage {
        match beginning.next(byte) {
            Next::Beginning(longer) => Stage::Beginning(longer),
            Next::Line => self.accepted(),
            Next::Block(length) => self.in_block(Block::behind(&self.seen, length)),
            Next::Dead(field) => self.refused(field),
        }
    }

    /// The stage after bytes of which only the last is not yet judged. It can
    /// only be dead inside a TLV: the bytes before the TLVs may be any.
    fn in_block(&self, mut block: Block) -> Stage {
        if let Some(tlv) = self.seen.get(block.tlv..) {
            if !can_be_filled(tlv, block.end - block.tlv) {
                return self.refused(Field::Tlv);
            }
            block.tlv += first_tlv_length(tlv).unwrap_or(0);
        }
        if self.seen.len() == block.end {
            return self.accepted();
        }
        Stage::Block(block)
    }

    fn accepted(&self) -> Stage {
        let header = whole_header(&self.seen).expect("what is accepted is a whole header");
        Stage::Over(Verdict::Accepted(Box::new(header)))
    }

    /// Refused at the last byte taken.
    fn refused(&self, field: Field) -> Stage {
        Stage::Over(Verdict::Refused {
            number: field.number(),
            place: self.seen.len() - 1,
        })
    }
}

impl Default for Judge {
    fn default() -> Judge {
        Judge::new()
    }
}

impl Block {
    /// The block of `length` bytes behind the first sixteen of a header.
    fn behind(start: &[u8], length: usize) -> Block {
        let (command, family) = (start[12], start[13]);
        let end = start.len() + length;
        let tlv = match Kind::of_byte_13(family) {
            Some(kind) if command != LOCAL && kind.has_addresses() => {
                start.len() + kind.address_block_length()
            }
            // The block is not looked at, so no TLVs are known in it.
            _ => end,
        };
        Block { tlv, end }
    }
}
