//! The first sixteen bytes of version 2 (document 01, The binary block), as
//! far as a block can follow them that makes the header whole.

use super::byte_set::ByteSet;
use super::expression::{Expr, Grammar};
use crate::field::Field;
use crate::fixed_bytes::{LOCAL, PROXY, SIGNATURE};
use crate::record::{Kind, ADDRESS_KINDS};
use crate::tlv::fillable;
use std::collections::BTreeMap;

pub fn binary_start(g: &Grammar) -> Expr {
    let any_length = g.then(g.any_byte(), g.any_byte());
    let local = start(g, LOCAL, g.any_byte(), any_length);
    let says = |kind| g.one_of(ByteSet::of(|byte| Kind::of_byte_13(byte) == Some(kind)));
    let unspecified = start(g, PROXY, says(Kind::Unspecified), any_length);
    let address_kinds = ADDRESS_KINDS.map(|(_, kind)| {
        let length = lengths_behind(g, kind.address_block_length());
        start(g, PROXY, says(kind), length)
    });
    g.either([local, unspecified].into_iter().chain(address_kinds))
}

fn start(g: &Grammar, command: u8, family: Expr, length: Expr) -> Expr {
    g.sequence([
        g.in_field(Field::Opening, g.text(SIGNATURE)),
        g.in_field(Field::VersionAndCommand, g.byte(command)),
        g.in_field(Field::FamilyAndTransport, family),
        g.in_field(Field::Length, length),
    ])
}

/// The two length bytes of blocks that hold the address block and behind it
/// bytes that TLVs can fill.
fn lengths_behind(g: &Grammar, address_block: usize) -> Expr {
    let good = |high: u8, low: u8| {
        let length = usize::from(u16::from_be_bytes([high, low]));
        length >= address_block && fillable(length - address_block)
    };
    let lows_behind = |high| ByteSet::of(|low| good(high, low));
    let mut highs_before: BTreeMap<ByteSet, Vec<u8>> = BTreeMap::new();
    for high in 0..=0xFF {
        highs_before
            .entry(lows_behind(high))
            .or_default()
            .push(high);
    }
    g.either(highs_before.into_iter().map(|(lows, highs)| {
        let high = ByteSet::of(|byte| highs.contains(&byte));
        g.then(g.one_of(high), g.one_of(lows))
    }))
}
