//! The table of address prefixes that gives a source its level (document 02,
//! K14).
//!
//! A prefix is taken as the range of addresses that begin with it, and addresses
//! as numbers. The smallest range that holds the source decides.

use crate::record::{Kind, Record};
use std::collections::BTreeMap;

/// Bytes of an address in a row. Those of IPv4 stand in the first four.
const ADDRESS: usize = 16;
/// Family, bits, level and address.
const ROW: usize = 3 + ADDRESS;
const MOST_ROWS: usize = 64;
const HIGHEST_LEVEL: u8 = 3;

/// The families as a row names them.
const IP4: u8 = 4;
const IP6: u8 = 6;
/// How many bits a prefix of each may have.
const MOST_BITS: [(u8, u8); 2] = [(IP4, 32), (IP6, 128)];

/// An address with its family, so that addresses of two families are never equal
/// and lie in no common range.
#[derive(Clone, Copy, PartialEq, Eq, PartialOrd, Ord)]
struct Address {
    family: u8,
    /// Its bytes, those of IPv4 with twelve zeros behind them.
    number: u128,
}

/// The addresses that begin with a prefix. Smaller ranges come first.
#[derive(PartialEq, Eq, PartialOrd, Ord)]
struct AddressRange {
    /// The last number less the first.
    span: u128,
    first: Address,
}

/// The ranges of a good table, each with its level.
pub struct PrefixTable(BTreeMap<AddressRange, u8>);

impl PrefixTable {
    /// The table of these bytes; none if they are not whole rows, more than 64, or
    /// a row is bad or has the prefix of another.
    pub fn of_bytes(bytes: &[u8]) -> Option<PrefixTable> {
        let rows = bytes.chunks(ROW);
        if rows.len() > MOST_ROWS {
            return None;
        }
        let mut levels = BTreeMap::new();
        for row in rows {
            let (range, level) = range_and_level(row)?;
            if levels.insert(range, level).is_some() {
                return None;
            }
        }
        Some(PrefixTable(levels))
    }

    /// The level of the record's source: 0 if no range holds it, or if it has no
    /// address of these families.
    pub fn level(&self, record: &Record) -> u8 {
        let Some(source) = source_of(record) else {
            return 0;
        };
        let smallest = self.0.iter().find(|(range, _)| range.holds(source));
        smallest.map_or(0, |(_, level)| *level)
    }
}

impl AddressRange {
    /// The range with this address in which the numbers agree in their first bits.
    fn around(address: Address, bits: u8) -> AddressRange {
        let span = u128::MAX.checked_shr(u32::from(bits)).unwrap_or(0);
        let first = Address {
            number: address.number & !span,
            ..address
        };
        AddressRange { span, first }
    }

    fn last(&self) -> Address {
        Address {
            number: self.first.number + self.span,
            ..self.first
        }
    }

    fn holds(&self, address: Address) -> bool {
        (self.first..=self.last()).contains(&address)
    }
}

/// What a row says; none if it is cut, a number is out of range, or a bit beyond
/// the prefix is set, so that its address is not the first of its range.
fn range_and_level(row: &[u8]) -> Option<(AddressRange, u8)> {
    let [family, bits, level, ref address @ ..] = *row else {
        return None;
    };
    let address = Address {
        family,
        number: u128::from_be_bytes(address.try_into().ok()?),
    };
    let range = AddressRange::around(address, bits);
    let has_bits = |&(known, most): &(u8, u8)| family == known && bits <= most;
    let in_range = MOST_BITS.iter().any(has_bits) && level <= HIGHEST_LEVEL;
    (in_range && range.first == address).then_some((range, level))
}

/// The source address, with the zeros that a record has behind an IPv4 one.
fn source_of(record: &Record) -> Option<Address> {
    let family = match record.kind {
        Kind::Ip4(_) => IP4,
        Kind::Ip6(_) => IP6,
        Kind::Local | Kind::Unspecified | Kind::Unix(_) => return None,
    };
    let number = u128::from_be_bytes(*record.source.first_chunk()?);
    Some(Address { family, number })
}
