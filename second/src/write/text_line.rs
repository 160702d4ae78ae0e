//! The version 1 writer (document 01, The text line; document 02, K3).

use crate::output::write_whole;
use crate::record::{Kind, Record, Transport};
use crate::refusal::{NO_FORM, UNUSED_NOT_ZERO};
use crate::unused::only_its_block;
use std::cmp::min;
use std::ops::Range;

/// Writes the record's text line and gives its length, or refuses with 10, 11
/// or 14, the first that holds.
pub fn write_v1(record: &Record, out: &mut [u8]) -> Result<usize, u8> {
    let line = line(record).ok_or(NO_FORM)?;
    if !only_its_block(record) {
        return Err(UNUSED_NOT_ZERO);
    }
    write_whole(line.as_bytes(), out)
}

fn line(record: &Record) -> Option<String> {
    let (protocol, address): (&str, fn(&[u8]) -> String) = match record.kind {
        Kind::Unspecified => return Some("PROXY UNKNOWN\r\n".to_string()),
        Kind::Ip4(Transport::Stream) => ("TCP4", ip4_address),
        Kind::Ip6(Transport::Stream) => ("TCP6", ip6_address),
        _ => return None,
    };
    let length = record.kind.address_length();
    Some(format!(
        "PROXY {protocol} {} {} {} {}\r\n",
        address(&record.source[..length]),
        address(&record.destination[..length]),
        record.source_port,
        record.destination_port
    ))
}

fn ip4_address(octets: &[u8]) -> String {
    let octets: Vec<String> = octets.iter().map(u8::to_string).collect();
    octets.join(".")
}

/// RFC 5952, section 4, without a dotted tail (document 02, K3): of all ways to
/// write the address the one that leaves the fewest groups, of equals the one
/// with "::" first.
fn ip6_address(bytes: &[u8]) -> String {
    let groups: Vec<String> = bytes.chunks(2).map(group).collect();
    let in_full = (groups.len(), 0, groups.join(":"));
    let shortened = zero_ranges(&groups).map(|zeros| {
        let left = groups.len() - zeros.len();
        (left, zeros.start, shortened(&groups, zeros))
    });
    let (_, _, text) = shortened.fold(in_full, min);
    text
}

/// Lower case, no leading zeros.
fn group(pair: &[u8]) -> String {
    format!("{:x}", 256 * u16::from(pair[0]) + u16::from(pair[1]))
}

/// All ranges of two or more groups that are zero, those within others too.
fn zero_ranges(groups: &[String]) -> impl Iterator<Item = Range<usize>> + '_ {
    let count = groups.len();
    let ranges = (0..count).flat_map(move |start| (start + 2..=count).map(move |end| start..end));
    ranges.filter(|range| groups[range.clone()].iter().all(|group| group == "0"))
}

/// The text with "::" in place of these groups.
fn shortened(groups: &[String], zeros: Range<usize>) -> String {
    let (before, behind) = (&groups[..zeros.start], &groups[zeros.end..]);
    format!("{}::{}", before.join(":"), behind.join(":"))
}
