//! A whole text line of version 1 (document 01, The text line), split at its
//! spaces.

use crate::record::{Kind, Record, Transport};
use crate::verdict::Header;

const LONGEST_LINE: usize = 107;

pub fn header(bytes: &[u8]) -> Option<Header> {
    Some(Header {
        record: record(bytes)?,
        length: bytes.len(),
        version: 1,
        tlv_area: bytes.len()..bytes.len(),
    })
}

fn record(bytes: &[u8]) -> Option<Record> {
    let line = bytes.strip_suffix(b"\r\n")?;
    let first_line_end = bytes.windows(2).position(|pair| pair == b"\r\n");
    if first_line_end != Some(line.len()) || bytes.len() > LONGEST_LINE {
        return None;
    }
    if line == b"PROXY UNKNOWN" || line.starts_with(b"PROXY UNKNOWN ") {
        return Some(Record::blank(Kind::Unspecified));
    }
    let words: Vec<&str> = std::str::from_utf8(line).ok()?.split(' ').collect();
    let ["PROXY", protocol, source, destination, source_port, destination_port] = words[..] else {
        return None;
    };
    let ports = [port(source_port)?, port(destination_port)?];
    match protocol {
        "TCP4" => {
            let kind = Kind::Ip4(Transport::Stream);
            let addresses = [ip4_address(source)?, ip4_address(destination)?];
            Some(Record::new(kind, &addresses[0], &addresses[1], ports))
        }
        "TCP6" => {
            let kind = Kind::Ip6(Transport::Stream);
            let addresses = [ip6_address(source)?, ip6_address(destination)?];
            Some(Record::new(kind, &addresses[0], &addresses[1], ports))
        }
        _ => None,
    }
}

fn port(text: &str) -> Option<u16> {
    let number = text.parse().ok()?;
    is_written_as(text, number).then_some(number)
}

/// True if `text` is the number's one decimal form, without leading zeros.
fn is_written_as(text: &str, number: u16) -> bool {
    text == number.to_string()
}

fn ip4_address(text: &str) -> Option<[u8; 4]> {
    let octets: Option<Vec<u8>> = text.split('.').map(octet).collect();
    octets?.try_into().ok()
}

fn octet(text: &str) -> Option<u8> {
    let number = text.parse().ok()?;
    is_written_as(text, u16::from(number)).then_some(number)
}

fn ip6_address(text: &str) -> Option<[u8; 16]> {
    let groups = match text.split_once("::") {
        None => groups(text)?,
        Some((before, after)) => filled_with_zeros(groups(before)?, groups(after)?)?,
    };
    let groups: [u16; 8] = groups.try_into().ok()?;
    let mut address = [0; 16];
    for (bytes, group) in address.chunks_exact_mut(2).zip(groups) {
        bytes.copy_from_slice(&group.to_be_bytes());
    }
    Some(address)
}

/// Eight groups, with at least one zero group for the "::" between the two parts.
fn filled_with_zeros(mut before: Vec<u16>, after: Vec<u16>) -> Option<Vec<u16>> {
    let zeros = 8_usize.checked_sub(before.len() + after.len())?;
    if zeros == 0 {
        return None;
    }
    before.extend(vec![0; zeros]);
    before.extend(after);
    Some(before)
}

/// The groups that stand with single colons between them; none in no text.
fn groups(text: &str) -> Option<Vec<u16>> {
    if text.is_empty() {
        return Some(Vec::new());
    }
    text.split(':').map(group).collect()
}

fn group(text: &str) -> Option<u16> {
    let only_digits = text.bytes().all(|byte| byte.is_ascii_hexdigit());
    if !only_digits || text.len() > 4 {
        return None;
    }
    u16::from_str_radix(text, 16).ok()
}

#[cfg(test)]
mod tests {
    use super::*;
    use std::net::{Ipv4Addr, Ipv6Addr};

    /// All strings of up to `longest` characters from `characters`.
    fn strings(characters: &str, longest: usize) -> Vec<String> {
        let mut all = vec![String::new()];
        let mut last = all.clone();
        for _ in 0..longest {
            let longer = |text: &String| -> Vec<String> {
                characters.chars().map(|c| format!("{text}{c}")).collect()
            };
            last = last.iter().flat_map(longer).collect();
            all.extend(last.clone());
        }
        all
    }

    #[test]
    fn ip6_addresses_are_those_of_the_standard_library() {
        let few_digits = strings("e:", 17);
        let more_digits = strings("0F:", 9);
        for text in few_digits.iter().chain(&more_digits) {
            let expected: Option<Ipv6Addr> = text.parse().ok();
            assert_eq!(ip6_address(text), expected.map(|a| a.octets()), "{text}");
        }
    }

    #[test]
    fn ip6_addresses_have_no_dotted_tail() {
        assert_eq!(ip6_address("::1.2.3.4"), None);
        assert_eq!(ip6_address("1:2:3:4:5:6:1.2.3.4"), None);
    }

    #[test]
    fn ip4_addresses_are_those_of_the_standard_library() {
        for first in strings("0125.", 5) {
            for text in [first.clone(), format!("{first}.0"), format!("{first}.0.25")] {
                let expected: Option<Ipv4Addr> = text.parse().ok();
                assert_eq!(ip4_address(&text), expected.map(|a| a.octets()), "{text}");
            }
        }
    }

    #[test]
    fn numbers_have_one_form() {
        assert_eq!(port("0"), Some(0));
        assert_eq!(port("65535"), Some(65_535));
        assert_eq!(octet("255"), Some(255));
        for text in [
            "", "00", "01", "+1", "-0", " 1", "1 ", "65536", "0x1", "1e1",
        ] {
            assert_eq!(port(text), None, "{text:?}");
        }
        for text in ["256", "00", "+5", ""] {
            assert_eq!(octet(text), None, "{text:?}");
        }
    }
}
