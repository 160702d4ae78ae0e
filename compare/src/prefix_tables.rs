//! Tables of address prefixes (document 02, K14), good ones and bad ones, and the sources at the borders of a prefix.
use crate::random::Random;

/// The most rows of a table.
pub const MOST: usize = 64;

/// Bytes of a row: family, bits and level, and the address behind them.
pub const ROW: usize = ADDRESS + 16;
const LEVEL: usize = 2;
const ADDRESS: usize = 3;

/// An address as a number: the sixteen bytes of IPv6, or the four of IPv4 with zeros behind them.
#[derive(Clone, Copy, Debug, PartialEq, Eq)]
pub struct Address {
    pub family: u8,
    pub number: u128,
}

/// The addresses with these first bits have this level.
#[derive(Clone, Copy, Debug)]
pub struct Prefix {
    pub address: Address,
    pub bits: u8,
    pub level: u8,
}

/// A number of which these first bits are set.
fn first_bits(bits: u8) -> u128 {
    !u128::MAX.checked_shr(bits.into()).unwrap_or(0)
}

impl Address {
    pub fn ip4(bytes: [u8; 4]) -> Address {
        Address { family: 4, number: u128::from(u32::from_be_bytes(bytes)) << 96 }
    }

    pub fn ip6(number: u128) -> Address {
        Address { family: 6, number }
    }

    /// How many bits it has.
    pub fn bits(self) -> u8 {
        match self.family {
            4 => 32,
            _ => 128,
        }
    }

    /// An IPv4 address as IPv6 has it, ::ffff:0:0 and the address; IPv6 as it is.
    pub fn mapped(self) -> Address {
        match self.family {
            4 => Address::ip6(0xFFFF << 32 | self.number >> 96),
            _ => self,
        }
    }
}

impl Prefix {
    /// The prefix that the address begins with.
    pub fn of(address: Address, bits: u8, level: u8) -> Prefix {
        let number = address.number & first_bits(bits);
        Prefix { address: Address { number, ..address }, bits, level }
    }

    pub fn row(&self) -> Vec<u8> {
        [&[self.address.family, self.bits, self.level], &self.address.number.to_be_bytes()[..]].concat()
    }

    /// True if the address begins with the prefix.
    pub fn matches(&self, address: Address) -> bool {
        address.family == self.address.family && (address.number ^ self.address.number) & first_bits(self.bits) == 0
    }

    /// The address before the first, the first, the last, and the one behind it. Before the lowest address comes the highest.
    pub fn borders(&self) -> [Address; 4] {
        let first = self.address.number;
        let last = first | first_bits(self.address.bits()) & !first_bits(self.bits);
        let one = 1 << (128 - self.address.bits());
        [first.wrapping_sub(one), first, last, last.wrapping_add(one)].map(|number| Address { number, ..self.address })
    }
}

/// The bytes of a table.
pub fn bytes(table: &[Prefix]) -> Vec<u8> {
    table.iter().flat_map(Prefix::row).collect()
}

/// Addresses at both ends, in the middle, and an IPv4-mapped one.
pub fn addresses() -> [Address; 7] {
    let documentation = 0x2001_0DB8_0000_0001_8000_0000_0000_0001;
    let caller = Address::ip4([192, 0, 2, 129]);
    [Address::ip4([0; 4]), caller, Address::ip4([255; 4]), Address::ip6(0), caller.mapped(), Address::ip6(documentation), Address::ip6(u128::MAX)]
}

/// The prefixes of so many bits that an address begins with. Each has a level other than its neighbours'.
pub fn nested(address: Address, bits: &[u8]) -> Vec<Prefix> {
    bits.iter().enumerate().map(|(i, bits)| Prefix::of(address, *bits, (3 - i % 4) as u8)).collect()
}

/// The rows in every order.
pub fn orders(rows: &[Prefix]) -> Vec<Vec<Prefix>> {
    let Some((first, rest)) = rows.split_first() else { return vec![Vec::new()] };
    let with_first = |order: Vec<Prefix>| (0..rows.len()).map(move |place| [&order[..place], &[*first], &order[place..]].concat());
    orders(rest).into_iter().flat_map(with_first).collect()
}

/// A good table, of few rows or up to 64.
pub fn any(random: &mut Random) -> Vec<Prefix> {
    let rows = match random.below(8) {
        0 => MOST,
        1 => random.below(MOST),
        _ => random.below(9),
    };
    let mut table = Vec::new();
    while table.len() < rows {
        table.push(another(&table, random));
    }
    table
}

/// A prefix that the table does not have, often around, within or beside one that it has.
fn another(table: &[Prefix], random: &mut Random) -> Prefix {
    loop {
        let prefix = around(address(table, random), random);
        if !has(table, &prefix) {
            return prefix;
        }
    }
}

/// True if a row has the same prefix, with whatever level.
pub fn has(table: &[Prefix], prefix: &Prefix) -> bool {
    table.iter().any(|row| (row.address, row.bits) == (prefix.address, prefix.bits))
}

/// A prefix that the address begins with.
pub fn around(address: Address, random: &mut Random) -> Prefix {
    let most = address.bits();
    let bits = match random.below(4) {
        0 => [0, 1, most - 1, most][random.below(4)],
        1 => 8 * random.below(usize::from(most / 8)) as u8,
        _ => random.below(usize::from(most) + 1) as u8,
    };
    Prefix::of(address, bits, random.below(4) as u8)
}

/// An address at a border of one of the prefixes, or any; now and then IPv4 as IPv6 has it.
pub fn address(table: &[Prefix], random: &mut Random) -> Address {
    let address = match random.below(6) {
        0 => addresses()[random.below(7)],
        1 => Address::ip4([(); 4].map(|()| random.byte())),
        2 => Address::ip6(u128::from_be_bytes([(); 16].map(|()| random.byte()))),
        _ if table.is_empty() => Address::ip4([0; 4]),
        _ => table[random.below(table.len())].borders()[random.below(4)],
    };
    match random.below(8) {
        0 => address.mapped(),
        _ => address,
    }
}

/// The bytes of a table with one change, most often a bad one: a prefix twice, an address bit or a number changed, too many rows, or bytes that are no row.
pub fn damaged(table: &[Prefix], random: &mut Random) -> Vec<u8> {
    let mut bytes = bytes(table);
    let row = ROW * random.below(table.len().max(1));
    match random.below(5) {
        0 if !table.is_empty() => {
            let mut twice = bytes[row..row + ROW].to_vec();
            twice[LEVEL] = random.below(4) as u8;
            let place = ROW * random.below(table.len() + 1);
            bytes.splice(place..place, twice);
        }
        1 if !table.is_empty() => bytes[row + ADDRESS + random.below(16)] ^= 1 << random.below(8),
        2 if !table.is_empty() => bytes[row + random.below(ADDRESS)] = random.byte() >> random.below(8),
        3 => {
            let mut rows = table.to_vec();
            while rows.len() <= MOST {
                rows.push(another(&rows, random));
            }
            return self::bytes(&rows);
        }
        _ => {
            let length = random.below(bytes.len() + ROW);
            bytes.resize(length, 0);
        }
    }
    bytes
}

/// The rows in an order at random; what is no whole row stays at the end.
pub fn shuffled(table: &[u8], random: &mut Random) -> Vec<u8> {
    let mut rows: Vec<&[u8]> = table.chunks(ROW).collect();
    let whole = table.len() / ROW;
    for place in 1..whole {
        rows.swap(place, random.below(place + 1));
    }
    rows.concat()
}

/// The table with one more row, at any place.
pub fn with_row(table: &[Prefix], row: Prefix, random: &mut Random) -> Vec<u8> {
    let mut rows = table.to_vec();
    rows.insert(random.below(rows.len() + 1), row);
    bytes(&rows)
}
