//! The profile of diagnostics with its table of prefixes (document 02, K14), compared through the C interface.
use crate::admission_headers::{self, from};
use crate::expected::{self, MORE};
use crate::interface;
use crate::outcome::Outcome;
use crate::prefix_tables::{self, addresses, bytes, nested, Address, Prefix, MOST, ROW};
use crate::random::Random;
use crate::{headers, hex, library, Left, NUMBERS};
use std::collections::BTreeMap;
use std::fmt;

/// The longest header that is admitted.
const LONGEST: u64 = 536;

/// What is lent to a call.
#[derive(Clone, Copy)]
struct Call<'a> {
    table: &'a [u8],
    bytes: &'a [u8],
    numbers: usize,
}

impl<'a> Call<'a> {
    /// With numbers to spare.
    fn spare(table: &'a [u8], bytes: &'a [u8]) -> Self {
        Call { table, bytes, numbers: NUMBERS }
    }

    fn library(self) -> Left {
        library::doorman(self.table, self.bytes, self.numbers)
    }

    fn expected(self) -> Left {
        expected::doorman(self.table, self.bytes, self.numbers)
    }
}

impl fmt::Display for Call<'_> {
    fn fmt(&self, f: &mut fmt::Formatter) -> fmt::Result {
        let Call { table, bytes, numbers } = *self;
        write!(f, "table {} ({} bytes), bytes {} ({} bytes), {numbers} numbers", hex(table), table.len(), hex(bytes), bytes.len())
    }
}

/// What the calls of a comparison have found, how often each answer came, and how often each level.
struct Admissions {
    outcome: Outcome,
    answers: BTreeMap<u32, usize>,
    levels: BTreeMap<u64, usize>,
}

impl Admissions {
    fn new(name: &str) -> Self {
        Admissions { outcome: Outcome::new(name), answers: BTreeMap::new(), levels: BTreeMap::new() }
    }

    /// Compares a call with numbers to spare. What it leaves is given back.
    fn admits(&mut self, table: &[u8], bytes: &[u8]) -> Left {
        self.calls(Call::spare(table, bytes))
    }

    /// The same of any call.
    fn calls(&mut self, call: Call) -> Left {
        let here = call.library();
        self.outcome.same(&here, &call.expected(), || call.to_string());
        *self.answers.entry(here.answer).or_default() += 1;
        if let (0, Some(level)) = (here.answer, here.numbers.first()) {
            *self.levels.entry(*level).or_default() += 1;
        }
        here
    }

    /// The same, and the rows in another order leave the same; so do bytes behind, unless it is "more".
    fn calls_alike(&mut self, call: Call, random: &mut Random) -> Left {
        let here = self.calls(call);
        self.leaves_the_same(call, &here, Call { table: &prefix_tables::shuffled(call.table, random), ..call });
        if here.answer != MORE {
            let behind: Vec<u8> = (0..1 + random.below(9)).map(|_| random.byte()).collect();
            self.leaves_the_same(call, &here, Call { bytes: &[call.bytes, &behind].concat(), ..call });
        }
        here
    }

    /// Another call leaves the same as the first, which left this.
    fn leaves_the_same(&mut self, first: Call, here: &Left, other: Call) {
        let there = other.library();
        self.outcome.holds(there == *here, || format!("{first} leaves {here}, but {other} leaves {there}"));
    }

    /// The longer table, with this row too, leaves the same as the first call, or with the row's level if the source is in its prefix. Whether the level changed is
    /// given back.
    fn one_more_row(&mut self, first: Call, here: &Left, row: &Prefix, longer: &[u8]) -> bool {
        let call = Call { table: longer, ..first };
        let there = call.library();
        let mut changed = here.clone();
        if here.answer == 0 && admission_headers::source(first.bytes).is_some_and(|source| row.matches(source)) {
            changed.numbers[0] = u64::from(row.level);
        }
        self.outcome.holds(there == *here || there == changed, || format!("{first} leaves {here}, but with {row:?} {call} leaves {there}"));
        there != *here
    }

    /// Where some bytes that the header begins with, and what "more" asks behind them, are together over 536 bytes, the header is not admitted: the call with all of it
    /// left this. Whether they are is given back.
    fn waits_in_vain(&mut self, whole: Call, here: &Left, begun: usize) -> bool {
        let call = Call { bytes: &whole.bytes[..begun], ..whole };
        let there = call.library();
        let vain = there.answer == MORE && begun as u64 + there.numbers[0] > LONGEST;
        self.outcome.holds(!vain || here.answer != 0, || format!("{call} leaves {there}, but {whole} leaves {here}"));
        vain
    }

    /// These answers came, and no other.
    fn reached(self, due: &[u32]) -> Outcome {
        let Admissions { mut outcome, answers, levels } = self;
        outcome.holds(answers.keys().eq(due), || format!("the answers were {answers:?}, and {due:?} are due"));
        outcome.name = format!("{}, by answer {answers:?}, by level {levels:?}", outcome.name);
        outcome
    }

    /// Every answer that there is came, and every level.
    fn all_reached(mut self) -> Outcome {
        let levels = &self.levels;
        self.outcome.holds(levels.keys().eq(&[0, 1, 2, 3]), || format!("the levels were {levels:?}, and 0 to 3 are due"));
        self.reached(&[0, 1, 2, 3, 4, 5, 6, 7, 8, 9, 14, 30, 31, 32, 33, 34, MORE])
    }
}

/// Prefixes of every number of bits, alone and among such of none, one fewer and one more, in both orders: the sources at their borders, and IPv4 ones also mapped.
pub fn borders() -> Outcome {
    let mut admissions = Admissions::new("sources at the borders of prefixes");
    for (address, bits) in addresses().into_iter().flat_map(|address| (0..=address.bits()).map(move |bits| (address, bits))) {
        let mut lengths = vec![0, bits.saturating_sub(1), bits, address.bits().min(bits + 1)];
        lengths.dedup();
        let among = nested(address, &lengths);
        let reversed: Vec<Prefix> = among.iter().rev().copied().collect();
        let prefix = Prefix::of(address, bits, 3);
        for table in [&[prefix][..], &among, &reversed] {
            for source in prefix.borders() {
                admissions.admits(&bytes(table), &from(source));
                admissions.admits(&bytes(table), &from(source.mapped()));
            }
        }
    }
    admissions.reached(&[0])
}

/// Prefixes inside each other, of IPv4, of IPv6 and of both, in every order: the sources at the borders of each.
pub fn orders() -> Outcome {
    let mut admissions = Admissions::new("nested prefixes in every order");
    let [_, four, _, _, mapped, six, _] = addresses();
    let both = [nested(four, &[0, 24, 32]), nested(mapped, &[0, 96, 128])].concat();
    for rows in [nested(four, &[0, 8, 24, 31, 32]), nested(six, &[0, 64, 65, 127, 128]), both] {
        let table = bytes(&rows);
        let orders: Vec<Vec<u8>> = prefix_tables::orders(&rows).iter().map(|order| bytes(order)).collect();
        for source in rows.iter().flat_map(Prefix::borders) {
            let header = from(source);
            let here = admissions.admits(&table, &header);
            for order in &orders {
                admissions.leaves_the_same(Call::spare(&table, &header), &here, Call::spare(order, &header));
            }
        }
    }
    admissions.reached(&[0])
}

/// Rows with every family, bits and level, alone and among other rows: 34 comes before whatever is said of the bytes.
pub fn row_numbers() -> Outcome {
    let mut admissions = Admissions::new("families, bits and levels of a row");
    let others = [(Address::ip4([10, 0, 0, 0]), 8), (Address::ip6(1), 128), (Address::ip4([10, 1, 0, 0]), 16)];
    let [a, b, c] = others.map(|(address, bits)| Prefix::of(address, bits, 1).row());
    let admitted = from(Address::ip4([172, 16, 0, 1]));
    for numbers in (0..=255).flat_map(|n| [[n, 0, 0], [n, 32, 3], [4, n, 1], [6, n, 1], [4, 8, n], [6, 128, n]]) {
        let row = [&numbers[..], &[0; 16]].concat();
        for table in [row.clone(), [&row[..], &a, &b, &c].concat(), [&a[..], &b, &row, &c].concat(), [&a[..], &b, &c, &row].concat()] {
            for bytes in [&admitted[..], b"", b"GET", b"PROXY UNKNOWN\r\n"] {
                admissions.admits(&table, bytes);
            }
        }
    }
    admissions.reached(&[0, 1, 30, 34, MORE])
}

/// Each bit of the sixteen address bytes set alone, under every number of bits, and one or two beyond the range.
pub fn address_bits() -> Outcome {
    let mut admissions = Admissions::new("address bits of a row");
    for (family, bits) in (0..=34).map(|bits| (4, bits)).chain((0..=130).map(|bits| (6, bits))) {
        for place in 0..128 {
            let address = Address { family, number: 1 << (127 - place) };
            let row = Prefix { address, bits, level: 2 }.row();
            admissions.admits(&row, &from(address));
        }
    }
    admissions.reached(&[0, 34])
}

/// Tables of every length to 66 rows, and a source of the last that is whole.
pub fn table_lengths() -> Outcome {
    let mut admissions = Admissions::new("lengths of a table");
    let rows = many(MOST + 2);
    for length in 0..=ROW * rows.len() {
        let last = &rows[(length / ROW).saturating_sub(1)];
        admissions.admits(&bytes(&rows)[..length], &from(last.address));
    }
    admissions.reached(&[0, 34])
}

/// A table of 64 rows: the sources of each, and each pair of rows with the same prefix and different levels.
pub fn duplicates() -> Outcome {
    let mut admissions = Admissions::new("duplicates among 64 rows");
    let rows = many(MOST);
    for (place, row) in rows.iter().enumerate() {
        for source in row.borders() {
            admissions.admits(&bytes(&rows), &from(source));
        }
        for other in place + 1..MOST {
            let mut twice = rows.clone();
            twice[other] = Prefix { level: (row.level + 1) % 4, ..*row };
            admissions.admits(&bytes(&twice), &from(row.address));
        }
    }
    admissions.reached(&[0, 34])
}

/// Rows of both families in turn that do not match the same address.
fn many(rows: usize) -> Vec<Prefix> {
    let row = |n: usize| match n % 2 {
        0 => Prefix::of(Address::ip4([10, 0, n as u8, 0]), 24, (n / 2 % 4) as u8),
        _ => Prefix::of(Address::ip6((n as u128) << 64), 64, (n / 2 % 4) as u8),
    };
    (0..rows).map(row).collect()
}

/// Headers that keep the profile, and that fail it at one step or several, under no rows, under good ones and bad ones: whole, cut by a byte, and with bytes behind.
pub fn steps() -> Outcome {
    let mut admissions = Admissions::new("headers that keep the profile or fail it");
    let [one, other] = [Prefix::of(Address::ip4([0; 4]), 1, 2), Prefix::of(Address::ip6(0), 0, 3)];
    for table in [&[][..], &[one, other], &[one, other, one]].map(bytes) {
        for header in admission_headers::listed() {
            let here = admissions.admits(&table, &header);
            admissions.admits(&table, &header[..header.len() - 1]);
            for behind in [&b"GET /\r\n"[..], &[5, 0, 1, 9]] {
                let longer = [&header[..], behind].concat();
                admissions.leaves_the_same(Call::spare(&table, &header), &here, Call::spare(&table, &longer));
            }
        }
    }
    admissions.reached(&[0, 30, 31, 32, 33, 34, MORE])
}

/// Every prefix of headers that are admitted and of other ones, and of bytes that are refused.
pub fn prefixes() -> Outcome {
    let mut admissions = Admissions::new("prefixes of headers");
    let table = bytes(&[Prefix::of(Address::ip4([10, 0, 0, 0]), 8, 1)]);
    let admitted = addresses().map(from);
    for header in admitted.iter().chain(&headers::short()).chain(&admission_headers::refused()) {
        for end in 0..=header.len() {
            admissions.admits(&table, &header[..end]);
        }
    }
    admissions.reached(&[0, 1, 2, 3, 4, 5, 6, 7, 8, 9, 30, 31, 32, 33, MORE])
}

/// Every length of the numbers for every answer: with fewer than four it is 14, also where the table is bad.
pub fn rooms() -> Outcome {
    let mut admissions = Admissions::new("lengths of the numbers");
    let rows = nested(Address::ip4([10, 1, 2, 3]), &[8, 16, 24, 32]);
    let table = bytes(&rows);
    let bad = [&table[..], &table].concat();
    let admitted = rows.iter().flat_map(Prefix::borders).map(from).chain([headers::block(0x20, 0, &[])]);
    let inputs = admitted.chain(admission_headers::refused()).chain(admission_headers::not_admitted()).chain([Vec::new()]);
    for (bytes, table) in inputs.flat_map(|bytes| [(bytes.clone(), &table), (bytes, &bad)]) {
        for numbers in 0..=NUMBERS {
            admissions.calls(Call { table, bytes: &bytes, numbers });
        }
    }
    admissions.all_reached()
}

/// Tables at random, good and damaged, and headers from sources at the borders of their prefixes. The order of the rows does not matter; bytes behind change no
/// answer but "more"; one more row changes the level only of sources in its prefix, to its own; and "more" that leads over 536 bytes leads to no level.
pub fn generated(random: &mut Random, count: usize) -> Outcome {
    let mut admissions = Admissions::new("tables and headers at random");
    let others = headers::short();
    let (mut changed, mut vain) = (0, 0);
    for _ in 0..count {
        let rows = prefix_tables::any(random);
        let [source, other] = [(); 2].map(|()| prefix_tables::address(&rows, random));
        let header = admission_headers::any(source, &others, random);
        let call = Call { table: &bytes(&rows), bytes: &header, numbers: interface::numbers(random) };
        admissions.calls_alike(Call { table: &prefix_tables::damaged(&rows, random), ..call }, random);
        let here = admissions.calls_alike(call, random);
        vain += usize::from(admissions.waits_in_vain(call, &here, random.below(header.len() + 1)));
        let row = prefix_tables::around([source, other][random.below(2)], random);
        if rows.len() < MOST && !prefix_tables::has(&rows, &row) {
            let longer = prefix_tables::with_row(&rows, row, random);
            changed += usize::from(admissions.one_more_row(call, &here, &row, &longer));
        }
    }
    admissions.outcome.holds(changed > 0, || "no level was changed by one more row".to_string());
    admissions.outcome.holds(vain > 0, || "no header was too long to wait for".to_string());
    admissions.outcome.name = format!("{}, {changed} levels changed by one more row, {vain} headers too long to wait for", admissions.outcome.name);
    admissions.all_reached()
}
