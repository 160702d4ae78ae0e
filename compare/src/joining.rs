//! The rules of joined TLV areas (document 02, K13): what the library answers to a join is given by what it answers to the two areas. They are tried
//! through the C interface, and the second program looks into each join too.
use crate::expected::{self, ABSENT, END, GAVE_UP};
use crate::outcome::Outcome;
use crate::random::Random;
use crate::{headers, hex, library, records, Left, NUMBERS};
use std::collections::BTreeMap;

const FOUND: u32 = 0;
const ILL_FORMED: u32 = 12;

/// Types of the TLVs, and those that are looked for.
const TYPES: [u8; 3] = [0, 1, 255];
const WANTED: [u8; 4] = [0, 1, 2, 255];

/// A TLV as a step shows it: its type, where its value starts, and its value.
type Shown = (u64, u64, Vec<u8>);

/// What the library's steps show from place 0 to the end; none where one is refused, or shows what is not in the area.
fn list(area: &[u8]) -> Option<Vec<Shown>> {
    let mut shown = Vec::new();
    let mut at = 0;
    loop {
        let step = library::step(area, at, NUMBERS);
        let [next, kind, start, length] = step.numbers[..4] else { panic!("four numbers are lent") };
        match step.answer {
            0 if at < next as usize => {
                let value = area.get(start as usize..)?.get(..length as usize)?;
                shown.push((kind, start, value.to_vec()));
                at = next as usize;
            }
            END if at == area.len() => return Some(shown),
            _ => return None,
        }
    }
}

/// Whether the library takes an area for well-formed: no lookup answers 12.
fn well_formed(area: &[u8]) -> bool {
    library::lookup(area, 0, 0, NUMBERS).answer != ILL_FORMED
}

/// The list of a join, of the lists of the two areas and the first area's length.
fn joined_list(first: &[Shown], size: usize, second: &[Shown]) -> Vec<Shown> {
    let moved = second.iter().map(|(kind, start, value)| (*kind, start + size as u64, value.clone()));
    first.iter().cloned().chain(moved).collect()
}

/// What lookup must leave for the join of a well-formed area and another, by the library's answers to the two: the answer in the first; where that is absent,
/// the answer in the second with the limit less its count, the counts added, a found start moved. 12 if the second is ill-formed.
fn joined(first: &[u8], second: &[u8], wanted: u8, limit: usize) -> Left {
    if !well_formed(second) {
        return library::lookup(second, wanted, limit, NUMBERS);
    }
    let here = library::lookup(first, wanted, limit, NUMBERS);
    if here.answer != ABSENT {
        return here;
    }
    let mut there = library::lookup(second, wanted, limit - here.numbers[0] as usize, NUMBERS);
    there.numbers[0] += here.numbers[0];
    if there.answer == FOUND {
        there.numbers[2] += first.len() as u64;
    }
    there
}

/// Rule 4, and with an ill-formed second what follows from rule 5. Of an ill-formed first nothing is asked.
pub fn lookup_rule(first: &[u8], second: &[u8], wanted: u8, limit: usize) -> Result<(), String> {
    if !well_formed(first) {
        return Ok(());
    }
    let here = library::lookup(&[first, second].concat(), wanted, limit, NUMBERS);
    let there = joined(first, second, wanted, limit);
    if here == there {
        return Ok(());
    }
    Err(format!("{}, {wanted} up to {limit}: the library leaves {here}, by its answers to the two it must be {there}", parts(first, second)))
}

fn parts(first: &[u8], second: &[u8]) -> String {
    format!("{} ({} bytes) joined with {} ({} bytes)", hex(first), first.len(), hex(second), second.len())
}

/// What pairs of areas have shown, and how often lookup gave each pair of answers in a first that is well-formed and in the second.
struct Joins {
    outcome: Outcome,
    answers: BTreeMap<(u32, u32), usize>,
}

impl Joins {
    fn new(name: &str) -> Self {
        Joins { outcome: Outcome::new(name), answers: BTreeMap::new() }
    }

    /// The rules of two areas.
    fn pair(&mut self, first: &[u8], second: &[u8]) {
        let input = || parts(first, second);
        let join = [first, second].concat();
        let (a, b, both) = (list(first), list(second), list(&join));
        for (area, list) in [(first, &a), (second, &b), (&join, &both)] {
            self.outcome.holds(list.is_some() == well_formed(area), || format!("{}: step and lookup differ on {}", input(), hex(area)));
        }
        if let Some(a) = &a {
            // Rules 1 and 5, and 5 backwards: the join is as well-formed as the second.
            self.outcome.holds(both.is_some() == b.is_some(), || format!("{}: the second is {b:?}, the join {both:?}", input()));
            if let (Some(b), Some(both)) = (&b, &both) {
                // Rule 2.
                self.outcome.holds(*both == joined_list(a, first.len(), b), || format!("{}: the lists are {a:?} and {b:?}, that of the join {both:?}", input()));
            }
        }
        // An ill-formed area has no count: some limits will do.
        let count = |list: &Option<Vec<Shown>>| list.as_ref().map_or(4, Vec::len);
        self.lookups(first, second, limits(count(&a), count(&b)));
    }

    /// Rule 4 for these limits, and the join in the second program.
    fn lookups(&mut self, first: &[u8], second: &[u8], up_to: impl Iterator<Item = usize>) {
        let join = [first, second].concat();
        for (limit, wanted) in up_to.flat_map(|limit| WANTED.map(|wanted| (limit, wanted))) {
            self.outcome.add(lookup_rule(first, second, wanted, limit));
            let (here, there) = (library::lookup(&join, wanted, limit, NUMBERS), expected::lookup(&join, wanted, limit, NUMBERS));
            self.outcome.same(&here, &there, || format!("{}, {wanted} up to {limit}", parts(first, second)));
            let in_first = library::lookup(first, wanted, limit, NUMBERS);
            if in_first.answer != ILL_FORMED {
                let in_second = library::lookup(second, wanted, limit - in_first.numbers[0] as usize, NUMBERS);
                *self.answers.entry((in_first.answer, in_second.answer)).or_default() += 1;
            }
        }
    }

    /// Rule 3: either grouping gives the same answers, and the empty area on either side those of the area.
    fn three(&mut self, f: &[u8], g: &[u8], h: &[u8]) {
        self.pair(&[f, g].concat(), h);
        self.pair(f, &[g, h].concat());
        if let (Some(a), Some(b), Some(c)) = (list(f), list(g), list(h)) {
            let left = joined_list(&joined_list(&a, f.len(), &b), f.len() + g.len(), &c);
            let right = joined_list(&a, f.len(), &joined_list(&b, g.len(), &c));
            let all = list(&[f, g, h].concat());
            self.outcome.holds(all.as_ref() == Some(&left) && left == right, || {
                format!("{} and {}: {left:?} or {right:?}, and the join's list is {all:?}", parts(f, g), hex(h))
            });
        }
        self.pair(&[], f);
        self.pair(f, &[]);
    }

    /// Every pair of answers came: found, absent or gave up in the first, and any of the four in the second. Where the first gave up nothing is left of the
    /// limit, so nothing is found in the second.
    fn all_reached(mut self) -> Outcome {
        let second = [FOUND, ABSENT, GAVE_UP, ILL_FORMED];
        let due = [FOUND, ABSENT, GAVE_UP].into_iter().flat_map(|first| second.map(|second| (first, second)));
        let missing: Vec<_> = due.filter(|pair| *pair != (GAVE_UP, FOUND) && !self.answers.contains_key(pair)).collect();
        self.outcome.holds(missing.is_empty(), || format!("no lookup gave the answers {missing:?}"));
        self.outcome.name = format!("{}, by answers {:?}", self.outcome.name, self.answers);
        self.outcome
    }
}

/// Limits around the counts of two areas: all of them where they are few.
fn limits(a: usize, b: usize) -> impl Iterator<Item = usize> {
    let near = move |limit: usize, count: usize| limit.abs_diff(count) < 3;
    (0..=a + b + 2).filter(move |limit| a + b < 30 || near(*limit, 0) || near(*limit, a) || near(*limit, a + b)).chain([usize::MAX])
}

/// Areas cut at every place: at place 0 and at the end of a TLV both parts are well-formed, elsewhere the first is not.
pub fn cuts() -> Outcome {
    let mut joins = Joins::new("areas cut in two");
    let tlvs = [headers::tlv(1, 0), headers::tlv(0, 2), headers::tlv(1, 3), headers::tlv(255, 0), headers::tlv(0, 258)];
    for end in 0..=tlvs.len() {
        let area = tlvs[..end].concat();
        for place in 0..=area.len() {
            joins.pair(&area[..place], &area[place..]);
        }
    }
    joins.outcome
}

/// Values of 65,535 bytes, and a list of as many TLVs as 65,535 bytes hold, with another area on either side. They are looked up and not walked: a step looks
/// at all that remains.
pub fn long() -> Outcome {
    let mut joins = Joins::new("long areas joined");
    let long = [headers::tlv(1, 65_535), [headers::tlv(1, 65_535), headers::tlv(255, 65_535)].concat(), vec![0; 3 * 21_845]];
    let short = [vec![], headers::tlv(255, 1), [headers::tlv(1, 0), headers::tlv(255, 300)].concat(), vec![2, 0, 1]];
    for (long, short) in long.iter().flat_map(|long| short.iter().map(move |short| (long, short))) {
        for (first, second) in [(long, short), (short, long)] {
            joins.lookups(first, second, limits(21_845, 2).chain(limits(2, 1)));
        }
    }
    joins.outcome
}

/// Areas at random, whole and damaged, by twos and threes.
pub fn generated(random: &mut Random, count: usize) -> Outcome {
    let mut joins = Joins::new("joined areas");
    for _ in 0..count {
        let [f, g, h] = [(); 3].map(|_| records::area(&TYPES, random));
        joins.pair(&f, &g);
        joins.three(&f, &g, &h);
    }
    joins.all_reached()
}
