//! The quick run: the built programs and the C library against the second program, with fixed seeds.
//! Usage: compare FOLDER-OF-THE-PROGRAMS
mod programs;

use compare::inputs::{self, Group};
use compare::random::Random;
use compare::{admission, checked_reading, checked_writing, crc32c, hex, interface, ip6_text, joining, ssl_reading, ssl_writing, stored, whole};
use std::path::{Path, PathBuf};

const SEED: u64 = 0x0D0A_0D0A_000D_0A51;
const GENERATED: usize = 40_000;

fn main() {
    let folder = PathBuf::from(std::env::args().nth(1).expect("the folder of the built programs"));
    println!("compare: seed {SEED:#018x}");
    let (mut passed, mut failed, mut compared) = (0, 0, 0);
    let mut count = |difference: bool| if difference { failed += 1 } else { passed += 1 };
    let groups = inputs::groups(SEED, GENERATED);
    let headers = whole::among(groups.iter().flat_map(|group| &group.cases));
    let mut random = Random(SEED);
    for outcome in [
        interface::bytes_13(),
        interface::readings(groups.iter().flat_map(|group| &group.cases)),
        whole::prefixes(&headers),
        whole::walks(&headers),
        interface::steps(&mut random, GENERATED / 20),
        interface::lookups(&mut random, GENERATED / 20),
        joining::cuts(),
        joining::long(),
        joining::generated(&mut random, GENERATED / 100),
        interface::lines(&mut random, GENERATED / 40),
        ip6_text::published(),
        ip6_text::zeros(),
        ip6_text::generated(&mut random, GENERATED / 40),
        interface::blocks(&mut random, GENERATED / 40),
        stored::records(&mut random, GENERATED / 20),
        stored::forms(&mut random, GENERATED * 5),
        stored::codes_and_states(),
        stored::lengths(),
        stored::buffers(),
        stored::bytes(),
        stored::refused_stores(),
        stored::refused_loads(),
        stored::refused_moves(),
        interface::kind_codes(),
        interface::states(),
        interface::buffers(),
        crc32c::published(),
        crc32c::short(),
        crc32c::generated(&mut random, GENERATED),
        checked_reading::listed(),
        checked_reading::bits(),
        checked_reading::long(&mut random),
        checked_reading::generated(&mut random, GENERATED * 5),
        checked_writing::refusals(),
        checked_writing::longest(),
        checked_writing::generated(&mut random, GENERATED / 20),
        admission::borders(),
        admission::orders(),
        admission::row_numbers(),
        admission::address_bits(),
        admission::table_lengths(),
        admission::duplicates(),
        admission::steps(),
        admission::prefixes(),
        admission::rooms(),
        admission::generated(&mut random, GENERATED / 8),
        ssl_reading::prefixes(),
        ssl_reading::changes(),
        ssl_reading::lists(),
        ssl_reading::heads(),
        ssl_reading::lengths(),
        ssl_reading::long(),
        ssl_reading::rooms(),
        ssl_reading::generated(&mut random, GENERATED * 5),
        ssl_writing::choices(),
        ssl_writing::heads(),
        ssl_writing::lengths(),
        ssl_writing::rooms(),
        ssl_writing::borders(),
        ssl_writing::long(),
        ssl_writing::generated(&mut random, GENERATED / 40),
    ] {
        compared += outcome.compared;
        println!("compare: {} {}: {}", outcome.compared, outcome.name, outcome.difference.as_deref().unwrap_or("the same"));
        count(outcome.difference.is_some());
    }
    for group in &groups {
        let differences = compare(&folder, group);
        compared += group.cases.len();
        println!("compare: {} inputs, {}: {}", group.cases.len(), group.name, if differences == 0 { "the same" } else { "DIFFERENT" });
        count(differences > 0);
    }
    for (name, input) in inputs::whole_runs() {
        let here = programs::judge(&folder, &input);
        let there = programs::line(&input[..input.len().min(65_536)]);
        compared += 1;
        if here != there {
            report(name, &input, &here, &there);
        }
        count(here != there);
    }
    println!("compare: {compared} inputs in all");
    println!("{passed} passed, {failed} failed");
    std::process::exit(i32::from(failed > 0));
}

/// How many answers differ; the first few are printed with their inputs.
fn compare(folder: &Path, group: &Group) -> usize {
    let answers = programs::cases(folder, &group.cases);
    if answers.len() != group.cases.len() {
        println!("compare: {}: {} answers to {} inputs", group.name, answers.len(), group.cases.len());
        return 1;
    }
    let mut differences = 0;
    for (input, here) in group.cases.iter().zip(&answers) {
        let there = programs::line(input);
        if *here != there {
            differences += 1;
            if differences <= 5 {
                report(group.name, input, here, &there);
            }
        }
    }
    differences
}

fn report(name: &str, input: &[u8], here: &str, there: &str) {
    println!("compare: {name}: input {} ({} bytes): the library says `{here}`, the second program `{there}`", hex(input), input.len());
}
