//! Times the proved library, C code and the second program on the same headers, connections, stored forms and SSL values, and prints what
//! each costs.
//! Usage: bench                                                  both tables
//!        bench --only library|c|second --input NAME --count N   takes one input N times and prints nothing, for profilers
mod inputs;
mod measure;
mod programs;

use inputs::Input;
use programs::{Answer, Program};

fn main() {
    let inputs = inputs::inputs();
    let words: Vec<String> = std::env::args().skip(1).collect();
    let words: Vec<&str> = words.iter().map(String::as_str).collect();
    match words[..] {
        [] => tables(&inputs),
        ["--only", program, "--input", input, "--count", count] => {
            let program = Program::ALL.into_iter().find(|known| known.name() == program);
            let input = inputs.iter().find(|known| known.name == input);
            match (program, input, count.parse()) {
                (Some(program), Some(input), Ok(count)) => program.take(input, count),
                _ => usage(&inputs),
            }
        }
        _ => usage(&inputs),
    }
}

fn usage(inputs: &[Input]) {
    let names: Vec<&str> = inputs.iter().map(|input| input.name).collect();
    eprintln!("usage: bench [--only library|c|second --input {} --count N]", names.join("|"));
    std::process::exit(2);
}

fn tables(inputs: &[Input]) {
    inputs.iter().for_each(check);
    println!("Nanoseconds of processor time: the median of {} rounds, in which the three take turns", measure::ROUNDS);
    titles();
    for input in inputs {
        row(input, measure::nanoseconds(input));
    }
    println!();
    if !measure::has_valgrind() {
        println!("Instructions: not counted, as valgrind is missing");
        return;
    }
    println!("Instructions, as callgrind counts them");
    titles();
    for input in inputs {
        match measure::instructions(input) {
            Ok(instructions) => row(input, instructions),
            Err(why) => println!("{:<28}{why}", input.what),
        }
    }
}

/// All three give the same answer on all that is timed: accepted for the whole, and more before. What is spoilt none accepts.
fn check(input: &Input) {
    for bytes in input.readings() {
        let whole = bytes.len() == input.bytes.len();
        agree(input, bytes, |answer| if whole { matches!(answer, Answer::Accepted(_)) } else { *answer == Answer::More });
    }
    if let Some(spoilt) = input.spoilt() {
        agree(input, &spoilt, |answer| *answer == Answer::Refused);
    }
}

fn agree(input: &Input, bytes: &[u8], expected: impl Fn(&Answer) -> bool) {
    let [library, c, second] = Program::ALL.map(|program| program.answer(input, bytes));
    if !expected(&library) || library != c || library != second {
        let hex: String = bytes.iter().map(|b| format!("{b:02x}")).collect();
        eprintln!("bench: {}: input {hex} ({} bytes): the library says {library:?}, the C code {c:?}, the second program {second:?}", input.what, bytes.len());
        std::process::exit(1);
    }
}

fn titles() {
    println!("{:<28}{:>6}{:>10}{:>10}{:>11}{:>13}{:>20}{:>12}", "", "bytes", "library", "C", "second", "library / C", "target", "second / C");
}

fn row(input: &Input, [library, c, second]: [f64; 3]) {
    let ratio = library / c;
    let target = match input.target {
        Some(target) => format!("<= {target:.1}, {}", if ratio <= target { "met" } else { "missed" }),
        None => "none".to_string(),
    };
    println!(
        "{:<28}{:>6}{library:>10.0}{c:>10.0}{second:>11.0}{ratio:>13.2}{target:>20}{:>12.1}",
        input.what,
        input.bytes.len(),
        second / c
    );
}
