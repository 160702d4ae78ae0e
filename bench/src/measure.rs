//! How long a program takes for an input, and how many instructions.
use crate::inputs::Input;
use crate::programs::Program;
use std::process::Command;

pub const ROUNDS: usize = 61;
const ROUND: f64 = 5e6;

extern "C" {
    /// POSIX; libc is linked anyway.
    fn clock_gettime(clock: i32, time: *mut [i64; 2]) -> i32;
}

/// Nanoseconds that this process has had a processor: other work on the machine is left out.
fn clock() -> f64 {
    const PROCESS_TIME: i32 = 2;
    let mut time = [0; 2];
    // SAFETY: on x86-64 Linux a timespec is two 64-bit numbers.
    let status = unsafe { clock_gettime(PROCESS_TIME, &mut time) };
    assert_eq!(status, 0, "clock_gettime");
    let [seconds, nanoseconds] = time.map(|n| n as f64);
    seconds * 1e9 + nanoseconds
}

fn time(program: Program, input: &Input, count: u64) -> f64 {
    let start = clock();
    program.take(input, count);
    clock() - start
}

/// How many times the input fills a round.
fn count_of_a_round(program: Program, input: &Input) -> u64 {
    let mut count = 1;
    loop {
        let time = time(program, input, count);
        if time >= ROUND / 4.0 {
            return (count as f64 * ROUND / time).ceil() as u64;
        }
        count *= 2;
    }
}

/// Nanoseconds for each program: the median of the rounds, in which the programs take turns.
pub fn nanoseconds(input: &Input) -> [f64; 3] {
    let counts = Program::ALL.map(|program| count_of_a_round(program, input));
    let mut rounds = [(); 3].map(|()| Vec::with_capacity(ROUNDS));
    for round in 0..ROUNDS {
        for turn in 0..3 {
            let i = (round + turn) % 3;
            rounds[i].push(time(Program::ALL[i], input, counts[i]) / counts[i] as f64);
        }
    }
    rounds.map(|mut times| {
        times.sort_by(f64::total_cmp);
        times[ROUNDS / 2]
    })
}

pub fn has_valgrind() -> bool {
    Command::new("valgrind").arg("--version").output().is_ok_and(|output| output.status.success())
}

/// Instructions for each program, as callgrind counts them: the difference of two runs, which leaves start-up out.
pub fn instructions(input: &Input) -> Result<[f64; 3], String> {
    let (few, many) = (10, 110);
    let mut all = [0.0; 3];
    for (program, instructions) in Program::ALL.into_iter().zip(&mut all) {
        let more = collected(program, input, many)? - collected(program, input, few)?;
        *instructions = more / (many - few) as f64;
    }
    Ok(all)
}

/// The instructions of a whole run of this very program.
fn collected(program: Program, input: &Input, count: u64) -> Result<f64, String> {
    let mut command = Command::new("valgrind");
    command.args(["--tool=callgrind", "--callgrind-out-file=/dev/null"]).arg(std::env::current_exe().map_err(|e| e.to_string())?);
    command.args(["--only", program.name(), "--input", input.name, "--count", &count.to_string()]);
    let output = command.output().map_err(|e| format!("{command:?}: {e}"))?;
    let said = String::from_utf8_lossy(&output.stderr);
    let number = said.lines().find_map(|line| line.split_once("Collected :")).and_then(|(_, number)| number.trim().parse().ok());
    number.filter(|_| output.status.success()).ok_or_else(|| format!("{command:?} counts nothing: {said}"))
}
