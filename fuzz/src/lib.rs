//! A libFuzzer target: the C library and the second program on the same input, the library's answers to joined areas, and IPv6 text beside inet_ntop's. A
//! difference ends the run.
use compare::connection::SIZE;
use compare::outcome::Outcome;
use compare::{checksum_headers, expected, hex, ip6_text, joining, library, same, ssl, ssl_values, STORED_VERSIONS};

/// # Safety
/// As libFuzzer calls it: size bytes are lent behind data.
#[no_mangle]
pub unsafe extern "C" fn LLVMFuzzerTestOneInput(data: *const u8, size: usize) -> i32 {
    // SAFETY: the caller's promise; a slice of no bytes must not be made from NULL.
    let input = if size == 0 { &[] } else { unsafe { std::slice::from_raw_parts(data, size) } };
    if let Err(difference) = compare(input) {
        eprintln!("{difference}");
        std::process::abort();
    }
    0
}

/// The first byte chooses the function (its low five bits) and how many numbers are lent, the next two are a room, a place, a limit, a type and
/// how many bytes stand before the second of two areas or addresses, or how many rows and further bytes the input begins with, and the rest is the input.
fn compare(input: &[u8]) -> Result<(), String> {
    let [choice, high, low, input @ ..] = input else { return Ok(()) };
    let numbers = match choice >> 5 {
        few @ 0..=3 => usize::from(few),
        _ => 6,
    };
    let number = usize::from(u16::from_be_bytes([*high, *low]));
    let (connection, area) = input.split_at(input.len().min(SIZE));
    let (table, bytes) = input.split_at(input.len().min(19 * usize::from(*high) + usize::from(*low)));
    let (first, second) = input.split_at(input.len().min(usize::from(*low)));
    let [one, two] = STORED_VERSIONS;
    let (here, there) = match choice & 31 {
        0 => (library::read(input, numbers, SIZE + 3), expected::read(input, numbers, SIZE + 3)),
        1 => (library::next(input, number, numbers), expected::next(input, number, numbers)),
        2 => (library::step(input, number, numbers), expected::step(input, number, numbers)),
        3 => (library::lookup(input, *high, usize::from(*low), numbers), expected::lookup(input, *high, usize::from(*low), numbers)),
        4 => (library::write_v1(input, number, numbers), expected::write_v1(input, number, numbers)),
        5 => (library::write_v2(connection, area, number, numbers), expected::write_v2(connection, area, number, numbers)),
        6 => (library::store(one, input, number, numbers), expected::store(one, input, number, numbers)),
        7 => (library::load(one, input, SIZE), expected::load(one, input, SIZE)),
        8 => (library::read_checked(input, numbers, SIZE + 3), expected::read_checked(input, numbers, SIZE + 3)),
        9 => (library::write_v2_checked(connection, area, number, numbers), expected::write_v2_checked(connection, area, number, numbers)),
        10 => (library::crc32c(input), expected::crc32c(input)),
        11 => (library::store(two, input, number, numbers), expected::store(two, input, number, numbers)),
        12 => (library::load(two, input, SIZE), expected::load(two, input, SIZE)),
        13 => (library::move_from(one, input, number, numbers), expected::move_from(one, input, number, numbers)),
        14 => (library::move_from(two, input, number, numbers), expected::move_from(two, input, number, numbers)),
        // Right checksums would hardly be guessed.
        15 => {
            let input = &checksum_headers::righted(input);
            (library::read_checked(input, numbers, SIZE + 3), expected::read_checked(input, numbers, SIZE + 3))
        }
        // The limit is what is otherwise the choice of how many numbers are lent.
        17 => return joining::lookup_rule(first, second, *high, usize::from(choice >> 5)),
        18 => return ip6_text::as_inet_ntop(&address(input), &address(second)).map(drop),
        // Twelve numbers are needed: they are lent, or some fewer.
        19 => return found(|outcome| ssl::reads(outcome, input, numbers + 6)),
        20 => return found(|outcome| ssl_values::cut(input).map(|given| ssl::writes(outcome, &given, number, numbers))),
        _ => (library::doorman(table, bytes, numbers), expected::doorman(table, bytes, numbers)),
    };
    same(&here, &there, || format!("function {}, {number}, {numbers} numbers, {}", choice & 31, hex(input)))
}

/// The difference that a comparison has found.
fn found<T>(compare: impl FnOnce(&mut Outcome) -> T) -> Result<(), String> {
    let mut outcome = Outcome::new("");
    compare(&mut outcome);
    outcome.difference.map_or(Ok(()), Err)
}

/// The first sixteen bytes; zeros where there are fewer.
fn address(input: &[u8]) -> [u8; 16] {
    std::array::from_fn(|i| input.get(i).copied().unwrap_or(0))
}
