//! The three programs under one roof: the proved library through its C interface, the C code, and the second program.
use crate::inputs::{Call, Input, PIECES};
use compare::connection::{self, SIZE as CONNECTION};
use second::{Admission, Ssl, StoredVersion, Verdict};
use std::hint::black_box;

extern "C" {
    /// include/dawnhawse.h
    fn dawnhawse_read(bytes: *const u8, bytes_len: usize, numbers: *mut u64, numbers_len: usize, connection: *mut u8, connection_len: usize) -> u32;
    fn dawnhawse_read_checked(bytes: *const u8, bytes_len: usize, numbers: *mut u64, numbers_len: usize, connection: *mut u8, connection_len: usize) -> u32;
    fn dawnhawse_write_v1(connection: *const u8, connection_len: usize, out: *mut u8, out_len: usize, numbers: *mut u64, numbers_len: usize) -> u32;
    fn dawnhawse_store_v2(connection: *const u8, connection_len: usize, out: *mut u8, out_len: usize, numbers: *mut u64, numbers_len: usize) -> u32;
    fn dawnhawse_load_v2(stored: *const u8, stored_len: usize, connection: *mut u8, connection_len: usize) -> u32;
    fn dawnhawse_forward(stored: *const u8, stored_len: usize, out: *mut u8, out_len: usize, numbers: *mut u64, numbers_len: usize) -> u32;
    fn dawnhawse_doorman(table: *const u8, table_len: usize, bytes: *const u8, bytes_len: usize, numbers: *mut u64, numbers_len: usize) -> u32;
    fn dawnhawse_read_ssl(value: *const u8, value_len: usize, numbers: *mut u64, numbers_len: usize) -> u32;
    fn dawnhawse_write_ssl(
        client: u8,
        verify: u32,
        present: u8,
        version: *const u8,
        version_len: usize,
        common_name: *const u8,
        common_name_len: usize,
        cipher: *const u8,
        cipher_len: usize,
        signature: *const u8,
        signature_len: usize,
        key: *const u8,
        key_len: usize,
        out: *mut u8,
        out_len: usize,
        numbers: *mut u64,
        numbers_len: usize,
    ) -> u32;
    /// parser.h
    fn parser_read(bytes: *const u8, n: usize, header: *mut Told) -> u32;
    fn parser_read_checked(bytes: *const u8, n: usize, header: *mut Told) -> u32;
    /// stored.h
    fn stored_write(connection: *const u8, out: *mut u8, room: usize, length: *mut u64) -> u32;
    fn stored_load(form: *const u8, n: usize, connection: *mut u8) -> u32;
    fn stored_forward(form: *const u8, n: usize, out: *mut u8, room: usize, length: *mut u64) -> u32;
    /// writer.h
    fn writer_line(connection: *const u8, out: *mut u8, room: usize, length: *mut u64) -> u32;
    /// admit.h
    fn admit(table: *const u8, size: usize, bytes: *const u8, n: usize, caller: *mut [u64; 4]) -> u32;
    /// ssl.h
    fn ssl_read(value: *const u8, n: usize, said: *mut [u64; 12]) -> u32;
    fn ssl_write(client: u8, verify: u32, present: u32, pieces: *const [Piece; 5], out: *mut u8, room: usize, length: *mut u64) -> u32;
}

/// As ssl.h lays it out.
#[repr(C)]
struct Piece {
    bytes: *const u8,
    length: usize,
}

/// What a program tells of an accepted header: length, version, the TLV area's start and length, and the connection. The C parser's
/// header is laid out so. Of a line or a stored form: its length where one is written, and its bytes or the connection that it holds. Of
/// an admitted header: level, length, the unique ID's start and length, as admit.h lays them out. Of an SSL value: its length and bytes
/// where it is written; client, verify, and the start and length of each piece where it is read, as ssl.h lays them out.
#[repr(C)]
#[derive(Debug, PartialEq)]
pub struct Told {
    numbers: [u64; 4],
    bytes: [u8; CONNECTION],
    said: [u64; 12],
}

#[derive(Debug, PartialEq)]
pub enum Answer {
    Accepted(Box<Told>),
    /// Without how few bytes are missing, which the library and the second program tell and the C parser does not.
    More,
    /// Also where only the checksum is wrong.
    Refused,
}

#[derive(Clone, Copy)]
pub enum Program {
    Library,
    C,
    Second,
}

impl Program {
    pub const ALL: [Program; 3] = [Program::Library, Program::C, Program::Second];

    pub fn name(self) -> &'static str {
        match self {
            Program::Library => "library",
            Program::C => "c",
            Program::Second => "second",
        }
    }

    /// What the program says of the bytes.
    pub fn answer(self, Input { call, table, .. }: &Input, bytes: &[u8]) -> Answer {
        let mut told = Told::new();
        let number = match self {
            Program::Library => library(*call, table, bytes, &mut told),
            Program::C => c(*call, table, bytes, &mut told),
            Program::Second => second(*call, table, bytes, &mut told),
        };
        match (self, number) {
            (_, 0) => Answer::Accepted(Box::new(told)),
            (Program::Library | Program::Second, 255) | (Program::C, 1) => Answer::More,
            _ => Answer::Refused,
        }
    }

    /// Takes the input so many times. The call is a constant to each loop, so that none chooses.
    pub fn take(self, input: &Input, count: u64) {
        match input.call {
            Call::Read => self.repeat(Call::Read, input, count),
            Call::ReadChecked => self.repeat(Call::ReadChecked, input, count),
            Call::WriteLine => self.repeat(Call::WriteLine, input, count),
            Call::Store => self.repeat(Call::Store, input, count),
            Call::Load => self.repeat(Call::Load, input, count),
            Call::Forward => self.repeat(Call::Forward, input, count),
            Call::Admit => self.repeat(Call::Admit, input, count),
            Call::ReadSsl => self.repeat(Call::ReadSsl, input, count),
            Call::WriteSsl => self.repeat(Call::WriteSsl, input, count),
        }
    }

    #[inline(always)]
    fn repeat(self, call: Call, input: &Input, count: u64) {
        match self {
            Program::Library => each(library, call, input, count),
            Program::C => each(c, call, input, count),
            Program::Second => each(second, call, input, count),
        }
    }
}

/// The function is one of those below, and not a closure around it, so that it is put into the loop.
#[inline(always)]
fn each(take: impl Fn(Call, &[u8], &[u8], &mut Told) -> u32, call: Call, input: &Input, count: u64) {
    let mut told = Told::new();
    let readings = input.readings();
    for _ in 0..count {
        for bytes in &readings {
            black_box(take(call, &input.table, black_box(bytes), black_box(&mut told)));
        }
    }
}

impl Told {
    fn new() -> Told {
        Told { numbers: [0; 4], bytes: [0; CONNECTION], said: [0; 12] }
    }
}

#[inline(always)]
fn library(call: Call, table: &[u8], input: &[u8], Told { numbers, bytes, said }: &mut Told) -> u32 {
    let (from, length) = (input.as_ptr(), input.len());
    let (numbers, told) = (numbers.as_mut_ptr(), numbers.len());
    let (bytes, room) = (bytes.as_mut_ptr(), bytes.len());
    // SAFETY: each pointer is valid for the length beside it, and the buffers do not overlap.
    unsafe {
        match call {
            Call::Read => dawnhawse_read(from, length, numbers, told, bytes, room),
            Call::ReadChecked => dawnhawse_read_checked(from, length, numbers, told, bytes, room),
            Call::WriteLine => dawnhawse_write_v1(from, length, bytes, room, numbers, told),
            Call::Store => dawnhawse_store_v2(from, length, bytes, room, numbers, told),
            Call::Load => dawnhawse_load_v2(from, length, bytes, room),
            Call::Forward => dawnhawse_forward(from, length, bytes, room, numbers, told),
            Call::Admit => dawnhawse_doorman(table.as_ptr(), table.len(), from, length, numbers, told),
            Call::ReadSsl => dawnhawse_read_ssl(from, length, said.as_mut_ptr(), said.len()),
            Call::WriteSsl => {
                let (client, verify, present, pieces) = given(input);
                let [(version, a), (common_name, b), (cipher, c), (signature, d), (key, e)] = pieces.map(|piece| (piece.as_ptr(), piece.len()));
                dawnhawse_write_ssl(client, verify, present, version, a, common_name, b, cipher, c, signature, d, key, e, bytes, room, numbers, told)
            }
        }
    }
}

#[inline(always)]
fn c(call: Call, table: &[u8], input: &[u8], told: &mut Told) -> u32 {
    let (from, length) = (input.as_ptr(), input.len());
    let (bytes, room) = (told.bytes.as_mut_ptr(), told.bytes.len());
    // SAFETY: table and input are valid for their lengths, and the input is a connection where one is written or stored; what is told has
    // the layout of the parser's header, its numbers that of an admitted caller, and what is said that of ssl.h.
    unsafe {
        match call {
            Call::Read => parser_read(from, length, told),
            Call::ReadChecked => parser_read_checked(from, length, told),
            Call::WriteLine => writer_line(from, bytes, room, &mut told.numbers[0]),
            Call::Store => stored_write(from, bytes, room, &mut told.numbers[0]),
            Call::Load => stored_load(from, length, bytes),
            Call::Forward => stored_forward(from, length, bytes, room, &mut told.numbers[0]),
            Call::Admit => admit(table.as_ptr(), table.len(), from, length, &mut told.numbers),
            Call::ReadSsl => ssl_read(from, length, &mut told.said),
            Call::WriteSsl => {
                let (client, verify, present, pieces) = given(input);
                let pieces = pieces.map(|piece| Piece { bytes: piece.as_ptr(), length: piece.len() });
                ssl_write(client, verify, present.into(), &pieces, bytes, room, &mut told.numbers[0])
            }
        }
    }
}

/// The library's numbers: 0, 255 for more, and others.
#[inline(always)]
fn second(call: Call, table: &[u8], input: &[u8], Told { numbers, bytes, said }: &mut Told) -> u32 {
    let written = match call {
        Call::Read => return verdict(&second::judge(input), numbers, bytes),
        Call::ReadChecked => return second::judge_checked(input).map_or_else(u32::from, |read| verdict(&read, numbers, bytes)),
        Call::Admit => return admission(&second::admit(table, input), numbers),
        Call::ReadSsl => return second::read_ssl(input).map_or_else(u32::from, |ssl| tell(&ssl, said)),
        Call::Load => second::load(StoredVersion::Two, input).map_err(u32::from).map(|record| {
            *bytes = connection::bytes(&record);
            0
        }),
        Call::WriteLine => connection::record(input).and_then(|record| second::write_v1(&record, bytes).map_err(u32::from)),
        Call::Store => connection::record(input).and_then(|record| second::store(StoredVersion::Two, &record, bytes).map_err(u32::from)),
        Call::Forward => second::forward(input, bytes).map_err(u32::from),
        Call::WriteSsl => {
            let (client, verify, present, pieces) = given(input);
            let there = |i: usize| (present >> i & 1 == 1).then_some(pieces[i]);
            second::write_ssl(client, verify, [there(0), there(1), there(2), there(3), there(4)], bytes).map_err(u32::from)
        }
    };
    match written {
        Ok(length) => {
            numbers[0] = length as u64;
            0
        }
        Err(number) => number,
    }
}

/// What is given to be written in an SSL value: client, verify, which pieces are there, and the pieces.
#[inline(always)]
fn given(input: &[u8]) -> (u8, u32, u8, [&[u8]; 5]) {
    let [client, a, b, c, d, present, ref rest @ ..] = *input else { panic!("an SSL value is written from at least 6 bytes") };
    let mut rest = &rest[..PIECES.iter().map(|piece| piece.len()).sum()];
    let pieces = PIECES.map(|piece| {
        let (front, behind) = rest.split_at(piece.len());
        rest = behind;
        front
    });
    (client, u32::from_be_bytes([a, b, c, d]), present, pieces)
}

fn verdict(verdict: &Verdict, numbers: &mut [u64; 4], bytes: &mut [u8; CONNECTION]) -> u32 {
    match verdict {
        Verdict::Accepted(header) => {
            let area = &header.tlv_area;
            *numbers = [header.length as u64, u64::from(header.version), area.start as u64, area.len() as u64];
            *bytes = connection::bytes(&header.record);
            0
        }
        Verdict::More(_) => 255,
        Verdict::Refused { number, .. } => u32::from(*number),
    }
}

fn admission(admission: &Admission, numbers: &mut [u64; 4]) -> u32 {
    match admission {
        Admission::Admitted { level, length, unique_id } => {
            *numbers = [u64::from(*level), *length as u64, unique_id.start as u64, unique_id.len() as u64];
            0
        }
        Admission::More(_) => 255,
        Admission::Refused { number, .. } | Admission::NotAdmitted { number } => u32::from(*number),
    }
}

fn tell(ssl: &Ssl, said: &mut [u64; 12]) -> u32 {
    said[0] = u64::from(ssl.client);
    said[1] = u64::from(ssl.verify);
    for (told, piece) in said[2..].chunks_exact_mut(2).zip(&ssl.pieces) {
        let piece = piece.clone().unwrap_or(0..0);
        told[0] = piece.start as u64;
        told[1] = piece.len() as u64;
    }
    0
}
