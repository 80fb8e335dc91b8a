//! Many names in one call, beside as many single lookups, both of the port: the Rust has neither.
//!
//!     names SIDE KIND ROWS NAMES TIMES   looks so many names up so many times; SIDE is set or
//!                                        singles, KIND present or absent
//!     names time KIND ROWS NAMES         nanoseconds, the best of many runs: set, singles
//!
//! The rows are attributes, named Attribute0 and so on. Names that are present are spread evenly
//! over the rows; those that are absent are as long as names of the rows.

use std::hint::black_box;
use std::process::ExitCode;
use std::time::Instant;

use sides::port::{NAME, ROW_WORDS};

const ATTRIBUTE: u64 = 12;

/// The words of dowringaf.h that a lookup answers.
#[repr(C)]
struct Found {
    refused: u64,
    found: u64,
    row: u64,
}

unsafe extern "C" {
    fn dowringaf_lookup(
        file: *const u8,
        file_bytes: usize,
        table: *const u64,
        table_words: usize,
        rows: usize,
        name: *const u8,
        name_bytes: usize,
    ) -> Found;
    fn dowringaf_lookup_names(
        file: *const u8,
        file_bytes: usize,
        table: *const u64,
        table_words: usize,
        rows: usize,
        text: *const u8,
        text_bytes: usize,
        names: *const u64,
        name_words: usize,
        answers: *mut u64,
        answer_words: usize,
    ) -> u64;
}

/// A table over a file, and the names that are wanted in it, with what is to be found.
struct Set {
    file: Vec<u8>,
    table: Vec<u64>,
    rows: usize,
    text: Vec<u8>,
    names: Vec<u64>,
    expected: Vec<u64>,
}

/// A name at the end of some bytes, and its position and length there.
fn put_name(bytes: &mut Vec<u8>, name: &str) -> [u64; 2] {
    let position = bytes.len() as u64;
    bytes.extend(name.as_bytes());
    [position, name.len() as u64]
}

fn set(kind: &str, rows: usize, count: usize) -> Set {
    let mut set = Set {
        file: Vec::new(),
        table: vec![0; rows * ROW_WORDS],
        rows,
        text: Vec::new(),
        names: Vec::new(),
        expected: Vec::new(),
    };
    for (number, row) in set.table.chunks_mut(ROW_WORDS).enumerate() {
        row[0] = ATTRIBUTE;
        row[NAME] = 1;
        let place = put_name(&mut set.file, &format!("Attribute{number}"));
        row[NAME + 1..NAME + 3].copy_from_slice(&place);
    }
    for number in 0..count {
        let row = (2 * number + 1) * rows / (2 * count);
        let name = if kind == "present" { "Attribute" } else { "Attributf" };
        set.names.extend(put_name(&mut set.text, &format!("{name}{row}")));
        set.expected.push(if kind == "present" { row as u64 + 1 } else { 0 });
    }
    set
}

// The pointers come from slices with their lengths, and the functions keep none of them.
fn look_up_set(set: &Set, answers: &mut [u64]) {
    let refused = unsafe {
        dowringaf_lookup_names(
            set.file.as_ptr(),
            set.file.len(),
            set.table.as_ptr(),
            set.table.len(),
            set.rows,
            set.text.as_ptr(),
            set.text.len(),
            set.names.as_ptr(),
            set.names.len(),
            answers.as_mut_ptr(),
            answers.len(),
        )
    };
    assert_eq!(refused, 0, "the set is refused");
}

fn look_up_singles(set: &Set, answers: &mut [u64]) {
    for (place, answer) in set.names.chunks(2).zip(answers) {
        let name = &set.text[place[0] as usize..][..place[1] as usize];
        let found = unsafe {
            dowringaf_lookup(
                set.file.as_ptr(),
                set.file.len(),
                set.table.as_ptr(),
                set.table.len(),
                set.rows,
                name.as_ptr(),
                name.len(),
            )
        };
        assert_eq!(found.refused, 0, "a lookup is refused");
        *answer = if found.found == 0 { 0 } else { found.row + 1 };
    }
}

fn run(look_up: fn(&Set, &mut [u64]), set: &Set, times: usize) {
    let mut answers = vec![u64::MAX; set.expected.len()];
    for _ in 0..times {
        look_up(black_box(set), black_box(&mut answers));
    }
    assert_eq!(answers, set.expected, "the answers");
}

fn best(look_up: fn(&Set, &mut [u64]), set: &Set) -> u128 {
    let mut answers = vec![u64::MAX; set.expected.len()];
    let mut least = u128::MAX;
    for _ in 0..2000 {
        let start = Instant::now();
        look_up(black_box(set), black_box(&mut answers));
        least = least.min(start.elapsed().as_nanos());
    }
    least
}

fn number(word: &str) -> usize {
    word.parse().expect("a number")
}

fn main() -> ExitCode {
    let words: Vec<String> = std::env::args().skip(1).collect();
    let words: Vec<&str> = words.iter().map(String::as_str).collect();
    match words[..] {
        ["set", kind, rows, count, times] => {
            run(look_up_set, &set(kind, number(rows), number(count)), number(times));
        }
        ["singles", kind, rows, count, times] => {
            run(look_up_singles, &set(kind, number(rows), number(count)), number(times));
        }
        ["time", kind, rows, count] => {
            let set = set(kind, number(rows), number(count));
            println!("{} {}", best(look_up_set, &set), best(look_up_singles, &set));
        }
        _ => {
            eprintln!("usage: names set|singles KIND ROWS NAMES TIMES | time KIND ROWS NAMES");
            return ExitCode::from(2);
        }
    }
    ExitCode::SUCCESS
}
