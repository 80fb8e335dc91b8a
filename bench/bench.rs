//! The port and the Rust on the same inputs, by one driver. The Rust is the mended copy, which reads
//! what the port reads, so that both do the same work.
//!
//!     bench make DIRECTORY [FILE...]   writes the inputs: made ones, real files, and their headers
//!     bench SIDE INPUT TIMES           decodes an input so many times; SIDE is port or rust, or
//!                                      check, which is the port's check of the same header
//!     bench time INPUT                 nanoseconds a call, the best of many runs: port, rust, check
//!     bench entries INPUT              the entries of an input that both sides accept
//!     bench summed INPUT               the lengths of what the port sums in it

use std::hint::black_box;
use std::path::Path;
use std::process::ExitCode;
use std::time::Instant;

use sides::closing::Summed;
use sides::input::{Input, put};
use sides::plain::SIGNATURE;
use sides::port::{Outcome as PortOutcome, Port};
use sides::real;
use sides::rust::mended::{rust_answer, rust_data_object, rust_parses, rust_super_block};
use sides::rust::{self, Outcome};
use sides::sum::lookup3;

const LEVELS: usize = 25;
const ENTRIES: usize = 4096;
const ATTRIBUTE: u8 = 12;
const CONTINUATION: u8 = 16;
/// An entry's prefix and a continuation's two numbers.
const CONTINUATION_BYTES: usize = 4 + 8 + 8;
/// A header's fields and an entry's prefix.
const FIRST_BYTES: usize = 10 + 4;

/// The words of dowringaf.h that a check answers.
#[repr(C)]
#[derive(Debug, PartialEq, Eq)]
struct Checked {
    refused: u64,
    next: u64,
    entries: u64,
    rows: u64,
}

unsafe extern "C" {
    fn dowringaf_check_data_object(
        file: *const u8,
        file_bytes: usize,
        position: u64,
        offset_width: u64,
        length_width: u64,
        end_of_file: u64,
    ) -> Checked;
    fn dowringaf_check_root_object(file: *const u8, file_bytes: usize) -> Checked;
}

/// What both sides are given.
enum Given {
    /// A header, with values given by hand.
    Header(Input),
    /// A plain file, whose root's header is decoded.
    File(Vec<u8>),
}

fn entry(kind: u8, body: &[u8]) -> Vec<u8> {
    let mut bytes = vec![kind];
    put(&mut bytes, body.len() as u64, 2);
    bytes.push(0);
    bytes.extend(body);
    bytes
}

/// Version 3, a scalar text, its name closed by a zero.
fn attribute(number: usize) -> Vec<u8> {
    let name = format!("Attribute{number}\0");
    let value = format!("the text of attribute {number}");
    let mut body = vec![3, 0];
    put(&mut body, name.len() as u64, 2);
    put(&mut body, 8, 2);
    put(&mut body, 4, 2);
    body.push(0);
    body.extend(name.as_bytes());
    body.extend([0x13, 0, 0, 0]);
    put(&mut body, value.len() as u64, 4);
    body.extend([2, 0, 0, 0]);
    body.extend(value.as_bytes());
    entry(ATTRIBUTE, &body)
}

fn words(first: &[u8], numbers: &[u64]) -> Vec<u8> {
    let mut body = first.to_vec();
    for number in numbers {
        put(&mut body, *number, 8);
    }
    body
}

/// Messages as in a dataset of a SOFA file: every other one is an attribute.
fn message(number: usize) -> Vec<u8> {
    let double = [
        0x11, 0x20, 0x3f, 0, 8, 0, 0, 0, 0, 0, 64, 0, 52, 11, 0, 52, 0xff, 3, 0, 0,
    ];
    match number % 16 {
        1 => entry(1, &words(&[2, 2, 1, 1], &[100, 2, 100, u64::MAX])),
        3 => entry(3, &double),
        5 => entry(5, &[3, 10]),
        7 => entry(8, &words(&[3, 1], &[64, 16])),
        9 => entry(2, &words(&[0, 0], &[u64::MAX, u64::MAX])),
        11 => entry(10, &[0, 0]),
        13 => entry(21, &words(&[0, 0], &[u64::MAX, u64::MAX])),
        15 => entry(0, &[0; 8]),
        _ => attribute(number),
    }
}

/// An entry without a body: the least that a reader can be asked for.
fn nil(_: usize) -> Vec<u8> {
    entry(0, &[])
}

fn input(file: Vec<u8>) -> Input {
    Input {
        offset_width: 8,
        length_width: 8,
        end_of_file: file.len() as u64,
        position: 0,
        file,
    }
}

/// The sum of what was written from a place on.
fn put_sum(file: &mut Vec<u8>, from: usize) {
    let sum = lookup3(&file[from..]);
    put(file, u64::from(sum), 4);
}

fn header(chunk: usize) -> Vec<u8> {
    let mut file = b"OHDR\x02\x02".to_vec();
    put(&mut file, chunk as u64, 4);
    file
}

fn flat(messages: usize, make: impl Fn(usize) -> Vec<u8>) -> Input {
    let chunk: Vec<u8> = (0..messages).flat_map(make).collect();
    let mut file = header(chunk.len());
    file.extend(chunk);
    put_sum(&mut file, 0);
    input(file)
}

/// The messages spread over the header and 25 blocks, each of which opens the next.
fn deep(messages: usize, make: fn(usize) -> Vec<u8>) -> Input {
    let share = |level: usize| messages * level / (LEVELS + 1);
    let chunks: Vec<Vec<u8>> = (0..=LEVELS)
        .map(|level| (share(level)..share(level + 1)).flat_map(make).collect())
        .collect();
    let opening = |level: usize| if level < LEVELS { CONTINUATION_BYTES } else { 0 };
    let mut file = header(chunks[0].len() + opening(0));
    let mut from = 0;
    for (level, chunk) in chunks.iter().enumerate() {
        if level > 0 {
            from = file.len();
            file.extend(b"OCHK");
        }
        file.extend(chunk);
        if level < LEVELS {
            let next = file.len() + CONTINUATION_BYTES + 4;
            let length = 4 + chunks[level + 1].len() + opening(level + 1) + 4;
            let numbers = words(&[], &[next as u64, length as u64]);
            file.extend(entry(CONTINUATION, &numbers));
        }
        put_sum(&mut file, from);
    }
    input(file)
}

/// One entry that is passed over, of such a size that so many bytes are summed.
fn skipped(bytes: usize) -> Input {
    flat(1, |_| entry(0, &vec![0; bytes - FIRST_BYTES]))
}

fn made() -> Vec<(String, Input)> {
    let kinds: [(&str, fn(usize) -> Vec<u8>); 2] = [("messages", message), ("nil", nil)];
    let mut inputs = Vec::new();
    for (name, make) in kinds {
        for count in [1, 16, 256, ENTRIES] {
            inputs.push((format!("{name}-flat-{count}"), flat(count, make)));
            let messages = count.min(ENTRIES - LEVELS);
            inputs.push((format!("{name}-deep-{count}"), deep(messages, make)));
        }
    }
    for bytes in [25, 60, 263, 4096, 65536] {
        inputs.push((format!("skipped-{bytes}"), skipped(bytes)));
    }
    inputs
}

/// The headers of a real file that the Rust accepts, named by the file and their positions.
fn real_inputs(path: &Path) -> std::io::Result<Vec<(String, Input)>> {
    let stem = path.file_stem().unwrap_or_default().to_string_lossy();
    let headers = real::headers(&[path.to_path_buf()])?;
    let accepted = headers.into_iter().filter(|h| rust_data_object(h).is_some());
    Ok(accepted
        .map(|h| (format!("{stem}-{:05}", h.position), h))
        .collect())
}

/// Whether a file is one that both sides take as a whole.
fn is_plain(file: &[u8]) -> bool {
    rust_parses(file) && Port::default().root_object(file).is_some()
}

fn make(directory: &Path, files: &[&str]) -> std::io::Result<()> {
    std::fs::create_dir_all(directory)?;
    let mut inputs = made();
    for path in files.iter().map(Path::new) {
        inputs.extend(real_inputs(path)?);
        let file = std::fs::read(path)?;
        if is_plain(&file) {
            let stem = path.file_stem().unwrap_or_default().to_string_lossy();
            std::fs::write(directory.join(format!("{stem}-file")), file)?;
        }
    }
    for (name, input) in inputs {
        std::fs::write(directory.join(name), input.to_bytes())?;
    }
    Ok(())
}

fn load(path: &str) -> Given {
    let bytes = std::fs::read(path).expect("an input");
    if bytes.starts_with(SIGNATURE) {
        return Given::File(bytes);
    }
    Given::Header(Input::from_bytes(&bytes).expect("18 lead bytes"))
}

/// The header, by hand: of a file that of its root.
fn by_hand(given: &Given) -> Input {
    match given {
        Given::Header(input) => input.clone(),
        Given::File(file) => rust_super_block(file).expect("a superblock").input(file),
    }
}

/// As many rows as the header has messages, which the check must say too.
fn port_for(given: &Given) -> Port {
    match Port::default().answer(&by_hand(given)) {
        PortOutcome::Read(header) => {
            let rows = header.rows.len();
            let expected = Checked {
                refused: 0,
                next: header.next,
                entries: header.entries,
                rows: rows as u64,
            };
            assert_eq!(check(given), expected, "the check");
            Port::lending(rows)
        }
        PortOutcome::Refused(number) => panic!("the port refuses with {number}"),
    }
}

fn call_port(port: &mut Port, given: &Given) {
    match given {
        Given::Header(input) => black_box(port.data_object(black_box(input))),
        Given::File(file) => black_box(port.root_object(black_box(file))),
    };
}

fn check(given: &Given) -> Checked {
    // The pointers come from slices with their lengths, and the functions keep none of them.
    match given {
        Given::Header(input) => unsafe {
            dowringaf_check_data_object(
                input.file.as_ptr(),
                input.file.len(),
                input.position,
                input.offset_width.into(),
                input.length_width.into(),
                input.end_of_file,
            )
        },
        Given::File(file) => unsafe { dowringaf_check_root_object(file.as_ptr(), file.len()) },
    }
}

fn call_check(given: &Given) {
    black_box(check(black_box(given)));
}

/// For a file `parse`, which is the Rust's own way from a file to its root.
fn call_rust(given: &Given) {
    match given {
        Given::Header(input) => black_box(rust_data_object(black_box(input)).is_some()),
        Given::File(file) => black_box(rust_parses(black_box(file))),
    };
}

fn run(side: &str, given: &Given, times: usize) {
    let mut port = port_for(given);
    if side == "check" {
        (0..times).for_each(|_| call_check(given));
        return;
    }
    for _ in 0..times {
        if side == "port" {
            call_port(&mut port, given);
        } else {
            call_rust(given);
        }
    }
}

fn best(mut call: impl FnMut()) -> u128 {
    let mut least = u128::MAX;
    for _ in 0..2000 {
        let start = Instant::now();
        call();
        least = least.min(start.elapsed().as_nanos());
    }
    least
}

fn time(given: &Given) {
    let mut port = port_for(given);
    let ours = best(|| call_port(&mut port, given));
    let theirs = best(|| call_rust(given));
    let checked = best(|| call_check(given));
    println!("{ours} {theirs} {checked}");
}

fn entries(given: &Given) {
    rust::open();
    match rust_answer(&by_hand(given)).outcome {
        Outcome::Read(header) => println!("{}", header.entries),
        _ => println!("refused"),
    }
}

fn summed(given: &Given) {
    rust::open();
    let closings = match given {
        Given::Header(input) => input.closings(),
        Given::File(file) => file.closings(),
    };
    let lengths = closings.iter().map(|c| (c.end - c.from).to_string());
    println!("{}", lengths.collect::<Vec<_>>().join(" "));
}

fn main() -> ExitCode {
    let words: Vec<String> = std::env::args().skip(1).collect();
    let words: Vec<&str> = words.iter().map(String::as_str).collect();
    match words[..] {
        ["make", directory, ref files @ ..] => {
            make(Path::new(directory), files).expect("inputs are written");
        }
        ["time", path] => time(&load(path)),
        ["entries", path] => entries(&load(path)),
        ["summed", path] => summed(&load(path)),
        [side @ ("port" | "rust" | "check"), path, times] => {
            run(side, &load(path), times.parse().expect("a number"));
        }
        _ => {
            eprintln!("usage: bench make DIRECTORY [FILE...] | port|rust|check INPUT TIMES | time|entries|summed INPUT");
            return ExitCode::from(2);
        }
    }
    ExitCode::SUCCESS
}
