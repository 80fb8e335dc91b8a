//! Inputs at the limits that only large files reach.

use crate::address::LAYOUT;
use crate::closing::make_true;
use crate::input::{Input, put};
use crate::random::Random;
use crate::rust::CONTINUATION;

const LARGEST_CHUNK: usize = 16_777_216;
/// The bytes of numbers that an attribute passes at most.
const LARGEST_PASSED: u64 = 1_048_576;
const CHUNK_OF_4_BYTES: u8 = 2;

/// A few large inputs, the same every time, with true sums; and the largest chunk with a false one.
pub fn inputs() -> Vec<Input> {
    let mut inputs = made();
    inputs.iter_mut().for_each(make_true);
    let mut flipped = inputs[1].clone();
    flipped.file[LARGEST_CHUNK] ^= 1;
    inputs.push(flipped);
    inputs
}

fn made() -> Vec<Input> {
    let mut inputs = Vec::new();
    for size in [LARGEST_CHUNK - 1, LARGEST_CHUNK, LARGEST_CHUNK + 1] {
        inputs.push(full_chunk(size));
    }
    // The products of size and elements are at the limit, below and above it.
    for (size, elements) in [(25, 41_943), (32, 32_768), (17, 61_681)] {
        for given in [LARGEST_PASSED - 2, LARGEST_PASSED + 64] {
            inputs.push(numbers(size, elements, given as usize));
        }
    }
    inputs.push(one_message(0, 65_535, &[7; 65_535]));
    inputs.push(one_message(4, 4, &sized(65_531, 4)));
    inputs.push(one_message(4, 4, &sized(900_000, 4)));
    inputs.push(one_message(
        8,
        4,
        &[&[3, 0], &sized(65_535, 2)[..]].concat(),
    ));
    for name in [65_527, 65_528, 65_529] {
        inputs.push(one_message(11, 24, &named_filter(name)));
    }
    for kind in FAR_KINDS {
        for address in FAR {
            inputs.extend(FAR_ENDS.map(|end| far(kind, address, [2, 2], end)));
        }
    }
    inputs
}

/// The undefined address in 2 bytes, which is a place in a large file too.
const UNDEFINED: u64 = 65_535;
/// What leads there, addresses up to it, and end-of-file addresses beside it and behind what stands
/// there.
const FAR_KINDS: [u8; 2] = [LAYOUT, CONTINUATION];
const FAR: [u64; 2] = [UNDEFINED - 1, UNDEFINED];
const FAR_ENDS: [u64; 4] = [UNDEFINED - 1, UNDEFINED, UNDEFINED + 1, UNDEFINED + 12];

/// One like those above whose address is the undefined one or the one before, or, in a width of 3,
/// the same number.
pub fn some_far(random: &mut Random) -> Input {
    far(
        random.pick(&FAR_KINDS),
        random.pick(&FAR),
        [random.pick(&[2, 2, 3]), random.pick(&[2, 3])],
        random.pick(&FAR_ENDS),
    )
}

/// A header whose one entry leads to an address, with widths of offsets and of lengths. A block of 12
/// bytes stands there, for a continuation to open, and for a layout to have as its data.
fn far(kind: u8, address: u64, widths: [u8; 2], end_of_file: u64) -> Input {
    let mut body = if kind == LAYOUT { vec![3, 1] } else { vec![] };
    put(&mut body, address, widths[0]);
    put(&mut body, 12, widths[1]);
    let mut input = one_message(kind, body.len(), &body);
    input.file.resize(address as usize, 7);
    input.file.extend(b"OCHK\0\0\0\0");
    input.file.resize(address as usize + 16, 0);
    Input {
        offset_width: widths[0],
        length_width: widths[1],
        end_of_file,
        ..input
    }
}

fn header(chunk_size: usize) -> Vec<u8> {
    let mut file = b"OHDR\x02".to_vec();
    file.push(CHUNK_OF_4_BYTES);
    put(&mut file, chunk_size as u64, 4);
    file
}

fn with_file(file: Vec<u8>) -> Input {
    Input {
        offset_width: 8,
        length_width: 8,
        end_of_file: file.len() as u64,
        position: 0,
        file,
    }
}

fn entry(file: &mut Vec<u8>, kind: u8, size: usize) {
    file.push(kind);
    put(file, size as u64, 2);
    file.push(0);
}

/// A chunk full of messages that are as large as they can be.
fn full_chunk(size: usize) -> Input {
    let mut file = header(size);
    let end = file.len() + size;
    while file.len() + 4 <= end {
        let body = (end - file.len() - 4).min(65_535);
        entry(&mut file, 0, body);
        file.resize(file.len() + body, 1);
    }
    file.resize(end + 4, 0);
    with_file(file)
}

/// One message whose body may be longer than its size, and a file that goes on behind it. The sum is
/// stored behind its size, where nothing reads the bytes of a longer body.
fn one_message(kind: u8, size: usize, body: &[u8]) -> Input {
    let mut file = header(4 + size);
    entry(&mut file, kind, size);
    file.extend(body);
    file.resize(file.len() + 4, 0);
    with_file(file)
}

fn sized(count: usize, width: u8) -> Vec<u8> {
    let mut bytes = Vec::new();
    put(&mut bytes, count as u64, width);
    bytes.resize(bytes.len() + count, 9);
    bytes
}

/// An attribute of numbers: of so many elements of a size, and bytes that are given.
fn numbers(size: u64, elements: u64, given: usize) -> Input {
    let mut body = vec![3, 0, 1, 0, 0, 0, 0, 0, 0, b'n'];
    body.extend([0x10, 0, 0, 0]);
    put(&mut body, size, 4);
    body.extend([0; 4]);
    body.extend([2, 1, 0, 0]);
    put(&mut body, elements, 8);
    let fields = body.len();
    body.resize(fields + given, 5);
    one_message(12, fields, &body)
}

/// A filter of version 1 with a long name, and a second one behind it.
fn named_filter(name: u64) -> Vec<u8> {
    let mut body = vec![1, 2, 0, 0, 0, 0, 0, 0];
    put(&mut body, 1, 2);
    put(&mut body, name, 2);
    body.resize(body.len() + 4 + 65_528 + 16, 0);
    body
}
