//! Damaged copies of good inputs.

use crate::input::Input;
use crate::random::Random;

/// What is done to one byte.
const CHANGES: usize = 5;

fn changed(byte: u8, change: usize) -> u8 {
    match change {
        0 => byte ^ 1,
        1 => byte ^ 0x80,
        2 => 0,
        3 => 0xff,
        _ => byte.wrapping_add(1),
    }
}

/// Shows every copy of a file with one byte changed in one of the ways, and every copy that is cut
/// short, from a random one on. Bytes within the range are changed; answers how many copies were
/// shown. What shows a copy gives it back as it was.
pub fn every_byte(
    file: &[u8],
    range: std::ops::Range<usize>,
    most: usize,
    random: &mut Random,
    show: &mut dyn FnMut(&mut Vec<u8>),
) -> usize {
    let steps = range.len() * (CHANGES + 1);
    if steps == 0 {
        return 0;
    }
    let first = random.below(steps as u64) as usize;
    let mut copy = file.to_vec();
    let count = steps.min(most);
    for step in (first..first + count).map(|step| step % steps) {
        let at = range.start + step / (CHANGES + 1);
        match step % (CHANGES + 1) {
            CHANGES => {
                copy.truncate(at);
                show(&mut copy);
                copy.extend(&file[at..]);
            }
            change => {
                copy[at] = changed(copy[at], change);
                show(&mut copy);
                copy[at] = file[at];
            }
        }
    }
    count
}

/// The same of the file of an input.
pub fn every_byte_of(
    input: &Input,
    range: std::ops::Range<usize>,
    most: usize,
    random: &mut Random,
    show: &mut dyn FnMut(&Input),
) -> usize {
    let mut copy = Input {
        file: Vec::new(),
        ..*input
    };
    every_byte(&input.file, range, most, random, &mut |file| {
        std::mem::swap(&mut copy.file, file);
        show(&copy);
        std::mem::swap(&mut copy.file, file);
    })
}

/// The start of one input and the end of another.
pub fn spliced(first: &Input, second: &Input, random: &mut Random) -> Input {
    let cut = random.below(first.file.len() as u64 + 1) as usize;
    let from = random.below(second.file.len() as u64 + 1) as usize;
    let mut file = first.file[..cut].to_vec();
    file.extend(&second.file[from..]);
    Input {
        end_of_file: file.len() as u64,
        file,
        ..first.clone()
    }
}

/// A short file of random bytes behind the first bytes of a header.
pub fn short(random: &mut Random) -> Input {
    let length = random.within(4, 60) as usize;
    let mut file = b"OHDR\x02".to_vec();
    file.push(random.pick(&[0, 0, 4, 1, 32, 36]));
    file.resize_with(length.max(6), || few_values(random));
    if let Some(size) = file.get_mut(6) {
        *size = random.below(48) as u8;
    }
    let end_of_file = file.len() as u64;
    Input {
        offset_width: random.within(2, 8) as u8,
        length_width: random.within(2, 8) as u8,
        end_of_file,
        position: 0,
        file,
    }
}

/// A header that ends behind the undefined offset of a continuation, or within the length.
pub fn cut_continuation(random: &mut Random) -> Input {
    let offset_width = random.within(2, 8) as u8;
    let length_width = random.within(2, 8) as u8;
    let mut file = b"OHDR\x02\0\x20\x10\x10\0\0".to_vec();
    file.resize(file.len() + usize::from(offset_width), 255);
    let left = random.below(u64::from(length_width) + 1) as usize;
    file.resize_with(file.len() + left, || few_values(random));
    Input {
        offset_width,
        length_width,
        end_of_file: file.len() as u64,
        position: 0,
        file,
    }
}

/// Small numbers, which are types, versions and sizes, more often than others.
fn few_values(random: &mut Random) -> u8 {
    match random.below(10) {
        0..5 => 0,
        5..9 => random.below(25) as u8,
        _ => random.byte(),
    }
}
