//! The smallest input that still shows something.

use std::ops::Range;

use sides::answer::SuperBlock;
use sides::closing::{is_true, make_true};
use sides::input::{Input, get};
use sides::plain::{address, as_version_2, version};
use sides::rust::mended::{rust_super_block, rust_walk};
use sides::rust::{CONTINUATION, Entry};

/// Bytes that are tried at most, and what a try costs beside its bytes, and for so many numbers again.
const WORK: usize = 200_000_000;
const COST: usize = 4000;
const NUMBERS: usize = 16;
const LAYOUT: u8 = 8;

struct Shrink<'a> {
    best: Input,
    /// The numbers of the best input that change where bytes are dropped.
    counts: Vec<Count>,
    /// Puts right what follows from the other bytes.
    restore: &'a dyn Fn(&mut Input),
    shows: &'a mut dyn FnMut(&Input) -> bool,
    /// What may still be tried.
    work: usize,
}

/// A smaller input that still shows what `shows` looks for. Sums that are true stay true.
pub fn shrink(input: &Input, shows: &mut dyn FnMut(&Input) -> bool) -> Input {
    let sums = is_true(input);
    let restore = |input: &mut Input| {
        if sums {
            make_true(input);
        }
    };
    smallest(input.clone(), &restore, shows)
}

fn smallest(
    input: Input,
    restore: &dyn Fn(&mut Input),
    shows: &mut dyn FnMut(&Input) -> bool,
) -> Input {
    let mut shrink = Shrink {
        counts: counts(&input),
        best: input,
        restore,
        shows,
        work: WORK,
    };
    while shrink.round() && shrink.work > 0 {}
    shrink.best
}

/// A smaller plain file that still shows what `shows` looks for. Where the Rust reads its
/// superblock, end-of-file address and root follow the bytes that are dropped.
pub fn shrink_plain(file: &[u8], shows: &mut dyn FnMut(&[u8]) -> bool) -> Vec<u8> {
    let sums = is_true(&file.to_vec());
    let restore = |input: &mut Input| {
        set_values(input);
        if sums {
            make_true(&mut input.file);
        }
    };
    let block = rust_super_block(&as_version_2(file)).unwrap_or(SuperBlock {
        // Nothing of the file counts its bytes.
        root_group_object_header_address: u64::MAX,
        ..SuperBlock::default()
    });
    smallest(block.input(file), &restore, &mut |input| shows(&input.file)).file
}

/// Puts end-of-file address and position into a superblock of version 2 or 3.
fn set_values(input: &mut Input) {
    let width = usize::from(input.offset_width);
    if matches!(version(&input.file), Some(2 | 3)) && width > 0 {
        for (number, value) in [(2, input.end_of_file), (3, input.position)] {
            let at = address(number, width as u64);
            if let Some(field) = input.file.get_mut(at..at + width) {
                field.copy_from_slice(&value.to_le_bytes()[..width]);
            }
        }
    }
}

impl Shrink<'_> {
    /// Whether something became smaller.
    fn round(&mut self) -> bool {
        let cut = self.cut();
        let entries = self.drop_entries();
        let dropped = self.drop_bytes();
        let zeroed = self.zero_bytes();
        let plain = self.plain_numbers();
        cut || entries || dropped || zeroed || plain
    }

    /// Takes an input, with what follows from its bytes put right, if it still shows it.
    fn take(&mut self, mut input: Input) -> bool {
        if self.work == 0 {
            return false;
        }
        (self.restore)(&mut input);
        if input == self.best {
            return false;
        }
        let cost = COST * (1 + self.counts.len() / NUMBERS);
        self.work = self.work.saturating_sub(input.file.len() + cost);
        let shows = (self.shows)(&input);
        if shows {
            self.counts = counts(&input);
            self.best = input;
        }
        shows
    }

    /// Cuts the file at its end.
    fn cut(&mut self) -> bool {
        let mut smaller = false;
        let mut step = self.best.file.len() / 2;
        while step > 0 {
            let mut input = self.best.clone();
            input.file.truncate(input.file.len().saturating_sub(step));
            if self.take(input) {
                smaller = true;
            } else {
                step /= 2;
            }
        }
        smaller
    }

    /// Drops whole entries, the last first.
    fn drop_entries(&mut self) -> bool {
        let mut smaller = false;
        let mut number = self.counts.len();
        while number > 0 {
            number -= 1;
            let Some(Count::Entry(size, body)) = self.counts.get(number).cloned() else {
                continue;
            };
            smaller |= self.drop_range(size.start - 1..body.end);
        }
        smaller
    }

    /// Drops bytes, long runs first.
    fn drop_bytes(&mut self) -> bool {
        let mut smaller = false;
        let mut length = self.best.file.len().next_power_of_two() / 2;
        while length > 0 {
            let mut at = 0;
            while at + length <= self.best.file.len() && self.work > 0 {
                if self.drop_range(at..at + length) {
                    smaller = true;
                } else {
                    at += length;
                }
            }
            length /= 2;
        }
        smaller
    }

    /// Drops bytes with the sizes and addresses put right, or as they are.
    fn drop_range(&mut self, gone: Range<usize>) -> bool {
        if gone.end > self.best.file.len() || gone.is_empty() {
            return false;
        }
        let mut repaired = self.best.clone();
        for count in &self.counts {
            count.lower(&mut repaired.file, &gone);
        }
        self.take(without(repaired, &gone)) || self.take(without(self.best.clone(), &gone))
    }

    fn zero_bytes(&mut self) -> bool {
        let mut smaller = false;
        for at in 0..self.best.file.len() {
            if self.best.file[at] == 0 || self.work == 0 {
                continue;
            }
            let mut input = self.best.clone();
            input.file[at] = 0;
            smaller |= self.take(input);
        }
        smaller
    }

    /// An end-of-file address at the end of the file, a header without times and with a chunk size
    /// of one byte. (Other widths would change all fields.)
    fn plain_numbers(&mut self) -> bool {
        let mut input = self.best.clone();
        input.end_of_file = input.file.len() as u64;
        let end = self.take(input);
        let flags = self.best.position as usize + 5;
        let Some(byte) = self.best.file.get(flags).copied() else {
            return end;
        };
        let times = byte & 32 != 0 && self.drop_with(flags, byte & !32, flags + 1..flags + 17);
        let high = flags + 2..flags + 1 + (1 << (byte & 3));
        let width = byte & 35 != 0 && self.drop_with(flags, byte & !3, high);
        end || times || width
    }

    /// Drops bytes and sets the header's flags.
    fn drop_with(&mut self, flags: usize, byte: u8, gone: Range<usize>) -> bool {
        let before = self.best.clone();
        self.best.file[flags] = byte;
        let dropped = self.drop_range(gone);
        if !dropped {
            self.best = before;
        }
        dropped
    }
}

/// An input without some bytes; a header behind them moves with the file, and so does its end.
fn without(mut input: Input, gone: &Range<usize>) -> Input {
    let length = gone.len() as u64;
    let behind = gone.end as u64..=input.file.len() as u64;
    if input.end_of_file == input.file.len() as u64 {
        input.end_of_file -= length;
    }
    if behind.contains(&input.position) {
        input.position -= length;
    }
    input.file.drain(gone.clone());
    input
}

/// A number in the file that counts bytes of it: where the number stands, and what it counts.
#[derive(Clone)]
enum Count {
    /// The size of a chunk or a block.
    Size(Range<usize>, Range<usize>),
    /// The size of an entry's body; the entry begins one byte before.
    Entry(Range<usize>, Range<usize>),
    Address(Range<usize>),
}

impl Count {
    /// Lowers the number where it counts bytes that are dropped.
    fn lower(&self, file: &mut [u8], gone: &Range<usize>) {
        let field = match self {
            Count::Size(field, counted) | Count::Entry(field, counted) => {
                let inside = counted.start <= gone.start && gone.end <= counted.end;
                inside.then_some(field)
            }
            // One that leaves the file, as an undefined one does, counts none of its bytes.
            Count::Address(field) => {
                let behind = gone.end as u64..=file.len() as u64;
                behind.contains(&get(&file[field.clone()])).then_some(field)
            }
        };
        if let Some(field) = field {
            let value = get(&file[field.clone()]).wrapping_sub(gone.len() as u64);
            let bytes = value.to_le_bytes();
            file[field.clone()].copy_from_slice(&bytes[..field.len()]);
        }
    }
}

/// The numbers that count bytes, as far as the mended Rust reads.
fn counts(input: &Input) -> Vec<Count> {
    let Some(field) = input.chunk_size() else {
        return Vec::new();
    };
    let flags = input.file[input.position as usize + 5];
    let prefix = if flags & 4 == 0 { 4 } else { 6 };
    let mut counts = Vec::new();
    counts.extend(input.chunk().map(|chunk| Count::Size(field, chunk)));
    for entry in rust_walk(input).entries {
        let size = entry.body - prefix + 1;
        let length = get(&input.file[size..size + 2]) as usize;
        counts.push(Count::Entry(
            size..size + 2,
            entry.body..entry.body + length,
        ));
        counts.extend(pointers(input, entry));
    }
    counts
}

/// What a continuation or a layout points with.
fn pointers(input: &Input, entry: Entry) -> Vec<Count> {
    let (offsets, lengths) = (input.offset_width.into(), usize::from(input.length_width));
    let field = |at: usize, width: usize| at..at + width;
    let read = |range: Range<usize>| input.file.get(range).map(get);
    match entry.kind {
        CONTINUATION => {
            let (address, length) = (
                field(entry.body, offsets),
                field(entry.body + offsets, lengths),
            );
            let (Some(from), Some(count)) = (read(address.clone()), read(length.clone())) else {
                return Vec::new();
            };
            let block = from as usize..from.saturating_add(count) as usize;
            vec![Count::Address(address), Count::Size(length, block)]
        }
        LAYOUT if read(field(entry.body, 2)) == Some(0x0103) => {
            let address = field(entry.body + 2, offsets);
            read(address.clone())
                .map(|_| Count::Address(address))
                .into_iter()
                .collect()
        }
        _ => Vec::new(),
    }
}
