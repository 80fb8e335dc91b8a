//! Wrong ports for plain files: each changes one thing in the superblock, or in what the root
//! operation wrote.

use sides::address::{Address, all_ones};
use sides::answer::{Elements, SuperBlock};
use sides::closing::super_block;
use sides::plain::{as_version_2, version};
use sides::port::{NUMBER, PlainAnswer, ROW_WORDS};
use sides::rust::published::rust_super_block;
use sides::sum::{Closing, Wrong};

use crate::breakage::{Breakage, Change};
use crate::judge::CHECKSUM;

type Plain = fn(&[u8], &mut PlainAnswer);

pub const fn breakage(name: &'static str, change: Plain) -> Breakage {
    Breakage {
        name,
        change: Change::Plain(change),
    }
}

pub const PLAIN: &[Breakage] = &[
    breakage("offset-width", |_, a| block(a, |b| b.size_of_offsets += 1)),
    breakage("length-width", |_, a| block(a, |b| b.size_of_lengths += 1)),
    breakage("widths-swapped", |_, a| block(a, swap_widths)),
    breakage("base", |_, a| block(a, |b| b.base_address += 1)),
    breakage("extension", |_, a| {
        block(a, |b| extension(b, |x| x.number ^= 1))
    }),
    breakage("extension-dropped", |_, a| {
        block(a, |b| b.superblock_extension_address = None)
    }),
    breakage("extension-and-end-swapped", |_, a| block(a, swap_extension)),
    breakage("end-of-file", |_, a| {
        block(a, |b| b.end_of_file_address ^= 1)
    }),
    breakage("end-of-file-of-7-bytes", |_, a| {
        block(a, |b| b.end_of_file_address &= u64::MAX >> 8)
    }),
    breakage("root", |_, a| {
        block(a, |b| b.root_group_object_header_address ^= 1)
    }),
    breakage("root-and-end-swapped", |_, a| block(a, swap_root)),
    breakage("refused-for-read", |_, a| refuse(a, 3)),
    breakage("26-for-read", |_, a| refuse(a, 26)),
    breakage("2-for-read", |_, a| refuse(a, 2)),
    breakage("2-for-refused", |_, a| {
        a.super_block = a.super_block.clone().map_err(|_| 2)
    }),
    breakage("version-3-refused", version_3_refused),
    breakage("width-read", |_, a| accept(a, 1)),
    breakage("short-read", |_, a| accept(a, 3)),
    breakage("signature-read", |_, a| accept(a, 25)),
    breakage("version-read", |_, a| accept(a, 26)),
    breakage("base-read", |_, a| accept(a, 27)),
    breakage("early-version-as-the-rust", |f, a| as_rust(f, a, 26)),
    breakage("no-checksum-as-the-rust", |f, a| as_rust(f, a, 3)),
    breakage("superblock-sum-untested", |f, a| pass(f, a, |_, _| true)),
    breakage("superblock-sum-untested-in-version-3", |f, a| {
        pass(f, a, |_, file| version(file) == Some(3))
    }),
    breakage("superblock-sum-after-the-signature", |f, a| {
        pass(f, a, |c, f| Wrong::AfterSignature.is_stored(f, c))
    }),
    breakage("superblock-sum-with-the-stored-value", |f, a| {
        pass(f, a, |c, f| Wrong::WithStored.is_stored(f, c))
    }),
    breakage("superblock-sum-without-the-last-byte", |f, a| {
        pass(f, a, |c, f| Wrong::OneShort.is_stored(f, c))
    }),
    breakage("superblock-sum-reversed", |f, a| {
        pass(f, a, |c, f| Wrong::Reversed.is_stored(f, c))
    }),
    breakage("superblock-sum-of-zero", |f, a| {
        pass(f, a, |c, f| Wrong::Zero.is_stored(f, c))
    }),
    breakage("28-for-read", |_, a| refuse(a, CHECKSUM)),
    breakage("28-for-refused-superblock", |_, a| {
        a.super_block = a.super_block.clone().map_err(|_| CHECKSUM)
    }),
    breakage("3-for-28-of-superblock", |_, a| {
        if a.super_block == Err(CHECKSUM) {
            a.super_block = Err(3);
        }
    }),
    breakage("root-number", |_, a| a.root.object.figures.refused ^= 1),
    breakage("root-next", |_, a| a.root.object.figures.next += 1),
    breakage("root-data", |_, a| a.root.object.data_length += 1),
    breakage("root-elements", |_, a| elements(a).number ^= 1),
    breakage("root-elements-too-many", |_, a| elements(a).too_many ^= 1),
    breakage("root-elements-0-where-refused", |_, a| {
        if a.root.object.figures.refused != 0 {
            elements(a).number = 0;
        }
    }),
    breakage("root-elements-0-where-the-superblock-is-refused", |_, a| {
        if a.super_block.is_err() {
            elements(a).number = 0;
        }
    }),
    breakage("root-row", |_, a| a.root.table[3] ^= 1),
    breakage("root-last-word", |_, a| last_word(a)),
    breakage("root-numbers-lost", |_, a| {
        let rows = a.root.table.chunks_exact_mut(ROW_WORDS);
        rows.for_each(|row| row[NUMBER..].fill(0));
    }),
    breakage("root-of-refused", root_of_refused),
];

/// The elements in the record that the root operation wrote.
fn elements(answer: &mut PlainAnswer) -> &mut Elements {
    &mut answer.root.object.records.data_space.elements
}

/// Changes a superblock that is read.
pub fn block(answer: &mut PlainAnswer, change: fn(&mut SuperBlock)) {
    if let Ok(block) = &mut answer.super_block {
        change(block);
    }
}

pub fn refuse(answer: &mut PlainAnswer, number: u64) {
    if answer.super_block.is_ok() {
        answer.super_block = Err(number);
    }
}

/// Reads, as zeros, what is refused with a number.
fn accept(answer: &mut PlainAnswer, number: u64) {
    if answer.super_block == Err(number) {
        answer.super_block = Ok(SuperBlock::default());
    }
}

/// Reads as the Rust does what is refused with a number.
fn as_rust(file: &[u8], answer: &mut PlainAnswer, number: u64) {
    if answer.super_block == Err(number) {
        answer.super_block = rust_super_block(file).ok_or(number);
    }
}

/// Lets some false sums of superblocks pass.
fn pass(file: &[u8], answer: &mut PlainAnswer, passes: fn(&Closing, &[u8]) -> bool) {
    let passed = |closing: Closing| passes(&closing, file);
    if answer.super_block == Err(CHECKSUM) && super_block(file).is_some_and(passed) {
        answer.super_block = rust_super_block(&as_version_2(file)).ok_or(CHECKSUM);
    }
}

fn version_3_refused(file: &[u8], answer: &mut PlainAnswer) {
    if version(file) == Some(3) {
        refuse(answer, 26);
    }
}

pub fn extension(block: &mut SuperBlock, change: impl Fn(&mut Address)) {
    if let Some(address) = &mut block.superblock_extension_address {
        change(address);
    }
}

fn swap_widths(block: &mut SuperBlock) {
    std::mem::swap(&mut block.size_of_offsets, &mut block.size_of_lengths);
}

fn swap_extension(block: &mut SuperBlock) {
    let end = block.end_of_file_address;
    let number = |address: Address| match address.undefined {
        0 => address.number,
        _ => all_ones(block.size_of_offsets as u8),
    };
    block.end_of_file_address = block.superblock_extension_address.map_or(0, number);
    extension(block, |address| {
        *address = Address {
            undefined: 0,
            number: end,
        }
    });
}

fn swap_root(block: &mut SuperBlock) {
    std::mem::swap(
        &mut block.end_of_file_address,
        &mut block.root_group_object_header_address,
    );
}

fn last_word(answer: &mut PlainAnswer) {
    if let Some(word) = answer.root.table.last_mut() {
        *word += 1;
    }
}

/// Leaves something in the table where the superblock is refused.
fn root_of_refused(_: &[u8], answer: &mut PlainAnswer) {
    if answer.super_block.is_err() {
        answer.root.table[0] = 1;
    }
}
