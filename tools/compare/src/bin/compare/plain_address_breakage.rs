//! Wrong ports that take undefined addresses of superblocks for numbers, numbers for undefined
//! addresses, or refuse with another number or elsewhere.

use sides::address::{Address, Place};
use sides::answer::SuperBlock;
use sides::closing::super_block;
use sides::plain::{VERSION, address, as_version_2, seen};
use sides::port::PlainAnswer;
use sides::rust::published::rust_super_block;

use crate::address_breakage::{
    Reads, as_8_bytes, at_width_8, by_lengths, never, one_below, stored, with_number,
};
use crate::breakage::Breakage;
use crate::judge::CHECKSUM;
use crate::plain_breakage::{block, breakage, extension, refuse};

pub const PLAIN_ADDRESSES: &[Breakage] = &[
    breakage("extension-undefined-never", |_, a| {
        block(a, |b| of_extension(b, never))
    }),
    breakage("extension-undefined-as-8-bytes", |_, a| {
        block(a, |b| of_extension(b, as_8_bytes))
    }),
    breakage("extension-undefined-at-width-8-only", |_, a| {
        block(a, |b| of_extension(b, at_width_8))
    }),
    breakage("extension-undefined-by-the-length-width", |_, a| {
        block(a, |b| of_extension(b, by_lengths))
    }),
    breakage("extension-undefined-one-below", |_, a| {
        block(a, |b| of_extension(b, one_below))
    }),
    breakage("extension-undefined-with-its-number", |_, a| {
        block(a, |b| of_extension(b, with_number))
    }),
    breakage("extension-words-swapped", |_, a| {
        block(a, |b| {
            extension(b, |x| std::mem::swap(&mut x.undefined, &mut x.number))
        })
    }),
    breakage("extension-case-at-end-of-file", |_, a| {
        block(a, case_at_end)
    }),
    breakage("extension-case-lost-words-moved", |_, a| block(a, moved)),
    breakage("undefined-extension-refused", |_, a| {
        if is_undefined(a) {
            refuse(a, 3);
        }
    }),
    breakage("undefined-end-of-file-read", |f, a| {
        as_rust(f, a, Place::EndOfFile)
    }),
    breakage("undefined-root-followed", |f, a| as_rust(f, a, Place::Root)),
    breakage("28-for-undefined-end-of-file", |f, a| {
        instead(f, a, Place::EndOfFile, CHECKSUM)
    }),
    breakage("28-for-undefined-root", |f, a| {
        instead(f, a, Place::Root, CHECKSUM)
    }),
    breakage("28-before-3", sum_first),
    breakage("27-for-undefined-end-of-file", |f, a| {
        instead(f, a, Place::EndOfFile, 27)
    }),
    breakage("4-for-undefined-root", |f, a| instead(f, a, Place::Root, 4)),
    breakage("3-for-undefined-base", |f, a| {
        if a.super_block == Err(27) && base_is_undefined(f) {
            a.super_block = Err(3);
        }
    }),
    breakage("3-for-one-below-at-end-of-file", |f, a| {
        refuse_one_below(f, a, Place::EndOfFile)
    }),
    breakage("3-for-one-below-at-root", |f, a| {
        refuse_one_below(f, a, Place::Root)
    }),
    breakage("root-layout-present", |_, a| {
        a.root.object.records.layout_address.present ^= 1
    }),
    breakage("root-layout-undefined", |_, a| {
        a.root.object.records.layout_address.address.undefined ^= 1
    }),
];

fn of_extension(block: &mut SuperBlock, reads: Reads) {
    let (offsets, lengths) = (block.size_of_offsets as u8, block.size_of_lengths as u8);
    extension(block, |address| {
        *address = reads(stored(*address, offsets), offsets, lengths);
    });
}

fn is_undefined(answer: &PlainAnswer) -> bool {
    let block = answer.super_block.as_ref();
    block.is_ok_and(|block| block.superblock_extension_address == Some(Address::UNDEFINED))
}

/// The extension's case where the end-of-file address belongs.
fn case_at_end(block: &mut SuperBlock) {
    if let Some(address) = block.superblock_extension_address {
        block.end_of_file_address = address.undefined;
    }
}

/// The seven words of a superblock without the extension's case, read as eight.
fn moved(block: &mut SuperBlock) {
    let offsets = block.size_of_offsets as u8;
    let (end, root) = (
        block.end_of_file_address,
        block.root_group_object_header_address,
    );
    extension(block, |address| {
        *address = Address {
            undefined: stored(*address, offsets),
            number: end,
        };
    });
    block.end_of_file_address = root;
    block.root_group_object_header_address = 0;
}

/// Whether a superblock that is refused with 3 is so for an undefined address at a place.
fn is_refused_for(file: &[u8], answer: &PlainAnswer, place: Place) -> bool {
    let Some(block) = rust_super_block(&as_version_2(file)) else {
        return false;
    };
    let addresses = seen(file, block.size_of_offsets);
    let mut undefined = addresses.iter().filter(|seen| seen.is_undefined());
    answer.super_block == Err(3) && undefined.any(|seen| seen.place == place)
}

/// Reads as the Rust does what is refused for an undefined address.
fn as_rust(file: &[u8], answer: &mut PlainAnswer, place: Place) {
    if is_refused_for(file, answer, place) {
        answer.super_block = rust_super_block(&as_version_2(file)).ok_or(3);
    }
}

/// Another number where a superblock is refused for an undefined address.
fn instead(file: &[u8], answer: &mut PlainAnswer, place: Place, number: u64) {
    if is_refused_for(file, answer, place) {
        answer.super_block = Err(number);
    }
}

/// The sum tested before the addresses.
fn sum_first(file: &[u8], answer: &mut PlainAnswer) {
    let is_false = super_block(file).is_some_and(|closing| !closing.holds(file));
    let refused = [Place::EndOfFile, Place::Root]
        .into_iter()
        .any(|place| is_refused_for(file, answer, place));
    if is_false && refused {
        answer.super_block = Err(CHECKSUM);
    }
}

fn base_is_undefined(file: &[u8]) -> bool {
    let width = file[VERSION + 1].into();
    let base = file.get(address(0, width)..address(1, width));
    base.is_some_and(|base| base.iter().all(|byte| *byte == 255))
}

fn refuse_one_below(file: &[u8], answer: &mut PlainAnswer, place: Place) {
    let Ok(block) = &answer.super_block else {
        return;
    };
    let addresses = seen(file, block.size_of_offsets);
    let mut others = addresses.iter().filter(|seen| !seen.is_undefined());
    if others.any(|seen| seen.place == place) {
        refuse(answer, 3);
    }
}
