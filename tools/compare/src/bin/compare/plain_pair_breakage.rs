//! Wrong ports for plain files whose root's check is of something else, or whose listing is made of the
//! filling alone.

use sides::answer::SuperBlock;
use sides::listing::{self, lines, refused};
use sides::pair::{Figures, LISTED_ROWS, TABLE_TOO_SMALL};
use sides::plain::as_version_2;
use sides::port::{NUMBER, PART, PlainAnswer, ROW_WORDS, check};
use sides::rust::published::rust_super_block;

use crate::breakage::Breakage;
use crate::judge::CHECKSUM;
use crate::pair_breakage::{TOO_SMALL, just_fitting};
use crate::plain_breakage::breakage;

pub const PLAIN_PAIRS: &[Breakage] = &[
    breakage("root-check-with-widths-swapped", |f, a| {
        check_of(f, a, |b| {
            std::mem::swap(&mut b.size_of_offsets, &mut b.size_of_lengths)
        })
    }),
    breakage("root-check-with-offsets-of-8-bytes", |f, a| {
        check_of(f, a, |b| b.size_of_offsets = 8)
    }),
    breakage("root-check-with-lengths-of-8-bytes", |f, a| {
        check_of(f, a, |b| b.size_of_lengths = 8)
    }),
    breakage("root-check-at-the-end-of-file", |f, a| {
        check_of(f, a, |b| {
            b.root_group_object_header_address = b.end_of_file_address
        })
    }),
    breakage("root-check-with-the-root-for-the-end-of-file", |f, a| {
        check_of(f, a, |b| {
            b.end_of_file_address = b.root_group_object_header_address
        })
    }),
    breakage("root-check-without-the-superblock-sum", |f, a| {
        let block = rust_super_block(&as_version_2(f));
        if let Some(block) = block.filter(|_| a.super_block == Err(CHECKSUM)) {
            a.pair.check = check(&block.input(f));
        }
    }),
    breakage("root-check-words-where-refused", |_, a| {
        a.pair.check.next |= u64::from(a.super_block.is_err());
    }),
    breakage("root-check-3-for-a-refused-superblock", |_, a| {
        if a.super_block.is_err() {
            a.pair.check = Figures::refused(3);
        }
    }),
    breakage("root-check-with-512-rows", |_, a| {
        if *a.pair.least().start() > LISTED_ROWS {
            a.pair.check = TOO_SMALL;
        }
    }),
    breakage("root-24-for-a-table-that-just-fits", |_, a| {
        just_fitting(&mut a.pair, |f, _| f.figures = TOO_SMALL);
    }),
    breakage("listing-fills-only", |_, a| {
        if *a.pair.least().start() > LISTED_ROWS {
            a.listing = refused(TABLE_TOO_SMALL);
        }
    }),
    breakage("listing-of-more-than-512-rows", |_, a| {
        if a.pair.check.refused == 0 {
            a.listing = lines(&a.root);
        }
    }),
    breakage("listing-checks-only", |_, a| {
        if *a.pair.least().start() > LISTED_ROWS && a.pair.check.refused == 0 {
            a.listing.clear();
        }
    }),
    breakage("listing-of-511-rows", |_, a| {
        if a.pair.check.rows == LISTED_ROWS as u64 {
            a.listing = refused(TABLE_TOO_SMALL);
        }
    }),
    breakage("listing-of-refused", |_, a| {
        if a.pair.check.refused != 0 {
            a.listing = lines(&a.root);
        }
    }),
    breakage("listing-of-numbers", |_, a| {
        if listing::number(&a.listing) == 0 {
            let mut root = a.root.clone();
            let rows = root.table.chunks_exact_mut(ROW_WORDS);
            rows.for_each(|row| row[PART] |= row[NUMBER].min(1));
            a.listing = lines(&root);
        }
    }),
    breakage("listing-24-for-refused", |_, a| {
        if a.pair.check.refused != 0 {
            a.listing = refused(TABLE_TOO_SMALL);
        }
    }),
];

/// The root's check with a superblock that is changed.
fn check_of(file: &[u8], answer: &mut PlainAnswer, change: fn(&mut SuperBlock)) {
    if let Ok(block) = &answer.super_block {
        let mut block = block.clone();
        change(&mut block);
        answer.pair.check = check(&block.input(file));
    }
}
