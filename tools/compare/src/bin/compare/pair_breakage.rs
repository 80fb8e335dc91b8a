//! Wrong ports whose check is not the filling's, or whose filling is turned back by other tables.

use sides::input::Input;
use sides::pair::{ALL_ROWS, Figures, Filling, LISTED_ROWS, Pair, TABLE_TOO_SMALL};
use sides::rust::{self, mended};

use crate::breakage::{Breakage, Change};
use crate::judge::{CHECKSUM, figures};

pub const TOO_SMALL: Figures = Figures {
    refused: TABLE_TOO_SMALL,
    next: 0,
    entries: 0,
    rows: 0,
};

const fn breakage(name: &'static str, change: fn(&Input, &mut Pair)) -> Breakage {
    Breakage {
        name,
        change: Change::Pair(change),
    }
}

pub const PAIRS: &[Breakage] = &[
    breakage("check-with-512-rows", |_, p| {
        if *p.least().start() > LISTED_ROWS {
            p.check = TOO_SMALL;
        }
    }),
    breakage("check-of-rows-up-to-512", |_, p| {
        p.check.rows = p.check.rows.min(LISTED_ROWS as u64);
    }),
    breakage("check-passes-behind-512-rows", |_, p| {
        if *p.least().start() > LISTED_ROWS && p.check.refused == 8 {
            p.check = Figures::default();
        }
    }),
    breakage("check-of-4095-entries", |_, p| {
        if p.check.entries == ALL_ROWS as u64 {
            p.check = Figures::refused(23);
        }
    }),
    breakage("check-with-continuations-as-rows", |_, p| {
        p.check.rows = p.check.entries;
    }),
    breakage("check-of-entries-without-continuations", |_, p| {
        p.check.entries = p.check.rows;
    }),
    breakage("check-of-rows-and-entries-swapped", |_, p| {
        std::mem::swap(&mut p.check.rows, &mut p.check.entries);
    }),
    breakage("check-next", |_, p| {
        p.check.next += u64::from(p.check.refused == 0);
    }),
    breakage("check-next-at-the-stored-sum", |i, p| {
        if let Some(chunk) = i.chunk().filter(|_| p.check.refused == 0) {
            p.check.next = chunk.end as u64 + 4;
        }
    }),
    breakage("check-24-for-refused", |_, p| {
        if p.check.refused != 0 {
            p.check = TOO_SMALL;
        }
    }),
    breakage("check-3-for-8", |_, p| {
        if p.check.refused == 8 {
            p.check.refused = 3;
        }
    }),
    breakage("check-passes-for-refused", |_, p| {
        if p.check.refused == 8 {
            p.check = Figures::default();
        }
    }),
    breakage("check-words-where-refused", |_, p| {
        p.check.entries |= u64::from(p.check.refused != 0);
    }),
    breakage("check-without-sums", check_without_sums),
    breakage("next-of-both", |_, p| {
        both(p, |f| f.next += u64::from(f.refused == 0));
    }),
    breakage("entries-of-both", |_, p| both(p, |f| f.entries = f.rows)),
    breakage("3-for-28-in-both", |_, p| {
        both(p, |f| {
            f.refused = if f.refused == CHECKSUM { 3 } else { f.refused }
        });
    }),
    breakage("24-for-a-table-that-just-fits", |_, p| {
        just_fitting(p, |f, _| f.figures = TOO_SMALL);
    }),
    breakage("a-row-too-few-passes", |_, p| {
        if let Some(rows) = p.check.rows.checked_sub(1) {
            at(p, rows as usize, |f, check| f.figures = check);
        }
    }),
    breakage("no-rows-pass", |_, p| {
        if p.check.refused == 0 {
            at(p, 0, |f, check| f.figures = check);
        }
    }),
    breakage("checked-before-it-is-filled", |_, p| {
        let check = p.check;
        let refused = p.fillings.iter_mut().filter(|_| check.refused != 0);
        refused.for_each(|filling| filling.figures = check);
    }),
    breakage("a-row-for-the-refused-entry", |_, p| {
        if let Some(rows) = p.least_known().filter(|_| p.check.refused != 0) {
            at(p, rows, |f, _| f.figures = TOO_SMALL);
        }
    }),
    breakage("no-row-for-the-last-message", |_, p| {
        let least = p.least_known().filter(|_| p.check.refused != 0);
        if let Some(rows) = least.and_then(|rows| rows.checked_sub(1)) {
            at(p, rows, |f, check| f.figures = check);
        }
    }),
    breakage("24-with-all-rows", |_, p| {
        if p.check.refused != 0 {
            at(p, ALL_ROWS, |f, _| f.figures = TOO_SMALL);
        }
    }),
    breakage("other-words-where-it-just-fits", |_, p| {
        just_fitting(p, |f, _| f.alike = false);
    }),
];

/// Changes the filling with so many rows lent, where it was made; the check is given too.
fn at(pair: &mut Pair, lent: usize, change: fn(&mut Filling, Figures)) {
    let check = pair.check;
    let mut fillings = pair.fillings.iter_mut();
    if let Some(filling) = fillings.find(|filling| filling.lent == lent) {
        change(filling, check);
    }
}

/// Changes the filling with as many rows as the check has, where that passes.
pub fn just_fitting(pair: &mut Pair, change: fn(&mut Filling, Figures)) {
    if pair.check.refused == 0 {
        at(pair, pair.check.rows as usize, change);
    }
}

/// Changes the check and the fillings alike.
fn both(pair: &mut Pair, change: fn(&mut Figures)) {
    change(&mut pair.check);
    let fillings = pair.fillings.iter_mut();
    fillings.for_each(|filling| change(&mut filling.figures));
}

/// A check that tests no sum.
fn check_without_sums(input: &Input, pair: &mut Pair) {
    if pair.check.refused != CHECKSUM {
        return;
    }
    if let rust::Outcome::Read(header) = mended::rust_answer(input).outcome {
        pair.check = figures(&header);
    }
}
