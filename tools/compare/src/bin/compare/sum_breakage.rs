//! Wrong ports that test no sum, or another one, or elsewhere.

use sides::closing::{Summed, block, header, reached};
use sides::input::Input;
use sides::port::Outcome;
use sides::rust::mended::rust_answer;
use sides::rust::{self, CONTINUATION};
use sides::sum::{Closing, Of, STEP, Wrong};

use crate::breakage::{Breakage, Change, refuse_with};
use crate::judge::CHECKSUM;

type Given = fn(&Input, Outcome) -> Outcome;

const fn breakage(name: &'static str, change: Given) -> Breakage {
    Breakage {
        name,
        change: Change::Given(change),
    }
}

pub const SUMS: &[Breakage] = &[
    breakage("sums-untested", |i, o| pass(i, o, |_, _| true)),
    breakage("header-sum-untested", |i, o| {
        pass(i, o, |c, _| c.of == Of::Header)
    }),
    breakage("block-sums-untested", |i, o| {
        pass(i, o, |c, _| c.of == Of::Block)
    }),
    breakage("sum-of-3-bytes", |i, o| {
        pass(i, o, |c, f| differ(c, f) >> 24 == 0)
    }),
    breakage("sum-without-its-first-byte", |i, o| {
        pass(i, o, |c, f| differ(c, f) & 255 == 0)
    }),
    breakage("sum-after-the-signature", |i, o| {
        pass(i, o, |c, f| Wrong::AfterSignature.is_stored(f, c))
    }),
    breakage("sum-of-the-chunk", |i, o| {
        pass(i, o, |c, f| Wrong::ChunkAlone.is_stored(f, c))
    }),
    breakage("sum-with-the-stored-value", |i, o| {
        pass(i, o, |c, f| Wrong::WithStored.is_stored(f, c))
    }),
    breakage("sum-without-the-last-byte", |i, o| {
        pass(i, o, |c, f| Wrong::OneShort.is_stored(f, c))
    }),
    breakage("sum-reversed", |i, o| {
        pass(i, o, |c, f| Wrong::Reversed.is_stored(f, c))
    }),
    breakage("sum-of-zero", |i, o| {
        pass(i, o, |c, f| Wrong::Zero.is_stored(f, c))
    }),
    breakage("28-for-accepted", |_, o| refuse_with(o, CHECKSUM)),
    breakage("28-for-refused", |_, o| renumber(o, |_| CHECKSUM)),
    breakage("3-for-28", |_, o| {
        renumber(o, |number| if number == CHECKSUM { 3 } else { number })
    }),
    breakage("sum-of-whole-steps", |i, o| {
        lose(i, o, |c, _| (c.end - c.from) % STEP == 0)
    }),
    breakage("sum-stored-behind-the-entries", |i, o| {
        lose(i, o, |c, next| {
            c.of == Of::Header && c.end as u64 + 4 < next
        })
    }),
    breakage("block-sums-tested-last", tested_last),
    breakage("block-sums-tested-first", blocks_tested_first),
    breakage("header-sum-tested-first", header_tested_first),
];

/// A port that lets some false sums pass.
fn pass(input: &Input, outcome: Outcome, passes: fn(&Closing, &[u8]) -> bool) -> Outcome {
    if !matches!(outcome, Outcome::Refused(CHECKSUM)) {
        return outcome;
    }
    let answer = rust_answer(input);
    let file = &input.file;
    let mut closings = reached(input, &answer).into_iter();
    let passed = closings.all(|closing| closing.holds(file) || passes(&closing, file));
    match answer.outcome {
        rust::Outcome::Read(header) if passed => Outcome::Read(header),
        rust::Outcome::Refused if passed => Outcome::Refused(3),
        _ => outcome,
    }
}

/// A port that finds some true sums false, of a closing and the next position of the header.
fn lose(input: &Input, outcome: Outcome, loses: fn(&Closing, u64) -> bool) -> Outcome {
    let Outcome::Read(header) = &outcome else {
        return outcome;
    };
    let mut closings = input.closings().into_iter();
    let lost = closings.any(|closing| loses(&closing, header.next));
    first(outcome, lost)
}

/// The bits in which a stored value is not the sum.
fn differ(closing: &Closing, file: &[u8]) -> u32 {
    let value = |value: Option<u32>| value.expect("a closing that was reached");
    value(closing.stored(file)) ^ value(closing.sum(file))
}

fn renumber(outcome: Outcome, number: fn(u64) -> u64) -> Outcome {
    match outcome {
        Outcome::Refused(refused) => Outcome::Refused(number(refused)),
        read => read,
    }
}

/// A port that reads on behind a block before it tests its sum.
fn tested_last(input: &Input, outcome: Outcome) -> Outcome {
    match (&outcome, rust_answer(input).outcome) {
        (Outcome::Refused(CHECKSUM), rust::Outcome::Refused) => Outcome::Refused(3),
        _ => outcome,
    }
}

/// A port that tests a block's sum before it reads its entries.
fn blocks_tested_first(input: &Input, outcome: Outcome) -> Outcome {
    let entries = rust_answer(input).entries;
    let opened = entries.iter().filter(|entry| entry.kind == CONTINUATION);
    let mut closings = opened.filter_map(|entry| block(input, entry, 0));
    first(
        outcome,
        closings.any(|closing| has_false_sum(&closing, input)),
    )
}

/// A port that tests the header's sum before it reads its entries.
fn header_tested_first(input: &Input, outcome: Outcome) -> Outcome {
    let closing = header(input, 0);
    first(
        outcome,
        closing.is_some_and(|closing| has_false_sum(&closing, input)),
    )
}

fn has_false_sum(closing: &Closing, input: &Input) -> bool {
    closing.stored(&input.file).is_some() && !closing.holds(&input.file)
}

fn first(outcome: Outcome, found: bool) -> Outcome {
    match found {
        true => Outcome::Refused(CHECKSUM),
        false => outcome,
    }
}
