//! Wrong ports: each changes one thing in the port's answer, where it is there. The comparison must
//! find every one of them.

use sides::address::OptionalAddress;
use sides::answer::{Format, Header, Optional, Row};
use sides::input::Input;
use sides::pair::Pair;
use sides::port::{Outcome, PlainAnswer};
use sides::rust::{self, published};

use crate::address_breakage::ADDRESSES;
use crate::elements_breakage::ELEMENTS;
use crate::null_breakage::NULLS;
use crate::number_breakage::NUMBERS;
use crate::pair_breakage::PAIRS;
use crate::plain_address_breakage::PLAIN_ADDRESSES;
use crate::plain_breakage::PLAIN;
use crate::plain_pair_breakage::PLAIN_PAIRS;
use crate::sum_breakage::SUMS;

pub struct Breakage {
    pub name: &'static str,
    pub change: Change,
}

pub enum Change {
    /// Of a header's answer, by hand or from the root.
    Header(fn(Outcome) -> Outcome),
    /// Of the same, where the input is given too.
    Given(fn(&Input, Outcome) -> Outcome),
    /// Of the check and the fillings of a header, where the input is given too.
    Pair(fn(&Input, &mut Pair)),
    /// Of the answers for a plain file, which is given too.
    Plain(fn(&[u8], &mut PlainAnswer)),
}

const fn breakage(name: &'static str, change: fn(Outcome) -> Outcome) -> Breakage {
    Breakage {
        name,
        change: Change::Header(change),
    }
}

const HEADER: &[Breakage] = &[
    breakage("next", |o| header(o, |h| h.next += 1)),
    breakage("entries", |o| header(o, |h| h.entries += 1)),
    breakage("entries-of-many-blocks", |o| header(o, few_blocks)),
    breakage("row-order", |o| header(o, row_order)),
    breakage("row-dropped", |o| header(o, |h| drop(h.rows.pop()))),
    breakage("flags", |o| rows(o, |row| row.flags &= 1)),
    breakage("size", |o| rows(o, |row| row.size &= 0xff)),
    breakage("body", |o| rows(o, |row| row.body ^= 1)),
    breakage("unknown-type", |o| rows(o, unknown_type)),
    breakage("name", |o| rows(o, |row| shorten(&mut row.name, 1))),
    breakage("longest-name", |o| {
        rows(o, |row| shorten(&mut row.name, 4096))
    }),
    breakage("value", |o| rows(o, |row| shorten(&mut row.part, 60))),
    breakage("value-empty", |o| rows(o, value_empty)),
    breakage("data", |o| header(o, |h| h.data.truncate(7))),
    breakage("data-of-first-layout", |o| header(o, first_data)),
    breakage("kind", |o| {
        header(o, |h| h.records.data_space.kind = Some(0u64).into())
    }),
    breakage("fourth-size", |o| {
        header(o, |h| h.records.data_space.sizes.sizes[3] = 0)
    }),
    breakage("size-at-its-limit", |o| header(o, size_limit)),
    breakage("maximum-of-all-ones", |o| header(o, all_ones)),
    breakage("class-bits", |o| {
        header(o, |h| h.records.data_type.class_bit_field &= 0xffff)
    }),
    breakage("list-size", |o| {
        header(o, |h| h.records.data_type.list_size = absent())
    }),
    breakage("list-format", |o| header(o, list_format)),
    breakage("bias", |o| header(o, bias)),
    breakage("link-order", |o| {
        header(o, |h| {
            h.records.link_info.address_btree_order = OptionalAddress::default()
        })
    }),
    breakage("link-index", |o| header(o, link_index)),
    breakage("group-length", |o| {
        header(o, |h| h.records.group_info.length_of_entries = absent())
    }),
    breakage("attribute-index", |o| {
        header(o, |h| {
            h.records.attribute_info.maximum_creation_index &= 0xff
        })
    }),
    breakage("blocks-of-24-levels", |o| {
        refuse(o, |h| h.entries >= h.rows.len() as u64 + 25)
    }),
    breakage("type-of-size-63", |o| {
        refuse(o, |h| h.records.data_type.size == 63)
    }),
    breakage("refusal-of-ranges", |o| accept(o, 19)),
    breakage("refusal-of-levels", |o| accept(o, 21)),
    breakage("always-outside", |o| refuse_with(o, 14)),
    breakage("entries-outside", |o| refuse_with(o, 23)),
    Breakage {
        name: "as-the-published-rust",
        change: Change::Given(as_published),
    },
];

/// All that are of headers.
pub fn of_headers() -> impl Iterator<Item = &'static Breakage> {
    let headers = HEADER.iter().chain(SUMS).chain(ADDRESSES);
    let spaces = ELEMENTS.iter().chain(NULLS);
    headers.chain(NUMBERS).chain(spaces).chain(PAIRS)
}

/// All that are of plain files.
pub fn of_plain() -> impl Iterator<Item = &'static Breakage> {
    PLAIN.iter().chain(PLAIN_ADDRESSES).chain(PLAIN_PAIRS)
}

pub fn named(name: &str) -> Result<&'static Breakage, String> {
    let all = || of_headers().chain(of_plain());
    let names = || all().map(|b| b.name).collect::<Vec<_>>().join(", ");
    let found = all().find(|breakage| breakage.name == name);
    found.ok_or_else(|| format!("{name} is none of {}", names()))
}

impl Breakage {
    pub fn break_header(&self, input: &Input, outcome: Outcome) -> Outcome {
        match self.change {
            Change::Header(change) => change(outcome),
            Change::Given(change) => change(input, outcome),
            Change::Pair(_) | Change::Plain(_) => outcome,
        }
    }

    pub fn break_pair(&self, input: &Input, pair: &mut Pair) {
        if let Change::Pair(change) = self.change {
            change(input, pair);
        }
    }

    pub fn break_plain(&self, file: &[u8], answer: &mut PlainAnswer) {
        if let Change::Plain(change) = self.change {
            change(file, answer);
        }
    }
}

/// Changes an accepted header.
pub fn header(outcome: Outcome, change: impl Fn(&mut Header)) -> Outcome {
    match outcome {
        Outcome::Read(mut header) => {
            change(&mut header);
            Outcome::Read(header)
        }
        refused => refused,
    }
}

/// Changes every row of an accepted header.
fn rows(outcome: Outcome, change: fn(&mut Row)) -> Outcome {
    match outcome {
        Outcome::Read(mut header) => {
            header.rows.iter_mut().for_each(change);
            Outcome::Read(header)
        }
        refused => refused,
    }
}

/// Refuses some of the accepted headers.
fn refuse(outcome: Outcome, which: fn(&Header) -> bool) -> Outcome {
    match outcome {
        Outcome::Read(header) if which(&header) => Outcome::Refused(3),
        other => other,
    }
}

/// Refuses accepted headers with a number.
pub fn refuse_with(outcome: Outcome, number: u64) -> Outcome {
    match outcome {
        Outcome::Read(_) => Outcome::Refused(number),
        refused => refused,
    }
}

/// Accepts, as an empty header, what is refused with a number.
fn accept(outcome: Outcome, number: u64) -> Outcome {
    match outcome {
        Outcome::Refused(refused) if refused == number => Outcome::Read(Box::default()),
        other => other,
    }
}

/// What the published Rust answers: a port that pads as it does.
fn as_published(input: &Input, outcome: Outcome) -> Outcome {
    match (published::rust_answer(input).outcome, outcome) {
        (rust::Outcome::Read(header), _) => Outcome::Read(header),
        (rust::Outcome::Refused, Outcome::Read(_)) => Outcome::Refused(11),
        (_, outcome) => outcome,
    }
}

fn absent() -> Optional {
    Optional::default()
}

fn few_blocks(header: &mut Header) {
    header.entries = header.entries.min(header.rows.len() as u64 + 8);
}

/// Rows by their place in the file and not by the reading's order.
fn row_order(header: &mut Header) {
    header.rows.sort_by_key(|row| row.body);
}

fn unknown_type(row: &mut Row) {
    if row.kind > 21 {
        row.kind = 0;
    }
}

/// Drops the last byte of a text of some length or more.
fn shorten(text: &mut Option<Vec<u8>>, length: usize) {
    if let Some(text) = text.as_mut().filter(|text| text.len() >= length) {
        text.pop();
    }
}

fn value_empty(row: &mut Row) {
    if row.kind == 12 && row.part.as_ref().is_some_and(Vec::is_empty) {
        row.part = None;
    }
}

fn first_data(header: &mut Header) {
    let layout = header.rows.iter().find(|row| row.kind == 8);
    header.data = layout.and_then(|row| row.part.clone()).unwrap_or_default();
}

fn size_limit(header: &mut Header) {
    for size in &mut header.records.data_space.sizes.sizes {
        *size = (*size).min(999_999);
    }
}

fn all_ones(header: &mut Header) {
    for maximum in &mut header.records.data_space.maxima.sizes {
        if *maximum == u64::MAX >> 8 {
            *maximum = u64::MAX;
        }
    }
}

fn list_format(header: &mut Header) {
    let data_type = &mut header.records.data_type;
    if data_type.list_size != absent() {
        data_type.format = Format::default();
    }
}

fn bias(header: &mut Header) {
    let bias = &mut header.records.data_type.format.exponent_bias;
    *bias = (*bias).min(127);
}

fn link_index(header: &mut Header) {
    header.records.link_info.maximum_creation_index.value &= 0xffff_ffff;
}
