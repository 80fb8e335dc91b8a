//! Wrong ports whose record of the dataspace has other elements.

use sides::answer::{DataSpace, Elements};
use sides::input::Input;
use sides::port::Outcome;
use sides::scan::{self, DATA_SPACE};

use crate::breakage::{Breakage, Change, header};

/// The first that are too many.
const TOO_MANY: u128 = 1 << 64;

const fn breakage(name: &'static str, change: fn(Outcome) -> Outcome) -> Breakage {
    Breakage {
        name,
        change: Change::Header(change),
    }
}

pub const ELEMENTS: &[Breakage] = &[
    breakage("elements-one-more", |o| {
        numbers(o, |_, number| number.wrapping_add(1).into())
    }),
    breakage("elements-one-less", |o| {
        numbers(o, |_, number| number.wrapping_sub(1).into())
    }),
    breakage("elements-of-32-bits", |o| {
        numbers(o, |_, number| (number & 0xffff_ffff).into())
    }),
    breakage("elements-too-many-for-a-number", |o| too_many_from(o, 2)),
    breakage("elements-too-many-from-2^32", |o| too_many_from(o, 1 << 32)),
    breakage("elements-too-many-from-2^63", |o| too_many_from(o, 1 << 63)),
    breakage("elements-too-many-as-a-number", |o| {
        too_many(o, |_| number(u64::MAX))
    }),
    breakage("elements-wrapped", |o| too_many(o, |s| number(wrapped(s)))),
    breakage("elements-of-2^64-as-a-number", |o| {
        too_many(o, |s| match s.sizes.product() {
            TOO_MANY => number(0),
            _ => Elements::TOO_MANY,
        })
    }),
    breakage("elements-too-many-with-a-number", |o| {
        too_many(o, |s| Elements {
            number: 1 + wrapped(s),
            ..Elements::TOO_MANY
        })
    }),
    breakage("elements-words-swapped", |o| {
        space(o, |s| {
            std::mem::swap(&mut s.elements.too_many, &mut s.elements.number)
        })
    }),
    breakage("elements-lost", |o| space(o, |s| s.elements = number(0))),
    breakage("elements-of-maximum-sizes", |o| {
        space(o, |s| {
            if s.maxima.count > 0 {
                s.elements = Elements::exactly(s.maxima.product());
            }
        })
    }),
    breakage("elements-of-the-sizes-above-0", |o| {
        numbers(o, |s, _| {
            let sizes = s.sizes.sizes.iter().filter(|size| **size > 0);
            sizes.copied().map(u128::from).product()
        })
    }),
    breakage("elements-without-the-last-size", |o| {
        space(o, |s| {
            let mut sizes = s.sizes.clone();
            sizes.count = sizes.count.saturating_sub(1);
            s.elements = Elements::exactly(sizes.product());
        })
    }),
    breakage("elements-0-without-sizes", |o| {
        numbers(o, |s, number| match s.sizes.count {
            0 => 0,
            _ => number.into(),
        })
    }),
    breakage("elements-0-without-a-message", |o| {
        header(o, |h| {
            let mut rows = h.rows.iter();
            if rows.all(|row| row.kind != u64::from(DATA_SPACE)) {
                h.records.data_space.elements = number(0);
            }
        })
    }),
    Breakage {
        name: "elements-of-the-first-message",
        change: Change::Given(first_message),
    },
    Breakage {
        name: "elements-of-an-attribute",
        change: Change::Given(attribute),
    },
];

/// Changes the record of an accepted header.
pub fn space(outcome: Outcome, change: impl Fn(&mut DataSpace)) -> Outcome {
    header(outcome, |header| change(&mut header.records.data_space))
}

/// Changes the elements that are a number.
fn numbers(outcome: Outcome, change: impl Fn(&DataSpace, u64) -> u128) -> Outcome {
    space(outcome, |space| {
        if space.elements.too_many == 0 {
            space.elements = Elements::exactly(change(space, space.elements.number));
        }
    })
}

/// Takes numbers from one on for too many.
fn too_many_from(outcome: Outcome, first: u64) -> Outcome {
    numbers(outcome, |_, number| match number >= first {
        true => TOO_MANY,
        false => number.into(),
    })
}

/// Changes the elements that are too many.
fn too_many(outcome: Outcome, change: fn(&DataSpace) -> Elements) -> Outcome {
    space(outcome, |space| {
        if space.elements == Elements::TOO_MANY {
            space.elements = change(space);
        }
    })
}

fn number(number: u64) -> Elements {
    Elements {
        too_many: 0,
        number,
    }
}

/// The product of the sizes in 64 bits.
fn wrapped(space: &DataSpace) -> u64 {
    space.sizes.product() as u64
}

/// The elements of the first dataspace message, where a later one wins.
fn first_message(input: &Input, outcome: Outcome) -> Outcome {
    header(outcome, |header| {
        let mut rows = header.rows.iter();
        let first = rows.find(|row| row.kind == u64::from(DATA_SPACE));
        let first = first.and_then(|row| scan::data_space(input, row.body as usize));
        if let Some(first) = first {
            header.records.data_space.elements = Elements::exactly(first.elements);
        }
    })
}

/// The elements of the last attribute.
fn attribute(input: &Input, outcome: Outcome) -> Outcome {
    header(outcome, |header| {
        let read = |body: u64| scan::attribute(input, body as usize);
        let attributes = header.rows.iter().filter(|row| row.name.is_some());
        if let Some(last) = attributes.filter_map(|row| read(row.body)).next_back() {
            header.records.data_space.elements = Elements::exactly(last.space.elements);
        }
    })
}
