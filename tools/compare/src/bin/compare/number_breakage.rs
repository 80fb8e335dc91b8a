//! Wrong ports that read other numbers, or some where there are none, or none where there are some.

use sides::input::Input;
use sides::number::{DOUBLE, Number, Reading, Rule, SIGNED, SINGLE, Stored, UNSIGNED, Why, read};
use sides::port::Outcome;
use sides::scan::{self, Attribute};

use crate::breakage::{Breakage, Change, header};

type Given = fn(&Input, Outcome) -> Outcome;

const fn breakage(name: &'static str, change: Given) -> Breakage {
    Breakage {
        name,
        change: Change::Given(change),
    }
}

pub const NUMBERS: &[Breakage] = &[
    breakage("numbers-lost", |i, o| numbers(i, o, |n, _| *n = NONE)),
    breakage("number-case-one-more", |i, o| {
        numbers(i, o, |n, _| n.case += 1)
    }),
    breakage("number-case-one-less", |i, o| {
        numbers(i, o, |n, _| n.case -= 1)
    }),
    breakage("number-bits", |i, o| numbers(i, o, |n, _| n.bits ^= 1)),
    breakage("number-bits-lost", |i, o| numbers(i, o, |n, _| n.bits = 0)),
    breakage("number-words-swapped", |i, o| {
        numbers(i, o, |n, _| std::mem::swap(&mut n.case, &mut n.bits))
    }),
    breakage("number-bytes-swapped", |i, o| numbers(i, o, swap_bytes)),
    breakage("number-lowest-byte-first-only", |i, o| {
        numbers(i, o, |n, s| {
            if s.highest_first {
                swap_bytes(n, s);
            }
        })
    }),
    breakage("number-sign-lost", |i, o| {
        of_case(i, o, SIGNED, |n| n.case = UNSIGNED)
    }),
    breakage("number-sign-where-negative-only", |i, o| {
        of_case(i, o, SIGNED, |n| n.case = UNSIGNED + (n.bits >> 63))
    }),
    breakage("number-signed-without-a-sign", |i, o| {
        of_case(i, o, UNSIGNED, |n| n.case = SIGNED)
    }),
    breakage("number-sign-not-extended", |i, o| {
        numbers(i, o, |n, s| n.bits &= ones(s.bytes))
    }),
    breakage("number-sign-always-extended", |i, o| {
        numbers(i, o, |n, s| {
            if n.bits > ones(s.bytes) / 2 {
                n.bits |= !ones(s.bytes);
            }
        })
    }),
    breakage("number-of-1-byte-lost", |i, o| lose_size(i, o, 1)),
    breakage("number-of-2-bytes-lost", |i, o| lose_size(i, o, 2)),
    breakage("number-of-4-bytes-lost", |i, o| lose_size(i, o, 4)),
    breakage("number-of-8-bytes-lost", |i, o| lose_size(i, o, 8)),
    breakage("single-as-double", |i, o| {
        of_case(i, o, SINGLE, |n| {
            n.case = DOUBLE;
            n.bits = f64::from(f32::from_bits(n.bits as u32)).to_bits();
        })
    }),
    breakage("single-in-the-upper-half", |i, o| {
        of_case(i, o, SINGLE, |n| n.bits <<= 32)
    }),
    breakage("double-as-single", |i, o| {
        of_case(i, o, DOUBLE, |n| n.case = SINGLE)
    }),
    breakage("single-nan-quieted", |i, o| {
        of_case(i, o, SINGLE, |n| {
            let is_nan = f32::from_bits(n.bits as u32).is_nan();
            n.bits |= u64::from(is_nan) << 22;
        })
    }),
    breakage("double-nan-quieted", |i, o| {
        of_case(i, o, DOUBLE, |n| {
            n.bits |= u64::from(f64::from_bits(n.bits).is_nan()) << 51;
        })
    }),
    breakage("double-minus-zero-as-zero", |i, o| {
        of_case(i, o, DOUBLE, |n| {
            if f64::from_bits(n.bits) == 0.0 {
                n.bits = 0;
            }
        })
    }),
    breakage("number-lost-with-sizes-of-1", |i, o| {
        lose(i, o, |a| a.space.sizes > 0)
    }),
    breakage("number-lost-with-ignored-bits-of-fixed-point", |i, o| {
        lose(i, o, |a| {
            a.data_type.class == 0 && a.data_type.bits & !9 != 0
        })
    }),
    breakage("number-lost-with-ignored-bits-of-floats", |i, o| {
        lose(i, o, |a| {
            a.data_type.class == 1 && a.data_type.bits & 0xff_008e != 0
        })
    }),
    breakage("number-of-the-row-before", |_, o| {
        header(o, |h| {
            let mut before = Some(NONE);
            let rows = h.rows.iter_mut();
            rows.for_each(|row| before = std::mem::replace(&mut row.number, before));
        })
    }),
    breakage("number-of-other-messages", |i, o| {
        add(i, o, Why::OtherMessage)
    }),
    breakage("number-of-unread-attributes", |i, o| add(i, o, Why::Unread)),
    breakage("number-of-other-classes", |i, o| add(i, o, Why::OtherClass)),
    breakage("number-of-a-null-dataspace", |i, o| add(i, o, Why::Null)),
    breakage("number-of-no-elements", |i, o| {
        add_elements(i, o, |elements| elements == 0)
    }),
    breakage("number-of-two-elements", |i, o| {
        add_elements(i, o, |elements| elements == 2)
    }),
    breakage("number-of-elements-that-wrap", |i, o| {
        add_elements(i, o, |elements| elements as u64 == 1)
    }),
    breakage("number-of-other-sizes", |i, o| {
        add(i, o, Why::But(Rule::Size))
    }),
    breakage("number-with-a-bit-offset", |i, o| {
        add(i, o, Why::But(Rule::Offset))
    }),
    breakage("number-of-another-precision", |i, o| {
        add(i, o, Why::But(Rule::Precision))
    }),
    breakage("number-of-another-order", |i, o| {
        add(i, o, Why::But(Rule::Order))
    }),
    breakage("number-of-another-normalization", |i, o| {
        add(i, o, Why::But(Rule::Normalization))
    }),
    breakage("number-of-another-place-of-the-sign", |i, o| {
        add(i, o, Why::But(Rule::Sign))
    }),
    breakage("number-that-leaves-the-file", |i, o| add(i, o, Why::Value)),
    breakage("number-bits-without-a-number", |i, o| {
        rows(i, o, |reading, _, n| {
            n.bits |= u64::from(*reading == Reading::None(Why::OtherClass));
        })
    }),
];

const NONE: Number = Number { case: 0, bits: 0 };

/// Changes the number of every row of an accepted header, by what the row's bytes say and where its
/// body stands.
fn rows(input: &Input, outcome: Outcome, change: impl Fn(&Reading, usize, &mut Number)) -> Outcome {
    header(outcome, |header| {
        for row in &mut header.rows {
            let reading = read(input, row.kind, row.body);
            let body = row.body as usize;
            change(&reading, body, row.number.get_or_insert(NONE));
        }
    })
}

/// Changes the numbers that there are.
fn numbers(input: &Input, outcome: Outcome, change: fn(&mut Number, Stored)) -> Outcome {
    rows(input, outcome, |reading, _, number| {
        if let Reading::Number(_, stored) = reading {
            change(number, *stored);
        }
    })
}

/// Changes the numbers of a case.
fn of_case(input: &Input, outcome: Outcome, case: u64, change: fn(&mut Number)) -> Outcome {
    rows(input, outcome, |_, _, number| {
        if number.case == case {
            change(number);
        }
    })
}

/// Loses the numbers of so many bytes.
fn lose_size(input: &Input, outcome: Outcome, bytes: u64) -> Outcome {
    rows(input, outcome, |reading, _, number| match reading {
        Reading::Number(_, stored) if stored.bytes == bytes => *number = NONE,
        _ => {}
    })
}

/// Loses the numbers of some attributes.
fn lose(input: &Input, outcome: Outcome, loses: fn(&Attribute) -> bool) -> Outcome {
    rows(input, outcome, |reading, body, number| {
        let attribute = scan::attribute(input, body);
        let is_number = matches!(reading, Reading::Number(..));
        if is_number && attribute.is_some_and(|attribute| loses(&attribute)) {
            *number = NONE;
        }
    })
}

/// Has a number where there is none, for one reason.
fn add(input: &Input, outcome: Outcome, why: Why) -> Outcome {
    rows(input, outcome, |reading, _, number| {
        if *reading == Reading::None(why) {
            number.case = UNSIGNED;
        }
    })
}

/// Has a number of so many elements.
fn add_elements(input: &Input, outcome: Outcome, adds: fn(u128) -> bool) -> Outcome {
    rows(input, outcome, |reading, body, number| {
        let attribute = scan::attribute(input, body);
        let is_number_but = *reading == Reading::None(Why::But(Rule::Elements));
        if is_number_but && attribute.is_some_and(|attribute| adds(attribute.space.elements)) {
            number.case = UNSIGNED;
        }
    })
}

/// All ones in so many bytes.
fn ones(bytes: u64) -> u64 {
    u64::MAX >> (64 - 8 * bytes)
}

fn swap_bytes(number: &mut Number, stored: Stored) {
    number.bits = (number.bits & ones(stored.bytes)).swap_bytes() >> (64 - 8 * stored.bytes);
}
