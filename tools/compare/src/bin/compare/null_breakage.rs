//! Wrong ports that give a null dataspace elements, an attribute with one a value or bytes, or take
//! other dataspaces for null; and those whose texts stand elsewhere.

use sides::answer::{DataSpace, Dimensions, Elements, NULL, Row};
use sides::input::Input;
use sides::port::Outcome;
use sides::rust::{self, mended, published};
use sides::scan::{self, ATTRIBUTE, DATA_SPACE, Null};
use sides::text::{Class, read};

use crate::breakage::{Breakage, Change, header};
use crate::elements_breakage::space;

type Given = fn(&Input, Outcome) -> Outcome;

const fn breakage(name: &'static str, change: Given) -> Breakage {
    Breakage {
        name,
        change: Change::Given(change),
    }
}

pub const NULLS: &[Breakage] = &[
    breakage("null-as-1", |_, o| null(o, |s| s.elements = exactly(1))),
    breakage("null-as-its-product", |_, o| {
        null(o, |s| s.elements = exactly(s.sizes.product()))
    }),
    breakage("null-with-sizes-as-its-product", |_, o| {
        null(o, |s| {
            if s.sizes.count > 0 {
                s.elements = exactly(s.sizes.product());
            }
        })
    }),
    breakage("null-as-too-many", |_, o| {
        null(o, |s| s.elements = Elements::TOO_MANY)
    }),
    breakage("null-without-its-sizes", |_, o| {
        null(o, |s| s.sizes = Dimensions::default())
    }),
    breakage("null-without-its-kind", |_, o| {
        null(o, |s| s.kind = None::<u8>.into())
    }),
    breakage("null-sizes-untested", sizes_untested),
    breakage("null-refused", |i, o| refuse(i, o, Null::Message)),
    breakage("null-attribute-refused", |i, o| {
        refuse(i, o, Null::Attribute)
    }),
    breakage("null-in-version-1", in_version_1),
    breakage("null-of-kind-0", |_, o| of_kind(o, |kind| kind == 0)),
    breakage("null-of-kind-1", |_, o| of_kind(o, |kind| kind == 1)),
    breakage("null-of-kind-3", |_, o| of_kind(o, |kind| kind == 3)),
    breakage("null-of-every-kind-with-its-bit", |_, o| {
        of_kind(o, |kind| kind & 2 != 0)
    }),
    breakage("null-as-the-published-rust", as_published),
    breakage("null-text-without-a-value", |i, o| {
        rows(i, o, Class::Text, |_, row| no_part(row))
    }),
    breakage("null-text-of-its-size", |i, o| {
        rows(i, o, Class::Text, of_its_size)
    }),
    breakage("null-text-at-0", |i, o| {
        rows(i, o, Class::Text, |_, row| row.part_position = Some(0))
    }),
    breakage("null-text-before-its-padding", |i, o| {
        rows(i, o, Class::Text, |_, row| {
            row.part_position = row.part_position.map(|at| at - 1)
        })
    }),
    breakage("null-text-of-size-0-with-a-value", |i, o| {
        rows(i, o, Class::NoText, |_, row| row.part = Some(Vec::new()))
    }),
    breakage("null-number-with-a-text", |i, o| {
        rows(i, o, Class::Number, |_, row| row.part = Some(Vec::new()))
    }),
    breakage("text-one-further", |_, o| {
        texts(o, |row| {
            row.part_position = row.part_position.map(|at| at + 1)
        })
    }),
    breakage("empty-text-at-0", |_, o| {
        texts(o, |row| {
            if row.part.as_ref().is_some_and(Vec::is_empty) {
                row.part_position = Some(0);
            }
        })
    }),
];

fn exactly(elements: u128) -> Elements {
    Elements::exactly(elements)
}

/// Changes the record that is of a null dataspace.
fn null(outcome: Outcome, change: fn(&mut DataSpace)) -> Outcome {
    space(outcome, |space| {
        if space.kind == Some(NULL).into() {
            change(space);
        }
    })
}

/// Takes spaces of other kinds for null.
fn of_kind(outcome: Outcome, is_null: fn(u64) -> bool) -> Outcome {
    space(outcome, |space| {
        if space.kind.present == 1 && is_null(space.kind.value) {
            space.elements = exactly(0);
        }
    })
}

/// Takes the first reserved byte of version 1 for a kind.
fn in_version_1(input: &Input, outcome: Outcome) -> Outcome {
    header(outcome, |header| {
        let mut rows = header.rows.iter().rev();
        let last = rows.find(|row| row.kind == u64::from(DATA_SPACE));
        let byte = |at: u64| input.file.get(at as usize).copied();
        if last.is_some_and(|row| byte(row.body) == Some(1) && byte(row.body + 3) == Some(NULL)) {
            header.records.data_space.elements = exactly(0);
        }
    })
}

/// Where null dataspaces are read, if any.
fn met(input: &Input) -> Option<Null> {
    scan::header(input, &mended::rust_answer(input).entries).null
}

fn refuse(input: &Input, outcome: Outcome, place: Null) -> Outcome {
    match outcome {
        Outcome::Read(_) if met(input) == Some(place) => Outcome::Refused(9),
        other => other,
    }
}

/// Accepts, as an empty header, what is refused for a dataspace that is null.
fn sizes_untested(input: &Input, outcome: Outcome) -> Outcome {
    match outcome {
        Outcome::Refused(9) if met(input).is_some() => Outcome::Read(Box::default()),
        other => other,
    }
}

/// Takes as many bytes of an attribute as its sizes say.
fn as_published(input: &Input, outcome: Outcome) -> Outcome {
    if met(input) != Some(Null::Attribute) {
        return outcome;
    }
    match (published::rust_answer(input).outcome, outcome) {
        (rust::Outcome::Read(header), Outcome::Read(_)) => Outcome::Read(header),
        (rust::Outcome::Refused, Outcome::Read(_)) => Outcome::Refused(3),
        (_, outcome) => outcome,
    }
}

/// Changes the rows of attributes with a null dataspace that are of something.
fn rows(input: &Input, outcome: Outcome, class: Class, change: fn(&Input, &mut Row)) -> Outcome {
    header(outcome, |header| {
        for row in &mut header.rows {
            if read(input, row.kind, row.body).null == Some(class) {
                change(input, row);
            }
        }
    })
}

fn no_part(row: &mut Row) {
    row.part = None;
    row.part_position = Some(0);
}

/// The bytes of one element, where they are in the file.
fn of_its_size(input: &Input, row: &mut Row) {
    if let Some(attribute) = scan::attribute(input, row.body as usize) {
        let end = attribute.value + attribute.data_type.size as usize;
        let bytes = input.file.get(attribute.value..end);
        row.part = bytes.map(<[u8]>::to_vec).or(row.part.take());
    }
}

/// Changes the rows of attributes with a text.
fn texts(outcome: Outcome, change: fn(&mut Row)) -> Outcome {
    header(outcome, |header| {
        let attributes = header.rows.iter_mut();
        let is_text = |row: &&mut Row| row.kind == u64::from(ATTRIBUTE) && row.part.is_some();
        attributes.filter(is_text).for_each(change);
    })
}
