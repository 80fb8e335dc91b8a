//! Addresses: each is a number, or undefined, which is all ones in the width of offsets.
//!
//! No Rust has undefined addresses; to it all ones is a number like others. So its number stands for
//! the undefined address where it is all ones.

use std::fmt;

use crate::input::{Input, get};
use crate::rust::{CONTINUATION, Entry};

const LINK_INFO: u8 = 2;
pub const LAYOUT: u8 = 8;
const ATTRIBUTE_INFO: u8 = 21;
/// Version and class of a layout that has an address.
const CONTIGUOUS: &[u8] = &[3, 1];

/// The largest number that a width writes.
pub fn all_ones(width: u8) -> u64 {
    u64::MAX >> (64 - 8 * u32::from(width))
}

/// An address as the words of dowringaf.h: 1 and 0 where it is undefined, else 0 and its number.
#[repr(C)]
#[derive(Clone, Copy, Debug, Default, PartialEq, Eq)]
pub struct Address {
    pub undefined: u64,
    pub number: u64,
}

impl Address {
    pub const UNDEFINED: Address = Address {
        undefined: 1,
        number: 0,
    };

    /// What a number stands for that was read in a width of offsets.
    pub fn read(number: u64, offset_width: u8) -> Address {
        if number == all_ones(offset_width) {
            return Address::UNDEFINED;
        }
        Address {
            undefined: 0,
            number,
        }
    }
}

/// An address that may be absent: 1 and the address, or zeros.
#[repr(C)]
#[derive(Clone, Copy, Debug, Default, PartialEq, Eq)]
pub struct OptionalAddress {
    pub present: u64,
    pub address: Address,
}

impl From<Option<Address>> for OptionalAddress {
    fn from(field: Option<Address>) -> OptionalAddress {
        OptionalAddress {
            present: field.is_some().into(),
            address: field.unwrap_or_default(),
        }
    }
}

/// Where an address stands.
#[derive(Clone, Copy, Debug, PartialEq, Eq, PartialOrd, Ord, Hash)]
pub enum Place {
    LinkHeap,
    LinkIndex,
    LinkOrder,
    AttributeHeap,
    AttributeNames,
    AttributeOrder,
    Layout,
    Continuation,
    Extension,
    EndOfFile,
    Root,
}

/// All ones, or the number beside it.
#[derive(Clone, Copy, Debug, PartialEq, Eq, PartialOrd, Ord, Hash)]
pub enum Case {
    Undefined,
    OneBelow,
}

/// An address that is undefined, or nearly so, in a width of offsets.
#[derive(Clone, Copy, Debug, PartialEq, Eq, PartialOrd, Ord, Hash)]
pub struct Seen {
    pub place: Place,
    pub case: Case,
    pub width: u8,
}

impl Seen {
    /// Nothing where the number is another.
    pub fn new(place: Place, number: u64, width: u8) -> Option<Seen> {
        let case = match all_ones(width) - number.min(all_ones(width)) {
            0 => Case::Undefined,
            1 => Case::OneBelow,
            _ => return None,
        };
        Some(Seen { place, case, width })
    }

    pub fn is_undefined(&self) -> bool {
        self.case == Case::Undefined
    }

    /// Whether the Rust takes it for a place in the file where end-of-file is large enough.
    pub fn is_followed(&self) -> bool {
        self.is_undefined() && matches!(self.place, Place::Layout | Place::Continuation)
    }
}

impl Place {
    pub fn text(self) -> &'static str {
        match self {
            Place::LinkHeap => "fractal heap address of link info",
            Place::LinkIndex => "index address of link info",
            Place::LinkOrder => "creation order address of link info",
            Place::AttributeHeap => "fractal heap address of attribute info",
            Place::AttributeNames => "name index address of attribute info",
            Place::AttributeOrder => "creation order address of attribute info",
            Place::Layout => "data address",
            Place::Continuation => "continuation offset",
            Place::Extension => "extension address",
            Place::EndOfFile => "end-of-file address",
            Place::Root => "root address",
        }
    }
}

impl fmt::Display for Case {
    fn fmt(&self, out: &mut fmt::Formatter) -> fmt::Result {
        out.write_str(match self {
            Case::Undefined => "undefined",
            Case::OneBelow => "one below undefined",
        })
    }
}

/// The undefined addresses, and those one below, of the messages that a Rust began to read.
pub fn seen(input: &Input, entries: &[Entry]) -> Vec<Seen> {
    let mut seen = Vec::new();
    for entry in entries {
        for (place, number) in numbers(input, entry) {
            seen.extend(Seen::new(place, number, input.offset_width));
        }
    }
    seen
}

/// The address of the layout that wins, which no Rust hands on: it is read here, from the bytes of
/// the last layout. Compact data have none.
pub fn of_layout(input: &Input, entries: &[Entry]) -> OptionalAddress {
    let layout = entries.iter().rev().find(|entry| entry.kind == LAYOUT);
    let number = layout.and_then(|entry| numbers(input, entry).next());
    number
        .map(|(_, number)| Address::read(number, input.offset_width))
        .into()
}

/// The addresses of a message as numbers, as far as they lie in the file.
pub fn numbers(input: &Input, entry: &Entry) -> impl Iterator<Item = (Place, u64)> {
    const LINK: &[Place] = &[Place::LinkHeap, Place::LinkIndex, Place::LinkOrder];
    const ATTRIBUTE: &[Place] = &[
        Place::AttributeHeap,
        Place::AttributeNames,
        Place::AttributeOrder,
    ];
    let (places, at) = match entry.kind {
        LINK_INFO => info(input, entry.body, LINK, 8),
        ATTRIBUTE_INFO => info(input, entry.body, ATTRIBUTE, 2),
        LAYOUT if input.file.get(entry.body..entry.body + 2) == Some(CONTIGUOUS) => {
            (&[Place::Layout][..], entry.body + 2)
        }
        CONTINUATION => (&[Place::Continuation][..], entry.body),
        _ => (&[][..], entry.body),
    };
    let width = usize::from(input.offset_width);
    let number = move |at: usize| input.file.get(at..at + width).map(get);
    let fields = places.iter().enumerate();
    fields.map_while(move |(i, place)| Some((*place, number(at + i * width)?)))
}

/// The addresses of a link or attribute info, and where they begin: behind version 0, the flags, and
/// with their bit 0 an index of so many bytes. With bit 1 there is a third.
fn info<'p>(input: &Input, body: usize, places: &'p [Place], index: usize) -> (&'p [Place], usize) {
    match input.file.get(body..body + 2) {
        Some([0, flags]) => {
            let count = if flags & 2 == 0 { 2 } else { 3 };
            let skipped = if flags & 1 == 0 { 0 } else { index };
            (&places[..count], body + 2 + skipped)
        }
        _ => (&[], body),
    }
}
