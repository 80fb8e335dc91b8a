//! Wrong ports that take undefined addresses of headers for numbers, numbers for undefined addresses,
//! or one address for another.

use sides::address::{Address, LAYOUT, OptionalAddress, Place, all_ones, numbers};
use sides::answer::Header;
use sides::input::Input;
use sides::port::Outcome;
use sides::rust::mended::rust_walk;
use sides::rust::published::rust_answer;
use sides::rust::{self, Entry};

use crate::breakage::{Breakage, Change, header};
use crate::judge::{OF_CONTINUATION, OF_LAYOUT, demanded};

type Given = fn(&Input, Outcome) -> Outcome;
/// What a port makes of a number, of the widths of offsets and of lengths.
pub type Reads = fn(u64, u8, u8) -> Address;

const fn breakage(name: &'static str, change: Given) -> Breakage {
    Breakage {
        name,
        change: Change::Given(change),
    }
}

pub const ADDRESSES: &[Breakage] = &[
    breakage("undefined-never", |i, o| reads(i, o, never)),
    breakage("undefined-as-8-bytes", |i, o| reads(i, o, as_8_bytes)),
    breakage("undefined-at-width-8-only", |i, o| reads(i, o, at_width_8)),
    breakage("undefined-below-width-8-only", |i, o| {
        reads(i, o, below_width_8)
    }),
    breakage("undefined-by-the-length-width", |i, o| {
        reads(i, o, by_lengths)
    }),
    breakage("undefined-one-below", |i, o| reads(i, o, one_below)),
    breakage("undefined-of-ones-in-4-bytes", |i, o| {
        reads(i, o, in_4_bytes)
    }),
    breakage("undefined-with-its-number", |i, o| reads(i, o, with_number)),
    breakage("zero-undefined", |i, o| reads(i, o, zero_undefined)),
    breakage("undefined-in-link-info-only", |i, o| {
        header(o, |h| undefined_in_link_info(i, h))
    }),
    breakage("link-addresses-swapped", |_, o| header(o, swap_link)),
    breakage("link-cases-swapped", |_, o| header(o, swap_link_cases)),
    breakage("link-order-absent-where-undefined", |_, o| {
        header(o, |h| {
            drop_undefined(&mut h.records.link_info.address_btree_order)
        })
    }),
    breakage("link-order-undefined-where-absent", |_, o| {
        header(o, |h| {
            let order = &mut h.records.link_info.address_btree_order;
            order.address.undefined |= 1 - order.present;
        })
    }),
    breakage("attribute-addresses-swapped", |_, o| {
        header(o, swap_attribute)
    }),
    breakage("attribute-order-undefined-where-missing", |_, o| {
        header(o, missing_order)
    }),
    breakage("missing-infos-undefined", |_, o| header(o, missing_infos)),
    breakage("layout-address-lost", |_, o| {
        header(o, |h| h.records.layout_address = OptionalAddress::default())
    }),
    breakage("layout-address-lost-where-undefined", |_, o| {
        header(o, |h| drop_undefined(&mut h.records.layout_address))
    }),
    breakage("layout-address-lost-without-data", |_, o| {
        header(o, lost_without_data)
    }),
    breakage("layout-address-of-compact-data", |_, o| {
        header(o, of_compact_data)
    }),
    breakage("layout-address-of-the-first", |i, o| {
        of_another(i, o, |layouts| layouts.first())
    }),
    breakage("layout-address-of-the-one-before", |i, o| {
        of_another(i, o, |layouts| {
            layouts.iter().nth_back(1).or(layouts.last())
        })
    }),
    breakage("layout-address-of-the-last-with-one", |i, o| {
        header(o, |h| keep_address(i, h))
    }),
    breakage("layout-undefined-where-no-data", |_, o| {
        header(o, undefined_without_data)
    }),
    breakage("undefined-address-yields-data", |_, o| {
        header(o, |h| {
            if h.records.layout_address.address == Address::UNDEFINED {
                h.data.push(0);
            }
        })
    }),
    breakage("undefined-data-below-end-of-file", |i, o| {
        as_published(i, o, Place::Layout)
    }),
    breakage("undefined-offset-below-end-of-file", |i, o| {
        as_published(i, o, Place::Continuation)
    }),
    breakage("3-for-an-undefined-offset", |i, o| {
        renumber(i, o, OF_CONTINUATION, 3)
    }),
    breakage("length-before-the-undefined-offset", length_first),
    breakage("size-unread-behind-an-undefined-address", unread_size),
    breakage("3-for-a-size-behind-an-undefined-address", |i, o| {
        renumber(i, o, OF_LAYOUT, 3)
    }),
];

fn number(number: u64) -> Address {
    Address {
        undefined: 0,
        number,
    }
}

/// Undefined where the number is one.
fn ones(value: u64, ones: u64) -> Address {
    if value == ones {
        Address::UNDEFINED
    } else {
        number(value)
    }
}

pub fn never(value: u64, _: u8, _: u8) -> Address {
    number(value)
}

pub fn as_8_bytes(value: u64, offsets: u8, _: u8) -> Address {
    match value == all_ones(offsets) {
        true => number(u64::MAX),
        false => number(value),
    }
}

pub fn at_width_8(value: u64, _: u8, _: u8) -> Address {
    ones(value, u64::MAX)
}

fn below_width_8(value: u64, offsets: u8, _: u8) -> Address {
    match offsets {
        8 => number(value),
        _ => Address::read(value, offsets),
    }
}

pub fn by_lengths(value: u64, _: u8, lengths: u8) -> Address {
    ones(value, all_ones(lengths))
}

pub fn one_below(value: u64, offsets: u8, _: u8) -> Address {
    match value == all_ones(offsets) - 1 {
        true => Address::UNDEFINED,
        false => Address::read(value, offsets),
    }
}

fn in_4_bytes(value: u64, offsets: u8, _: u8) -> Address {
    match value == u64::from(u32::MAX) {
        true => Address::UNDEFINED,
        false => Address::read(value, offsets),
    }
}

pub fn with_number(value: u64, offsets: u8, _: u8) -> Address {
    Address {
        undefined: (value == all_ones(offsets)).into(),
        number: value,
    }
}

fn zero_undefined(value: u64, offsets: u8, _: u8) -> Address {
    match value {
        0 => Address::UNDEFINED,
        _ => Address::read(value, offsets),
    }
}

/// The number that stands in the file.
pub fn stored(address: Address, offsets: u8) -> u64 {
    match address.undefined {
        0 => address.number,
        _ => all_ones(offsets),
    }
}

/// A port that reads every address of an accepted header in its own way.
fn reads(input: &Input, outcome: Outcome, reads: Reads) -> Outcome {
    header(outcome, |header| {
        for address in addresses(header) {
            let value = stored(*address, input.offset_width);
            *address = reads(value, input.offset_width, input.length_width);
        }
    })
}

/// Every address that is present.
fn addresses(header: &mut Header) -> Vec<&mut Address> {
    let records = &mut header.records;
    let (link, attribute) = (&mut records.link_info, &mut records.attribute_info);
    let optional = [&mut link.address_btree_order, &mut records.layout_address];
    let mut addresses = vec![
        &mut link.fractal_heap_address,
        &mut link.address_btree_index,
        &mut attribute.fractal_heap_address,
        &mut attribute.attribute_name_btree,
        &mut attribute.attribute_creation_order_btree,
    ];
    let present = optional.into_iter().filter(|field| field.present == 1);
    addresses.extend(present.map(|field| &mut field.address));
    addresses
}

fn undefined_in_link_info(input: &Input, header: &mut Header) {
    let attribute = &mut header.records.attribute_info;
    for address in [
        &mut attribute.fractal_heap_address,
        &mut attribute.attribute_name_btree,
        &mut attribute.attribute_creation_order_btree,
    ] {
        *address = number(stored(*address, input.offset_width));
    }
}

fn swap_link(header: &mut Header) {
    let link = &mut header.records.link_info;
    std::mem::swap(
        &mut link.fractal_heap_address,
        &mut link.address_btree_index,
    );
}

/// The numbers where they belong, but the cases of two fields in each other's place.
fn swap_link_cases(header: &mut Header) {
    let link = &mut header.records.link_info;
    std::mem::swap(
        &mut link.fractal_heap_address.undefined,
        &mut link.address_btree_index.undefined,
    );
}

fn swap_attribute(header: &mut Header) {
    let attribute = &mut header.records.attribute_info;
    std::mem::swap(
        &mut attribute.attribute_name_btree,
        &mut attribute.attribute_creation_order_btree,
    );
}

fn drop_undefined(field: &mut OptionalAddress) {
    if field.address == Address::UNDEFINED {
        *field = OptionalAddress::default();
    }
}

fn missing_order(header: &mut Header) {
    let attribute = &mut header.records.attribute_info;
    if attribute.flags & 2 == 0 {
        attribute.attribute_creation_order_btree = Address::UNDEFINED;
    }
}

fn missing_infos(header: &mut Header) {
    let has = |kind: u64| header.rows.iter().any(|row| row.kind == kind);
    let (link, attribute) = (has(2), has(21));
    let records = &mut header.records;
    if !link {
        records.link_info.fractal_heap_address = Address::UNDEFINED;
        records.link_info.address_btree_index = Address::UNDEFINED;
    }
    if !attribute {
        records.attribute_info.fractal_heap_address = Address::UNDEFINED;
    }
}

fn lost_without_data(header: &mut Header) {
    let layout = &mut header.records.layout_address;
    if header.data.is_empty() && layout.address.undefined == 0 {
        *layout = OptionalAddress::default();
    }
}

fn of_compact_data(header: &mut Header) {
    if header.rows.iter().any(|row| row.kind == u64::from(LAYOUT)) {
        header.records.layout_address.present = 1;
    }
}

/// The address of the last layout that has one, though compact data win.
fn keep_address(input: &Input, header: &mut Header) {
    let entries = rust_walk(input).entries;
    let layouts = entries.iter().filter(|entry| entry.kind == LAYOUT);
    let mut numbers = layouts.filter_map(|entry| numbers(input, entry).next());
    if let Some((_, number)) = numbers.next_back() {
        header.records.layout_address = Some(Address::read(number, input.offset_width)).into();
    }
}

fn undefined_without_data(header: &mut Header) {
    let layout = &mut header.records.layout_address;
    if header.data.is_empty() && layout.present == 1 {
        layout.address = Address::UNDEFINED;
    }
}

/// The address of a layout that is chosen among all of them.
fn of_another(input: &Input, outcome: Outcome, choose: fn(&[Entry]) -> Option<&Entry>) -> Outcome {
    let mut entries = rust_walk(input).entries;
    entries.retain(|entry| entry.kind == LAYOUT);
    let number = choose(&entries).and_then(|entry| numbers(input, entry).next());
    let address = number.map(|(_, number)| Address::read(number, input.offset_width));
    header(outcome, |header| {
        header.records.layout_address = address.into();
    })
}

/// A port that answers as the published Rust where that takes an undefined address at a place for
/// one in the file.
fn as_published(input: &Input, outcome: Outcome, place: Place) -> Outcome {
    let answer = rust_answer(input);
    let addresses = sides::address::seen(input, &answer.entries);
    let mut followed = addresses.iter().filter(|seen| seen.is_followed());
    if !input.is_above_addresses() || !followed.any(|seen| seen.place == place) {
        return outcome;
    }
    match (answer.outcome, outcome) {
        (rust::Outcome::Read(header), _) => Outcome::Read(header),
        (rust::Outcome::Refused, Outcome::Read(_)) => Outcome::Refused(3),
        (_, outcome) => outcome,
    }
}

/// The last entry that the Rust began, where an undefined address in it asks for a number.
fn asking(input: &Input, number: u64) -> Option<Entry> {
    let last = *rust_walk(input).entries.last()?;
    (demanded(input, &last) == Some(number)).then_some(last)
}

/// A port that has another number where an undefined address asks for one.
fn renumber(input: &Input, outcome: Outcome, asked: u64, number: u64) -> Outcome {
    match outcome {
        Outcome::Refused(refused) if refused == asked && asking(input, asked).is_some() => {
            Outcome::Refused(number)
        }
        other => other,
    }
}

/// A port that reads a continuation's length before it tests the offset.
fn length_first(input: &Input, outcome: Outcome) -> Outcome {
    let fields = usize::from(input.offset_width) + usize::from(input.length_width);
    match asking(input, OF_CONTINUATION) {
        Some(last) if last.body + fields > input.file.len() => {
            renumber(input, outcome, OF_CONTINUATION, 3)
        }
        _ => outcome,
    }
}

/// A port that does not test the size behind an undefined address.
fn unread_size(input: &Input, outcome: Outcome) -> Outcome {
    match outcome {
        Outcome::Refused(OF_LAYOUT) if asking(input, OF_LAYOUT).is_some() => {
            Outcome::Read(Box::default())
        }
        other => other,
    }
}
