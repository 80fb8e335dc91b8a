//! One copy of the Rust: the parent module says which, as `hdf`.

use std::panic::catch_unwind;

use winnow::stream::{LocatingSlice, Location};
use winnow::token::take;
use winnow::{ModalResult, Parser};

use super::hdf::data_object::{self, DataFormat, DataObject, DataObjectFlags};
use super::hdf::ohdr_message::{HeaderMessage, HeaderMessageKind, collect_all_messages};
use super::hdf::parser::{Input as Stream, State, parse};
use super::hdf::super_block::{SuperBlock, super_block};
use crate::address::{self, Address};
use crate::answer::{self, Dimensions, Elements, Format, Header, Records, Row};
use crate::input::Input;
use crate::rust::{Answer, CONTINUATION, Entry, answer_of, silence};

/// The Rust's answer. The thread needs a stack of `STACK` bytes.
pub fn rust_answer(input: &Input) -> Answer {
    answer_of(
        || header(input),
        |reading, entries| reading.header(input, entries),
    )
}

/// The Rust's answer without what it reads: an accepted header is empty.
pub fn rust_walk(input: &Input) -> Answer {
    let read = || {
        let mut stream = stream_at(input, input.position as usize)?;
        data_object::data_object("header").parse_next(&mut stream)
    };
    answer_of(read, |_, _| Header::default())
}

/// `data_object` alone, as a caller of the Rust has it: the position after the header and how many
/// attributes it holds, or nothing where it refuses. Where `open` was not called, nothing is logged.
pub fn rust_data_object(input: &Input) -> Option<(usize, usize)> {
    let mut stream = stream_at(input, input.position as usize).ok()?;
    let object = data_object::data_object("header")
        .parse_next(&mut stream)
        .ok()?;
    Some((stream.current_token_start(), object.parsed_attributes.len()))
}

/// The Rust's superblock of a plain file, or nothing where it refuses. It takes one field after the
/// other, and has nothing that panics. With its values `rust_answer` reads the root header as
/// `parse` does, which also compares the end-of-file address with the file's length.
pub fn rust_super_block(file: &[u8]) -> Option<answer::SuperBlock> {
    let mut rest = file;
    let block = super_block(&mut rest).ok()?;
    let extension = block.superblock_extension_address;
    Some(answer::SuperBlock {
        size_of_offsets: block.size_of_offsets.into(),
        size_of_lengths: block.size_of_lengths.into(),
        base_address: block.base_address,
        superblock_extension_address: extension
            .map(|number| Address::read(number, block.size_of_offsets)),
        end_of_file_address: block.end_of_file_address,
        root_group_object_header_address: block.root_group_object_header_address,
    })
}

/// Whether `parse` takes a plain file, from its superblock to the end of its root header.
pub fn rust_parses(file: &[u8]) -> bool {
    catch_unwind(|| parse(file).is_ok()).unwrap_or(false)
}

// Reading.

struct Reading {
    object: DataObject,
    messages: Vec<HeaderMessage>,
    next: usize,
}

fn stream_at(input: &Input, position: usize) -> ModalResult<Stream<'_>> {
    let block = SuperBlock {
        size_of_offsets: input.offset_width,
        size_of_lengths: input.length_width,
        base_address: 0,
        end_of_file_address: input.end_of_file,
        root_group_object_header_address: input.position,
        superblock_extension_address: None,
    };
    let mut stream = Stream {
        input: LocatingSlice::new(input.file.as_slice()),
        state: State::new(&block),
    };
    take(position).parse_next(&mut stream)?;
    Ok(stream)
}

/// Both readings of a header.
fn header(input: &Input) -> ModalResult<Reading> {
    let mut stream = stream_at(input, input.position as usize)?;
    let object = data_object::data_object("header").parse_next(&mut stream)?;
    let next = stream.current_token_start();
    silence();
    let messages = messages(input, object.flags, next);
    Ok(Reading {
        object,
        messages,
        next,
    })
}

/// The messages of a header that `data_object` accepted up to `next`.
fn messages(input: &Input, flags: DataObjectFlags, next: usize) -> Vec<HeaderMessage> {
    let chunk = input.chunk().expect("accepted before");
    let mut stream = stream_at(input, chunk.start).expect("accepted before");
    let messages = collect_all_messages(&mut stream, chunk.end, flags).expect("accepted before");
    assert_eq!(
        stream.current_token_start() + 4,
        next,
        "both readings end alike"
    );
    messages
}

// The one form of both sides.

impl Reading {
    fn header(self, input: &Input, entries: &[Entry]) -> Header {
        let with_rows = entries.iter().filter(|entry| entry.kind != CONTINUATION);
        let rows: Vec<Row> = self.messages.iter().zip(with_rows).map(row).collect();
        assert_eq!(rows.len(), self.messages.len(), "a line for each message");
        let object = self.object;
        let width = input.offset_width;
        Header {
            next: self.next as u64,
            entries: entries.len() as u64,
            rows,
            records: Records {
                data_space: data_space(&object.ds),
                data_type: data_type(&object.dt),
                link_info: link_info(&object.li, width),
                group_info: group_info(&object.gi),
                attribute_info: attribute_info(&object.ai, width),
                layout_address: address::of_layout(input, entries),
            },
            data: object.data,
        }
    }
}

fn row((message, entry): (&HeaderMessage, &Entry)) -> Row {
    let (name, part) = match &message.kind {
        HeaderMessageKind::Attribute(Some(attribute)) => {
            let value = attribute
                .value
                .as_ref()
                .map(|value| value.clone().into_bytes());
            (Some(attribute.name.clone().into_bytes()), value)
        }
        HeaderMessageKind::DataLayout(data) => (None, Some(data.clone())),
        _ => (None, None),
    };
    Row {
        kind: entry.kind.into(),
        flags: message.flags.bits().into(),
        size: message.size.into(),
        body: entry.body as u64,
        name,
        part,
        part_position: None,
        number: None,
    }
}

fn dimensions(list: &[u64]) -> Dimensions {
    let mut sizes = [0; 4];
    sizes[..list.len()].copy_from_slice(list);
    Dimensions {
        count: list.len() as u64,
        sizes,
    }
}

/// The record, with the number of its elements, which the Rust does not keep.
fn data_space(ds: &data_object::DataSpace) -> answer::DataSpace {
    let sizes = dimensions(&ds.dimension_size);
    answer::DataSpace {
        dimensionality: ds.dimensionality.into(),
        flags: ds.flags.into(),
        kind: ds.kind.into(),
        elements: Elements::of(ds.kind, &sizes),
        sizes,
        maxima: dimensions(&ds.dimension_max_size),
    }
}

fn data_type(dt: &data_object::DataType) -> answer::DataType {
    answer::DataType {
        class_and_version: dt.class_and_version.into(),
        class_bit_field: dt.class_bit_field.into(),
        size: dt.size.into(),
        list_size: dt.list_size.into(),
        format: format(dt.data_fmt),
    }
}

fn format(format: Option<DataFormat>) -> Format {
    match format {
        None => Format::default(),
        Some(DataFormat::Fixed {
            bit_offset,
            bit_precision,
        }) => Format {
            kind: answer::FIXED,
            bit_offset: bit_offset.into(),
            bit_precision: bit_precision.into(),
            ..Format::default()
        },
        Some(DataFormat::Float {
            bit_offset,
            bit_precision,
            exponent_location,
            exponent_size,
            mantissa_location,
            mantissa_size,
            exponent_bias,
        }) => Format {
            kind: answer::FLOAT,
            bit_offset: bit_offset.into(),
            bit_precision: bit_precision.into(),
            exponent_location: exponent_location.into(),
            exponent_size: exponent_size.into(),
            mantissa_location: mantissa_location.into(),
            mantissa_size: mantissa_size.into(),
            exponent_bias: exponent_bias.into(),
        },
    }
}

fn link_info(li: &data_object::LinkInfo, width: u8) -> answer::LinkInfo {
    let address = |number| Address::read(number, width);
    answer::LinkInfo {
        flags: li.flags.into(),
        maximum_creation_index: li.maximum_creation_index.into(),
        fractal_heap_address: address(li.fractal_heap_address),
        address_btree_index: address(li.address_btree_index),
        address_btree_order: li.address_btree_order.map(address).into(),
    }
}

fn group_info(gi: &data_object::GroupInfo) -> answer::GroupInfo {
    answer::GroupInfo {
        flags: gi.flags.into(),
        maximum_compact_value: gi.maximum_compact_value.into(),
        minimum_dense_value: gi.minimum_dense_value.into(),
        number_of_entries: gi.number_of_entries.into(),
        length_of_entries: gi.length_of_entries.into(),
    }
}

fn attribute_info(ai: &data_object::AttributeInfo, width: u8) -> answer::AttributeInfo {
    let address = |number| Address::read(number, width);
    answer::AttributeInfo {
        flags: ai.flags.into(),
        maximum_creation_index: ai.maximum_creation_index,
        fractal_heap_address: address(ai.fractal_heap_address),
        attribute_name_btree: address(ai.attribute_name_btree),
        attribute_creation_order_btree: address(ai.attribute_creation_order_btree),
    }
}
