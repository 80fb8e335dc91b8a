//! An accepted header, and a superblock, in one form for both sides, and the report: the text that
//! is compared.

use std::io::Write;

use crate::address::{Address, OptionalAddress, Place, Seen, all_ones};
use crate::input::Input;
use crate::number::Number;

/// What a superblock hands out.
#[derive(Clone, Debug, Default, PartialEq, Eq)]
pub struct SuperBlock {
    pub size_of_offsets: u64,
    pub size_of_lengths: u64,
    pub base_address: u64,
    /// Absent in versions 0 and 1.
    pub superblock_extension_address: Option<Address>,
    pub end_of_file_address: u64,
    pub root_group_object_header_address: u64,
}

impl SuperBlock {
    pub fn report(&self) -> String {
        let extension = self.superblock_extension_address;
        format!(
            "superblock,{},{},{},{},{},{}\n",
            self.size_of_offsets,
            self.size_of_lengths,
            self.base_address,
            extension.map_or("-,-".into(), |address| {
                format!("{},{}", address.undefined, address.number)
            }),
            self.end_of_file_address,
            self.root_group_object_header_address
        )
    }

    /// What a call by hand is given in place of the superblock.
    pub fn input(&self, file: &[u8]) -> Input {
        Input {
            offset_width: self.size_of_offsets as u8,
            length_width: self.size_of_lengths as u8,
            end_of_file: self.end_of_file_address,
            position: self.root_group_object_header_address,
            file: file.to_vec(),
        }
    }
}

/// One message. Texts are raw bytes, without trailing zeros.
#[derive(Clone, Debug, PartialEq, Eq)]
pub struct Row {
    pub kind: u64,
    pub flags: u64,
    pub size: u64,
    pub body: u64,
    pub name: Option<Vec<u8>>,
    /// An attribute's value, or a layout's data.
    pub part: Option<Vec<u8>>,
    /// Where the part begins, 0 without one. Absent in the Rust, which does not tell, and so in no
    /// report.
    pub part_position: Option<u64>,
    /// Absent in the Rust, which knows none, and so in no report.
    pub number: Option<Number>,
}

// The records as the words of dowringaf.h: each struct is made of 64-bit words alone.

/// A field that may be absent: 1 and its value, or 0 and 0.
#[repr(C)]
#[derive(Clone, Debug, Default, PartialEq, Eq)]
pub struct Optional {
    pub present: u64,
    pub value: u64,
}

impl<T: Into<u64>> From<Option<T>> for Optional {
    fn from(field: Option<T>) -> Optional {
        Optional {
            present: field.is_some().into(),
            value: field.map_or(0, T::into),
        }
    }
}

#[repr(C)]
#[derive(Clone, Debug, Default, PartialEq, Eq)]
pub struct Dimensions {
    pub count: u64,
    /// Zero from `count` on.
    pub sizes: [u64; 4],
}

impl Dimensions {
    /// The exact product, 1 without sizes: four of at most 1,000,000 stay far below 2^128.
    pub fn product(&self) -> u128 {
        let sizes = self.sizes.iter().take(self.count as usize);
        sizes.copied().map(u128::from).product()
    }
}

/// The number of elements: 0 and the number, or 1 and 0 where there are 2^64 or more.
#[repr(C)]
#[derive(Clone, Copy, Debug, PartialEq, Eq)]
pub struct Elements {
    pub too_many: u64,
    pub number: u64,
}

/// The kind of a null dataspace.
pub const NULL: u8 = 2;

impl Elements {
    pub const TOO_MANY: Elements = Elements {
        too_many: 1,
        number: 0,
    };

    /// Of a kind and sizes: their product, and none in a null dataspace, whatever its sizes.
    pub fn of(kind: Option<u8>, sizes: &Dimensions) -> Elements {
        match kind {
            Some(NULL) => Elements::exactly(0),
            _ => Elements::exactly(sizes.product()),
        }
    }

    pub fn exactly(elements: u128) -> Elements {
        u64::try_from(elements).map_or(Elements::TOO_MANY, |number| Elements {
            too_many: 0,
            number,
        })
    }
}

/// A record without a message has no sizes, and so one element.
impl Default for Elements {
    fn default() -> Elements {
        Elements::of(None, &Dimensions::default())
    }
}

#[repr(C)]
#[derive(Clone, Debug, Default, PartialEq, Eq)]
pub struct DataSpace {
    pub dimensionality: u64,
    pub flags: u64,
    pub kind: Optional,
    pub sizes: Dimensions,
    pub maxima: Dimensions,
    pub elements: Elements,
}

/// The kinds of a format; 0 is none.
pub const FIXED: u64 = 1;
pub const FLOAT: u64 = 2;

#[repr(C)]
#[derive(Clone, Debug, Default, PartialEq, Eq)]
pub struct Format {
    pub kind: u64,
    pub bit_offset: u64,
    pub bit_precision: u64,
    pub exponent_location: u64,
    pub exponent_size: u64,
    pub mantissa_location: u64,
    pub mantissa_size: u64,
    pub exponent_bias: u64,
}

#[repr(C)]
#[derive(Clone, Debug, Default, PartialEq, Eq)]
pub struct DataType {
    pub class_and_version: u64,
    pub class_bit_field: u64,
    pub size: u64,
    pub list_size: Optional,
    pub format: Format,
}

#[repr(C)]
#[derive(Clone, Debug, Default, PartialEq, Eq)]
pub struct LinkInfo {
    pub flags: u64,
    pub maximum_creation_index: Optional,
    pub fractal_heap_address: Address,
    pub address_btree_index: Address,
    pub address_btree_order: OptionalAddress,
}

#[repr(C)]
#[derive(Clone, Debug, Default, PartialEq, Eq)]
pub struct GroupInfo {
    pub flags: u64,
    pub maximum_compact_value: Optional,
    pub minimum_dense_value: Optional,
    pub number_of_entries: Optional,
    pub length_of_entries: Optional,
}

#[repr(C)]
#[derive(Clone, Debug, Default, PartialEq, Eq)]
pub struct AttributeInfo {
    pub flags: u64,
    pub maximum_creation_index: u64,
    pub fractal_heap_address: Address,
    pub attribute_name_btree: Address,
    pub attribute_creation_order_btree: Address,
}

#[repr(C)]
#[derive(Clone, Debug, Default, PartialEq, Eq)]
pub struct Records {
    pub data_space: DataSpace,
    pub data_type: DataType,
    pub link_info: LinkInfo,
    pub group_info: GroupInfo,
    pub attribute_info: AttributeInfo,
    pub layout_address: OptionalAddress,
}

impl Records {
    /// The undefined addresses, and those one below, in a width of offsets.
    pub fn seen(&self, offset_width: u8) -> Vec<Seen> {
        let (link, attribute) = (&self.link_info, &self.attribute_info);
        let places = [
            (Place::LinkHeap, link.fractal_heap_address),
            (Place::LinkIndex, link.address_btree_index),
            (Place::LinkOrder, link.address_btree_order.address),
            (Place::AttributeHeap, attribute.fractal_heap_address),
            (Place::AttributeNames, attribute.attribute_name_btree),
            (
                Place::AttributeOrder,
                attribute.attribute_creation_order_btree,
            ),
            (Place::Layout, self.layout_address.address),
        ];
        let number = |address: Address| match address {
            Address::UNDEFINED => all_ones(offset_width),
            Address { number, .. } => number,
        };
        let seen = places.map(|(place, address)| Seen::new(place, number(address), offset_width));
        seen.into_iter().flatten().collect()
    }
}

#[derive(Clone, Debug, Default, PartialEq, Eq)]
pub struct Header {
    pub next: u64,
    pub entries: u64,
    pub rows: Vec<Row>,
    pub records: Records,
    pub data: Vec<u8>,
}

/// The report of a header that is refused.
pub const REFUSED: &[u8] = b"refused\n";

/// An attribute, whose part is a text. Other rows have data for their part, if any.
const ATTRIBUTE: u64 = 12;

impl Header {
    /// The report. Texts are converted to UTF-8, lossily, as the Rust has them.
    pub fn report(&self) -> Vec<u8> {
        let mut out = Vec::with_capacity(512);
        let records = &self.records;
        line(
            &mut out,
            "read",
            &[self.next, self.entries, self.rows.len() as u64],
        );
        for row in &self.rows {
            row.write(&mut out);
        }
        line(&mut out, "dataspace", words(&records.data_space));
        line(&mut out, "datatype", words(&records.data_type));
        line(&mut out, "link_info", words(&records.link_info));
        line(&mut out, "group_info", words(&records.group_info));
        line(&mut out, "attribute_info", words(&records.attribute_info));
        line(&mut out, "layout", words(&records.layout_address));
        out.extend(b"data");
        blob(&mut out, Some(&self.data));
        out.push(b'\n');
        out
    }

    /// The numbers of the rows that have one, a line for each, which is no part of the report.
    pub fn numbers(&self) -> String {
        let rows = self.rows.iter().enumerate();
        let numbers = rows.filter_map(|(row, one)| Some((row, one.number?)));
        let some = numbers.filter(|(_, number)| *number != Number::default());
        some.map(|(row, Number { case, bits })| format!("number,{row},{case},{bits}\n"))
            .collect()
    }

    /// Whether every name and text is UTF-8 as it stands in the file.
    pub fn is_utf8(&self) -> bool {
        let valid =
            |text: &Option<Vec<u8>>| text.as_deref().is_none_or(|t| str::from_utf8(t).is_ok());
        let mut rows = self.rows.iter();
        rows.all(|row| valid(&row.name) && (row.kind != ATTRIBUTE || valid(&row.part)))
    }
}

impl Row {
    fn write(&self, out: &mut Vec<u8>) {
        let figures = [self.kind, self.flags, self.size, self.body];
        for (i, figure) in figures.iter().enumerate() {
            let comma = if i == 0 { "" } else { "," };
            write!(out, "{comma}{figure}").expect("memory");
        }
        text(out, self.name.as_deref());
        if self.kind == ATTRIBUTE {
            text(out, self.part.as_deref());
        } else {
            blob(out, self.part.as_deref());
        }
        out.push(b'\n');
    }
}

/// The words of a record.
pub(crate) fn words<T>(record: &T) -> &[u64] {
    let count = size_of::<T>() / size_of::<u64>();
    // A record has the layout of C, and nothing but 64-bit words.
    unsafe { std::slice::from_raw_parts(std::ptr::from_ref(record).cast(), count) }
}

fn line(out: &mut Vec<u8>, word: &str, numbers: &[u64]) {
    out.extend(word.as_bytes());
    for number in numbers {
        write!(out, ",{number}").expect("memory");
    }
    out.push(b'\n');
}

/// Length and bytes.
fn blob(out: &mut Vec<u8>, bytes: Option<&[u8]>) {
    match bytes {
        Some(bytes) => {
            write!(out, ",{},", bytes.len()).expect("memory");
            out.extend(bytes);
        }
        None => out.extend(b",-,"),
    }
}

/// Length and bytes of a text in UTF-8.
fn text(out: &mut Vec<u8>, bytes: Option<&[u8]>) {
    let converted = bytes.map(String::from_utf8_lossy);
    blob(out, converted.as_ref().map(|text| text.as_bytes()));
}
