//! The number of a row, which no Rust knows: what the tool itself reads from the row's bytes, by the
//! standard's tables of fixed-point and floating-point types, and by nothing of the port.
//!
//! A row has a number where it is an attribute of class 0 or 1 with exactly one element, and one of
//! the forms below. Every other row has none, and both of its words are 0. A null dataspace has no
//! element, also where its sizes are 1 or there are none.

use crate::input::{Input, get};
use crate::scan::{self, ATTRIBUTE, Type};

/// The two words of a row: which number it has, and the bits of that.
#[derive(Clone, Copy, Debug, Default, PartialEq, Eq)]
pub struct Number {
    pub case: u64,
    pub bits: u64,
}

/// The cases; 0 is none.
pub const UNSIGNED: u64 = 1;
pub const SIGNED: u64 = 2;
pub const SINGLE: u64 = 3;
pub const DOUBLE: u64 = 4;

pub const FIXED_POINT: u64 = 0;
pub const FLOATING_POINT: u64 = 1;
/// The most significant bit of the mantissa is not stored.
const IMPLIED: u64 = 2;

/// What the bytes of a row say of its number.
#[derive(Clone, Copy, Debug, PartialEq, Eq)]
pub enum Reading {
    Number(Number, Stored),
    None(Why),
}

/// How a number is stored.
#[derive(Clone, Copy, Debug, PartialEq, Eq, PartialOrd, Ord)]
pub struct Stored {
    pub bytes: u64,
    /// Whether the highest byte comes first.
    pub highest_first: bool,
}

/// Why a row has no number.
#[derive(Clone, Copy, Debug, PartialEq, Eq, PartialOrd, Ord)]
pub enum Why {
    OtherMessage,
    /// Its type or its space has no reading.
    Unread,
    OtherClass,
    /// Of class 0 or 1, in a null dataspace.
    Null,
    /// All rules hold but this one.
    But(Rule),
    /// More than one rule does not hold.
    Several,
    /// All rules hold, and the value leaves the file.
    Value,
}

/// What a number needs beside its class.
#[derive(Clone, Copy, Debug, PartialEq, Eq, PartialOrd, Ord)]
pub enum Rule {
    /// There is one.
    Elements,
    /// 1, 2, 4 or 8 bytes, or those of the format of a float.
    Size,
    /// The bit offset is 0.
    Offset,
    /// All bits of the bytes count.
    Precision,
    /// The order of the bytes is one of the first two.
    Order,
    Normalization,
    /// The sign is the top bit of the format.
    Sign,
}

impl Reading {
    /// What the row's words have to be.
    pub fn number(&self) -> Number {
        match self {
            Reading::Number(number, _) => *number,
            Reading::None(_) => Number::default(),
        }
    }
}

/// Reads the number of a row, of its type and where its body stands.
pub fn read(input: &Input, kind: u64, body: u64) -> Reading {
    if kind != u64::from(ATTRIBUTE) {
        return Reading::None(Why::OtherMessage);
    }
    let Some(attribute) = scan::attribute(input, body as usize) else {
        return Reading::None(Why::Unread);
    };
    let data_type = &attribute.data_type;
    let rules = match data_type.class {
        FIXED_POINT => rules_of_fixed(data_type),
        FLOATING_POINT => rules_of_float(data_type),
        _ => return Reading::None(Why::OtherClass),
    };
    if attribute.space.is_null {
        return Reading::None(Why::Null);
    }
    let one = (Rule::Elements, attribute.space.elements == 1);
    let mut broken = rules.iter().chain([&one]).filter(|(_, holds)| !holds);
    match (broken.next(), broken.next()) {
        (Some((rule, _)), None) => Reading::None(Why::But(*rule)),
        (Some(_), Some(_)) => Reading::None(Why::Several),
        (None, _) => stored(input, data_type, attribute.value),
    }
}

/// Bit offset and bit precision.
fn offset_and_precision(data_type: &Type) -> (u64, u64) {
    let (offset, rest) = data_type.properties.split_at(2);
    (get(offset), get(&rest[..2]))
}

fn rules_of_fixed(data_type: &Type) -> Vec<(Rule, bool)> {
    let (offset, precision) = offset_and_precision(data_type);
    vec![
        (Rule::Size, [1, 2, 4, 8].contains(&data_type.size)),
        (Rule::Offset, offset == 0),
        (Rule::Precision, precision == 8 * data_type.size),
    ]
}

/// The properties are those of a single or of a double, or the type has no reading: so the precision
/// tells which.
fn rules_of_float(data_type: &Type) -> Vec<(Rule, bool)> {
    let (_, precision) = offset_and_precision(data_type);
    let bits = data_type.bits;
    vec![
        (Rule::Size, 8 * data_type.size == precision),
        (Rule::Order, bits & 64 == 0),
        (Rule::Normalization, bits >> 4 & 3 == IMPLIED),
        (Rule::Sign, bits >> 8 & 255 == precision - 1),
    ]
}

/// The number whose bytes stand at a place.
fn stored(input: &Input, data_type: &Type, at: usize) -> Reading {
    let bytes = data_type.size;
    let Some(value) = input.file.get(at..at + bytes as usize) else {
        return Reading::None(Why::Value);
    };
    let highest_first = data_type.bits & 1 != 0;
    let mut lowest_first = value.to_vec();
    if highest_first {
        lowest_first.reverse();
    }
    let bits = get(&lowest_first);
    let signed = data_type.bits & 8 != 0;
    let number = match (data_type.class, bytes) {
        (FLOATING_POINT, 4) => Number { case: SINGLE, bits },
        (FLOATING_POINT, _) => Number { case: DOUBLE, bits },
        _ if signed => Number {
            case: SIGNED,
            bits: twos_complement(bits, bytes),
        },
        _ => Number {
            case: UNSIGNED,
            bits,
        },
    };
    Reading::Number(
        number,
        Stored {
            bytes,
            highest_first,
        },
    )
}

/// The number that some bits write in so many bytes, in 8 bytes.
fn twos_complement(bits: u64, bytes: u64) -> u64 {
    let all = 1_i128 << (8 * bytes);
    let number = i128::from(bits);
    let signed = if number < all / 2 {
        number
    } else {
        number - all
    };
    signed as u64
}
