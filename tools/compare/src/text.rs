//! The text of a row, and where it stands, which no Rust tells: what the tool itself reads from the
//! row's bytes.
//!
//! A row has a text where it is an attribute of class 3 whose size is above 0 and whose value lies in
//! the file. In a null dataspace the text is empty, and stands where the space and its padding end.

use crate::input::Input;
use crate::number::{FIXED_POINT, FLOATING_POINT};
use crate::scan::{self, ATTRIBUTE, Attribute, Type};

const STRING: u64 = 3;
const LIST: u64 = 9;

/// Where a text begins, and its bytes without the zeros at its end.
#[derive(Clone, Copy, Debug, PartialEq, Eq)]
pub struct Text {
    pub position: u64,
    pub length: u64,
}

/// What an attribute is of.
#[derive(Clone, Copy, Debug, PartialEq, Eq, PartialOrd, Ord)]
pub enum Class {
    Text,
    /// A text of size 0, which never has a value.
    NoText,
    Number,
    /// It uses the bytes of its size, whatever its elements.
    List,
    Other,
}

impl Class {
    fn of(data_type: &Type) -> Class {
        match (data_type.class, data_type.size) {
            (STRING, 0) => Class::NoText,
            (STRING, _) => Class::Text,
            (FIXED_POINT | FLOATING_POINT, _) => Class::Number,
            (LIST, _) => Class::List,
            _ => Class::Other,
        }
    }
}

/// What the bytes of a row say of its text.
#[derive(Clone, Copy, Debug, Default, PartialEq, Eq)]
pub struct Reading {
    pub text: Option<Text>,
    /// Of an attribute with a null dataspace.
    pub null: Option<Class>,
}

/// Reads the text of a row, of its type and where its body stands.
pub fn read(input: &Input, kind: u64, body: u64) -> Reading {
    if kind != u64::from(ATTRIBUTE) {
        return Reading::default();
    }
    let Some(attribute) = scan::attribute(input, body as usize) else {
        return Reading::default();
    };
    let class = Class::of(&attribute.data_type);
    Reading {
        text: match class {
            Class::Text => text(input, &attribute),
            _ => None,
        },
        null: attribute.space.is_null.then_some(class),
    }
}

/// The text of size times elements bytes.
fn text(input: &Input, attribute: &Attribute) -> Option<Text> {
    let bytes = u128::from(attribute.data_type.size) * attribute.space.elements;
    let from = attribute.value;
    let end = from.checked_add(usize::try_from(bytes).ok()?)?;
    let value = input.file.get(from..end)?;
    let zeros = value.iter().rev().take_while(|byte| **byte == 0).count();
    Some(Text {
        position: from as u64,
        length: (value.len() - zeros) as u64,
    })
}
