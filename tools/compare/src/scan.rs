//! What the bytes of messages show and no answer does: what stands outside the comparison, and the
//! forms that the mended Rust reads otherwise than the published one.
//!
//! Outside are null dataspaces, and in attributes a type of more than 32 levels, and size times
//! elements of 2^64 or more. The forms are members of version 1 compounds, and version 1 names above 8
//! bytes that are no multiple of 8; null dataspaces in attributes; and where end-of-file is above all
//! ones of the width of offsets, undefined data addresses and continuation offsets.
//!
//! Every field that the mended Rust tests before that is tested here too, so that a header which is
//! refused or an attribute that fails before it gets so far stays in the comparison, with both.

use std::fmt;

use crate::address::{self, Seen};
use crate::answer::NULL;
use crate::input::{Input, get, padding};
use crate::rust::Entry;

pub const DATA_SPACE: u8 = 1;
const DATA_TYPE: u8 = 3;
pub const ATTRIBUTE: u8 = 12;
const LEVELS: u32 = 32;
const LONGEST_NAME: usize = 4096;
const STRING_LIMIT_V1: usize = 255;
const STRING_LIMIT_V3: usize = 4095;
const LARGEST_SIZE: u64 = 1_000_000;

#[derive(Clone, Copy, Debug, PartialEq, Eq)]
pub enum Outside {
    TypeLevel,
    Elements,
}

/// Where a null dataspace stands.
#[derive(Clone, Copy, Debug, PartialEq, Eq, PartialOrd, Ord)]
pub enum Null {
    /// In dataspace messages, and in no attribute.
    Message,
    Attribute,
}

/// What a compound stands in; lists between the two are passed over.
#[derive(Clone, Copy, Debug, PartialEq, Eq)]
pub enum Holder {
    Message,
    /// Of a version.
    Attribute(u64),
    /// Of a version.
    Compound(u64),
}

/// A place where version 1 has padding of its own, or version 3 has none.
#[derive(Clone, Copy, Debug, PartialEq, Eq)]
pub enum Form {
    /// Of a compound of a version.
    Member {
        version: u64,
        holder: Holder,
        /// The bytes of its name with the closing one, and where they end.
        name: usize,
        end: usize,
    },
    /// Of a version 1 attribute: above 8 bytes, and no multiple of 8.
    LongName { size: usize },
}

/// The first fields of a type.
#[derive(Clone, Copy, Debug)]
pub struct Type<'a> {
    pub class: u64,
    /// The class bits.
    pub bits: u64,
    pub size: u64,
    /// The properties of a number, and nothing of other classes.
    pub properties: &'a [u8],
}

/// A dataspace: how many sizes it has, and its elements, which are none where it is null.
#[derive(Clone, Copy, Debug)]
pub struct Space {
    pub sizes: u64,
    pub elements: u128,
    pub is_null: bool,
}

/// What an attribute has behind its name.
#[derive(Clone, Copy, Debug)]
pub struct Attribute<'a> {
    pub data_type: Type<'a>,
    pub space: Space,
    /// Where the value begins.
    pub value: usize,
}

/// What the messages of a header show.
#[derive(Default)]
pub struct Found {
    /// Of its attributes.
    pub outside: Option<Outside>,
    /// Whether the kind of a null dataspace is read, and where; its sizes may be refused.
    pub null: Option<Null>,
    /// Whether a datatype message has more levels than are allowed.
    pub type_too_deep: bool,
    /// Of messages that are read to their end.
    pub forms: Vec<Form>,
    /// Of messages that are refused, and of attributes that fail.
    pub failed: Vec<Form>,
    /// Undefined addresses, and those one below.
    pub addresses: Vec<Seen>,
    /// Whether the published Rust takes one of them for a place in the file.
    pub is_followed: bool,
}

impl Found {
    /// Takes what a message shows, an attribute or another, that is read to its end or not.
    fn take(&mut self, is_attribute: bool, is_read: bool, scan: Scan) {
        match is_read {
            true => self.forms.extend(scan.forms),
            false => self.failed.extend(scan.forms),
        }
        let place = match is_attribute {
            true => Null::Attribute,
            false => Null::Message,
        };
        self.null = self.null.max(scan.meets_null.then_some(place));
        match is_attribute {
            true => self.outside = self.outside.or(scan.outside),
            false => self.type_too_deep |= scan.outside.is_some(),
        }
    }

    /// Whether there is a form that the published Rust reads otherwise than the mended one.
    pub fn is_mended(&self) -> bool {
        let mut forms = self.forms.iter().chain(&self.failed);
        let is_null = self.null == Some(Null::Attribute);
        self.is_followed || is_null || forms.any(Form::is_mended)
    }
}

impl Form {
    /// Whether the published Rust reads it otherwise than the mended one.
    pub fn is_mended(&self) -> bool {
        !matches!(self, Form::Member { version: 3, .. })
    }
}

/// The form without its figures.
impl fmt::Display for Form {
    fn fmt(&self, out: &mut fmt::Formatter) -> fmt::Result {
        match self {
            Form::Member {
                version, holder, ..
            } => {
                write!(out, "a version {version} compound with members in ")?;
                match holder {
                    Holder::Message => write!(out, "a datatype message"),
                    Holder::Attribute(version) => write!(out, "a version {version} attribute"),
                    Holder::Compound(version) => write!(out, "a version {version} compound"),
                }
            }
            Form::LongName { .. } => {
                write!(out, "a version 1 name above 8 bytes and no multiple of 8")
            }
        }
    }
}

/// What the messages show that the mended Rust began to read.
pub fn header(input: &Input, entries: &[Entry]) -> Found {
    let addresses = address::seen(input, entries);
    let mut found = Found {
        is_followed: input.is_above_addresses() && addresses.iter().any(Seen::is_followed),
        addresses,
        ..Found::default()
    };
    for entry in entries {
        let mut scan = Scan::new(input, entry.body);
        // A field that cannot be read ends the message, here as in its readers.
        let end = match entry.kind {
            DATA_SPACE => scan.data_space().map(drop),
            DATA_TYPE => scan.data_type(1).map(drop),
            ATTRIBUTE => scan.attribute().map(drop),
            _ => continue,
        };
        found.take(entry.kind == ATTRIBUTE, end.is_some(), scan);
    }
    found
}

/// The dataspace that stands at a place, or nothing where it has no reading.
pub fn data_space(input: &Input, body: usize) -> Option<Space> {
    Scan::new(input, body).data_space()
}

/// The attribute whose body stands at a place, or nothing where its type or its space has no reading.
pub fn attribute(input: &Input, body: usize) -> Option<Attribute<'_>> {
    Scan::new(input, body).attribute()
}

struct Scan<'a> {
    input: &'a Input,
    at: usize,
    /// What the next type stands in.
    holder: Holder,
    outside: Option<Outside>,
    /// Whether the kind of a null dataspace was read.
    meets_null: bool,
    forms: Vec<Form>,
}

impl<'a> Scan<'a> {
    fn new(input: &'a Input, body: usize) -> Scan<'a> {
        Scan {
            input,
            at: body,
            holder: Holder::Message,
            outside: None,
            meets_null: false,
            forms: Vec::new(),
        }
    }

    fn take(&mut self, count: usize) -> Option<&'a [u8]> {
        let bytes = self.input.file.get(self.at..self.at.checked_add(count)?)?;
        self.at += count;
        Some(bytes)
    }

    fn number(&mut self, width: usize) -> Option<u64> {
        self.take(width).map(get)
    }

    fn attribute(&mut self) -> Option<Attribute<'a>> {
        let version = self.number(1)?;
        self.take(1)?;
        let name_size = self.number(2)? as usize;
        if (version != 1 && version != 3) || name_size > LONGEST_NAME {
            return None;
        }
        self.take(if version == 3 { 5 } else { 4 })?;
        self.take(name_size)?;
        if version == 1 {
            self.name_padding(name_size)?;
        }
        self.holder = Holder::Attribute(version);
        let data_type = self.padded(version, |scan| scan.data_type(1))?;
        let space = self.padded(version, Scan::data_space)?;
        if u128::from(data_type.size) * space.elements >= 1 << 64 {
            self.outside.get_or_insert(Outside::Elements);
        }
        Some(Attribute {
            data_type,
            space,
            value: self.at,
        })
    }

    fn name_padding(&mut self, name_size: usize) -> Option<()> {
        if name_size > 8 && padding(name_size) > 0 {
            self.forms.push(Form::LongName { size: name_size });
        }
        self.take(padding(name_size)).map(drop)
    }

    /// A field that a version 1 attribute pads to 8 bytes.
    fn padded<T>(&mut self, version: u64, field: fn(&mut Self) -> Option<T>) -> Option<T> {
        let start = self.at;
        let value = field(self)?;
        if version == 1 {
            self.take(padding(self.at - start))?;
        }
        Some(value)
    }

    /// A type at a level. One above the limit is read on all the same, for its forms.
    fn data_type(&mut self, level: u32) -> Option<Type<'a>> {
        if level > LEVELS {
            self.outside.get_or_insert(Outside::TypeLevel);
        }
        let first = self.number(1)?;
        let (class, version) = (first & 15, first >> 4);
        let bits = self.number(3)?;
        let size = self.number(4)?;
        if (version != 1 && version != 3) || size > 63 {
            return None;
        }
        let mut properties: &[u8] = &[];
        match class {
            0 => properties = self.take(4)?,
            1 => properties = self.float()?,
            3 | 7 => {}
            6 => self.members(bits & 0xffff, version, size, level)?,
            9 => drop(self.data_type(level + 1)?),
            _ => return None,
        }
        Some(Type {
            class,
            bits,
            size,
            properties,
        })
    }

    fn float(&mut self) -> Option<&'a [u8]> {
        const SINGLE: &[u8] = &[0, 0, 32, 0, 23, 8, 0, 23, 127, 0, 0, 0];
        const DOUBLE: &[u8] = &[0, 0, 64, 0, 52, 11, 0, 52, 255, 3, 0, 0];
        let fields = self.take(12)?;
        (fields == SINGLE || fields == DOUBLE).then_some(fields)
    }

    fn members(&mut self, count: u64, version: u64, size: u64, level: u32) -> Option<()> {
        let holder = self.holder;
        for _ in 0..count {
            self.member(version, size, holder)?;
            self.holder = Holder::Compound(version);
            self.data_type(level + 1)?;
        }
        self.holder = holder;
        Some(())
    }

    /// What stands before a member's type.
    fn member(&mut self, version: u64, size: u64, holder: Holder) -> Option<()> {
        let name = self.name(if version == 3 {
            STRING_LIMIT_V3
        } else {
            STRING_LIMIT_V1
        })?;
        self.forms.push(Form::Member {
            version,
            holder,
            name,
            end: self.at,
        });
        if version == 3 {
            return self.take(usize::from(size > 0)).map(drop);
        }
        self.take(padding(name))?;
        let _offset = self.take(4)?;
        let dimensionality = self.number(1)?;
        if dimensionality != 0 {
            return None;
        }
        self.take(27).map(drop)
    }

    /// The bytes of a name with its closing byte.
    fn name(&mut self, limit: usize) -> Option<usize> {
        let rest = self.input.file.get(self.at..)?;
        let length = rest.iter().take(limit).position(|byte| *byte == 0);
        let length = length.unwrap_or(limit.min(rest.len()));
        self.take(length + 1)?;
        Some(length + 1)
    }

    /// A dataspace. In version 1 no byte is a kind.
    fn data_space(&mut self) -> Option<Space> {
        let version = self.number(1)?;
        let count = self.number(1)?;
        let flags = self.number(1)?;
        let between = self.take(if version == 1 { 5 } else { 1 })?;
        if !(1..=2).contains(&version) || count > 4 || (version == 1 && flags & 2 != 0) {
            return None;
        }
        let is_null = version == 2 && between == [NULL];
        self.meets_null |= is_null;
        let mut product = 1;
        for _ in 0..count {
            product *= u128::from(self.size(false)?);
        }
        if flags & 1 != 0 {
            (0..count).try_for_each(|_| self.size(true).map(drop))?;
        }
        Some(Space {
            sizes: count,
            elements: if is_null { 0 } else { product },
            is_null,
        })
    }

    fn size(&mut self, maximum: bool) -> Option<u64> {
        let width = usize::from(self.input.length_width);
        let bytes = self.take(width)?;
        let unlimited = maximum && bytes.iter().all(|byte| *byte == 255);
        let size = get(bytes);
        (size <= LARGEST_SIZE || unlimited).then_some(size)
    }
}
