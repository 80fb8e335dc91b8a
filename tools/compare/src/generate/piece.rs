//! Bytes with places in them that are named before their addresses are known.

use crate::input::put;

#[derive(Clone, Copy, Debug, PartialEq, Eq)]
pub enum Place {
    /// Where a block begins.
    Block(usize),
    /// How long a block is.
    BlockLength(usize),
    /// Where the bytes begin that layouts point to.
    Data,
    /// The length of the file.
    End,
}

/// A number to be filled in: an address or a length, moved by a shift.
#[derive(Clone, Copy, Debug)]
struct Link {
    at: usize,
    width: u8,
    to: Place,
    shift: u64,
}

/// A place that has a name now.
#[derive(Clone, Copy, Debug)]
struct Mark {
    at: usize,
    length: usize,
    name: Place,
}

#[derive(Clone, Debug, Default)]
pub struct Piece {
    pub bytes: Vec<u8>,
    links: Vec<Link>,
    marks: Vec<Mark>,
}

impl Piece {
    pub fn len(&self) -> usize {
        self.bytes.len()
    }

    pub fn put(&mut self, value: u64, width: u8) {
        put(&mut self.bytes, value, width);
    }

    pub fn link(&mut self, to: Place, shift: u64, width: u8) {
        let at = self.len();
        self.links.push(Link {
            at,
            width,
            to,
            shift,
        });
        self.put(0, width);
    }

    pub fn append(&mut self, other: &Piece) {
        let start = self.len();
        self.bytes.extend(&other.bytes);
        self.links.extend(other.links.iter().map(|link| Link {
            at: link.at + start,
            ..*link
        }));
        self.marks.extend(other.marks.iter().map(|mark| Mark {
            at: mark.at + start,
            ..*mark
        }));
    }

    /// Names the whole piece.
    pub fn name(&mut self, name: Place) {
        let mark = Mark {
            at: 0,
            length: self.len(),
            name,
        };
        self.marks.push(mark);
    }

    /// The bytes with every link filled in.
    pub fn resolve(mut self) -> Vec<u8> {
        for link in std::mem::take(&mut self.links) {
            let value = self.value(link.to).wrapping_add(link.shift);
            let bytes = value.to_le_bytes();
            let width = usize::from(link.width);
            self.bytes[link.at..link.at + width].copy_from_slice(&bytes[..width]);
        }
        self.bytes
    }

    /// What a place stands for; 0 where nothing has its name.
    fn value(&self, place: Place) -> u64 {
        let named = |name: Place| self.marks.iter().find(|mark| mark.name == name);
        match place {
            Place::BlockLength(block) => named(Place::Block(block)).map_or(0, |m| m.length as u64),
            Place::End => self.len() as u64,
            _ => named(place).map_or(0, |mark| mark.at as u64),
        }
    }
}
