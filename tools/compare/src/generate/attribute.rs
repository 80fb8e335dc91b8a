//! Attributes, with and without a value.

use super::maker::Maker;
use super::piece::Piece;
use crate::input::{get, padding, put};

/// Values up to this length are written out.
pub const WRITTEN: u128 = 400;
/// How often an attribute of a numeric header is of one number, in thousandths.
const NUMERIC: u64 = 900;
/// Sizes and elements whose product is 1,048,576, one less and one more.
const MANY: &[(u64, u64)] = &[(32, 32_768), (25, 41_943), (17, 61_681)];

impl Maker<'_> {
    pub fn attribute(&mut self) -> Piece {
        let mut piece = Piece::default();
        let good = self.pick_early(&[1, 1, 3], &[1, 3]);
        let version = self.choose(&[good], &[0, 2, 4, 255]);
        let name_size = self.name_size();
        let told = self.choose(&[name_size], &[4097, 4098, 65_535]);
        piece.put(version, 1);
        let flags = self.random.pick(&[0, 0, 1, 2, 255]);
        piece.put(flags, 1);
        piece.put(told, 2);
        let unused = self.bytes(if version == 3 { 5 } else { 4 });
        piece.bytes.extend(unused);
        let name = self.text(name_size as usize);
        piece.bytes.extend(name);
        if version == 1 {
            let padding = self.name_padding(name_size as usize);
            piece.bytes.extend(padding);
        }
        self.type_space_value(&mut piece, version);
        piece
    }

    /// The padding of a version 1 name; now and then as the published Rust reads it, none above 8.
    fn name_padding(&mut self, name_size: usize) -> Vec<u8> {
        let published = name_size > 8 && self.random.rarely(60);
        self.bytes(if published { 0 } else { padding(name_size) })
    }

    fn name_size(&mut self) -> u64 {
        let some = self.random.below(41);
        if self.random.rarely(4) {
            return self.random.pick(&[255, 256, 4095, 4096, 4097]);
        }
        self.random
            .pick(&[0, 1, 6, 7, 8, 9, 15, 16, 17, some, some, some])
    }

    /// The rest of an attribute. What fails here leaves it without a value.
    fn type_space_value(&mut self, piece: &mut Piece, version: u64) {
        if (self.numeric && self.random.rarely(NUMERIC)) || self.has_number() {
            return self.one_number(piece, version);
        }
        if self.random.rarely(5) {
            return self.many_numbers(piece, version);
        }
        let class = self.pick_early(&[3, 3, 9, 6, 6, 6], &[3, 3, 3, 3, 9, 0, 1, 6, 7]);
        let data_type = match self.random.rarely(10) {
            true => self.deep_type(),
            false => self.type_of(class),
        };
        let count = self.random.pick(&[0, 0, 1, 1, 2, 3, 4]);
        let data_space = self.data_space_of(count);
        let elements = self.elements(&data_space, count);
        let mut rest = Vec::new();
        self.padded(&mut rest, &data_type.bytes, version);
        self.padded(&mut rest, &data_space.bytes, version);
        let value = self.value(&data_type.bytes, elements);
        rest.extend(value);
        if self.random.rarely(60) {
            self.spoil(&mut rest);
        }
        piece.bytes.extend(rest);
    }

    /// Numbers whose bytes are at the limit of those that are passed, and are not there.
    fn many_numbers(&mut self, piece: &mut Piece, version: u64) {
        let (size, elements) = self.random.pick(MANY);
        let mut data_type = vec![0x30, 0, 0, 0];
        put(&mut data_type, size, 4);
        data_type.extend(self.bytes(4));
        let mut data_space = vec![2, 1, 0, 0];
        put(&mut data_space, elements, self.length_width);
        self.padded(&mut piece.bytes, &data_type, version);
        self.padded(&mut piece.bytes, &data_space, version);
    }

    /// The bytes of a field, padded to 8 in version 1.
    pub fn padded(&mut self, rest: &mut Vec<u8>, field: &[u8], version: u64) {
        rest.extend(field);
        if version == 1 {
            let padding = self.bytes(padding(field.len()));
            rest.extend(padding);
        }
    }

    pub fn elements(&mut self, data_space: &Piece, count: u64) -> u128 {
        if self.is_null(&data_space.bytes) {
            return 0;
        }
        let width = usize::from(self.length_width);
        let start = if data_space.bytes[0] == 1 { 8 } else { 4 };
        let sizes = data_space.bytes[start..].chunks_exact(width);
        sizes
            .take(count as usize)
            .map(|bytes| u128::from(get(bytes)))
            .fold(1, u128::saturating_mul)
    }

    fn value(&mut self, data_type: &[u8], elements: u128) -> Vec<u8> {
        let size = u128::from(get(&data_type[4..8]));
        let list = data_type[0] & 15 == 9;
        let total = if list {
            size
        } else {
            size.saturating_mul(elements)
        };
        if total > WRITTEN {
            return self.text(8);
        }
        self.text(total as usize)
    }

    /// Makes type, space or value fail, or nothing at all.
    fn spoil(&mut self, rest: &mut Vec<u8>) {
        if rest.is_empty() {
            return;
        }
        let at = self.random.below(rest.len() as u64) as usize;
        match self.random.below(3) {
            0 => rest.truncate(at),
            1 => rest[at] = self.random.byte(),
            _ => rest[at] = 255,
        }
    }
}
