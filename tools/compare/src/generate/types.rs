//! Datatypes and dataspaces.

use super::maker::Maker;
use super::piece::Piece;
use crate::address::all_ones;
use crate::input::padding;

/// The properties of floats.
pub const SINGLE: [u8; 12] = [0, 0, 32, 0, 23, 8, 0, 23, 127, 0, 0, 0];
pub const DOUBLE: [u8; 12] = [0, 0, 64, 0, 52, 11, 0, 52, 255, 3, 0, 0];
/// Levels at and around the limit of 32.
const DEEP: &[u64] = &[30, 31, 32, 32, 33, 34, 40];
const LARGEST_SIZE: u64 = 1_000_000;

impl Maker<'_> {
    /// A type of any class, now and then at the limit of levels.
    pub fn data_type(&mut self) -> Piece {
        if self.random.rarely(12) {
            return self.deep_type();
        }
        let mut piece = Piece::default();
        self.type_below(&mut piece, 4);
        piece
    }

    /// A type of a class.
    pub fn type_of(&mut self, class: u64) -> Piece {
        let mut piece = Piece::default();
        self.class(&mut piece, class, 3);
        piece
    }

    /// A type with at most so many levels below it.
    fn type_below(&mut self, piece: &mut Piece, levels: u32) {
        const FLAT: &[u64] = &[0, 0, 1, 1, 3, 3, 7];
        const NESTED: &[u64] = &[0, 0, 1, 1, 3, 3, 7, 6, 6, 9, 9];
        const EARLY: &[u64] = &[0, 1, 3, 7, 6, 6, 6, 9];
        let good = match levels {
            0 => FLAT,
            _ if self.early => EARLY,
            _ => NESTED,
        };
        let class = self.choose(good, &[2, 4, 5, 8, 10, 15]);
        self.class(piece, class, levels);
    }

    /// The first eight bytes; answers the version and the size.
    fn type_fields(&mut self, piece: &mut Piece, class: u64, bits: u64) -> (u64, u64) {
        let good = self.pick_early(&[1, 1, 1, 3], &[1, 3]);
        let version = self.choose(&[good], &[0, 2, 4, 5, 15]);
        let some = self.random.below(64);
        let size = self.choose(
            &[0, 1, 4, 8, 12, 13, 16, 63, some, some],
            &[64, 65, 255, 256, 1 << 16, 1 << 31, 0xffff_ffff],
        );
        piece.put(version << 4 | class, 1);
        piece.put(bits, 3);
        piece.put(size, 4);
        (version, size)
    }

    fn class(&mut self, piece: &mut Piece, class: u64, levels: u32) {
        if class == 6 {
            return self.compound(piece, levels);
        }
        let bits = self.any_number();
        self.type_fields(piece, class, bits);
        match class {
            0 => {
                let (offset, precision) = (self.any_number(), self.any_number());
                piece.put(offset, 2);
                piece.put(precision, 2);
            }
            1 => self.float(piece),
            9 => self.type_below(piece, levels.saturating_sub(1)),
            _ => {}
        }
    }

    fn float(&mut self, piece: &mut Piece) {
        let mut fields = self.random.pick(&[SINGLE, DOUBLE]);
        if self.fault() {
            let at = self.random.below(12) as usize;
            fields[at] = self.random.byte();
        }
        piece.bytes.extend(fields);
    }

    fn compound(&mut self, piece: &mut Piece, levels: u32) {
        let members = self.random.pick(&[0, 1, 1, 2, 2, 3]);
        let told = if self.fault() { members + 1 } else { members };
        let high = self.random.pick(&[0, 0, 0x10000, 0xff0000]);
        let (version, size) = self.type_fields(piece, 6, high | told);
        for _ in 0..members {
            self.member(piece, version, size);
            self.type_below(piece, levels.saturating_sub(1));
        }
    }

    /// What stands before a member's type. A name that is longer than its limit goes on through the
    /// bytes after it: the first of them closes it, whatever it is. Now and then version 1 is as the
    /// published Rust reads it: with one byte more to pad, and a dimensionality of 4 bytes.
    fn member(&mut self, piece: &mut Piece, version: u64, size: u64) {
        let limit = if version == 3 { 4095 } else { 255 };
        let length = self.member_name_length(limit);
        let name = length.min(limit);
        let letters = self.letters(name);
        piece.bytes.extend(letters);
        let published = version != 3 && self.random.rarely(60);
        let after = match version {
            3 => usize::from(size > 0),
            _ => padding(name + 1 + usize::from(published)) + 4,
        };
        let closing = match length > limit {
            true => self.letters(1 + after),
            false => [&[0], &self.bytes(after)[..]].concat(),
        };
        piece.bytes.extend(closing);
        if version != 3 {
            let dimensionality = self.choose(&[0], &[1, 2, 4, 128, 255]);
            piece.put(dimensionality, if published { 4 } else { 1 });
            let untested = self.untested();
            piece.bytes.extend(untested);
        }
    }

    /// Reserved bytes, permutation and sizes of a version 1 member, often zero as they should be.
    fn untested(&mut self) -> Vec<u8> {
        match self.random.rarely(300) {
            true => vec![0; 27],
            false => self.bytes(27),
        }
    }

    fn member_name_length(&mut self, limit: usize) -> usize {
        let some = self.random.below(12) as usize;
        let near = 8 * self.random.within(1, 5) as usize + self.random.below(4) as usize - 2;
        if self.random.rarely(15) {
            return self
                .random
                .pick(&[limit - 8, limit - 7, limit - 1, limit, limit + 1]);
        }
        self.random.pick(&[0, 1, 6, 7, 8, near, some, some, some])
    }

    /// Lists or compounds around one flat type, at the limit of levels.
    pub fn deep_type(&mut self) -> Piece {
        let mut piece = Piece::default();
        let levels = self.random.pick(DEEP);
        let class = self.random.pick(&[9, 9, 6]);
        for _ in 1..levels {
            let (version, size) = self.type_fields(&mut piece, class, 1);
            if class == 6 {
                self.member(&mut piece, version, size);
            }
        }
        self.type_below(&mut piece, 0);
        piece
    }

    pub fn data_space(&mut self) -> Piece {
        let count = self.choose(&[0, 0, 1, 1, 2, 2, 3, 4], &[5, 6, 255]);
        self.data_space_of(count)
    }

    pub fn data_space_of(&mut self, count: u64) -> Piece {
        match count == 4 && self.is_near() {
            true => self.data_space_with(count, Maker::near_size),
            false => self.data_space_with(count, Maker::size),
        }
    }

    /// A dataspace of so many sizes, each of which `size` makes.
    pub fn data_space_with(&mut self, count: u64, mut size: impl FnMut(&mut Self) -> u64) -> Piece {
        let mut piece = Piece::default();
        let version = self.choose(&[1, 2, 2], &[0, 3, 255]);
        let noise = self.any_number() & 0xfc;
        let bits = if version == 1 {
            &[0, 1][..]
        } else {
            &[0, 1, 2, 3]
        };
        let flags = noise | self.choose(bits, &[2, 3]);
        piece.put(version, 1);
        piece.put(count, 1);
        piece.put(flags, 1);
        let mut between = self.bytes(if version == 1 { 5 } else { 1 });
        self.set_kind(version, &mut between);
        piece.bytes.extend(between);
        let count = count.min(8);
        for _ in 0..count {
            let size = size(self);
            piece.put(size, self.length_width);
        }
        for _ in 0..if flags & 1 == 0 { 0 } else { count } {
            let maximum = self.maximum();
            piece.put(maximum, self.length_width);
        }
        piece
    }

    /// A size that is allowed, and fits the width.
    fn size(&mut self) -> u64 {
        let ones = all_ones(self.length_width);
        let limit = LARGEST_SIZE.min(ones);
        if ones > LARGEST_SIZE && self.fault() {
            let high = 1 << (8 * u32::from(self.length_width) - 8);
            return self
                .random
                .pick(&[LARGEST_SIZE + 1, ones, ones - 1, ones / 2, high]);
        }
        let some = self.random.below(5);
        let large = self.random.below(limit + 1);
        self.random
            .pick(&[0, 1, 2, some, some, some, large, limit - 1, limit])
    }

    fn maximum(&mut self) -> u64 {
        if self.random.rarely(400) {
            return all_ones(self.length_width);
        }
        self.size()
    }
}
