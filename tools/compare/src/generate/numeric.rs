//! Headers whose messages are mostly attributes of one number: of all sizes, signs and orders of bytes,
//! and of forms that are almost a number's.

use super::attribute::WRITTEN;
use super::further::Further;
use super::maker::Maker;
use super::piece::Piece;
use super::types::{DOUBLE, SINGLE};
use crate::input::{Input, put};

const NUMERIC: Further = Further {
    first_batch: 1 << 42,
    first_plain_batch: 1 << 43,
    made: |maker| maker.numeric(),
};
/// How often a field of a number is another than it needs, in thousandths.
const ODD: u64 = 70;
/// How often a value is cut, so that it goes on in what stands behind it, in thousandths.
const CUT: u64 = 60;
/// How often the sizes are those whose product is 1 in 64 bits, and 56 * 2^64 more, in thousandths.
const WRAPPING: u64 = 10;
const WRAPPED: [u64; 4] = [469_411, 335_647, 647_939, 10_119];
/// The bits that are ignored in the class bits of a float.
const IGNORED: u64 = 0xff_008e;

/// Shows the numeric inputs that go with a batch.
pub fn batch(seed: u64, number: u64, show: &mut dyn FnMut(&Input)) {
    NUMERIC.batch(seed, number, show);
}

/// Shows the numeric files that go with a batch.
pub fn plain_batch(seed: u64, number: u64, show: &mut dyn FnMut(&[u8])) {
    NUMERIC.plain_batch(seed, number, show);
}

impl Maker<'_> {
    /// Type, space and value of a numeric attribute.
    pub fn one_number(&mut self, piece: &mut Piece, version: u64) {
        let data_type = match self.random.pick(&[0, 0, 1]) {
            0 => self.fixed_number(),
            _ => self.float_number(),
        };
        let (data_space, count) = self.number_space();
        let elements = self.elements(&data_space, count);
        let value = self.number_value(&data_type, elements);
        self.padded(&mut piece.bytes, &data_type, version);
        self.padded(&mut piece.bytes, &data_space.bytes, version);
        piece.bytes.extend(value);
    }

    /// A space of one element, or almost, and how many sizes it has.
    fn number_space(&mut self) -> (Piece, u64) {
        let count = self.random.pick(&[0, 0, 0, 1, 1, 2, 3, 4]);
        let wraps = self.random.rarely(WRAPPING);
        if wraps && self.length_width > 2 {
            let mut sizes = WRAPPED.into_iter().cycle();
            let next = |_: &mut Self| sizes.next().unwrap_or(1);
            return (self.data_space_with(4, next), 4);
        }
        let one = |maker: &mut Self| maker.mostly(&[1], &[0, 2, 3, 256, 257]);
        (self.data_space_with(count, one), count)
    }

    /// A choice that a number needs, or now and then another.
    fn mostly(&mut self, good: &[u64], odd: &[u64]) -> u64 {
        let is_odd = self.random.rarely(ODD);
        self.random.pick(if is_odd { odd } else { good })
    }

    /// The first eight bytes of a number's type.
    fn number_type(&mut self, class: u64, bits: u64, size: u64) -> Vec<u8> {
        let version = self.choose(&[1, 3], &[0, 2, 4, 5, 15]);
        let mut bytes = Vec::new();
        put(&mut bytes, version << 4 | class, 1);
        put(&mut bytes, bits, 3);
        put(&mut bytes, size, 4);
        bytes
    }

    fn fixed_number(&mut self) -> Vec<u8> {
        let size = self.mostly(&[1, 2, 4, 8], &[0, 3, 5, 6, 7, 12, 16, 63, 64]);
        let all = 8 * size;
        let offset = self.mostly(&[0], &[1, 8, 256, 32_768]);
        let precision = self.mostly(&[all], &[0, 7, 12, all + 1, all + 8, all + 256]);
        let some = self.random.number();
        let bits = self.random.pick(&[0, 1, 8, 9, some, some]);
        let mut data_type = self.number_type(0, bits, size);
        put(&mut data_type, offset, 2);
        put(&mut data_type, precision, 2);
        data_type
    }

    fn float_number(&mut self) -> Vec<u8> {
        let (properties, top) = self.random.pick(&[(SINGLE, 31), (DOUBLE, 63)]);
        let own = (top + 1) / 8;
        let size = self.mostly(&[own], &[12 - own, 0, 1, 2, 7, 16, 63]);
        let order = self.random.below(2) | self.mostly(&[0], &[64]);
        let normalization = self.mostly(&[2], &[0, 1, 3]);
        let sign = self.mostly(&[top], &[94 - top, top - 1, top + 1, 0, 15, 255]);
        let some = self.random.number();
        let ignored = self.random.pick(&[0, some]) & IGNORED;
        let bits = order | normalization << 4 | sign << 8 | ignored;
        let mut data_type = self.number_type(1, bits, size);
        data_type.extend(properties);
        data_type
    }

    /// The bytes of a value, with those of infinity, of quiet and signalling NaNs and of the smallest
    /// and the largest numbers more often than others. Now and then some are missing.
    fn number_value(&mut self, data_type: &[u8], elements: u128) -> Vec<u8> {
        const FIRST: &[[u8; 2]] = &[
            [0, 0],
            [128, 0],
            [127, 255],
            [255, 255],
            [127, 128],
            [127, 240],
            [127, 160],
            [127, 244],
            [255, 192],
            [255, 248],
        ];
        let total = u128::from(data_type[4]).saturating_mul(elements);
        let total = if total > WRITTEN { 8 } else { total as usize };
        let rest = self.random.pick(&[0, 0, 255, 1]);
        let mut value = match self.random.below(2) {
            0 => vec![rest; total],
            _ => self.bytes(total),
        };
        if self.random.rarely(500) {
            let first = self.random.pick(FIRST);
            value
                .iter_mut()
                .zip(first)
                .for_each(|(byte, new)| *byte = new);
        }
        if data_type[1] & 1 == 0 {
            value.reverse();
        }
        if self.random.rarely(CUT) {
            let some = self.random.below(total as u64 + 1) as usize;
            value.truncate(self.random.pick(&[0, some]));
        }
        value
    }
}
