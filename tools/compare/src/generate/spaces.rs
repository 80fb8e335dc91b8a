//! Headers whose messages are mostly dataspaces and attributes: null ones, bytes that are almost the
//! kind of one, and sizes whose product is 2^64 or beside it.

use super::further::Further;
use super::maker::Maker;
use crate::answer::NULL;
use crate::input::Input;

const SPACES: Further = Further {
    first_batch: 1 << 44,
    first_plain_batch: 1 << 45,
    made: |maker| maker.of_spaces(),
};
/// How often a message has a dataspace for that alone, in thousandths.
const MESSAGES: u64 = 700;
/// How often an attribute is of one number, in thousandths.
const NUMBERS: u64 = 150;
/// How often four sizes are those beside the fourth root of 2^64, in thousandths.
const NEAR: u64 = 600;
const ROOTS: &[u64] = &[65_535, 65_536, 65_536, 65_536, 65_536, 65_537];
/// How often bytes follow a null attribute as the published Rust reads them, in thousandths.
const PUBLISHED: u64 = 100;

/// Shows the inputs of dataspaces that go with a batch.
pub fn batch(seed: u64, number: u64, show: &mut dyn FnMut(&Input)) {
    SPACES.batch(seed, number, show);
}

/// Shows the files of dataspaces that go with a batch.
pub fn plain_batch(seed: u64, number: u64, show: &mut dyn FnMut(&[u8])) {
    SPACES.plain_batch(seed, number, show);
}

impl Maker<'_> {
    /// Whether the next message is one with a dataspace.
    pub fn has_space(&mut self) -> bool {
        self.spaces.is_some() && self.random.rarely(MESSAGES)
    }

    /// Whether the next attribute is of one number, for its space.
    pub fn has_number(&mut self) -> bool {
        self.spaces.is_some() && self.random.rarely(NUMBERS)
    }

    /// Whether four sizes are to have a product of about 2^64.
    pub fn is_near(&mut self) -> bool {
        self.spaces.is_some() && self.length_width > 2 && self.random.rarely(NEAR)
    }

    pub fn near_size(&mut self) -> u64 {
        self.random.pick(ROOTS)
    }

    /// Puts a kind among the bytes before the sizes, or in version 1, which has none, the byte of one.
    pub fn set_kind(&mut self, version: u64, between: &mut [u8]) {
        let Some(rate) = self.spaces else {
            return;
        };
        let some = self.random.byte();
        between[0] = match version {
            1 => self.random.pick(&[0, NULL]),
            _ if self.random.rarely(rate) => NULL,
            _ => self.random.pick(&[0, 0, 1, 1, 3, NULL | 128, some]),
        };
    }

    /// Whether a dataspace is null and its attribute is to be written so.
    pub fn is_null(&mut self, data_space: &[u8]) -> bool {
        let is_null = data_space[0] == 2 && data_space[3] == NULL;
        self.spaces.is_some() && is_null && !self.random.rarely(PUBLISHED)
    }
}
