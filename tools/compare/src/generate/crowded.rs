//! Headers with about as many rows as the listing has, or as entries can be read: most of them are of
//! the smallest messages, and what may be wrong stands among them or behind them.

use super::maker::Maker;
use super::piece::Piece;
use super::plain::sound;
use super::sums::Sums;
use crate::input::Input;
use crate::random::Random;

/// How many go with a batch of inputs, and with one of plain files.
const INPUTS: usize = 2;
const FILES: usize = 4;
/// So that they have other random numbers than the inputs, and the files, of a batch.
const FIRST_BATCH: u64 = 1 << 40;
const FIRST_PLAIN_BATCH: u64 = 1 << 41;
/// With more small messages than these a header has no others.
pub const FULL: u64 = 4094;
/// How often one of the small messages is the fault, in thousandths.
const SMALL_RATE: u64 = 300;

/// Shows the crowded inputs that go with a batch.
pub fn batch(seed: u64, number: u64, show: &mut dyn FnMut(&Input)) {
    let number = FIRST_BATCH + number;
    let mut random = Random::new(seed, number);
    let mut sums = Sums::often_false(seed, number);
    for _ in 0..INPUTS {
        let input = Maker::crowded(&mut random).input();
        show(&sums.done(input));
    }
}

/// Shows the crowded files that go with a batch.
pub fn plain_batch(seed: u64, number: u64, show: &mut dyn FnMut(&[u8])) {
    let number = FIRST_PLAIN_BATCH + number;
    let mut random = Random::new(seed, number);
    let mut sums = Sums::often_false(seed, number);
    for _ in 0..FILES {
        let file = sound(&mut Maker::crowded(&mut random));
        show(&sums.done(file));
    }
}

impl<'r> Maker<'r> {
    /// A maker of headers with many small messages, half of them without a fault.
    fn crowded(random: &'r mut Random) -> Maker<'r> {
        let (faults, rate) = match random.below(10) {
            0..5 => (0, 0),
            5..9 => (1, 20),
            _ => (1000, 20),
        };
        let crowd = match random.below(20) {
            0..13 => random.within(506, 514),
            13..18 => random.within(300, 1100),
            18 => random.within(4086, FULL),
            _ => random.pick(&[FULL + 1, FULL + 2, FULL + 2, FULL + 3]),
        };
        let mut maker = Maker::with_faults(random, faults, rate);
        maker.crowd = crowd;
        maker
    }

    /// The small messages of one of some chunks: of no type, and without a body. As a fault, the flags
    /// of one of them are bad, or its size.
    pub fn small(&mut self, number: usize, chunks: usize, orders: bool) -> Piece {
        let share = self.crowd / chunks as u64;
        let count = match number {
            0 => self.crowd - share * (chunks as u64 - 1),
            _ => share,
        };
        let size = if orders { 6 } else { 4 };
        let mut small = Piece::default();
        small.bytes.resize(count as usize * size, 0);
        if count > 0 && self.fault_at(SMALL_RATE) {
            let some = self.random.below(count);
            let which = self.random.pick(&[0, some, some, count - 1, count - 1]);
            let (at, byte) = self.random.pick(&[(3, 2), (3, 128), (2, 255), (0, 16)]);
            small.bytes[which as usize * size + at] = byte;
        }
        small
    }
}
