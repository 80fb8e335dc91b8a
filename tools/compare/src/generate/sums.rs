//! What is done to the sums of an input before it is shown: most are made true, some are false on
//! purpose.

use crate::closing::{Summed, make_true};
use crate::random::Random;
use crate::sum::{Closing, Wrong};

/// So that the sums have other random numbers than the inputs.
const FIRST_BATCH: u64 = 1 << 48;
/// Damaged copies that are left as the damage made them, in thousandths.
const LEFT: u64 = 250;
/// Other inputs that are made false, in thousandths; and where many are.
const FALSE: u64 = 62;
const OFTEN_FALSE: u64 = 200;

pub struct Sums {
    random: Random,
    /// Whether the inputs are damaged copies of true ones.
    damaged: bool,
    /// Those that are made false otherwise, in thousandths.
    rate: u64,
}

impl Sums {
    pub fn new(seed: u64, number: u64, damaged: bool) -> Sums {
        Sums {
            random: Random::new(seed, FIRST_BATCH + number),
            damaged,
            rate: FALSE,
        }
    }

    /// The same for inputs of which many are made false.
    pub fn often_false(seed: u64, number: u64) -> Sums {
        Sums {
            rate: OFTEN_FALSE,
            ..Sums::new(seed, number, false)
        }
    }

    /// An input as it is shown.
    pub fn done<T: Summed>(&mut self, mut given: T) -> T {
        if self.damaged && self.random.rarely(LEFT) {
            return given;
        }
        make_true(&mut given);
        if !self.damaged && self.random.rarely(self.rate) {
            let closings = given.closings();
            self.falsify(given.bytes_mut(), &closings);
        }
        given
    }

    /// Flips a bit of one stored value or of the bytes that it is the sum of, or puts a wrong sum in
    /// its place.
    fn falsify(&mut self, file: &mut [u8], closings: &[Closing]) {
        let inside = |closing: &&Closing| closing.is_inside(file);
        let closings: Vec<Closing> = closings.iter().filter(inside).copied().collect();
        if closings.is_empty() {
            return;
        }
        let closing = self.random.pick(&closings);
        let within = |random: &mut Random, from: usize, end: usize| {
            from + random.below((end - from) as u64) as usize
        };
        let at = match self.random.below(10) {
            0 | 1 => within(&mut self.random, closing.end, closing.end + 4),
            2 => closing.from,
            3 => closing.end - 1,
            4 => within(&mut self.random, closing.from, closing.end),
            _ => return self.sum_wrongly(file, &closing),
        };
        file[at] ^= 1 << self.random.below(8);
    }

    fn sum_wrongly(&mut self, file: &mut [u8], closing: &Closing) {
        if let Some(sum) = self.random.pick(Wrong::ALL).sum(file, closing) {
            closing.store(file, sum);
        }
    }
}
