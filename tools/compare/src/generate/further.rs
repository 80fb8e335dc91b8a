//! Further headers and plain files that go with a batch, made for one thing. They have random numbers of
//! their own, so that the inputs of a batch do not depend on them.

use super::damage;
use super::maker::Maker;
use super::plain::sound;
use super::sums::Sums;
use crate::closing::make_true;
use crate::input::Input;
use crate::random::Random;

/// How many go with a batch of inputs, and with one of plain files.
const INPUTS: usize = 100;
const FILES: usize = 40;
/// Damaged copies of one input at most.
const COPIES: usize = 50;

/// What they are made of, and where their random numbers begin.
pub struct Further {
    pub first_batch: u64,
    pub first_plain_batch: u64,
    /// The same maker, of what they are made for.
    pub made: for<'r> fn(Maker<'r>) -> Maker<'r>,
}

impl Further {
    /// Shows the inputs that go with a batch: as they are made, and in every other batch good ones that
    /// are damaged.
    pub fn batch(&self, seed: u64, number: u64, show: &mut dyn FnMut(&Input)) {
        let number = self.first_batch + number;
        let mut random = Random::new(seed, number);
        let of_good = number % 2 == 1;
        let mut sums = Sums::new(seed, number, of_good);
        let mut show = |input: &Input| show(&sums.done(input.clone()));
        match of_good {
            true => self.damaged(&mut random, &mut show),
            false => (0..INPUTS).for_each(|_| show(&(self.made)(Maker::new(&mut random)).input())),
        }
    }

    fn damaged(&self, random: &mut Random, show: &mut dyn FnMut(&Input)) {
        let mut left = INPUTS;
        while left > 0 {
            let mut input = (self.made)(Maker::good(random)).input();
            make_true(&mut input);
            let range = 0..input.file.len();
            left -= damage::every_byte_of(&input, range, left.min(COPIES), random, show);
        }
    }

    /// Shows the files that go with a batch.
    pub fn plain_batch(&self, seed: u64, number: u64, show: &mut dyn FnMut(&[u8])) {
        let number = self.first_plain_batch + number;
        let mut random = Random::new(seed, number);
        let mut sums = Sums::new(seed, number, false);
        for _ in 0..FILES {
            let file = sound(&mut (self.made)(Maker::new(&mut random)));
            show(&sums.done(file));
        }
    }
}
