//! Inputs and plain files from a seed, in batches: the same seed and number give the same batch.

mod attribute;
pub mod crowded;
mod damage;
mod further;
mod header;
pub mod large;
mod maker;
mod messages;
pub mod numeric;
mod piece;
pub mod plain;
pub mod spaces;
mod sums;
mod types;

use crate::closing::make_true;
use crate::input::Input;
use crate::random::Random;
use maker::Maker;
use sums::Sums;

/// The inputs of a batch.
pub const BATCH: usize = 1000;
/// How far behind its position the bytes of a real header are damaged.
const REAL_SPAN: usize = 600;

/// Inputs that are damaged although an undefined address may refuse them, in thousandths.
const UNDEFINED: u64 = 100;

/// Short files that end behind an undefined offset, in thousandths.
const CUT_CONTINUATIONS: u64 = 40;
/// Inputs of a file that is larger than an address of 2 bytes, in thousandths.
const FAR: u64 = 2;

/// Shows the inputs of a batch. `real` are the headers of real files, if any.
pub fn batch(seed: u64, number: u64, real: &[Input], show: &mut dyn FnMut(&Input)) {
    let mut random = Random::new(seed, number);
    // A batch of those that are made, and one of the damaged.
    let early = matches!(number % 20, 7 | 14);
    let of_real = number % 20 >= 17 && !real.is_empty();
    let of_good = matches!(number % 20, 8..15);
    let mut sums = Sums::new(seed, number, of_good || of_real);
    let mut show = |input: &Input| show(&sums.done(input.clone()));
    match number % 20 {
        _ if of_good => damaged(&mut random, early, &mut show),
        _ if of_real => damaged_real(&mut random, real, &mut show),
        15 => (0..BATCH).for_each(|_| show(&spliced(&mut random))),
        16 => (0..BATCH).for_each(|_| show(&short(&mut random))),
        _ => (0..BATCH).for_each(|_| show(&made(&mut random, early))),
    }
}

fn made(random: &mut Random, early: bool) -> Input {
    match random.rarely(FAR) {
        true => large::some_far(random),
        false => Maker::new(random).early(early).input(),
    }
}

fn short(random: &mut Random) -> Input {
    match random.rarely(CUT_CONTINUATIONS) {
        true => damage::cut_continuation(random),
        false => damage::short(random),
    }
}

fn damaged(random: &mut Random, early: bool, show: &mut dyn FnMut(&Input)) {
    let mut left = BATCH;
    while left > 0 {
        let undefined = random.rarely(UNDEFINED);
        let maker = match undefined {
            true => Maker::with_undefined(random),
            false => Maker::good(random),
        };
        let mut input = maker.early(early).input();
        make_true(&mut input);
        let range = 0..input.file.len();
        left -= damage::every_byte_of(&input, range, left, random, show);
    }
}

fn damaged_real(random: &mut Random, real: &[Input], show: &mut dyn FnMut(&Input)) {
    let mut left = BATCH;
    while left > 0 {
        let input = &real[random.below(real.len() as u64) as usize];
        let start = input.position as usize;
        let end = input.file.len().min(start + REAL_SPAN);
        left -= damage::every_byte_of(input, start..end, left.min(200), random, show);
    }
}

fn spliced(random: &mut Random) -> Input {
    let first = Maker::good(random).input();
    let second = Maker::good(random).input();
    damage::spliced(&first, &second, random)
}
