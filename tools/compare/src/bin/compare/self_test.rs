//! Whether the comparison finds what is wrong: every breakage of the port's answer must show, and the
//! tool must read the numbers and the texts that were made by hand.

use sides::generate::plain::plain_batch;
use sides::generate::{batch, crowded, numeric, spaces};
use sides::input::Input;

use crate::arguments::Arguments;
use crate::breakage::{Breakage, of_headers, of_plain};
use crate::judge::{Judge, Verdict};
use crate::shrink::{shrink, shrink_plain};
use crate::{made_numbers, made_texts};

/// Inputs among which a breakage must show.
const COUNT: u64 = 200_000;

/// Where a breakage showed: how many inputs were tried, and the bytes of the last and of the
/// smallest file.
struct Found {
    tried: u64,
    bytes: usize,
    smallest: usize,
    /// Whether the smallest one is right where nothing is broken.
    by_breakage: bool,
}

/// Whether numbers and texts are read, every breakage was found, and nothing where nothing is broken.
pub fn self_test(arguments: &Arguments) -> bool {
    let most = arguments.count.unwrap_or(COUNT);
    println!("seed {}, at most {most} inputs for each", arguments.seed);
    let mut passed = made_numbers::are_read() & made_texts::are_read();
    for breakage in of_headers() {
        passed &= report(
            breakage,
            "input",
            in_headers(arguments.seed, most, breakage),
        );
    }
    for breakage in of_plain() {
        passed &= report(
            breakage,
            "plain file",
            in_plain(arguments.seed, most, breakage),
        );
    }
    passed
}

/// Prints where a breakage showed, and answers whether it did.
fn report(breakage: &Breakage, what: &str, found: Option<Found>) -> bool {
    let Some(found) = found else {
        println!("{}: NOT FOUND", breakage.name);
        return false;
    };
    println!(
        "{}: {what} {} of {} bytes, {} when shrunk{}",
        breakage.name,
        found.tried,
        found.bytes,
        found.smallest,
        if found.by_breakage {
            ""
        } else {
            ": NOT BY THE BREAKAGE"
        }
    );
    found.by_breakage
}

fn in_headers(seed: u64, most: u64, breakage: &'static Breakage) -> Option<Found> {
    let differs =
        |judge: &mut Judge, input: &Input| matches!(judge.verdict(input), Verdict::Differs(_));
    let mut judge = Judge::new(Some(breakage));
    let mut broken = |input: &Input| differs(&mut judge, input);
    let batch = |number, show: &mut dyn FnMut(&Input)| {
        batch(seed, number, &[], show);
        crowded::batch(seed, number, show);
        numeric::batch(seed, number, show);
        spaces::batch(seed, number, show);
    };
    let (tried, input) = first(most, &batch, &mut broken)?;
    let smallest = shrink(&input, &mut broken);
    Some(Found {
        tried,
        bytes: input.file.len(),
        smallest: smallest.file.len(),
        by_breakage: broken(&smallest) && !differs(&mut Judge::new(None), &smallest),
    })
}

fn in_plain(seed: u64, most: u64, breakage: &'static Breakage) -> Option<Found> {
    let mut judge = Judge::new(Some(breakage));
    let mut broken = |file: &[u8]| judge.plain_verdict(file).differs();
    let batch = |number, show: &mut dyn FnMut(&[u8])| {
        plain_batch(seed, number, &[], show);
        crowded::plain_batch(seed, number, show);
        numeric::plain_batch(seed, number, show);
        spaces::plain_batch(seed, number, show);
    };
    let (tried, file) = first(most, &batch, &mut broken)?;
    let smallest = shrink_plain(&file, &mut broken);
    let unbroken = Judge::new(None).plain_verdict(&smallest);
    Some(Found {
        tried,
        bytes: file.len(),
        smallest: smallest.len(),
        by_breakage: broken(&smallest) && !unbroken.differs(),
    })
}

/// The first input that differs, and how many were tried.
fn first<T: ToOwned + ?Sized>(
    most: u64,
    batch: &dyn Fn(u64, &mut dyn FnMut(&T)),
    differs: &mut dyn FnMut(&T) -> bool,
) -> Option<(u64, T::Owned)> {
    let mut tried = 0;
    let mut found = None;
    for number in 0.. {
        batch(number, &mut |input| {
            if found.is_none() && tried < most {
                tried += 1;
                found = differs(input).then(|| input.to_owned());
            }
        });
        if found.is_some() || tried >= most {
            break;
        }
    }
    found.map(|input| (tried, input))
}
