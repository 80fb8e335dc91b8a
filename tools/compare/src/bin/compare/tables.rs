//! What is counted of checks, and of the tables that fillings were lent.

use std::collections::BTreeMap;
use std::ops::RangeInclusive;

use sides::pair::{LISTED_ROWS, Pair};

use crate::counts::{Sum, add_all, count};

/// Rows that are counted together.
const ROWS: &[RangeInclusive<usize>] = &[
    0..=0,
    1..=1,
    2..=2,
    3..=8,
    9..=64,
    65..=511,
    512..=512,
    513..=513,
    514..=4096,
];

#[derive(Default)]
pub struct Tables {
    /// Fillings beside the first of each input.
    fillings: u64,
    /// Those that were turned back as 24, where the check passes and where it refuses.
    too_small: u64,
    too_small_refused: u64,
    /// Headers of which the smallest table is known that is large enough: whether the check refuses,
    /// and which of the rows above.
    least: BTreeMap<(bool, usize), u64>,
    /// Those of them that the listing has too few rows for, by the check's number.
    beyond: BTreeMap<u64, u64>,
}

impl Tables {
    pub fn count(&mut self, pair: &Pair) {
        let refuses = pair.check.refused != 0;
        let too_small = pair.fillings.iter().filter(|one| one.is_too_small());
        self.fillings += pair.fillings.len() as u64 - 1;
        match refuses {
            true => self.too_small_refused += too_small.count() as u64,
            false => self.too_small += too_small.count() as u64,
        }
        let Some(rows) = pair.least_known() else {
            return;
        };
        if let Some(which) = ROWS.iter().position(|some| some.contains(&rows)) {
            count(&mut self.least, (refuses, which));
        }
        if rows > LISTED_ROWS {
            count(&mut self.beyond, pair.check.refused);
        }
    }

    /// Prints the counts of headers that have a name.
    pub fn print(&self, name: &str) {
        println!(
            "{name}fillings with other tables {}, turned back as 24 where the check passes {}, where it refuses {}",
            self.fillings, self.too_small, self.too_small_refused
        );
        for (refuses, what) in [(false, "passes"), (true, "refuses")] {
            let all = self.least.iter().filter(|((one, _), _)| *one == refuses);
            let sum: u64 = all.clone().map(|(_, count)| count).sum();
            println!("{name}rows found by fillings where the check {what} {sum}");
            for ((_, which), count) in all {
                println!("  {}: {count}", text(&ROWS[*which]));
            }
        }
        self.print_beyond(name);
    }

    fn print_beyond(&self, name: &str) {
        let all: u64 = self.beyond.values().sum();
        println!("{name}with more rows than the listing has {all}");
        for (number, count) in &self.beyond {
            match number {
                0 => println!("  the check passes: {count}"),
                _ => println!("  the check refuses with {number}: {count}"),
            }
        }
    }
}

impl Sum for Tables {
    fn add(&mut self, other: Tables) {
        self.fillings += other.fillings;
        self.too_small += other.too_small;
        self.too_small_refused += other.too_small_refused;
        add_all(&mut self.least, other.least);
        add_all(&mut self.beyond, other.beyond);
    }
}

fn text(rows: &RangeInclusive<usize>) -> String {
    match rows.start() == rows.end() {
        true => rows.start().to_string(),
        false => format!("{} to {}", rows.start(), rows.end()),
    }
}
