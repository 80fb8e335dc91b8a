//! What is counted of the numbers of rows.

use std::collections::BTreeMap;

use sides::number::{DOUBLE, Reading, Rule, SIGNED, SINGLE, Stored, UNSIGNED, Why};

use crate::counts::{Sum, add_all, count};

const CASES: &[(u64, &str)] = &[
    (UNSIGNED, "whole numbers without a sign"),
    (SIGNED, "whole numbers with a sign"),
    (SINGLE, "singles"),
    (DOUBLE, "doubles"),
];
const BYTES: &[u64] = &[1, 2, 4, 8];

/// Of the rows of headers that the port accepts.
#[derive(Default)]
pub struct Numbers {
    /// By case, and by how they are stored.
    some: BTreeMap<(u64, Stored), u64>,
    none: BTreeMap<Why, u64>,
}

impl Numbers {
    pub fn count(&mut self, readings: &[Reading]) {
        for reading in readings {
            match reading {
                Reading::Number(number, stored) => count(&mut self.some, (number.case, *stored)),
                Reading::None(why) => count(&mut self.none, *why),
            }
        }
    }

    /// Prints the counts of headers that have a name.
    pub fn print(&self, name: &str) {
        let some: u64 = self.some.values().sum();
        let none: u64 = self.none.values().sum();
        println!(
            "{name}rows compared with the tool's own numbers {}",
            some + none
        );
        for (case, text) in CASES {
            self.print_case(*case, text);
        }
        for (why, count) in &self.none {
            println!("  no number, {}: {count}", why_text(*why));
        }
    }

    /// Prints the numbers of a case, those of each size behind the sum.
    fn print_case(&self, case: u64, text: &str) {
        for (highest_first, order) in [(false, "lowest"), (true, "highest")] {
            let stored = |bytes: &u64| Stored {
                bytes: *bytes,
                highest_first,
            };
            let count = |bytes| self.some.get(&(case, stored(bytes))).copied().unwrap_or(0);
            let each: Vec<u64> = BYTES.iter().map(count).collect();
            let sum: u64 = each.iter().sum();
            let each: Vec<String> = each.iter().map(u64::to_string).collect();
            if sum > 0 {
                println!(
                    "  {text}, the {order} byte first: {sum}, of 1, 2, 4 and 8 bytes {}",
                    each.join(" ")
                );
            }
        }
    }
}

impl Sum for Numbers {
    fn add(&mut self, other: Numbers) {
        add_all(&mut self.some, other.some);
        add_all(&mut self.none, other.none);
    }
}

fn why_text(why: Why) -> &'static str {
    match why {
        Why::OtherMessage => "no attribute",
        Why::Unread => "a type or a space without a reading",
        Why::OtherClass => "of another class",
        Why::Null => "a null dataspace",
        Why::But(Rule::Elements) => "but for the number of elements",
        Why::But(Rule::Size) => "but for the size",
        Why::But(Rule::Offset) => "but for the bit offset",
        Why::But(Rule::Precision) => "but for the precision",
        Why::But(Rule::Order) => "but for the order of bytes",
        Why::But(Rule::Normalization) => "but for the normalization",
        Why::But(Rule::Sign) => "but for the place of the sign",
        Why::Several => "for more than one of these",
        Why::Value => "but for a value that leaves the file",
    }
}
