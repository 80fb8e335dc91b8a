//! What is counted of the elements in the dataspace's record.

use std::collections::BTreeMap;

use sides::scan::Space;

use crate::counts::{Sum, add_all, count};

#[derive(Clone, Copy, PartialEq, Eq, PartialOrd, Ord)]
enum Case {
    /// There is no dataspace message.
    Default,
    Null,
    None,
    One,
    More,
    TooMany,
}

/// Of headers that the port accepts.
#[derive(Default)]
pub struct Elements {
    counts: BTreeMap<Case, u64>,
}

impl Elements {
    /// Counts a header by the dataspace that wins, if it has one.
    pub fn count(&mut self, space: Option<Space>) {
        let case = match space {
            None => Case::Default,
            Some(Space { is_null: true, .. }) => Case::Null,
            Some(Space { elements, .. }) => match elements {
                0 => Case::None,
                1 => Case::One,
                _ if elements >= 1 << 64 => Case::TooMany,
                _ => Case::More,
            },
        };
        count(&mut self.counts, case);
    }

    /// Prints the counts of headers that have a name.
    pub fn print(&self, name: &str) {
        println!(
            "{name}records compared with the tool's own elements {}",
            self.counts.values().sum::<u64>()
        );
        for (case, count) in &self.counts {
            println!("  {}: {count}", case_text(*case));
        }
    }
}

impl Sum for Elements {
    fn add(&mut self, other: Elements) {
        add_all(&mut self.counts, other.counts);
    }
}

fn case_text(case: Case) -> &'static str {
    match case {
        Case::Default => "no dataspace, one element",
        Case::Null => "a null dataspace, no element",
        Case::None => "no element",
        Case::One => "one element",
        Case::More => "more",
        Case::TooMany => "too many",
    }
}
