//! What is counted of inputs outside the comparison.

use std::collections::BTreeMap;

use sides::scan::Null;

use crate::counts::{Sum, add_all, count};
use crate::judge::Exclusion;

#[derive(Clone, Default)]
pub struct Outside {
    counts: BTreeMap<Exclusion, u64>,
}

impl Outside {
    pub fn count(&mut self, why: Exclusion) {
        count(&mut self.counts, why);
    }

    /// Prints the counts of inputs that have a name.
    pub fn print(&self, name: &str) {
        let all: u64 = self.counts.values().sum();
        println!("{name}outside the comparison {all}");
        for (why, count) in &self.counts {
            println!("  {}: {count}", why.text());
        }
        let [accepted, refused] = [true, false].map(|accepted| self.null(accepted));
        println!(
            "{name}with a null dataspace {}, accepted by the port {accepted}, refused {refused}",
            accepted + refused
        );
    }

    /// How many with a null dataspace the port accepts, or refuses.
    fn null(&self, accepted: bool) -> u64 {
        let places = [Null::Message, Null::Attribute];
        let of = |place| self.counts.get(&Exclusion::Null(place, accepted));
        places.into_iter().filter_map(of).sum()
    }
}

impl Sum for Outside {
    fn add(&mut self, other: Outside) {
        add_all(&mut self.counts, other.counts);
    }
}

impl Exclusion {
    pub fn text(self) -> String {
        match self {
            Exclusion::Number(number) => format!("the port answers {number}"),
            Exclusion::TypeLevel => "a type level above 32 in an attribute".into(),
            Exclusion::Elements => "size x elements of 2^64 or more in an attribute".into(),
            Exclusion::EndOfFile => {
                "an end-of-file address above all ones of the width of offsets".into()
            }
            Exclusion::Null(place, accepted) => format!(
                "a null dataspace in {}, {} by the port",
                match place {
                    Null::Message => "dataspace messages alone",
                    Null::Attribute => "an attribute",
                },
                if accepted { "accepted" } else { "refused" }
            ),
        }
    }
}
