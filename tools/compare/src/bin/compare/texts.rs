//! What is counted of the texts of rows.

use std::collections::BTreeMap;

use sides::text::{Class, Reading};

use crate::counts::{Sum, add_all, count};

/// Of the rows of headers that the port accepts.
#[derive(Default)]
pub struct Texts {
    rows: u64,
    some: u64,
    empty: u64,
    /// Attributes with a null dataspace, by what they are of.
    null: BTreeMap<Class, u64>,
}

impl Texts {
    pub fn count(&mut self, readings: &[Reading]) {
        for Reading { text, null } in readings {
            self.rows += 1;
            self.some += u64::from(text.is_some());
            self.empty += u64::from(text.is_some_and(|text| text.length == 0));
            if let Some(class) = null {
                count(&mut self.null, *class);
            }
        }
    }

    /// Prints the counts of headers that have a name.
    pub fn print(&self, name: &str) {
        println!(
            "{name}rows compared with the tool's own texts {}, with a text {}, {} of them empty",
            self.rows, self.some, self.empty
        );
        let null: u64 = self.null.values().sum();
        println!("{name}attributes with a null dataspace in these {null}");
        for (class, count) in &self.null {
            println!("  {}: {count}", class_text(*class));
        }
    }
}

impl Sum for Texts {
    fn add(&mut self, other: Texts) {
        self.rows += other.rows;
        self.some += other.some;
        self.empty += other.empty;
        add_all(&mut self.null, other.null);
    }
}

fn class_text(class: Class) -> &'static str {
    match class {
        Class::Text => "texts, which are empty",
        Class::NoText => "texts of size 0, which have no value",
        Class::Number => "fixed or floating point, without a number",
        Class::List => "of class 9, which use the bytes of their size",
        Class::Other => "of other classes",
    }
}
