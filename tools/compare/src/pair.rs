//! The check of a header, the fillings of the same header with tables of several sizes, and what must
//! hold between them.

use std::ops::RangeInclusive;

/// The port's number for a table that is too small.
pub const TABLE_TOO_SMALL: u64 = 24;
/// The rows of a table that no header is too large for: as many as entries can be read.
pub const ALL_ROWS: usize = 4096;
/// The rows that the listing has.
pub const LISTED_ROWS: usize = 512;
/// Sizes up to this one are tried one after the other, larger ones by halves.
const COUNTED: usize = 8;

/// The words of dowringaf.h that a check answers, and an object begins with.
#[repr(C)]
#[derive(Clone, Copy, Debug, Default, PartialEq, Eq)]
pub struct Figures {
    pub refused: u64,
    pub next: u64,
    pub entries: u64,
    pub rows: u64,
}

impl Figures {
    /// A refusal: its number and zeros.
    pub fn refused(number: u64) -> Figures {
        Figures {
            refused: number,
            ..Figures::default()
        }
    }

    pub fn text(&self) -> String {
        match self.refused {
            0 => format!("checked,{},{},{}", self.next, self.entries, self.rows),
            _ if *self == Figures::refused(self.refused) => format!("refused {}", self.refused),
            number => format!("refused {number} with words that are not 0"),
        }
    }
}

/// A filling: the rows that were lent, and what it answered.
#[derive(Clone, Copy, Debug)]
pub struct Filling {
    pub lent: usize,
    pub figures: Figures,
    /// Whether it wrote what the first one wrote, each word of the object and of the rows.
    pub alike: bool,
}

impl Filling {
    pub fn is_too_small(&self) -> bool {
        self.figures == Figures::refused(TABLE_TOO_SMALL)
    }
}

/// How many tables are lent beside the first.
#[derive(Clone, Copy, Debug, PartialEq, Eq)]
pub enum Sizes {
    Few,
    /// Until it is known from which size on a table is large enough, and the largest one.
    Many,
}

/// The check of an input, and its fillings by the rows that were lent.
#[derive(Clone, Debug)]
pub struct Pair {
    pub check: Figures,
    pub fillings: Vec<Filling>,
}

impl Pair {
    /// The check beside a filling, and beside those that `fill` makes.
    pub fn new(
        check: Figures,
        first: Filling,
        sizes: Sizes,
        fill: &mut dyn FnMut(usize) -> Filling,
    ) -> Pair {
        let mut pair = Pair {
            check,
            fillings: vec![first],
        };
        match sizes {
            Sizes::Few => pair.try_all(&few(&first.figures), fill),
            Sizes::Many => {
                pair.try_all(&few(&first.figures), fill);
                pair.search(fill);
                pair.try_all(&[LISTED_ROWS, LISTED_ROWS + 1, ALL_ROWS], fill);
            }
        }
        pair
    }

    /// Lends tables of some sizes that were not lent before.
    fn try_all(&mut self, sizes: &[usize], fill: &mut dyn FnMut(usize) -> Filling) {
        for size in sizes {
            let at = self.fillings.partition_point(|one| one.lent < *size);
            if self.fillings.get(at).is_none_or(|one| one.lent != *size) {
                self.fillings.insert(at, fill(*size));
            }
        }
    }

    /// Lends tables until the size is known from which on they are large enough.
    fn search(&mut self, fill: &mut dyn FnMut(usize) -> Filling) {
        loop {
            let least = self.least();
            let (low, high) = (*least.start(), (*least.end()).min(ALL_ROWS));
            if low >= high {
                return;
            }
            let size = if low < COUNTED { low } else { (low + high) / 2 };
            self.try_all(&[size], fill);
        }
    }

    /// Between which sizes the smallest lies that is large enough.
    pub fn least(&self) -> RangeInclusive<usize> {
        let too_small = self.fillings.iter().rev().find(|one| one.is_too_small());
        let enough = self.fillings.iter().find(|one| !one.is_too_small());
        let low = too_small.map_or(0, |one| one.lent + 1);
        let high = enough.map_or(usize::MAX, |one| one.lent);
        low..=high
    }

    /// The smallest size that is large enough, where it is known.
    pub fn least_known(&self) -> Option<usize> {
        let least = self.least();
        (least.start() == least.end()).then_some(*least.start())
    }

    /// What is wrong between the check and the fillings, if anything. A filling is turned back as 24 up
    /// to some size, and from there on it answers what the check does. Where the check passes, that
    /// size is the number of rows.
    pub fn fault(&self) -> Option<String> {
        if self.check.refused == TABLE_TOO_SMALL {
            return Some("the check answers 24".into());
        }
        let fillings = self.fillings.iter();
        let mut faults = fillings.filter_map(|filling| self.fault_of(filling));
        if let Some(fault) = faults.next() {
            return Some(fault);
        }
        let least = self.least();
        (least.start() > least.end()).then(|| {
            let (small, large) = (least.end(), least.start() - 1);
            format!("{small} rows are enough, and {large} are too few")
        })
    }

    fn fault_of(&self, filling: &Filling) -> Option<String> {
        let passes = self.check.refused == 0;
        let fits = self.check.rows <= filling.lent as u64;
        let wrong = match filling.is_too_small() {
            true => (passes && fits) || filling.lent >= ALL_ROWS,
            false => filling.figures != self.check || (passes && !fits) || !filling.alike,
        };
        wrong.then(|| {
            let other = if filling.alike {
                ""
            } else {
                ", with other words"
            };
            let lent = filling.lent;
            format!(
                "the filling, lent {lent} rows: {}{other}",
                filling.figures.text()
            )
        })
    }
}

/// The sizes that are tried for every input: none, just enough and one row less; where it is refused,
/// the first three.
fn few(figures: &Figures) -> Vec<usize> {
    match (figures.refused, figures.rows as usize) {
        (0, 0) => vec![0],
        (0, rows) => vec![0, rows - 1, rows],
        _ => vec![0, 1, 2],
    }
}
