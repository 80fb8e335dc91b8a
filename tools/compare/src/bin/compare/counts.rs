//! What is counted: outcomes, and what accepted headers hold.

use std::collections::{BTreeMap, BTreeSet};

use sides::address::{Case, Place, Seen};
use sides::answer::Header;
use sides::input::End;
use sides::scan::Form;
use sides::sum::{Closing, Of};

use crate::elements::Elements;
use crate::judge::{Exclusion, FalseSum, Judged, OF_CONTINUATION, Untested, Verdict};
use crate::numbers::Numbers;
use crate::outside::Outside;
use crate::rows::Rows;
use crate::tables::Tables;
use crate::texts::Texts;

/// The message types with fields, by name; the rest are skipped by their size.
const TYPES: &[(u64, &str)] = &[
    (1, "dataspace"),
    (2, "link info"),
    (3, "datatype"),
    (4, "fill old"),
    (5, "fill"),
    (8, "layout"),
    (10, "group info"),
    (11, "filter pipeline"),
    (12, "attribute"),
    (21, "attribute info"),
];

/// Counts of several threads come together.
pub trait Sum: Default + Send {
    fn add(&mut self, other: Self);
}

/// What inputs inside the comparison were compared with.
#[derive(Clone, Default)]
pub struct Beside {
    both: u64,
    /// The mended Rust, since there is a form that the published one reads otherwise.
    mended: u64,
    /// Those of them that the published Rust answers otherwise.
    otherwise: u64,
}

impl Beside {
    fn count(&mut self, judged: &Judged) {
        let mended = judged.found.is_mended();
        self.both += u64::from(!mended);
        self.mended += u64::from(mended);
        self.otherwise += u64::from(mended && judged.otherwise.is_some());
    }

    /// Whether the patch shows: where there are its forms, the published Rust must answer some of
    /// them otherwise.
    pub fn shows_patch(&self) -> bool {
        self.mended == 0 || self.otherwise > 0
    }

    /// Prints the counts of inputs that have a name.
    pub fn print(&self, name: &str) {
        println!("{name}compared with both Rusts {}", self.both);
        println!(
            "{name}compared with the mended Rust alone {}, {} of them answered otherwise by the published one",
            self.mended, self.otherwise
        );
    }
}

impl Sum for Beside {
    fn add(&mut self, other: Beside) {
        self.both += other.both;
        self.mended += other.mended;
        self.otherwise += other.otherwise;
    }
}

/// Undefined addresses, and those one below: how many inputs have one at a place, by width.
#[derive(Default)]
pub struct Addresses {
    counts: BTreeMap<(Place, Case), BTreeMap<u8, u64>>,
}

impl Addresses {
    /// Counts those of an input, each once.
    pub fn count(&mut self, seen: impl IntoIterator<Item = Seen>) {
        for seen in seen.into_iter().collect::<BTreeSet<Seen>>() {
            let widths = self.counts.entry((seen.place, seen.case)).or_default();
            count(widths, seen.width);
        }
    }

    /// Prints the counts of inputs that have a name, those of the seven widths behind each.
    pub fn print(&self, name: &str) {
        for ((place, case), widths) in &self.counts {
            let all: u64 = widths.values().sum();
            let each = (2..=8).map(|width| widths.get(&width).copied().unwrap_or(0));
            let each: Vec<String> = each.map(|count| count.to_string()).collect();
            println!(
                "{name}, {case}: {}: {all}, by widths {}",
                place.text(),
                each.join(" ")
            );
        }
    }
}

impl Sum for Addresses {
    fn add(&mut self, other: Addresses) {
        for (key, widths) in other.counts {
            add_all(self.counts.entry(key).or_default(), widths);
        }
    }
}

/// Of headers.
#[derive(Default)]
pub struct Counts {
    pub headers: u64,
    accepted: u64,
    refused: BTreeMap<u64, u64>,
    /// Stored values that are sums, in headers that are accepted or refused.
    sums: u64,
    false_sums: BTreeMap<FalseSum, u64>,
    pub outside: Outside,
    /// Headers with an end-of-file address that leaves them outside, and an undefined address that
    /// the published Rust takes for a place in the file; and those of them that it answers otherwise.
    followed: u64,
    followed_otherwise: u64,
    /// Headers that are refused with the number that an undefined address asks for.
    demanded: BTreeMap<u64, u64>,
    /// End-of-file addresses of headers that are accepted, refused, or outside for them.
    ends: BTreeMap<End, u64>,
    accepted_addresses: Addresses,
    refused_addresses: Addresses,
    pub panicked: u64,
    pub differing: u64,
    pub beside: Beside,
    pub tables: Tables,
    numbers: Numbers,
    texts: Texts,
    elements: Elements,
    /// What accepted headers hold.
    types: BTreeMap<u64, u64>,
    forms: BTreeMap<String, u64>,
    pub headers_with_blocks: u64,
    /// Headers with a body that runs over the stored value.
    overrun: u64,
    /// Headers with a block whose stored value is among the bytes of the header's sum.
    covered: u64,
    values: u64,
    empty_values: u64,
}

impl Counts {
    pub fn count(&mut self, judged: &Judged) {
        self.headers += 1;
        let alike = matches!(judged.verdict, Verdict::Accepted(_) | Verdict::Refused(_));
        if alike {
            self.sums += judged.closings.len() as u64;
        }
        let for_its_end = matches!(judged.verdict, Verdict::Outside(Exclusion::EndOfFile));
        if let Some(end) = judged.end.filter(|_| alike || for_its_end) {
            count(&mut self.ends, end);
        }
        if alike || matches!(judged.verdict, Verdict::Differs(_)) {
            self.beside.count(judged);
        }
        if !matches!(judged.verdict, Verdict::Panicked(_) | Verdict::Differs(_)) {
            self.tables.count(&judged.pair);
            self.count_rows(judged.rows.as_ref());
        }
        match &judged.verdict {
            Verdict::Accepted(header) => {
                self.count_header(header, &judged.found.forms);
                self.accepted_addresses
                    .count(judged.found.addresses.iter().copied());
                self.overrun += u64::from(is_overrun(header, &judged.closings));
                self.covered += u64::from(is_covered(&judged.closings));
            }
            Verdict::Refused(number) => self.count_refused(*number, judged),
            Verdict::FalseSum(sum) => count(&mut self.false_sums, *sum),
            Verdict::Outside(why) => self.count_outside(*why, judged),
            Verdict::Panicked(..) => self.panicked += 1,
            Verdict::Differs(..) => self.differing += 1,
        }
    }

    fn count_rows(&mut self, rows: Option<&Rows>) {
        if let Some(rows) = rows {
            self.numbers.count(&rows.numbers);
            self.texts.count(&rows.texts);
            self.elements.count(rows.space);
        }
    }

    fn count_refused(&mut self, number: u64, judged: &Judged) {
        count(&mut self.refused, number);
        if judged.demanded.is_some() {
            count(&mut self.demanded, number);
        }
        let offset = judged.found.addresses.last().copied();
        let refusing = |seen: &Seen| number == OF_CONTINUATION && seen.place == Place::Continuation;
        self.refused_addresses.count(offset.filter(refusing));
    }

    fn count_outside(&mut self, why: Exclusion, judged: &Judged) {
        self.outside.count(why);
        if why == Exclusion::EndOfFile && judged.found.is_followed {
            self.followed += 1;
            self.followed_otherwise += u64::from(judged.otherwise.is_some());
        }
    }

    fn count_header(&mut self, header: &Header, forms: &[Form]) {
        self.accepted += 1;
        let forms: BTreeSet<String> = forms.iter().map(Form::to_string).collect();
        forms
            .into_iter()
            .for_each(|form| count(&mut self.forms, form));
        self.headers_with_blocks += u64::from(header.entries > header.rows.len() as u64);
        for row in &header.rows {
            *self.types.entry(row.kind).or_default() += 1;
            if let Some(value) = row.part.as_ref().filter(|_| row.kind == 12) {
                self.values += 1;
                self.empty_values += u64::from(value.is_empty());
            }
        }
    }

    pub fn false_sums(&self) -> u64 {
        self.false_sums.values().sum()
    }

    /// Prints the outcomes of headers that have a name.
    pub fn print(&self, name: &str) {
        println!("{name}accepted by port and mended Rust {}", self.accepted);
        print_refused(
            &format!("{name}refused by port and mended Rust"),
            &self.refused,
        );
        println!("{name}true sums in these {}", self.sums);
        println!(
            "{name}with a false sum, refused by the port with 28 {}",
            self.false_sums()
        );
        for (sum, count) in &self.false_sums {
            println!("  {}: {count}", sum.text());
        }
        self.outside.print(name);
        if self.followed > 0 {
            println!(
                "{name}with an undefined address below such an end-of-file address {}, {} of them answered otherwise by the published Rust",
                self.followed, self.followed_otherwise
            );
        }
        self.beside.print(name);
        self.tables.print(name);
        self.numbers.print(name);
        self.texts.print(name);
        self.elements.print(name);
    }

    /// Prints the undefined addresses of headers that have a name.
    pub fn print_addresses(&self, name: &str) {
        self.accepted_addresses.print(&format!("{name}accepted"));
        self.refused_addresses
            .print(&format!("{name}refused with {OF_CONTINUATION}"));
        for (number, count) in &self.demanded {
            println!("{name}refused with {number}, as an undefined address asks for {count}");
        }
        for (end, count) in &self.ends {
            println!(
                "{name}with an end-of-file address {} {count}",
                end_text(*end)
            );
        }
    }
}

impl Sum for Counts {
    fn add(&mut self, other: Counts) {
        self.headers += other.headers;
        self.accepted += other.accepted;
        self.panicked += other.panicked;
        self.differing += other.differing;
        self.headers_with_blocks += other.headers_with_blocks;
        self.overrun += other.overrun;
        self.covered += other.covered;
        self.values += other.values;
        self.empty_values += other.empty_values;
        self.sums += other.sums;
        add_all(&mut self.refused, other.refused);
        add_all(&mut self.false_sums, other.false_sums);
        self.outside.add(other.outside);
        self.followed += other.followed;
        self.followed_otherwise += other.followed_otherwise;
        add_all(&mut self.demanded, other.demanded);
        add_all(&mut self.ends, other.ends);
        self.accepted_addresses.add(other.accepted_addresses);
        self.refused_addresses.add(other.refused_addresses);
        add_all(&mut self.types, other.types);
        add_all(&mut self.forms, other.forms);
        self.beside.add(other.beside);
        self.tables.add(other.tables);
        self.numbers.add(other.numbers);
        self.texts.add(other.texts);
        self.elements.add(other.elements);
    }
}

/// Whether a body of an accepted header runs over its stored sum.
pub fn is_overrun(header: &Header, closings: &[Closing]) -> bool {
    let last = closings.last();
    last.is_some_and(|closing| header.next > closing.end as u64 + 4)
}

/// Whether a block's stored sum is among the bytes of an accepted header's.
pub fn is_covered(closings: &[Closing]) -> bool {
    let Some((header, blocks)) = closings.split_last() else {
        return false;
    };
    let mut ends = blocks.iter().map(|block| block.end);
    ends.any(|end| (header.from..header.end).contains(&end))
}

pub fn count<K: Ord>(counts: &mut BTreeMap<K, u64>, key: K) {
    *counts.entry(key).or_default() += 1;
}

pub fn add_all<K: Ord>(counts: &mut BTreeMap<K, u64>, others: BTreeMap<K, u64>) {
    for (key, count) in others {
        *counts.entry(key).or_default() += count;
    }
}

/// How many the port refuses with each number.
pub fn print_refused(name: &str, refused: &BTreeMap<u64, u64>) {
    let all: u64 = refused.values().sum();
    println!("{name} {all}");
    for (number, count) in refused {
        println!("  by the port with {number}: {count}");
    }
}

pub fn print_contents(counts: &Counts) {
    let messages: u64 = counts.types.values().sum();
    println!("messages in accepted headers {messages}");
    let mut others = messages;
    for (kind, name) in TYPES {
        let count = counts.types.get(kind).copied().unwrap_or(0);
        others -= count;
        println!("  {kind} {name}: {count}");
    }
    println!("  skipped by size: {others}");
    println!(
        "attributes with a value {}, {} of them empty",
        counts.values, counts.empty_values
    );
    println!(
        "accepted headers with blocks {}",
        counts.headers_with_blocks
    );
    println!(
        "accepted headers with a body over the stored sum {}",
        counts.overrun
    );
    println!(
        "accepted headers with a block's stored sum among their own bytes {}",
        counts.covered
    );
    for (form, count) in &counts.forms {
        println!("accepted headers with {form} {count}");
    }
}

fn end_text(end: End) -> &'static str {
    match end {
        End::OneBelow => "one below all ones",
        End::AllOnes => "of all ones",
        End::OneAbove => "one above all ones",
        End::Above => "further above all ones",
    }
}

impl FalseSum {
    pub fn text(self) -> String {
        let of = match self.of {
            Of::Block => "a block's",
            _ => "the header's",
        };
        let rust = match self.rust {
            Untested::Accepts => "accepts the header",
            Untested::Refuses => "refuses what stands behind it",
            Untested::TooMany => "reads a 4,097th entry",
        };
        format!("{of}, where the mended Rust {rust}")
    }
}
