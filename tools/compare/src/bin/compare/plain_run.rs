//! The comparison of plain files: real ones as they are, and those from the seed.

use std::collections::BTreeMap;
use std::io::{self, Read};
use std::time::Instant;

use sides::address::Place;
use sides::generate::plain::plain_batch;
use sides::generate::{crowded, numeric, spaces};
use sides::input::digits;
use sides::pair::{Sizes, TABLE_TOO_SMALL};
use sides::real;

use crate::arguments::Arguments;
use crate::counts::{Addresses, Beside, Counts, Sum, add_all, count, print_refused};
use crate::judge::{Judge, Verdict};
use crate::plain_judge::{Behind, PlainExclusion, PlainJudged, PlainVerdict, plain_text};
use crate::run::{keep, over_threads, print_answers, print_speed, sizes};
use crate::shrink::shrink_plain;

/// Shows the files that go with a batch, of a seed and a number.
type Batch = fn(u64, u64, &mut dyn FnMut(&[u8]));

#[derive(Default)]
struct Plain {
    files: u64,
    /// Superblocks that port and Rust read, by version.
    read: BTreeMap<u8, u64>,
    refused: BTreeMap<u64, u64>,
    /// Superblocks with a false sum, by version.
    false_sums: BTreeMap<u8, u64>,
    /// Superblocks with an undefined address that the port has to refuse.
    undefined: BTreeMap<(Place, Behind), u64>,
    read_addresses: Addresses,
    refused_addresses: Addresses,
    outside: BTreeMap<PlainExclusion, u64>,
    /// Listings by their numbers, 0 for those with rows.
    listed: BTreeMap<u64, u64>,
    differing: u64,
    /// The root headers behind superblocks that port and Rust read.
    roots: Counts,
    /// Files that disagree or panic.
    shown: Vec<Vec<u8>>,
}

impl Plain {
    fn count(&mut self, file: &[u8], judged: &PlainJudged) {
        let verdict = &judged.verdict;
        self.files += 1;
        count(&mut self.listed, judged.listed);
        match verdict {
            PlainVerdict::Read(version, addresses, root) => {
                count(&mut self.read, *version);
                self.read_addresses.count(addresses.iter().copied());
                self.roots.count(root);
            }
            PlainVerdict::Refused(number) => count(&mut self.refused, *number),
            PlainVerdict::FalseSum(version) => count(&mut self.false_sums, *version),
            PlainVerdict::Undefined(address, behind) => {
                count(&mut self.undefined, (address.place, *behind));
                self.refused_addresses.count([*address]);
            }
            PlainVerdict::Outside(why) => count(&mut self.outside, *why),
            PlainVerdict::Differs(..) => self.differing += 1,
        }
        if verdict.differs() || verdict.panicked() {
            keep(&mut self.shown, file);
        }
    }

    fn disagreements(&self) -> u64 {
        self.differing + self.roots.differing
    }

    fn print(&self, real: usize, beside: &Beside, start: Instant) {
        println!(
            "\nplain files {}, {real} of them real files as they are",
            self.files
        );
        beside.print("root headers of real files as they are ");
        print_speed(self.files, "files", start);
        self.print_outcomes("plain files");
        self.read_addresses.print("superblocks read");
        self.refused_addresses.print("superblocks refused");
        self.roots.print_addresses("root headers ");
    }

    /// Prints the outcomes of files that have a name.
    fn print_outcomes(&self, name: &str) {
        print_versions("superblocks read by port and Rust", &self.read);
        print_refused("superblocks refused by port and Rust", &self.refused);
        print_versions(
            "superblocks with a false sum, which the Rust reads and the port refuses with 28",
            &self.false_sums,
        );
        self.print_undefined();
        let outside: u64 = self.outside.values().sum();
        println!("superblocks outside the comparison {outside}");
        for (why, count) in &self.outside {
            println!("  {}: {count}", why.text());
        }
        self.roots.print("root headers ");
        self.print_listed();
        println!("panics of the Rust in {name} {}", self.roots.panicked);
        println!("disagreements in {name} {}", self.disagreements());
    }

    fn print_listed(&self) {
        let listed = |number: u64| self.listed.get(&number).copied().unwrap_or(0);
        println!(
            "listings {}, with rows {}, refused for their rows alone with {TABLE_TOO_SMALL} {}",
            self.files,
            listed(0),
            listed(TABLE_TOO_SMALL)
        );
    }

    fn print_shown(&mut self, arguments: &Arguments) {
        let mut judge = Judge::new(arguments.breakage);
        self.shown.sort_by_key(Vec::len);
        for file in self.shown.iter().take(arguments.shown) {
            print_smallest(&mut judge, file);
        }
    }

    fn is_right(&self) -> bool {
        self.disagreements() == 0 && self.roots.panicked == 0
    }

    fn print_undefined(&self) {
        println!(
            "superblocks with an undefined address, which the Rust takes for a number and the port refuses with 3 {}",
            self.undefined.values().sum::<u64>()
        );
        for ((place, behind), count) in &self.undefined {
            println!("  {}, {}: {count}", place.text(), behind.text());
        }
    }
}

impl Sum for Plain {
    fn add(&mut self, other: Plain) {
        self.files += other.files;
        self.differing += other.differing;
        add_all(&mut self.read, other.read);
        add_all(&mut self.refused, other.refused);
        add_all(&mut self.false_sums, other.false_sums);
        add_all(&mut self.undefined, other.undefined);
        self.read_addresses.add(other.read_addresses);
        self.refused_addresses.add(other.refused_addresses);
        add_all(&mut self.outside, other.outside);
        add_all(&mut self.listed, other.listed);
        self.roots.add(other.roots);
        self.shown.extend(other.shown);
    }
}

/// Compares so many plain files, and those that go with them.
pub fn all(arguments: &Arguments, count: u64) -> io::Result<bool> {
    let plain = plain(arguments, count)?;
    let further = |name, batch| further_files(arguments, count, name, batch);
    let crowded = further("crowded plain files", crowded::plain_batch);
    let numeric = further("numeric plain files", numeric::plain_batch);
    let spaces = further("plain files of dataspaces", spaces::plain_batch);
    Ok(plain && crowded && numeric && spaces)
}

/// Compares so many plain files from the seed beside the real ones, and prints the counts.
fn plain(arguments: &Arguments, count: u64) -> io::Result<bool> {
    let real = real::plain(&arguments.files)?;
    let start = Instant::now();
    let mut plain = Plain::default();
    let mut judge = Judge::new(arguments.breakage);
    for file in &real {
        plain.count(file, &judge.plain_judged(file, Sizes::Many));
    }
    let beside = plain.roots.beside.clone();
    plain.add(over_threads(
        arguments,
        count,
        &|number, judge, plain: &mut Plain| {
            let mut shown = 0;
            plain_batch(arguments.seed, number, &real, &mut |file| {
                plain.count(file, &judge.plain_judged(file, sizes(number, shown)));
                shown += 1;
            });
        },
    ));
    plain.print(real.len(), &beside, start);
    plain.print_shown(arguments);
    Ok(plain.is_right())
}

/// Compares the files with a name that go with so many plain ones.
fn further_files(arguments: &Arguments, count: u64, name: &str, batch: Batch) -> bool {
    let start = Instant::now();
    let mut plain = over_threads(arguments, count, &|number, judge, plain: &mut Plain| {
        batch(arguments.seed, number, &mut |file| {
            plain.count(file, &judge.plain_judged(file, Sizes::Many));
        });
    });
    println!("\n{name} {}", plain.files);
    print_speed(plain.files, "files", start);
    plain.print_outcomes(name);
    plain.print_shown(arguments);
    plain.is_right()
}

/// How many superblocks are of each version.
fn print_versions(name: &str, versions: &BTreeMap<u8, u64>) {
    println!("{name} {}", versions.values().sum::<u64>());
    for (version, count) in versions {
        let given = if *version == 3 {
            ", the Rust being given version 2"
        } else {
            ""
        };
        println!("  of version {version}{given}: {count}");
    }
}

/// Shrinks a file that disagrees or panics, and prints it with what each side says.
fn print_smallest(judge: &mut Judge, file: &[u8]) {
    let panics = judge.plain_verdict(file).panicked();
    let smallest = shrink_plain(file, &mut |smaller| {
        let verdict = judge.plain_verdict(smaller);
        if panics {
            verdict.panicked()
        } else {
            verdict.differs()
        }
    });
    println!("\nplain file {}", digits(&smallest));
    print_verdict(&judge.plain_verdict(&smallest));
}

fn print_verdict(verdict: &PlainVerdict) {
    match verdict {
        PlainVerdict::Read(.., root) => print_answers(root),
        PlainVerdict::Refused(number) => {
            println!("port and Rust:\nrefused, by the port with {number}");
        }
        PlainVerdict::FalseSum(_) | PlainVerdict::Undefined(..) => println!("{}", summary(verdict)),
        PlainVerdict::Outside(why) => println!("outside the comparison: {}", why.text()),
        PlainVerdict::Differs(text) => print!("{text}"),
    }
}

/// One plain file from standard input: what each side says of it.
pub fn file(arguments: &Arguments) -> io::Result<bool> {
    let mut file = Vec::new();
    io::stdin().read_to_end(&mut file)?;
    let mut judge = Judge::new(arguments.breakage);
    print!("{}", plain_text(&mut judge, &file));
    let verdict = judge.plain_verdict(&file);
    println!("{}", summary(&verdict));
    Ok(!verdict.differs() && !verdict.panicked())
}

fn summary(verdict: &PlainVerdict) -> String {
    match verdict {
        PlainVerdict::Read(.., root) => root_summary(&root.verdict),
        PlainVerdict::Refused(number) => {
            format!("port and Rust refuse the superblock, the port with {number}")
        }
        PlainVerdict::FalseSum(_) => {
            "the superblock's sum is false, and the port answers 28".into()
        }
        PlainVerdict::Undefined(address, _) => {
            let place = address.place.text();
            format!("the superblock's {place} is undefined, and the port answers 3")
        }
        PlainVerdict::Outside(why) => format!("outside the comparison: {}", why.text()),
        PlainVerdict::Differs(_) => "they disagree".into(),
    }
}

fn root_summary(root: &Verdict) -> String {
    match root {
        Verdict::Accepted(_) => "port and mended Rust accept".into(),
        Verdict::Refused(number) => {
            format!("port and mended Rust refuse the root header, the port with {number}")
        }
        Verdict::FalseSum(sum) => {
            format!("the port answers 28 for a false sum: {}", sum.text())
        }
        Verdict::Outside(why) => {
            format!("the root header is outside the comparison: {}", why.text())
        }
        Verdict::Panicked(_) | Verdict::Differs(_) => "they disagree".into(),
    }
}
