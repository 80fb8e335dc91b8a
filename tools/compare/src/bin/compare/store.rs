//! Inputs with the answers of the Rusts, chosen so that they show as much as few and small ones can.

use std::collections::{BTreeMap, HashSet};
use std::io;
use std::path::Path;

use sides::address::{self, Seen};
use sides::answer::REFUSED;
use sides::generate::{BATCH, batch, spaces};
use sides::input::Input;
use sides::pair::Sizes;
use sides::random::Random;
use sides::real;
use sides::rust::{self, mended};
use sides::scan;

use crate::arguments::Arguments;
use crate::counts::Addresses;
use crate::features::{
    BY_FORMS, Feature, of_addresses, of_demand, of_elements, of_forms, of_header, of_last_address,
    of_refusal, of_sums,
};
use crate::judge::{Judge, Judged, OF_CONTINUATION, Verdict, demanded};

const COUNT: u64 = 4000;
const BYTES: usize = 1_600_000;
const MOST_ROWS: usize = 64;
const MOST_BYTES: usize = 8192;
/// Inputs that are kept for each feature, the smallest ones.
const KEPT: usize = 12;
/// What a record needs beside its input and its report, at most: lengths and name.
const OVERHEAD: usize = 48;

/// The inputs that show each feature, by size.
type Shown = BTreeMap<Feature, Vec<Input>>;

/// An input that is stored.
struct Chosen {
    group: String,
    input: Input,
    /// Who answers so: both Rusts, or the mended one alone.
    by: &'static str,
    report: Vec<u8>,
    /// The undefined addresses, and those one below, of the records that win, or the undefined one
    /// that an input is refused at.
    addresses: Vec<Seen>,
}

/// Writes the store. It is refused, and nothing is written, where the two sides disagree.
pub fn store(arguments: &Arguments, path: &Path) -> io::Result<bool> {
    let real = real::headers(&arguments.files)?;
    let mut shown = Shown::new();
    let mut judge = Judge::new(None);
    let mut agree = true;
    for number in 0..arguments.candidates.div_ceil(BATCH as u64) {
        let mut show = |input: &Input| agree &= note(&mut shown, &mut judge, input);
        batch(arguments.seed, number, &real, &mut show);
        spaces::batch(arguments.seed, number, &mut show);
    }
    if !agree {
        println!("the two sides disagree: nothing is stored");
        return Ok(false);
    }
    let count = arguments.count.unwrap_or(COUNT) as usize;
    let chosen = choose(&shown, arguments.seed, count);
    let bytes = records(&chosen);
    std::fs::write(path, &bytes)?;
    println!(
        "seed {}, {} candidates, {} features: {} inputs stored in {} bytes",
        arguments.seed,
        arguments.candidates,
        shown.len(),
        chosen.len(),
        bytes.len()
    );
    print_addresses(&chosen);
    Ok(true)
}

/// How many of the stored answers show an undefined address, at each place.
fn print_addresses(chosen: &[Chosen]) {
    let (mut accepted, mut refused) = (Addresses::default(), Addresses::default());
    let mut undefined = 0;
    for one in chosen {
        let counts = match one.report == REFUSED {
            true => &mut refused,
            false => &mut accepted,
        };
        counts.count(one.addresses.iter().copied());
        undefined += u64::from(one.addresses.iter().any(Seen::is_undefined));
    }
    println!("stored answers that show an undefined address {undefined}");
    accepted.print("stored and accepted");
    refused.print("stored and refused");
}

/// Notes what an input shows. False where the sides disagree.
fn note(shown: &mut Shown, judge: &mut Judge, input: &Input) -> bool {
    let judged = judge.judged_with(input, Sizes::Few);
    if matches!(judged.verdict, Verdict::Panicked(_) | Verdict::Differs(_)) {
        return false;
    }
    if input.to_bytes().len() <= MOST_BYTES {
        for feature in features(input, &judged) {
            keep(shown.entry(feature).or_default(), input);
        }
    }
    true
}

/// What an input shows, if it may be stored.
fn features(input: &Input, judged: &Judged) -> Vec<Feature> {
    let found = &judged.found;
    match &judged.verdict {
        Verdict::Accepted(header) if header.rows.len() <= MOST_ROWS && header.is_utf8() => {
            let mut features = of_header(input, header);
            features.extend(of_sums(header, &judged.closings));
            features.extend(of_addresses(input, header, &found.addresses));
            features.extend(of_elements(header));
            features.extend(of_forms(input, "accepted", &found.forms));
            features.extend(of_forms(input, "failing", &found.failed));
            features
        }
        Verdict::Refused(number) => {
            let entries = mended::rust_answer(input).entries;
            let mut features = of_refusal(input, *number, &entries);
            if judged.demanded.is_some() {
                features.extend(of_demand(input, *number, entries.last(), &found.addresses));
            } else if *number == OF_CONTINUATION {
                features.extend(of_last_address(*number, &found.addresses));
            }
            if BY_FORMS.contains(number) {
                features.extend(of_forms(input, &format!("refused {number}"), &found.failed));
            }
            features
        }
        _ => Vec::new(),
    }
}

/// Keeps an input among the smallest.
fn keep(kept: &mut Vec<Input>, input: &Input) {
    let at = kept.partition_point(|other| other.file.len() <= input.file.len());
    if at < KEPT && !kept.contains(input) {
        kept.insert(at, input.clone());
        kept.truncate(KEPT);
    }
}

/// The smallest input of every feature, then the second of every feature, and so on while there is
/// room, each with the group of the feature and its report; in the order of groups and sizes.
fn choose(shown: &Shown, seed: u64, count: usize) -> Vec<Chosen> {
    let mut chosen = Vec::new();
    let mut taken = HashSet::new();
    let mut bytes = 0;
    for (feature, input) in ranked(shown, seed) {
        if chosen.len() == count || !taken.insert(input) {
            continue;
        }
        let one = answered(feature, input);
        let room = input.to_bytes().len() + one.report.len() + OVERHEAD;
        if bytes + room <= BYTES {
            bytes += room;
            chosen.push(one);
        }
    }
    chosen.sort_by_key(|one| (one.group.clone(), one.input.file.len()));
    chosen
}

/// Features in a random order, so that none is left out for its name alone, rank by rank. Those of
/// padded forms, of sums, of undefined addresses and of elements come first: they are few, and there is
/// not room for all others.
fn ranked(shown: &Shown, seed: u64) -> Vec<(&Feature, &Input)> {
    let mut random = Random::new(seed, u64::MAX);
    let mut features: Vec<_> = shown
        .iter()
        .map(|shown| ((!shown.0.is_first(), random.number()), shown))
        .collect();
    features.sort_by_key(|(order, _)| *order);
    let at_rank = |rank: usize| {
        let features = features.iter();
        features.filter_map(move |(_, (feature, inputs))| Some((*feature, inputs.get(rank)?)))
    };
    (0..KEPT).flat_map(at_rank).collect()
}

/// An input with the group of its feature, and the mended Rust's answer. It is the published one's
/// too, or the sides would disagree, where there is no form that the two read otherwise.
fn answered(feature: &Feature, input: &Input) -> Chosen {
    let answer = mended::rust_answer(input);
    let found = scan::header(input, &answer.entries);
    let refusing = answer
        .entries
        .last()
        .filter(|last| demanded(input, last).is_some());
    let (report, addresses) = match (answer.outcome, refusing) {
        (rust::Outcome::Read(header), _) => {
            (header.report(), header.records.seen(input.offset_width))
        }
        (_, Some(last)) => (REFUSED.to_vec(), address::seen(input, &[*last])),
        (_, None) => (REFUSED.to_vec(), Vec::new()),
    };
    Chosen {
        group: feature.group.clone(),
        input: input.clone(),
        by: if found.is_mended() { "mended" } else { "both" },
        report,
        addresses,
    }
}

/// Name, input and report of each, every one behind its length in 4 bytes.
fn records(chosen: &[Chosen]) -> Vec<u8> {
    let mut bytes = Vec::new();
    for (number, one) in chosen.iter().enumerate() {
        let name = format!("{} {}-{number:04}", one.by, one.group);
        for part in [name.as_bytes(), &one.input.to_bytes(), &one.report] {
            bytes.extend((part.len() as u32).to_le_bytes());
            bytes.extend(part);
        }
    }
    bytes
}
