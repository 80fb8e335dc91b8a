//! One plain file: the superblock and the root header of both sides, and what the comparison says
//! of them.
//!
//! To the Rust an undefined end-of-file or root address is a number. The port must refuse it with 3,
//! whatever stands behind it.

use sides::address::{Place, Seen};
use sides::answer::SuperBlock;
use sides::closing::{self, Summed};
use sides::input::get;
use sides::listing;
use sides::pair::Sizes;
use sides::plain::{VERSION, address, as_version_2, end, seen, version};
use sides::port::{PlainAnswer, Written};
use sides::rust::mended;
use sides::rust::published::{rust_answer, rust_parses, rust_super_block};

use crate::judge::{
    CHECKSUM, Judge, Judged, Verdict, against_rust, pair_text, port_text, rust_text, sums_text,
    text,
};

const LARGEST_FILE: usize = 1 << 31;
const WIDEST: u64 = 8;
/// The port's numbers for a field that cannot be, and for a base address.
const SHORT: u64 = 3;
const BASE: u64 = 27;

/// The sum behind an undefined address.
#[derive(Clone, Copy, Debug, PartialEq, Eq, PartialOrd, Ord)]
pub enum Behind {
    True,
    False,
    /// Some of its bytes, or of the root address, are not there.
    Missing,
}

/// Why a superblock is outside the comparison.
#[derive(Clone, Copy, Debug, PartialEq, Eq, PartialOrd, Ord)]
pub enum PlainExclusion {
    FileSize,
    /// Version 0 or 1, which the Rust reads and the port does not.
    EarlyVersion,
    /// The checksum's bytes are not there, which the port asks for and the Rust does not.
    NoChecksum,
}

pub enum PlainVerdict {
    /// Both read the same superblock, of this version and with these addresses; the rest is of the
    /// root header.
    Read(u8, Vec<Seen>, Judged),
    /// Both refuse the superblock, the port with this number.
    Refused(u64),
    /// The Rust reads the superblock, of this version, and its sum is false: the port refuses it with
    /// 28, as it must.
    FalseSum(u8),
    /// Its end-of-file or root address is undefined, and the port refuses it with 3, as it must.
    Undefined(Seen, Behind),
    Outside(PlainExclusion),
    /// With what both say.
    Differs(String),
}

/// What is said of a plain file, and the number in its listing, 0 where that has rows.
pub struct PlainJudged {
    pub verdict: PlainVerdict,
    pub listed: u64,
}

impl PlainVerdict {
    pub fn differs(&self) -> bool {
        match self {
            PlainVerdict::Read(.., root) => matches!(root.verdict, Verdict::Differs(_)),
            other => matches!(other, PlainVerdict::Differs(_)),
        }
    }

    pub fn panicked(&self) -> bool {
        match self {
            PlainVerdict::Read(.., root) => matches!(root.verdict, Verdict::Panicked(_)),
            _ => false,
        }
    }
}

impl Behind {
    fn new(file: &[u8]) -> Behind {
        match closing::super_block(file) {
            None => Behind::Missing,
            Some(closing) if closing.holds(file) => Behind::True,
            Some(_) => Behind::False,
        }
    }

    pub fn text(self) -> &'static str {
        match self {
            Behind::True => "a true sum behind it",
            Behind::False => "a false sum behind it",
            Behind::Missing => "fields missing behind it",
        }
    }
}

impl PlainExclusion {
    pub fn text(self) -> &'static str {
        match self {
            PlainExclusion::FileSize => "the port answers 2",
            PlainExclusion::EarlyVersion => {
                "version 0 or 1, which the Rust reads; the port answers 26"
            }
            PlainExclusion::NoChecksum => {
                "the checksum's bytes missing, which the Rust does not read; the port answers 3"
            }
        }
    }
}

impl Judge {
    pub fn plain_verdict(&mut self, file: &[u8]) -> PlainVerdict {
        self.plain_judged(file, Sizes::Many).verdict
    }

    pub fn plain_judged(&mut self, file: &[u8], sizes: Sizes) -> PlainJudged {
        let answer = self.plain_answer(file, sizes);
        PlainJudged {
            listed: listing::number(&answer.listing),
            verdict: self.verdict_of(file, answer),
        }
    }

    fn verdict_of(&self, file: &[u8], answer: PlainAnswer) -> PlainVerdict {
        let ours = &answer.super_block;
        if answer.root != answer.by_hand {
            return unlike_by_hand(&answer.root, &answer.by_hand);
        }
        if let Some(verdict) = unlike_filling(file, &answer) {
            return verdict;
        }
        if version(file) == Some(3) && rust_super_block(file).is_some() {
            return differ(&block_text(ours), "it reads version 3\n");
        }
        if let Some(address) = undefined_address(file) {
            return undefined(file, ours, address);
        }
        match (ours, rust_super_block(&as_version_2(file))) {
            (Ok(block), Some(theirs)) if *block == theirs && due(file) => {
                let input = block.input(file);
                let root = self.broken(&input, answer.root.outcome(file));
                let addresses = seen(file, block.size_of_offsets);
                let root = against_rust(&input, root, answer.pair);
                PlainVerdict::Read(file[VERSION], addresses, root)
            }
            (Ok(block), Some(theirs)) if *block == theirs => {
                differ(&block_text(ours), "the port has to refuse it\n")
            }
            (Err(number), theirs) => refused(file, *number, theirs),
            (_, theirs) => blocks_differ(ours, theirs),
        }
    }
}

fn differ(port: &str, rust: &str) -> PlainVerdict {
    PlainVerdict::Differs(format!("port:\n{port}Rust:\n{rust}"))
}

/// The root operation writes something else than the call by hand: the first word of it.
fn unlike_by_hand(root: &Written, by_hand: &Written) -> PlainVerdict {
    let first = |ours: &[u64], theirs: &[u64]| {
        let mut words = ours.iter().zip(theirs).enumerate();
        let (at, (ours, theirs)) = words.find(|(_, (ours, theirs))| ours != theirs)?;
        Some((at, *ours, *theirs))
    };
    let object = first(root.object.words(), by_hand.object.words());
    let table = first(&root.table, &by_hand.table);
    let place = if object.is_some() { "object" } else { "table" };
    let (at, ours, theirs) = object.or(table).expect("words that differ");
    differ(
        &format!("the root operation has {ours} as word {at} of the {place}\n"),
        &format!("not asked; the port by hand has {theirs}\n"),
    )
}

/// The root's check is another than the check by hand, or does not go with the root operation, or the
/// listing is not that of what the root operation wrote.
fn unlike_filling(file: &[u8], answer: &PlainAnswer) -> Option<PlainVerdict> {
    let check = &answer.pair.check;
    if *check != answer.check_by_hand {
        let by_hand = answer.check_by_hand.text();
        return Some(differ(
            &format!("the root's check: {}\n", check.text()),
            &format!("not asked; the port's check by hand: {by_hand}\n"),
        ));
    }
    if answer.pair.fault().is_some() {
        return Some(differ(&pair_text(&answer.pair), "not asked\n"));
    }
    let listing = listing::expected(file, &answer.by_hand);
    (answer.listing != listing).then(|| {
        differ(
            &format!("the listing:\n{}", text(&answer.listing)),
            &format!("not asked; to be listed:\n{}", text(&listing)),
        )
    })
}

/// The verdict on a superblock with an undefined address that the port has to refuse.
fn undefined(file: &[u8], ours: &Result<SuperBlock, u64>, address: Seen) -> PlainVerdict {
    match ours {
        Err(SHORT) => PlainVerdict::Undefined(address, Behind::new(file)),
        _ => differ(
            &block_text(ours),
            &format!("an undefined {} asks for {SHORT}\n", address.place.text()),
        ),
    }
}

/// An undefined end-of-file or root address of a superblock of version 2 or 3 that is right up to
/// there, as the Rust has it. What stands behind the address may be missing.
fn undefined_address(file: &[u8]) -> Option<Seen> {
    let block = rust_super_block(&filled(file)?)?;
    let refuses = |seen: &Seen| seen.is_undefined() && seen.place != Place::Extension;
    seen(file, block.size_of_offsets).into_iter().find(refuses)
}

/// Whether a superblock of version 2 or 3 that is right up to there has a base address that is not 0.
fn has_base(file: &[u8]) -> bool {
    let Some(mut bytes) = filled(file) else {
        return false;
    };
    let width = u64::from(bytes[VERSION + 1]).min(WIDEST);
    let field = address(0, width)..address(1, width);
    let base = file.get(field.clone()).map_or(0, get);
    bytes[field].fill(0);
    base != 0 && rust_super_block(&bytes).is_some()
}

/// The first bytes of a file with a superblock of version 2 or 3 as the Rust is given them, with
/// zeros for those that are missing.
fn filled(file: &[u8]) -> Option<Vec<u8>> {
    let longest = end(WIDEST);
    let given = &file[..file.len().min(longest)];
    let mut bytes = as_version_2(given).into_owned();
    bytes.resize(longest, 0);
    matches!(version(file), Some(2 | 3)).then_some(bytes)
}

/// Whether the port has to read a superblock that the Rust reads.
fn due(file: &[u8]) -> bool {
    closing::super_block(file).is_some_and(|closing| closing.holds(file))
}

/// Whether the Rust reads a superblock whose sum is false.
fn has_false_sum(file: &[u8]) -> bool {
    closing::super_block(file).is_some_and(|closing| !closing.holds(file))
}

/// The verdict on a superblock that the port refuses.
fn refused(file: &[u8], number: u64, theirs: Option<SuperBlock>) -> PlainVerdict {
    let early = matches!(version(file), Some(0 | 1));
    match (number, theirs) {
        (2, _) if file.len() > LARGEST_FILE => PlainVerdict::Outside(PlainExclusion::FileSize),
        (2, theirs) => blocks_differ(&Err(number), theirs),
        (CHECKSUM, _) if has_false_sum(file) => PlainVerdict::FalseSum(file[VERSION]),
        (CHECKSUM, theirs) => blocks_differ(&Err(number), theirs),
        (26, Some(_)) if early => PlainVerdict::Outside(PlainExclusion::EarlyVersion),
        (SHORT, Some(block)) if !early && file.len() < end(block.size_of_offsets) => {
            PlainVerdict::Outside(PlainExclusion::NoChecksum)
        }
        (_, None) if number == BASE || !has_base(file) => PlainVerdict::Refused(number),
        (_, theirs) => blocks_differ(&Err(number), theirs),
    }
}

fn blocks_differ(ours: &Result<SuperBlock, u64>, theirs: Option<SuperBlock>) -> PlainVerdict {
    differ(&block_text(ours), &rust_block_text(theirs.as_ref()))
}

fn block_text(block: &Result<SuperBlock, u64>) -> String {
    match block {
        Ok(block) => block.report(),
        Err(number) => format!("superblock refused {number}\n"),
    }
}

fn rust_block_text(block: Option<&SuperBlock>) -> String {
    block.map_or("superblock refused\n".into(), SuperBlock::report)
}

/// The superblock and root header of all sides, and whether the Rust's `parse` takes the file.
pub fn plain_text(judge: &mut Judge, file: &[u8]) -> String {
    let answer = judge.plain_answer(file, Sizes::Many);
    let root = answer.root.outcome(file);
    let root = match &answer.super_block {
        Ok(block) => judge.broken(&block.input(file), root),
        Err(_) => root,
    };
    let parse = if rust_parses(file) {
        "takes"
    } else {
        "refuses"
    };
    let mut text = format!("port:\n{}", block_text(&answer.super_block)) + &port_text(&root);
    text += &pair_text(&answer.pair);
    text += &format!("Rust:\n{}", rust_plain_text(file, file));
    if version(file) == Some(3) {
        let given = as_version_2(file);
        text += &format!("Rust, given version 2:\n{}", rust_plain_text(&given, file));
    }
    text += &sums_text(&file.to_vec().closings(), file);
    text + &format!("`parse` of the Rust {parse} the file\n")
}

/// The Rust's superblock, and the root header that it leads to; that of the mended Rust too where
/// it is another.
fn rust_plain_text(given: &[u8], file: &[u8]) -> String {
    let Some(block) = rust_super_block(given) else {
        return rust_block_text(None);
    };
    let input = block.input(file);
    let published = rust_answer(&input).outcome;
    let mended = mended::rust_answer(&input).outcome;
    let mut text = block.report() + &rust_text(&published);
    if mended != published {
        text += &format!("mended Rust, of the root header:\n{}", rust_text(&mended));
    }
    text
}
