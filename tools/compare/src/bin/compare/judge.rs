//! One input: the answers of the port and of both Rusts, and what the comparison says of them.
//!
//! The port is compared with the mended Rust. Where no form is found that the published Rust reads
//! otherwise, the two Rusts must answer alike, so that the port is compared with both. No Rust tests
//! a sum: where a stored value is reached that is none, the port must answer 28, and nowhere else.
//!
//! An end-of-file address above all ones of the width of offsets stands outside the comparison, since
//! the published Rust then takes undefined addresses for places in the file. The mended one does not,
//! and the port must answer as it does there too, or it is a disagreement.
//!
//! What is said of the port holds for its check and for its filling, each beside the Rust. Between the
//! two the property of `Pair` must hold on every input, inside the comparison or not.
//!
//! Null dataspaces stand outside too: in an attribute the published Rust takes as many bytes as their
//! sizes say. The mended one takes none, and there too the port must answer as it does.
//!
//! No Rust knows the numbers of rows, tells where a text stands, or keeps the number of elements: on
//! every input that the port accepts, inside the comparison or not, they must be what the tool reads
//! from the bytes of the rows.

use std::ops::RangeInclusive;

use sides::address::{LAYOUT, Place, all_ones, numbers};
use sides::answer::{Header, REFUSED};
use sides::closing::{first_false, reached};
use sides::input::{End, Input, get};
use sides::pair::{Figures, Pair, Sizes};
use sides::port::{self, PlainAnswer, Port};
use sides::rust::{self, CONTINUATION, ENTRIES, Entry, mended, published};
use sides::scan::{self, Found, Null, Outside};
use sides::sum::{Closing, Of};

use crate::breakage::Breakage;
use crate::rows::Rows;

/// The port's number for a false sum.
pub const CHECKSUM: u64 = 28;
/// The port's numbers for a layout and for a continuation.
pub const OF_LAYOUT: u64 = 13;
pub const OF_CONTINUATION: u64 = 19;
/// The first size that data of a layout may not have.
const DATA_LIMIT: u64 = 0x1000_0000;

/// Why an input is outside the comparison.
#[derive(Clone, Copy, Debug, PartialEq, Eq, PartialOrd, Ord)]
pub enum Exclusion {
    /// The port's number.
    Number(u64),
    TypeLevel,
    Elements,
    /// End-of-file is above all ones of the width of offsets.
    EndOfFile,
    /// A null dataspace is read, and whether the port accepts the header.
    Null(Null, bool),
}

/// A false sum: what it closes, and what the mended Rust, which does not test it, says of the input.
#[derive(Clone, Copy, Debug, PartialEq, Eq, PartialOrd, Ord)]
pub struct FalseSum {
    pub of: Of,
    pub rust: Untested,
}

#[derive(Clone, Copy, Debug, PartialEq, Eq, PartialOrd, Ord)]
pub enum Untested {
    Accepts,
    Refuses,
    TooMany,
}

pub enum Verdict {
    Accepted(Box<Header>),
    /// With the port's number.
    Refused(u64),
    /// The port refuses it with 28, as it must.
    FalseSum(FalseSum),
    Outside(Exclusion),
    /// A Rust panics; with what the sides say.
    Panicked(String),
    /// The sides disagree; with what they say.
    Differs(String),
}

pub struct Judged {
    pub verdict: Verdict,
    /// The check and the fillings.
    pub pair: Pair,
    /// The closings that were reached, in their order.
    pub closings: Vec<Closing>,
    pub found: Found,
    /// What the bytes of the port's rows say, where it accepts.
    pub rows: Option<Rows>,
    /// The number that an undefined address asks for.
    pub demanded: Option<u64>,
    pub end: Option<End>,
    /// The published Rust's answer, where it is not the mended one's.
    pub otherwise: Option<rust::Outcome>,
}

pub struct Judge {
    port: Port,
    breakage: Option<&'static Breakage>,
}

impl Judge {
    pub fn new(breakage: Option<&'static Breakage>) -> Judge {
        Judge {
            port: Port::default(),
            breakage,
        }
    }

    /// The answer for a header, broken where it is to be.
    pub fn broken(&self, input: &Input, outcome: port::Outcome) -> port::Outcome {
        match self.breakage {
            Some(breakage) => breakage.break_header(input, outcome),
            None => outcome,
        }
    }

    /// The answers for a plain file, broken where they are to be.
    pub fn plain_answer(&mut self, file: &[u8], sizes: Sizes) -> PlainAnswer {
        let mut answer = self.port.plain_answer(file, sizes);
        if let Some(breakage) = self.breakage {
            breakage.break_plain(file, &mut answer);
        }
        answer
    }

    pub fn verdict(&mut self, input: &Input) -> Verdict {
        self.judged(input).verdict
    }

    pub fn judged(&mut self, input: &Input) -> Judged {
        self.judged_with(input, Sizes::Many)
    }

    pub fn judged_with(&mut self, input: &Input, sizes: Sizes) -> Judged {
        let (answer, mut pair) = self.port.answers(input, sizes);
        let port = self.broken(input, answer);
        if let Some(breakage) = self.breakage {
            breakage.break_pair(input, &mut pair);
        }
        if !input.has_widths() {
            return unasked(&port, pair);
        }
        against_rust(input, port, pair)
    }
}

/// What is said of the port's answers for an input with a width that no Rust takes.
fn unasked(port: &port::Outcome, pair: Pair) -> Judged {
    let verdict = match port {
        port::Outcome::Refused(1) if pair.check.refused == 1 && pair.fault().is_none() => {
            Verdict::Outside(Exclusion::Number(1))
        }
        other => Verdict::Differs(format!(
            "port:\n{}{}Rust:\nnot asked\n",
            port_text(other),
            pair_text(&pair)
        )),
    };
    Judged {
        verdict,
        pair,
        closings: Vec::new(),
        found: Found::default(),
        rows: None,
        demanded: None,
        end: None,
        otherwise: None,
    }
}

/// What is said of the port's answers for an input whose widths are allowed.
pub fn against_rust(input: &Input, port: port::Outcome, pair: Pair) -> Judged {
    let mended = mended::rust_answer(input);
    let closings = reached(input, &mended);
    let refuses = matches!(mended.outcome, rust::Outcome::Refused);
    let last = mended.entries.last().filter(|_| refuses);
    let answers = Answers {
        input,
        rows: Rows::read(input, &port),
        port,
        pair,
        published: published::rust_answer(input).outcome,
        found: scan::header(input, &mended.entries),
        demanded: last.and_then(|last| demanded(input, last)),
        false_sum: first_false(&closings, &input.file),
        closings,
        mended: mended.outcome,
        entries: mended.entries,
    };
    answers.judged()
}

/// The number that the port has to give where the last entry that a Rust began, before it refused,
/// has an undefined address: 19 for a continuation's offset, whether or not its length is there, and
/// 13 for a layout whose size is too large.
pub fn demanded(input: &Input, last: &Entry) -> Option<u64> {
    let (place, number) = numbers(input, last).next()?;
    if number != all_ones(input.offset_width) {
        return None;
    }
    let size = last.body + 2 + usize::from(input.offset_width);
    let field = size..size + usize::from(input.length_width);
    match place {
        Place::Continuation => Some(OF_CONTINUATION),
        Place::Layout if get(input.file.get(field)?) >= DATA_LIMIT => Some(OF_LAYOUT),
        _ => None,
    }
}

/// All that is said of an input, with the entries that the mended Rust read and what they show, and
/// the closings that it reached and the first that is false.
struct Answers<'a> {
    input: &'a Input,
    port: port::Outcome,
    pair: Pair,
    published: rust::Outcome,
    mended: rust::Outcome,
    entries: Vec<Entry>,
    found: Found,
    rows: Option<Rows>,
    demanded: Option<u64>,
    closings: Vec<Closing>,
    false_sum: Option<Closing>,
}

impl Answers<'_> {
    fn judged(self) -> Judged {
        Judged {
            verdict: self.verdict(),
            pair: self.pair,
            closings: self.closings,
            found: self.found,
            rows: self.rows,
            demanded: self.demanded,
            end: self.input.end(),
            otherwise: (self.published != self.mended).then_some(self.published),
        }
    }

    fn verdict(&self) -> Verdict {
        let panics = |outcome| matches!(outcome, &rust::Outcome::Panicked(_));
        if panics(&self.published) || panics(&self.mended) {
            return Verdict::Panicked(self.text());
        }
        let unlike = self.published != self.mended && !self.found.is_mended();
        if unlike || self.pair.fault().is_some() || self.row_fault().is_some() {
            return Verdict::Differs(self.text());
        }
        // What stands behind a false sum the port never sees.
        let seen = self.false_sum.map_or(self.entries.len(), |sum| sum.entries);
        let before =
            (seen < self.entries.len()).then(|| scan::header(self.input, &self.entries[..seen]));
        let found = before.as_ref().unwrap_or(&self.found);
        let verdict = match found.outside {
            Some(Outside::TypeLevel) => Verdict::Outside(Exclusion::TypeLevel),
            Some(Outside::Elements) => Verdict::Outside(Exclusion::Elements),
            None => self.compared(&self.entries[..seen], found),
        };
        self.or_outside(verdict)
    }

    /// A verdict, or that the input stands outside the comparison all the same: for a null dataspace,
    /// before all other reasons, or for its end-of-file address.
    fn or_outside(&self, verdict: Verdict) -> Verdict {
        match (verdict, self.found.null) {
            (differs @ Verdict::Differs(_), _) => differs,
            (_, Some(place)) => {
                let accepts = matches!(self.port, port::Outcome::Read(_));
                Verdict::Outside(Exclusion::Null(place, accepts))
            }
            (Verdict::Accepted(_) | Verdict::Refused(_) | Verdict::FalseSum(_), None)
                if self.input.is_above_addresses() =>
            {
                Verdict::Outside(Exclusion::EndOfFile)
            }
            (other, None) => other,
        }
    }

    /// The verdict on the port's answers and the mended Rust's, with what the port has seen.
    fn compared(&self, seen: &[Entry], found: &Found) -> Verdict {
        let verdict = self.filled(seen, found);
        let agrees = self.is_checked(seen, found) && self.is_taken(&verdict, seen);
        match verdict {
            Verdict::Differs(_) => verdict,
            _ if agrees => verdict,
            _ => Verdict::Differs(self.text()),
        }
    }

    /// Whether the check answers as the mended Rust does.
    fn is_checked(&self, seen: &[Entry], found: &Found) -> bool {
        match (self.pair.check.refused, &self.mended, self.false_sum) {
            (number @ (2 | 14 | 22 | 23), ..) => self.deserved(number, seen, found),
            (CHECKSUM, _, sum) => sum.is_some(),
            (.., Some(_)) => false,
            (0, rust::Outcome::Read(header), None) => self.pair.check == figures(header),
            (number, rust::Outcome::Refused, None) => {
                number != 0 && self.demanded.is_none_or(|demanded| demanded == number)
            }
            _ => false,
        }
    }

    /// Whether a header that is refused takes as many rows before that as the mended Rust has read
    /// messages. An answer of 14 or 22 ends the comparison before the Rust stops.
    fn is_taken(&self, verdict: &Verdict, seen: &[Entry]) -> bool {
        let taken = match verdict {
            Verdict::Refused(_) => messages_before(seen),
            Verdict::FalseSum(_) | Verdict::Outside(Exclusion::Number(23)) => {
                messages(seen)..=messages(seen)
            }
            _ => return true,
        };
        let least = self.pair.least();
        least.start() <= taken.end() && taken.start() <= least.end()
    }

    /// The verdict on what the port's filling answers and the mended Rust.
    fn filled(&self, seen: &[Entry], found: &Found) -> Verdict {
        match (&self.port, &self.mended, self.false_sum) {
            (port::Outcome::Refused(number @ (2 | 14 | 22 | 23 | 24)), ..) => {
                if self.deserved(*number, seen, found) {
                    return Verdict::Outside(Exclusion::Number(*number));
                }
                Verdict::Differs(self.text())
            }
            (port::Outcome::Refused(CHECKSUM), rust, Some(sum)) => Verdict::FalseSum(FalseSum {
                of: sum.of,
                rust: untested(rust),
            }),
            (port::Outcome::Refused(CHECKSUM), ..) | (.., Some(_)) => Verdict::Differs(self.text()),
            (port::Outcome::Read(ours), rust::Outcome::Read(theirs), None)
                if ours.report() == theirs.report() =>
            {
                Verdict::Accepted(ours.clone())
            }
            (port::Outcome::Refused(number), rust::Outcome::Refused, None)
                if self.demanded.is_none_or(|demanded| demanded == *number) =>
            {
                Verdict::Refused(*number)
            }
            _ => Verdict::Differs(self.text()),
        }
    }

    /// What is not as the bytes of the port's rows say, if anything.
    fn row_fault(&self) -> Option<String> {
        self.rows.as_ref()?.fault(&self.port)
    }

    /// Whether a number that ends the comparison is borne out by what the Rust read up to there.
    fn deserved(&self, number: u64, seen: &[Entry], found: &Found) -> bool {
        let file = &self.input.file;
        let chunked = |body: usize| file.get(body..body + 2) == Some(&[3, 2]);
        match number {
            14 => seen.iter().any(|e| e.kind == LAYOUT && chunked(e.body)),
            22 => found.type_too_deep,
            23 => self.false_sum.is_none() && self.has_all_entries(),
            2 => file.len() > 1 << 31,
            _ => false,
        }
    }

    /// Whether the Rust comes to a 4,097th entry. Where it refuses that by its first bytes, it does not
    /// log it.
    fn has_all_entries(&self) -> bool {
        match self.mended {
            rust::Outcome::TooMany => true,
            rust::Outcome::Refused => self.entries.len() == ENTRIES,
            _ => false,
        }
    }

    /// What each says; the published Rust only where it says something else.
    fn text(&self) -> String {
        let mut text = format!("port:\n{}", port_text(&self.port));
        text += &self.row_fault().unwrap_or_default();
        text += &pair_text(&self.pair);
        text += &format!("mended Rust:\n{}", rust_text(&self.mended));
        if self.published != self.mended {
            text += &published_text(&self.published);
        }
        if let Some(number) = self.demanded {
            text += &format!("an undefined address asks for {number}\n");
        }
        text + &sums_text(&self.closings, &self.input.file)
    }
}

/// The figures that a check has to answer for a header.
pub fn figures(header: &Header) -> Figures {
    Figures {
        refused: 0,
        next: header.next,
        entries: header.entries,
        rows: header.rows.len() as u64,
    }
}

/// How many entries are messages, and not continuations.
fn messages(entries: &[Entry]) -> usize {
    let messages = entries.iter().filter(|entry| entry.kind != CONTINUATION);
    messages.count()
}

/// How many messages were read before a refusal: the last entry that was begun may be what is refused.
fn messages_before(entries: &[Entry]) -> RangeInclusive<usize> {
    let before = &entries[..entries.len().saturating_sub(1)];
    messages(before)..=messages(entries)
}

fn untested(outcome: &rust::Outcome) -> Untested {
    match outcome {
        rust::Outcome::Read(_) => Untested::Accepts,
        rust::Outcome::TooMany => Untested::TooMany,
        _ => Untested::Refuses,
    }
}

/// The closings up to the first false one, which is the last that matters.
pub fn sums_text(closings: &[Closing], file: &[u8]) -> String {
    let first = closings.iter().position(|closing| !closing.holds(file));
    let tested = first.map_or(closings, |first| &closings[..=first]);
    tested.iter().map(|closing| closing.text(file)).collect()
}

/// What the published Rust says, under its name.
pub fn published_text(outcome: &rust::Outcome) -> String {
    format!("published Rust:\n{}", rust_text(outcome))
}

pub fn text(report: &[u8]) -> String {
    report.escape_ascii().to_string().replace("\\n", "\n")
}

/// The port's check, and what is wrong with its fillings or how many rows they need.
pub fn pair_text(pair: &Pair) -> String {
    let least = pair.least();
    let mut text = format!("port's check:\n{}\n", pair.check.text());
    text += &match (pair.fault(), pair.least_known()) {
        (Some(fault), _) => format!("{fault}\n"),
        (None, Some(rows)) => format!("rows needed: {rows}\n"),
        (None, None) => format!("rows needed: {} to {}\n", least.start(), least.end()),
    };
    text
}

/// The report of a header, and its numbers.
pub fn header_text(header: &Header) -> String {
    text(&header.report()) + &header.numbers()
}

pub fn port_text(outcome: &port::Outcome) -> String {
    match outcome {
        port::Outcome::Read(header) => header_text(header),
        port::Outcome::Refused(number) => format!("refused {number}\n"),
    }
}

pub fn rust_text(outcome: &rust::Outcome) -> String {
    match outcome {
        rust::Outcome::Read(header) => text(&header.report()),
        rust::Outcome::Refused => text(REFUSED),
        rust::Outcome::TooMany => "reads a 4,097th entry\n".into(),
        rust::Outcome::Panicked(message) => format!("panics: {message}\n"),
    }
}
