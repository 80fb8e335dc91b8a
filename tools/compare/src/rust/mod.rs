//! The Rust, published and mended, each behind a few functions: an input in, its answer out.
//!
//! `data_object` gives the records and the end; `collect_all_messages` over the same header gives
//! the messages, which `data_object` does not hand back. Neither tells the types, the positions of
//! bodies and the entries read: those come from the line that the Rust logs for each entry. That a
//! block is closed comes from the line that it logs when it comes back from it. A layout's address
//! neither tells nor logs: the tool reads it itself.

pub mod mended;
pub mod published;

use std::any::Any;
use std::cell::RefCell;
use std::fmt::{self, Write};
use std::panic::{AssertUnwindSafe, catch_unwind, resume_unwind};

use winnow::ModalResult;

use crate::answer::Header;

/// Entries that a comparison follows; at the next one the Rust is stopped.
pub const ENTRIES: usize = 4096;
/// What a thread that asks the Rust needs: its types nest as deep as the file says.
pub const STACK: usize = 1 << 30;
/// The type of an entry that opens a block.
pub const CONTINUATION: u8 = 16;

#[derive(Clone, Debug, PartialEq, Eq)]
pub enum Outcome {
    Read(Box<Header>),
    Refused,
    /// Entry 4,097 was reached.
    TooMany,
    Panicked(String),
}

/// An entry that the Rust began to read: its type and where its body stands.
#[derive(Clone, Copy, Debug, PartialEq, Eq)]
pub struct Entry {
    pub kind: u8,
    pub body: usize,
}

/// The Rust's answer, and the entries that it read on the way.
pub struct Answer {
    pub outcome: Outcome,
    pub entries: Vec<Entry>,
    /// For each block that was closed how many entries were begun by then.
    pub closed: Vec<usize>,
}

/// Once for each process, before the first question: listens to the log, and silences panics.
pub fn open() {
    std::panic::set_hook(Box::new(|_| {}));
    if log::set_logger(&Listener).is_ok() {
        log::set_max_level(log::LevelFilter::Debug);
    }
}

/// The answer of a reading, with the entries that are heard on its way. A test of this tool that
/// fails on it counts as a panic too.
fn answer_of<R>(
    reading: impl FnOnce() -> ModalResult<R>,
    header: impl FnOnce(R, &[Entry]) -> Header,
) -> Answer {
    listen();
    let read = catch_unwind(AssertUnwindSafe(reading));
    let Heard {
        entries, closed, ..
    } = heard();
    let to_header = |read: ModalResult<R>| read.map(|reading| header(reading, &entries));
    let read = read.and_then(|read| catch_unwind(AssertUnwindSafe(|| to_header(read))));
    let outcome = match read {
        Ok(Ok(header)) => Outcome::Read(Box::new(header)),
        Ok(Err(_)) => Outcome::Refused,
        Err(thrown) if thrown.is::<TooMany>() => Outcome::TooMany,
        Err(thrown) => Outcome::Panicked(message_of(thrown)),
    };
    Answer {
        outcome,
        entries,
        closed,
    }
}

fn message_of(thrown: Box<dyn Any + Send>) -> String {
    match thrown.downcast::<String>() {
        Ok(text) => *text,
        Err(other) => other
            .downcast_ref::<&str>()
            .map_or(String::new(), |text| text.to_string()),
    }
}

// What the Rust logs.

/// Thrown where the Rust logs an entry too many.
struct TooMany;

#[derive(Default)]
struct Heard {
    listening: bool,
    entries: Vec<Entry>,
    closed: Vec<usize>,
}

thread_local! {
    static HEARD: RefCell<Heard> = RefCell::default();
}

fn listen() {
    HEARD.set(Heard {
        listening: true,
        ..Heard::default()
    });
}

/// Ends the listening.
fn heard() -> Heard {
    HEARD.take()
}

fn silence() {
    HEARD.with_borrow_mut(|heard| heard.listening = false);
}

struct Listener;

impl log::Log for Listener {
    fn enabled(&self, about: &log::Metadata) -> bool {
        let levels = [log::Level::Debug, log::Level::Info];
        levels.contains(&about.level()) && about.target().ends_with("ohdr_message")
    }

    fn log(&self, record: &log::Record) {
        if !self.enabled(record.metadata()) {
            return;
        }
        let stop = HEARD.with_borrow_mut(|heard| heard.listening && heard.hear(record.args()));
        if stop {
            resume_unwind(Box::new(TooMany));
        }
    }

    fn flush(&self) {}
}

impl Heard {
    /// Notes the entry, or the end of a block, that a line tells of. True where there are too many
    /// entries.
    fn hear(&mut self, line: &fmt::Arguments) -> bool {
        if line.as_str() == Some(CLOSED) {
            self.closed.push(self.entries.len());
            return false;
        }
        let mut start = LineStart::default();
        // The line is cut on purpose once it is long enough.
        let _ = start.write_fmt(*line);
        let Some(entry) = start.entry() else {
            return false;
        };
        if self.entries.len() == ENTRIES {
            return true;
        }
        self.entries.push(entry);
        false
    }
}

/// The line of a block that is closed.
const CLOSED: &str = " continue back";

/// The line of an entry, up to its size: `message_entry: @0x1b kind=12 size=`.
#[derive(Default)]
struct LineStart {
    text: String,
}

impl Write for LineStart {
    fn write_str(&mut self, piece: &str) -> fmt::Result {
        self.text.push_str(piece);
        if piece.ends_with(" size=") {
            return Err(fmt::Error);
        }
        Ok(())
    }
}

impl LineStart {
    fn entry(&self) -> Option<Entry> {
        let rest = self.text.strip_prefix("message_entry: @0x")?;
        let (body, rest) = rest.split_once(" kind=")?;
        let (kind, _) = rest.split_once(" size=")?;
        Some(Entry {
            kind: kind.parse().ok()?,
            body: usize::from_str_radix(body, 16).ok()?,
        })
    }
}
