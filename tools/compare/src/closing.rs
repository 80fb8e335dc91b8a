//! The stored sums that a reading reaches, in the order in which they are tested, and how they are
//! made true.
//!
//! A block is tested when the mended Rust comes back from it, a header when it is accepted, a
//! superblock before its root header. What stands behind a refusal is never reached.

use crate::input::{Input, get};
use crate::plain::{SIGNATURE, as_version_2, end, version};
use crate::rust::mended::{rust_super_block, rust_walk};
use crate::rust::{Answer, CONTINUATION, Entry, Outcome};
use crate::sum::{Closing, Of};

/// How often stored values are written until none changes: where one is a field too, another reading
/// may follow from it.
const ROUNDS: usize = 4;

/// What a file is read as.
pub trait Summed {
    /// The closings that a reading reaches, in their order.
    fn closings(&self) -> Vec<Closing>;
    fn bytes(&self) -> &[u8];
    fn bytes_mut(&mut self) -> &mut [u8];
}

/// A header in a file.
impl Summed for Input {
    fn closings(&self) -> Vec<Closing> {
        match self.has_widths() {
            true => reached(self, &rust_walk(self)),
            false => Vec::new(),
        }
    }

    fn bytes(&self) -> &[u8] {
        &self.file
    }

    fn bytes_mut(&mut self) -> &mut [u8] {
        &mut self.file
    }
}

/// A plain file: its superblock and its root header.
impl Summed for Vec<u8> {
    fn closings(&self) -> Vec<Closing> {
        let mut closings: Vec<Closing> = super_block(self).into_iter().collect();
        if let Some(block) = rust_super_block(&as_version_2(self)) {
            closings.extend(block.input(self).closings());
        }
        closings
    }

    fn bytes(&self) -> &[u8] {
        self
    }

    fn bytes_mut(&mut self) -> &mut [u8] {
        self
    }
}

/// The first closing whose stored value is not the sum.
pub fn first_false(closings: &[Closing], file: &[u8]) -> Option<Closing> {
    closings
        .iter()
        .copied()
        .find(|closing| !closing.holds(file))
}

/// Whether every stored value is true that a reading reaches.
pub fn is_true(given: &impl Summed) -> bool {
    first_false(&given.closings(), given.bytes()).is_none()
}

/// Makes every stored value true that a reading reaches. That fails where one is a part of another,
/// or is a field that leads elsewhere when it is true.
pub fn make_true(given: &mut impl Summed) {
    for _ in 0..ROUNDS {
        let closings = given.closings();
        if !store_all(closings, given.bytes_mut()) {
            return;
        }
    }
}

/// Stores the sums, and answers whether a value changed. A value stands right behind its bytes, so
/// only a closing that ends later can have it among its own.
fn store_all(mut closings: Vec<Closing>, file: &mut [u8]) -> bool {
    closings.sort_by_key(|closing| (closing.end, closing.from));
    closings.dedup_by_key(|closing| (closing.end, closing.from));
    let mut changed = false;
    for closing in closings {
        if let Some(sum) = closing.sum(file) {
            changed |= closing.store(file, sum);
        }
    }
    changed
}

/// The closing of a superblock of version 2 or 3 that the Rust reads and whose bytes are there.
pub fn super_block(file: &[u8]) -> Option<Closing> {
    if !matches!(version(file), Some(2 | 3)) {
        return None;
    }
    let block = rust_super_block(&as_version_2(file))?;
    let end = end(block.size_of_offsets);
    (end <= file.len()).then_some(Closing {
        of: Of::SuperBlock,
        from: 0,
        chunk: SIGNATURE.len(),
        end: end - 4,
        entries: 0,
    })
}

/// The closings that the mended Rust reached with an answer.
pub fn reached(input: &Input, answer: &Answer) -> Vec<Closing> {
    let mut closings = Vec::new();
    let mut open = Vec::new();
    let mut begun = 0;
    for entries in answer.closed.iter().copied() {
        let opened = answer.entries[begun..entries].iter();
        open.extend(opened.filter(|entry| entry.kind == CONTINUATION));
        begun = entries;
        let entry = open.pop().expect("a block that was opened");
        closings.extend(block(input, entry, entries));
    }
    if matches!(answer.outcome, Outcome::Read(_)) {
        closings.extend(header(input, answer.entries.len()));
    }
    closings
}

/// The closing of a header, where its fields are there.
pub fn header(input: &Input, entries: usize) -> Option<Closing> {
    let chunk = input.chunk()?;
    Some(Closing {
        of: Of::Header,
        from: input.position as usize,
        chunk: chunk.start,
        end: chunk.end,
        entries,
    })
}

/// The closing of the block that a continuation opens, where its fields are there.
pub fn block(input: &Input, entry: &Entry, entries: usize) -> Option<Closing> {
    let lengths = entry.body + usize::from(input.offset_width);
    let end = lengths + usize::from(input.length_width);
    let from = get(input.file.get(entry.body..lengths)?) as usize;
    let length = get(input.file.get(lengths..end)?) as usize;
    Some(Closing {
        of: Of::Block,
        from,
        chunk: from.checked_add(4)?,
        end: from.checked_add(length)?.checked_sub(4)?,
        entries,
    })
}
