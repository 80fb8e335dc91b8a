//! The rows of the port, and the elements in its record, beside what the tool itself reads from the
//! bytes of the rows: numbers, where texts stand, and the sizes of the last dataspace. No Rust tells
//! any of them.

use sides::answer::{Elements, Header, Row};
use sides::input::Input;
use sides::number::{self, Number};
use sides::port::Outcome;
use sides::scan::{self, ATTRIBUTE, DATA_SPACE, Space};
use sides::text::{self, Text};

/// What the bytes of the rows say of a header that the port accepts.
pub struct Rows {
    pub numbers: Vec<number::Reading>,
    pub texts: Vec<text::Reading>,
    /// The last dataspace, which wins; absent where the header has none.
    pub space: Option<Space>,
}

impl Rows {
    /// Of an answer; nothing where it refuses.
    pub fn read(input: &Input, answer: &Outcome) -> Option<Rows> {
        let Outcome::Read(header) = answer else {
            return None;
        };
        let rows = header.rows.iter();
        let mut from_last = rows.clone().rev();
        let last = from_last.find(|row| row.kind == u64::from(DATA_SPACE));
        let number = |row: &Row| number::read(input, row.kind, row.body);
        let text = |row: &Row| text::read(input, row.kind, row.body);
        Some(Rows {
            numbers: rows.clone().map(number).collect(),
            texts: rows.map(text).collect(),
            space: last.and_then(|row| scan::data_space(input, row.body as usize)),
        })
    }

    /// What is not as the bytes say in the answer that they are of, the first of it, if anything.
    pub fn fault(&self, answer: &Outcome) -> Option<String> {
        let Outcome::Read(header) = answer else {
            return None;
        };
        let read = self.numbers.iter().zip(&self.texts);
        let rows = header.rows.iter().zip(read).enumerate();
        let mut faults = rows.filter_map(|(at, (row, (number, text)))| {
            number_fault(at, row, number.number()).or_else(|| text_fault(at, row, text.text))
        });
        faults.next().or_else(|| self.elements_fault(header))
    }

    fn elements_fault(&self, header: &Header) -> Option<String> {
        let ours = header.records.data_space.elements;
        let bytes = self.space.map_or(Elements::default(), |space| {
            Elements::exactly(space.elements)
        });
        (ours != bytes).then(|| {
            format!(
                "the elements are {},{}, and by the last dataspace {},{}\n",
                ours.too_many, ours.number, bytes.too_many, bytes.number
            )
        })
    }
}

fn number_fault(at: usize, row: &Row, bytes: Number) -> Option<String> {
    let ours = row.number.filter(|ours| *ours != bytes)?;
    Some(format!(
        "row {at} has the number {},{}, and by its bytes {},{}\n",
        ours.case, ours.bits, bytes.case, bytes.bits
    ))
}

/// What is wrong with the text of an attribute: length and position, or nothing and 0.
fn text_fault(at: usize, row: &Row, bytes: Option<Text>) -> Option<String> {
    let length = row.part.as_ref().map(|part| part.len() as u64);
    let ours = (length, row.part_position?);
    let bytes = match bytes {
        Some(Text { position, length }) => (Some(length), position),
        None => (None, 0),
    };
    let unlike = row.kind == u64::from(ATTRIBUTE) && ours != bytes;
    unlike.then(|| {
        let (ours, bytes) = (text_of(ours), text_of(bytes));
        format!("row {at} has {ours}, and by its bytes {bytes}\n")
    })
}

fn text_of((length, position): (Option<u64>, u64)) -> String {
    match length {
        Some(length) => format!("a text of length {length} at {position}"),
        None => format!("no text at {position}"),
    }
}
