//! The port behind two functions, one for a header by hand and one for a plain file, through the
//! archive that dowringaf.h describes.

use std::mem::offset_of;

use crate::address::Address;
use crate::answer::{Header, Records, Row, SuperBlock, words};
use crate::input::Input;
use crate::number::Number;
use crate::pair::{ALL_ROWS, Figures, Filling, Pair, Sizes, TABLE_TOO_SMALL};

pub const ROW_WORDS: usize = 12;
/// The words of a row that tell whether there is a name and a part, each before its position and
/// length.
pub const NAME: usize = 4;
pub const PART: usize = 7;
/// The first of a row's two words that are of its number.
pub const NUMBER: usize = 10;
/// Rows that are lent first: enough for most headers, and cleared quickly. Where they were too few,
/// all are lent.
const FEW_ROWS: usize = 64;
/// The bytes that the listing is lent.
const LISTING: usize = 98_304;
/// The words of an object; the numbers of its last one, and of the dataspace's elements.
const OBJECT_WORDS: usize = 65;
const DATA_LENGTH: usize = 64;
const ELEMENTS: usize = 19;

/// The words of dowringaf.h.
#[repr(C)]
#[derive(Clone, Debug, Default, PartialEq, Eq)]
pub struct Object {
    pub figures: Figures,
    pub records: Records,
    pub data_position: u64,
    pub data_length: u64,
}

// The words stand where dowringaf.h has them, or the tool is not built.
const _: () = {
    assert!(size_of::<Object>() == 8 * OBJECT_WORDS);
    assert!(offset_of!(Object, data_length) == 8 * DATA_LENGTH);
    assert!(offset_of!(Object, records.data_space.elements.number) == 8 * ELEMENTS);
};

/// The words of dowringaf.h.
#[repr(C)]
struct Block {
    refused: u64,
    size_of_offsets: u64,
    size_of_lengths: u64,
    base_address: u64,
    superblock_extension_address: Address,
    end_of_file_address: u64,
    root_group_object_header_address: u64,
}

unsafe extern "C" {
    fn dowringaf_data_object(
        file: *const u8,
        file_bytes: usize,
        position: u64,
        offset_width: u64,
        length_width: u64,
        end_of_file: u64,
        table: *mut u64,
        table_words: usize,
        object: *mut Object,
    );
    fn dowringaf_super_block(file: *const u8, file_bytes: usize) -> Block;
    fn dowringaf_root_object(
        file: *const u8,
        file_bytes: usize,
        table: *mut u64,
        table_words: usize,
        object: *mut Object,
    );
    fn dowringaf_check_data_object(
        file: *const u8,
        file_bytes: usize,
        position: u64,
        offset_width: u64,
        length_width: u64,
        end_of_file: u64,
    ) -> Figures;
    fn dowringaf_check_root_object(file: *const u8, file_bytes: usize) -> Figures;
    fn dowringaf_list(file: *const u8, file_bytes: usize, out: *mut u8) -> usize;
}

/// What is read: a header from values that are given by hand, or the root of a plain file.
#[derive(Clone, Copy)]
enum Asked<'a> {
    Header(&'a Input),
    Root(&'a [u8]),
}

pub enum Outcome {
    Read(Box<Header>),
    /// With its number.
    Refused(u64),
}

/// What a call wrote: the object, and every word of the table that it was lent.
#[derive(Clone, Debug, PartialEq, Eq)]
pub struct Written {
    pub object: Object,
    pub table: Vec<u64>,
}

/// The port's answers for a plain file.
pub struct PlainAnswer {
    /// The superblock, or the number of its refusal.
    pub super_block: Result<SuperBlock, u64>,
    /// What the root operation wrote.
    pub root: Written,
    /// What it has to write: what the call by hand with the superblock's values wrote, or, where
    /// that is refused, what a refused header leaves.
    pub by_hand: Written,
    /// The root's check, beside the root operation with other tables.
    pub pair: Pair,
    /// What the root's check has to answer: what the check by hand does, or, where the superblock is
    /// refused, its number.
    pub check_by_hand: Figures,
    pub listing: Vec<u8>,
}

/// The port with the table, the object and the listing that it is lent.
pub struct Port {
    table: Vec<u64>,
    object: Object,
    /// What the first filling of an input wrote: the object, and the words of its rows.
    first: (Object, Vec<u64>),
    listing: Vec<u8>,
}

impl Default for Port {
    fn default() -> Port {
        Port::lending(ALL_ROWS)
    }
}

impl Port {
    /// A port that is lent a table of some rows.
    pub fn lending(rows: usize) -> Port {
        Port {
            table: vec![0; rows * ROW_WORDS],
            object: Object::default(),
            first: (Object::default(), Vec::new()),
            listing: Vec::new(),
        }
    }

    /// The port's answer, first with few rows, and where those do not do with all. The table and the
    /// object come as the call before left them, and the table's words after the last row must be
    /// zero.
    pub fn answer(&mut self, input: &Input) -> Outcome {
        let words = self.lend(Asked::Header(input));
        outcome(&self.object, &self.table[..words], &input.file)
    }

    /// The same, and the check of the input beside its fillings with other tables.
    pub fn answers(&mut self, input: &Input, sizes: Sizes) -> (Outcome, Pair) {
        let asked = Asked::Header(input);
        let words = self.lend(asked);
        let outcome = outcome(&self.object, &self.table[..words], &input.file);
        (outcome, self.pair(asked, words, sizes))
    }

    /// The port's answers for a plain file.
    pub fn plain_answer(&mut self, file: &[u8], sizes: Sizes) -> PlainAnswer {
        let super_block = super_block(file);
        let asked = Asked::Root(file);
        let words = self.lend(asked);
        let root = self.written(words);
        let pair = self.pair(asked, words, sizes);
        let (by_hand, check_by_hand) = match &super_block {
            Ok(block) => {
                let input = block.input(file);
                self.call(Asked::Header(&input), words);
                (self.written(words), check(&input))
            }
            Err(number) => (Written::refused(*number, words), Figures::refused(*number)),
        };
        PlainAnswer {
            super_block,
            root,
            by_hand,
            pair,
            check_by_hand,
            listing: self.list(file),
        }
    }

    /// A call with few rows, and where those do not do with all. Answers the words of the last.
    fn lend(&mut self, asked: Asked) -> usize {
        let few = self.table.len().min(FEW_ROWS * ROW_WORDS);
        self.call(asked, few);
        if self.object.figures.refused != TABLE_TOO_SMALL {
            return few;
        }
        self.call(asked, self.table.len());
        self.table.len()
    }

    /// The check, beside the filling that just wrote over so many words, and others.
    fn pair(&mut self, asked: Asked, words: usize, sizes: Sizes) -> Pair {
        let rows = self.object.figures.rows as usize * ROW_WORDS;
        self.first.0.clone_from(&self.object);
        self.first.1.clear();
        self.first.1.extend(&self.table[..rows]);
        let first = self.filling(words / ROW_WORDS);
        let check = match asked {
            Asked::Header(input) => check(input),
            Asked::Root(file) => check_root(file),
        };
        Pair::new(check, first, sizes, &mut |lent| {
            self.call(asked, lent * ROW_WORDS);
            self.filling(lent)
        })
    }

    /// What was just answered with so many rows lent.
    fn filling(&self, lent: usize) -> Filling {
        let rows = self.object.figures.rows as usize * ROW_WORDS;
        let table = &self.table[..lent * ROW_WORDS];
        assert_unused(&self.object, table);
        let (object, first) = &self.first;
        Filling {
            lent,
            figures: self.object.figures,
            alike: self.object.figures.refused != 0
                || (self.object == *object && table[..rows] == first[..]),
        }
    }

    fn written(&self, words: usize) -> Written {
        Written {
            object: self.object.clone(),
            table: self.table[..words].to_vec(),
        }
    }

    /// The call alone, over the whole table: the position after the header and the rows filled, or
    /// nothing where it refuses.
    pub fn data_object(&mut self, input: &Input) -> Option<(u64, u64)> {
        self.call_by_hand(input, self.table.len());
        let figures = self.object.figures;
        (figures.refused == 0).then_some((figures.next, figures.rows))
    }

    /// The root operation alone, as the call above.
    pub fn root_object(&mut self, file: &[u8]) -> Option<(u64, u64)> {
        self.call_root(file, self.table.len());
        let figures = self.object.figures;
        (figures.refused == 0).then_some((figures.next, figures.rows))
    }

    /// A filling over the first words of the table.
    fn call(&mut self, asked: Asked, words: usize) {
        match asked {
            Asked::Header(input) => self.call_by_hand(input, words),
            Asked::Root(file) => self.call_root(file, words),
        }
    }

    fn call_by_hand(&mut self, input: &Input, words: usize) {
        let table = &mut self.table[..words];
        // The pointers come from slices with their lengths, the table and the object are borrowed
        // alone, and the function keeps none of them.
        unsafe {
            dowringaf_data_object(
                input.file.as_ptr(),
                input.file.len(),
                input.position,
                input.offset_width.into(),
                input.length_width.into(),
                input.end_of_file,
                table.as_mut_ptr(),
                table.len(),
                &mut self.object,
            );
        }
    }

    fn call_root(&mut self, file: &[u8], words: usize) {
        let table = &mut self.table[..words];
        // As above.
        unsafe {
            dowringaf_root_object(
                file.as_ptr(),
                file.len(),
                table.as_mut_ptr(),
                table.len(),
                &mut self.object,
            );
        }
    }

    /// The listing of a plain file.
    fn list(&mut self, file: &[u8]) -> Vec<u8> {
        let out = &mut self.listing;
        out.resize(LISTING, 0);
        // As above; the bytes that are lent are as many as the listing may have.
        let length = unsafe { dowringaf_list(file.as_ptr(), file.len(), out.as_mut_ptr()) };
        out[..length].to_vec()
    }
}

/// The check of a header from values that are given by hand.
pub fn check(input: &Input) -> Figures {
    // The pointer comes from a slice with its length, and the function does not keep it.
    unsafe {
        dowringaf_check_data_object(
            input.file.as_ptr(),
            input.file.len(),
            input.position,
            input.offset_width.into(),
            input.length_width.into(),
            input.end_of_file,
        )
    }
}

/// The check of a plain file's root.
fn check_root(file: &[u8]) -> Figures {
    // As above.
    unsafe { dowringaf_check_root_object(file.as_ptr(), file.len()) }
}

fn super_block(file: &[u8]) -> Result<SuperBlock, u64> {
    // The pointer comes from a slice with its length, and the function does not keep it.
    let block = unsafe { dowringaf_super_block(file.as_ptr(), file.len()) };
    let answer = SuperBlock {
        size_of_offsets: block.size_of_offsets,
        size_of_lengths: block.size_of_lengths,
        base_address: block.base_address,
        superblock_extension_address: Some(block.superblock_extension_address),
        end_of_file_address: block.end_of_file_address,
        root_group_object_header_address: block.root_group_object_header_address,
    };
    if block.refused == 0 {
        return Ok(answer);
    }
    let zeros = SuperBlock {
        superblock_extension_address: Some(Address::default()),
        ..SuperBlock::default()
    };
    assert_eq!(answer, zeros, "a refused superblock is zero");
    Err(block.refused)
}

/// The table's words after the last row must be zero. A refused object must have its number, one
/// element for the dataspace that it lacks, and zeros.
fn assert_unused(object: &Object, table: &[u64]) {
    let unused = &table[object.figures.rows as usize * ROW_WORDS..];
    assert!(unused.iter().all(|word| *word == 0), "unused rows are zero");
    if object.figures.refused != 0 {
        let mut refused = [0; OBJECT_WORDS];
        refused[0] = object.figures.refused;
        refused[ELEMENTS] = 1;
        assert_eq!(object.words(), refused, "the words of a refused object");
    }
}

/// What was written, in the one form of both sides.
fn outcome(object: &Object, table: &[u64], file: &[u8]) -> Outcome {
    assert_unused(object, table);
    match object.figures.refused {
        0 => Outcome::Read(Box::new(object.header(file, table))),
        number => Outcome::Refused(number),
    }
}

impl Written {
    /// A refusal: its number, records without a message, and zeros.
    fn refused(number: u64, words: usize) -> Written {
        Written {
            object: Object {
                figures: Figures::refused(number),
                ..Object::default()
            },
            table: vec![0; words],
        }
    }

    pub fn outcome(&self, file: &[u8]) -> Outcome {
        outcome(&self.object, &self.table, file)
    }
}

impl Object {
    pub fn words(&self) -> &[u64] {
        words(self)
    }

    fn header(&self, file: &[u8], table: &[u64]) -> Header {
        let figures = &self.figures;
        let rows = table.chunks_exact(ROW_WORDS).take(figures.rows as usize);
        Header {
            next: figures.next,
            entries: figures.entries,
            rows: rows.map(|words| row(file, words)).collect(),
            records: self.records.clone(),
            data: bytes(file, self.data_position, self.data_length),
        }
    }
}

fn row(file: &[u8], words: &[u64]) -> Row {
    let part = |at: usize| (words[at] != 0).then(|| bytes(file, words[at + 1], words[at + 2]));
    Row {
        kind: words[0],
        flags: words[1],
        size: words[2],
        body: words[3],
        name: part(NAME),
        part: part(PART),
        part_position: Some(words[PART + 1]),
        number: Some(Number {
            case: words[NUMBER],
            bits: words[NUMBER + 1],
        }),
    }
}

fn bytes(file: &[u8], position: u64, length: u64) -> Vec<u8> {
    let position = position as usize;
    file[position..position + length as usize].to_vec()
}
