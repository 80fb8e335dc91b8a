//! What the listing of a plain file has to be: the tool's own text of what the root operation wrote
//! with enough rows.

use std::io::Write;

use crate::pair::{LISTED_ROWS, TABLE_TOO_SMALL};
use crate::port::{NAME, PART, ROW_WORDS, Written};

/// The bytes of the largest file that is listed.
const LARGEST_FILE: usize = 65_536;
const FILE_SIZE: u64 = 2;

/// The listing of a file whose root was written with enough rows. Whatever is wrong with it has its
/// number, and only a header that is right is refused for its rows.
pub fn expected(file: &[u8], root: &Written) -> Vec<u8> {
    let figures = &root.object.figures;
    if file.len() > LARGEST_FILE {
        return refused(FILE_SIZE);
    }
    if figures.refused != 0 {
        return refused(figures.refused);
    }
    if figures.rows > LISTED_ROWS as u64 {
        return refused(TABLE_TOO_SMALL);
    }
    lines(root)
}

/// The listing of all rows that were written, and the last line.
pub fn lines(root: &Written) -> Vec<u8> {
    let figures = &root.object.figures;
    let mut out = Vec::new();
    let rows = root.table.chunks_exact(ROW_WORDS);
    for (number, row) in rows.take(figures.rows as usize).enumerate() {
        line(&mut out, number, row);
    }
    writeln!(out, "end,{},{}", figures.next, figures.entries).expect("memory");
    out
}

/// The listing of what is refused with a number.
pub fn refused(number: u64) -> Vec<u8> {
    format!("refused,{number}\n").into_bytes()
}

/// The number of a listing that is a refusal, and 0 of others.
pub fn number(listing: &[u8]) -> u64 {
    let digits = listing.strip_prefix(b"refused,").unwrap_or_default();
    let digits = digits.iter().take_while(|byte| byte.is_ascii_digit());
    digits.fold(0, |number, digit| 10 * number + u64::from(digit - b'0'))
}

fn line(out: &mut Vec<u8>, number: usize, row: &[u64]) {
    let part = |at: usize| match row[at] {
        0 => "-,-".into(),
        _ => format!("{},{}", row[at + 1], row[at + 2]),
    };
    let [kind, flags, size, body] = [row[0], row[1], row[2], row[3]];
    let (name, part) = (part(NAME), part(PART));
    writeln!(out, "{number},{kind},{flags},{size},{body},{name},{part}").expect("memory");
}
