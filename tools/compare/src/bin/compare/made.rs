//! Attributes written out by hand: a line for each, with its type, its space and its value in
//! hexadecimal digits, and what has to be read of it.
//!
//! SINGLE and DOUBLE stand for the size and the properties of these, ONE for a space without sizes,
//! NULL for one that is null.

use sides::input::{Input, padding};

/// The width of lengths in the spaces.
const LENGTH_WIDTH: u8 = 3;
const NAME: &[u8] = b"Rate\0";

/// An attribute, where its value stands, and what is expected.
pub struct Made {
    pub input: Input,
    pub value: usize,
    pub expected: String,
}

/// Prints how many of the lines are read, in attributes of both versions, and answers whether all are:
/// `wrong` says what is read in place of what is expected.
pub fn are_read_as(name: &str, lines: &str, wrong: fn(&Made) -> Option<String>) -> bool {
    let both = |line| [1, 3].map(|version| (line, version));
    let made: Vec<(&str, u8)> = lines.lines().flat_map(both).collect();
    let mut unlike = 0;
    for (line, version) in &made {
        if let Some(read) = wrong(&attribute(line, *version)) {
            println!("{line}: READ AS {read} IN VERSION {version}");
            unlike += 1;
        }
    }
    println!(
        "{name} made by hand {}, read otherwise {unlike}",
        made.len()
    );
    unlike == 0
}

/// The attribute of a line, of a version.
fn attribute(line: &str, version: u8) -> Made {
    let line = line
        .replace("SINGLE", "04000000 00002000170800177f000000")
        .replace("DOUBLE", "08000000 00004000340b0034ff030000")
        .replace("ONE", "02000000")
        .replace("NULL", "02000002");
    let fields: Vec<&str> = line.split('|').collect();
    let mut file = vec![version, 0, NAME.len() as u8, 0, 0, 0, 0, 0];
    file.extend(if version == 3 { &[0][..] } else { &[] });
    for field in [NAME, &bytes(fields[0]), &bytes(fields[1])] {
        file.extend(field);
        let padding = if version == 1 {
            padding(field.len())
        } else {
            0
        };
        file.resize(file.len() + padding, 7);
    }
    let value = file.len();
    file.extend(bytes(fields[2]));
    Made {
        input: Input {
            offset_width: 8,
            length_width: LENGTH_WIDTH,
            end_of_file: file.len() as u64,
            position: 0,
            file,
        },
        value,
        expected: fields[3].into(),
    }
}

/// The bytes of hexadecimal digits.
fn bytes(digits: &str) -> Vec<u8> {
    let digits: Vec<char> = digits.chars().filter(|digit| *digit != ' ').collect();
    let digit = |digit: &char| digit.to_digit(16).expect("a digit") as u8;
    let pairs = digits.chunks_exact(2);
    pairs
        .map(|pair| digit(&pair[0]) << 4 | digit(&pair[1]))
        .collect()
}
