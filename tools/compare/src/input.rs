//! What both sides are given: widths, end-of-file address, header position and file.

use std::ops::Range;

use crate::address::all_ones;

/// Two widths, end-of-file address, header position.
pub const LEAD: usize = 18;

#[derive(Clone, Debug, PartialEq, Eq, Hash)]
pub struct Input {
    pub offset_width: u8,
    pub length_width: u8,
    pub end_of_file: u64,
    pub position: u64,
    pub file: Vec<u8>,
}

/// An end-of-file address beside all ones of the width of offsets.
#[derive(Clone, Copy, Debug, PartialEq, Eq, PartialOrd, Ord)]
pub enum End {
    OneBelow,
    AllOnes,
    OneAbove,
    Above,
}

impl Input {
    /// The lead bytes, then the file.
    pub fn to_bytes(&self) -> Vec<u8> {
        let mut bytes = Vec::with_capacity(LEAD + self.file.len());
        bytes.push(self.offset_width);
        bytes.push(self.length_width);
        bytes.extend(self.end_of_file.to_le_bytes());
        bytes.extend(self.position.to_le_bytes());
        bytes.extend(&self.file);
        bytes
    }

    pub fn from_bytes(bytes: &[u8]) -> Option<Input> {
        let (lead, file) = bytes.split_at_checked(LEAD)?;
        Some(Input {
            offset_width: lead[0],
            length_width: lead[1],
            end_of_file: u64::from_le_bytes(lead[2..10].try_into().ok()?),
            position: u64::from_le_bytes(lead[10..18].try_into().ok()?),
            file: file.to_vec(),
        })
    }

    /// Whether both widths are allowed; no Rust is asked where they are not.
    pub fn has_widths(&self) -> bool {
        let widths = 2..=8;
        widths.contains(&self.offset_width) && widths.contains(&self.length_width)
    }

    /// Whether end-of-file is above all ones of the width of offsets, so that to the Rust an undefined
    /// address may lie in the file.
    pub fn is_above_addresses(&self) -> bool {
        matches!(self.end(), Some(End::OneAbove | End::Above))
    }

    /// Where end-of-file lies beside all ones of the width of offsets; nothing where it is smaller.
    pub fn end(&self) -> Option<End> {
        if !self.has_widths() {
            return None;
        }
        let ones = all_ones(self.offset_width);
        match self.end_of_file {
            end if end > ones && end - ones == 1 => Some(End::OneAbove),
            end if end > ones => Some(End::Above),
            end if end == ones => Some(End::AllOnes),
            end if end == ones - 1 => Some(End::OneBelow),
            _ => None,
        }
    }

    /// Where the header's chunk size stands, as its flags have it.
    pub fn chunk_size(&self) -> Option<Range<usize>> {
        const TIMES: u8 = 32;
        let at = usize::try_from(self.position).ok()?.checked_add(5)?;
        let flags = self.file.get(at)?;
        let start = at + if flags & TIMES == 0 { 1 } else { 17 };
        Some(start..start + (1 << (flags & 3)))
    }

    /// The header's chunk, as its size has it.
    pub fn chunk(&self) -> Option<Range<usize>> {
        let field = self.chunk_size()?;
        let size = get(self.file.get(field.clone())?) as usize;
        Some(field.end..field.end.checked_add(size)?)
    }

    /// The lead bytes and the file as hexadecimal digits.
    pub fn hex(&self) -> String {
        let bytes = self.to_bytes();
        let (lead, file) = bytes.split_at(LEAD);
        format!(
            "{} {} {}, file {}",
            digits(&lead[..2]),
            digits(&lead[2..10]),
            digits(&lead[10..]),
            digits(file)
        )
    }
}

/// Bytes as hexadecimal digits.
pub fn digits(bytes: &[u8]) -> String {
    bytes.iter().map(|byte| format!("{byte:02x}")).collect()
}

/// A number of `width` bytes, the lowest first; higher bytes are dropped.
pub fn put(bytes: &mut Vec<u8>, value: u64, width: u8) {
    let all = value.to_le_bytes();
    bytes.extend(&all[..usize::from(width)]);
}

/// The number that some bytes write, at most eight of them, the lowest first.
pub fn get(bytes: &[u8]) -> u64 {
    bytes
        .iter()
        .rev()
        .fold(0, |number, byte| number << 8 | u64::from(*byte))
}

/// The bytes that pad so many to a multiple of 8.
pub fn padding(bytes: usize) -> usize {
    bytes.next_multiple_of(8) - bytes
}
