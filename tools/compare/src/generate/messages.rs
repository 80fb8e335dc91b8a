//! The bodies of messages.

use super::maker::{Maker, UNDEFINED_RATE};
use super::piece::{Piece, Place};
use crate::address::all_ones;
use crate::scan::{ATTRIBUTE, DATA_SPACE};

/// How often a message of a numeric header is an attribute for that alone, in thousandths.
const NUMERIC: u64 = 700;
const OVERFULL: &[u64] = &[0xffff, 0x1_0000, 0x7fff_ffff, 0xffff_ffff];
const CONTIGUOUS_LIMIT: u64 = 0x1000_0000;

impl Maker<'_> {
    /// The type of a message, continuations left out.
    pub fn kind(&mut self) -> u64 {
        const KINDS: &[u64] = &[1, 1, 2, 3, 3, 4, 5, 8, 8, 10, 11, 12, 12, 12, 12, 21, 0];
        const EARLY: &[u64] = &[3, 3, 12, 12, 12, 12, 1, 0];
        const UNKNOWN: &[u64] = &[6, 7, 9, 13, 14, 15, 17, 18, 19, 20, 22, 23, 255];
        if self.numeric && self.random.rarely(NUMERIC) {
            return ATTRIBUTE.into();
        }
        if self.has_space() {
            return self.random.pick(&[DATA_SPACE, ATTRIBUTE, ATTRIBUTE]).into();
        }
        if self.random.rarely(50) {
            return self.random.pick(UNKNOWN);
        }
        self.pick_early(EARLY, KINDS)
    }

    /// The body of a message of a type.
    pub fn body(&mut self, kind: u64) -> Piece {
        match kind {
            1 => self.data_space(),
            2 => self.link_info(),
            3 => self.data_type(),
            4 => self.fill_old(),
            5 => self.fill(),
            8 => self.layout(),
            10 => self.group_info(),
            11 => self.filter_pipeline(),
            12 => self.attribute(),
            21 => self.attribute_info(),
            _ => self.skipped(),
        }
    }

    fn skipped(&mut self) -> Piece {
        let some = self.random.below(24);
        let count = self.random.pick(&[0, 1, 4, some, some, some]);
        let mut piece = Piece::default();
        piece.bytes = self.bytes(count as usize);
        piece
    }

    /// Version 0 and flags.
    fn version_and_flags(&mut self) -> (Piece, u64) {
        let mut piece = Piece::default();
        let version = self.choose(&[0], &[1, 2, 255]);
        let noise = self.any_number() & 0xff;
        let flags = self.random.pick(&[0, 1, 2, 3, noise]);
        piece.put(version, 1);
        piece.put(flags, 1);
        (piece, flags)
    }

    fn numbers(&mut self, piece: &mut Piece, count: u32, width: u8) {
        for _ in 0..count {
            let number = self.any_number();
            piece.put(number, width);
        }
    }

    /// Two addresses, and by the flags a third.
    fn addresses(&mut self, piece: &mut Piece, flags: u64) {
        for _ in 0..2 + (flags >> 1 & 1) {
            let address = self.any_address();
            piece.put(address, self.offset_width);
        }
    }

    fn link_info(&mut self) -> Piece {
        let (mut piece, flags) = self.version_and_flags();
        self.numbers(&mut piece, (flags & 1) as u32, 8);
        self.addresses(&mut piece, flags);
        piece
    }

    fn group_info(&mut self) -> Piece {
        let (mut piece, flags) = self.version_and_flags();
        let pairs = (flags & 1) + (flags >> 1 & 1);
        self.numbers(&mut piece, 2 * pairs as u32, 2);
        piece
    }

    fn attribute_info(&mut self) -> Piece {
        let (mut piece, flags) = self.version_and_flags();
        self.numbers(&mut piece, (flags & 1) as u32, 2);
        self.addresses(&mut piece, flags);
        piece
    }

    /// A size and that many bytes.
    fn sized(&mut self, piece: &mut Piece, width: u8) {
        let count = self.random.pick(&[0, 1, 2, 4, 8, 13]);
        let told = self.choose(&[count], OVERFULL);
        piece.put(told, width);
        let value = self.bytes(count as usize);
        piece.bytes.extend(value);
    }

    fn fill_old(&mut self) -> Piece {
        let mut piece = Piece::default();
        self.sized(&mut piece, 4);
        piece
    }

    fn fill(&mut self) -> Piece {
        let mut piece = Piece::default();
        let version = self.choose(&[1, 2, 3, 3], &[0, 4, 255]);
        piece.put(version, 1);
        let defined = if version == 3 {
            let flags = self.random.byte();
            piece.put(flags.into(), 1);
            flags & 32 != 0
        } else {
            self.fill_times(&mut piece)
        };
        if defined {
            self.sized(&mut piece, 4);
        }
        piece
    }

    /// The three bytes of versions 1 and 2; whether a value follows.
    fn fill_times(&mut self, piece: &mut Piece) -> bool {
        let allocation = self.choose(&[2, 3], &[0, 1, 4, 130, 255]);
        let write = self.choose(&[2], &[0, 1, 3, 130]);
        let defined = self.choose(&[0, 1], &[2, 3, 128, 129, 255]);
        piece.put(allocation, 1);
        piece.put(write, 1);
        piece.put(defined, 1);
        defined > 0
    }

    fn layout(&mut self) -> Piece {
        let mut piece = Piece::default();
        let version = self.choose(&[3], &[0, 1, 2, 4, 255]);
        let class = self.choose(&[0, 1, 1, 1], &[3, 4, 255]);
        let chunked = self.random.rarely(10);
        piece.put(version, 1);
        piece.put(if chunked { 2 } else { class }, 1);
        match class {
            0 => self.sized(&mut piece, 2),
            _ => self.contiguous(&mut piece),
        }
        piece
    }

    fn contiguous(&mut self, piece: &mut Piece) {
        let width = self.offset_width;
        let largest = (CONTIGUOUS_LIMIT - 1).min(all_ones(self.length_width));
        let some = self.random.below(24);
        let nowhere = self.random.rarely(300);
        if nowhere {
            self.address_without_data(piece);
        } else {
            let from = self.random.below(8);
            piece.link(Place::Data, from, width);
        }
        let sizes = if nowhere {
            [0, some, largest]
        } else {
            [0, 1, some]
        };
        let strange = &[CONTIGUOUS_LIMIT, CONTIGUOUS_LIMIT - 1, u64::MAX, 1 << 16];
        let size = match nowhere && self.fault_at(UNDEFINED_RATE) {
            true => self.random.pick(strange),
            false => self.choose(&sizes, strange),
        };
        piece.put(size, self.length_width);
    }

    /// 0, undefined or one below it, at the end of the file or after it.
    fn address_without_data(&mut self, piece: &mut Piece) {
        let width = self.offset_width;
        match self.random.below(9) {
            0 | 1 => piece.put(0, width),
            2..5 => piece.put(all_ones(width), width),
            5 => piece.put(all_ones(width) - 1, width),
            _ => {
                let shift = self.choose(&[0, 0, 1, 7], &[u64::MAX, u64::MAX - 1]);
                piece.link(Place::End, shift, width);
            }
        }
    }

    fn filter_pipeline(&mut self) -> Piece {
        let mut piece = Piece::default();
        let version = self.choose(&[1, 2], &[0, 3, 255]);
        let some = self.random.below(4);
        let count = match self.random.rarely(20) {
            true => self.random.pick(&[31, 31, 32]),
            false => some,
        };
        let told = self.choose(&[count], &[32, 33, 255, 31]);
        piece.put(version, 1);
        piece.put(told, 1);
        if version == 1 {
            let reserved = self.choose(&[0], &[1, 1 << 40, 1 << 47]);
            piece.put(reserved, 6);
        }
        for _ in 0..count {
            self.filter(&mut piece, version);
        }
        piece
    }

    fn filter(&mut self, piece: &mut Piece, version: u64) {
        self.numbers(piece, 1, 2);
        let name = self
            .random
            .pick(&[0, 1, 5, 7, 8, 9, 16, 65_529, 65_532, 65_535]);
        if version == 1 {
            let told = self.choose(&[name], &[65_528, 32_768]);
            piece.put(told, 2);
        }
        self.numbers(piece, 1, 2);
        let some = self.random.below(5);
        let values = match self.random.rarely(3) {
            true => self.random.pick(&[4096, 4096, 4097]),
            false => some,
        };
        let told = self.choose(&[values], &[4096, 4097, 4098, 65_535]);
        piece.put(told, 2);
        if version == 1 {
            // The length of the name wraps in 16 bits.
            let skipped = self.bytes(if name > 65_528 {
                0
            } else {
                name.next_multiple_of(8) as usize
            });
            piece.bytes.extend(skipped);
        }
        let padding = if version == 1 { values % 2 } else { 0 };
        let value_bytes = self.bytes(4 * (values + padding) as usize);
        piece.bytes.extend(value_bytes);
    }
}
