//! Plain files: a superblock in front of the file of a header that leads to the header.

use super::maker::Maker;
use super::sums::Sums;
use super::{BATCH, damage};
use crate::address::all_ones;
use crate::closing::make_true;
use crate::input::{Input, put};
use crate::plain::SIGNATURE;
use crate::random::Random;

/// How many bytes of a real file are damaged: its superblock, whatever its version.
const REAL_SPAN: usize = 100;
/// Files that are damaged although an undefined address may refuse them, in thousandths.
const UNDEFINED: u64 = 80;
/// So that plain files have other random numbers than the inputs of headers.
const FIRST_BATCH: u64 = 1 << 32;

/// What is wrong with a superblock.
#[derive(Clone, Copy, Debug, PartialEq, Eq)]
enum Fault {
    Nothing,
    Signature,
    Version,
    OffsetWidth,
    LengthWidth,
    Base,
    EndOfFile,
    Root,
}

/// Shows the plain files of a batch. `real` are real files, if any.
pub fn plain_batch(seed: u64, number: u64, real: &[Vec<u8>], show: &mut dyn FnMut(&[u8])) {
    let mut random = Random::new(seed, FIRST_BATCH + number);
    let of_real = number % 8 == 7 && !real.is_empty();
    let of_good = matches!(number % 8, 4..7);
    let mut sums = Sums::new(seed, FIRST_BATCH + number, of_good || of_real);
    let mut show = |file: &[u8]| show(&sums.done(file.to_vec()));
    match number % 8 {
        4..6 => damaged(&mut random, false, &mut show),
        6 => damaged(&mut random, true, &mut show),
        _ if of_real => damaged_real(&mut random, real, &mut show),
        _ => (0..BATCH).for_each(|_| show(&made(&mut random))),
    }
}

/// A file with or without faults, in the superblock and in the header.
fn made(random: &mut Random) -> Vec<u8> {
    const FAULTS: &[Fault] = &[
        Fault::Signature,
        Fault::Version,
        Fault::OffsetWidth,
        Fault::LengthWidth,
        Fault::Base,
        Fault::EndOfFile,
        Fault::Root,
    ];
    let fault = if random.rarely(400) {
        random.pick(FAULTS)
    } else {
        Fault::Nothing
    };
    Maker::new(random).plain(fault)
}

/// A file whose superblock has no fault.
pub fn sound(maker: &mut Maker) -> Vec<u8> {
    maker.plain(Fault::Nothing)
}

/// Good files, changed at every byte and cut at every length of the superblock, or of the file.
fn damaged(random: &mut Random, whole: bool, show: &mut dyn FnMut(&[u8])) {
    let mut left = BATCH;
    while left > 0 {
        let fault = match random.rarely(UNDEFINED) {
            true => random.pick(&[Fault::EndOfFile, Fault::Root]),
            false => Fault::Nothing,
        };
        let mut maker = Maker::good(random);
        let mut file = maker.plain(fault);
        make_true(&mut file);
        let end = if whole { file.len() } else { maker.front + 1 };
        let range = 0..end.min(file.len());
        left -= damage::every_byte(&file, range, left, random, &mut |copy| show(copy));
    }
}

fn damaged_real(random: &mut Random, real: &[Vec<u8>], show: &mut dyn FnMut(&[u8])) {
    let mut left = BATCH;
    while left > 0 {
        let file = &real[random.below(real.len() as u64) as usize];
        let range = 0..file.len().min(REAL_SPAN);
        let most = left.min(200);
        let shown = damage::every_byte(file, range, most, random, &mut |copy| show(copy));
        // An empty file has no byte to damage, and counts as one.
        left -= shown.max(1);
    }
}

/// A superblock, and where in it the two addresses stand that only the file behind it decides.
struct Front {
    bytes: Vec<u8>,
    end_of_file: usize,
    root: usize,
}

impl Front {
    fn set(&mut self, at: usize, address: u64, width: u8) {
        let mut bytes = Vec::new();
        put(&mut bytes, address, width);
        self.bytes[at..at + bytes.len()].copy_from_slice(&bytes);
    }
}

impl Maker<'_> {
    fn plain(&mut self, fault: Fault) -> Vec<u8> {
        let mut front = match self.super_block_version(fault) {
            version @ (0 | 1) => self.early_super_block(version, fault),
            version => self.super_block(version, fault),
        };
        self.front = front.bytes.len();
        let Input {
            mut file,
            end_of_file,
            position,
            ..
        } = self.input();
        let strange = self.no_number();
        let [end_of_file, position] = match fault {
            Fault::EndOfFile => [strange, position],
            Fault::Root => [end_of_file, strange],
            _ => [end_of_file, position],
        };
        front.set(front.end_of_file, end_of_file, self.offset_width);
        front.set(front.root, position, self.offset_width);
        // The file may have been cut inside of it.
        let kept = self.front.min(file.len());
        file[..kept].copy_from_slice(&front.bytes[..kept]);
        file
    }

    /// Undefined, or one below it.
    fn no_number(&mut self) -> u64 {
        let ones = all_ones(self.offset_width);
        self.random.pick(&[ones, ones, ones - 1])
    }

    fn super_block_version(&mut self, fault: Fault) -> u8 {
        match fault {
            Fault::Version => self.random.pick(&[4, 5, 16, 127, 128, 254, 255]),
            _ => self.random.pick(&[2, 2, 2, 2, 2, 3, 3, 0, 1]),
        }
    }

    /// Versions 2 and 3; other versions are given their form.
    fn super_block(&mut self, version: u8, fault: Fault) -> Front {
        let mut bytes = self.signature(fault);
        bytes.push(version);
        bytes.extend(self.widths(fault));
        let any = self.random.byte();
        bytes.push(self.random.pick(&[0, 0, 1, 4, 5, any]));
        self.base(&mut bytes, fault);
        let extension = self.any_address();
        put(&mut bytes, extension, self.offset_width);
        let end_of_file = bytes.len();
        put(&mut bytes, 0, self.offset_width);
        let root = bytes.len();
        put(&mut bytes, 0, self.offset_width);
        bytes.extend(self.bytes(4));
        Front {
            bytes,
            end_of_file,
            root,
        }
    }

    /// Versions 0 and 1, with the symbol table entry of the root group.
    fn early_super_block(&mut self, version: u8, fault: Fault) -> Front {
        let width = self.offset_width;
        let mut bytes = self.signature(fault);
        bytes.extend([version, 0, 0, 0, 0]);
        bytes.extend(self.widths(fault));
        bytes.extend([0, 4, 0, 16, 0]);
        let flags = self.random.pick(&[0, 0, 0, 1]);
        put(&mut bytes, flags, 4);
        if version == 1 {
            // The standard has two reserved bytes, the Rust reads four.
            let reserved = self.random.pick(&[2, 2, 4]);
            put(&mut bytes, 32, 2);
            put(&mut bytes, 0, reserved);
        }
        self.base(&mut bytes, fault);
        let free_space = self.random.pick(&[u64::MAX, u64::MAX, 0]);
        put(&mut bytes, free_space, width);
        let end_of_file = bytes.len();
        put(&mut bytes, 0, width);
        put(&mut bytes, u64::MAX, width);
        put(&mut bytes, 0, width);
        let root = bytes.len();
        put(&mut bytes, 0, width);
        let cache_type = self.random.pick(&[0, 1, 1, 2, 3]);
        put(&mut bytes, cache_type, 4);
        bytes.extend(self.bytes(20));
        Front {
            bytes,
            end_of_file,
            root,
        }
    }

    fn signature(&mut self, fault: Fault) -> Vec<u8> {
        let mut bytes = SIGNATURE.to_vec();
        if fault == Fault::Signature {
            let at = self.random.below(bytes.len() as u64) as usize;
            bytes[at] ^= self.random.within(1, 255) as u8;
        }
        bytes
    }

    fn widths(&mut self, fault: Fault) -> [u8; 2] {
        let bad = self.random.pick(&[0, 1, 9, 10, 16, 255]);
        let mut widths = [self.offset_width, self.length_width];
        match fault {
            Fault::OffsetWidth => widths[0] = bad,
            Fault::LengthWidth => widths[1] = bad,
            _ => {}
        }
        widths
    }

    fn base(&mut self, bytes: &mut Vec<u8>, fault: Fault) {
        let highest = 1 << (8 * u32::from(self.offset_width) - 8);
        let base = match fault {
            Fault::Base => self.random.pick(&[1, 8, 512, highest, u64::MAX]),
            _ => 0,
        };
        put(bytes, base, self.offset_width);
    }
}
