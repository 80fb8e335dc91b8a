//! What is common to the making of all messages: widths, random choices and faults.

use crate::address::all_ones;
use crate::random::Random;

pub struct Maker<'r> {
    pub random: &'r mut Random,
    pub offset_width: u8,
    pub length_width: u8,
    /// The bytes that a superblock takes in front of the file.
    pub front: usize,
    /// Whether version 1 compounds and attributes are made more often than others, and sizes of
    /// bodies that are too small, so that it shows where a body ends.
    pub early: bool,
    /// Whether most messages are attributes of one number, or almost.
    pub numeric: bool,
    /// Whether most messages have a dataspace; and how often one is null, in thousandths.
    pub spaces: Option<u64>,
    /// The smallest messages that a header has beside the others.
    pub crowd: u64,
    /// Faults that may still be made, and how often, in thousandths of the chances.
    faults: u32,
    rate: u64,
}

/// How often a fault is made of an undefined address that refuses a header, in thousandths.
pub const UNDEFINED_RATE: u64 = 150;

impl<'r> Maker<'r> {
    /// A maker of headers: most without a fault, some with one, a few with many.
    pub fn new(random: &'r mut Random) -> Maker<'r> {
        let (faults, rate) = match random.below(100) {
            0..60 => (0, 0),
            60..90 => (1, 30),
            _ => (1000, 40),
        };
        Maker::with_faults(random, faults, rate)
    }

    /// A maker of headers without faults.
    pub fn good(random: &'r mut Random) -> Maker<'r> {
        Maker::with_faults(random, 0, 0)
    }

    /// A maker of headers without faults, but for one of an undefined address here and there.
    pub fn with_undefined(random: &'r mut Random) -> Maker<'r> {
        Maker::with_faults(random, 1, 0)
    }

    pub fn with_faults(random: &'r mut Random, faults: u32, rate: u64) -> Maker<'r> {
        let offset_width = random.within(2, 8) as u8;
        let length_width = random.within(2, 8) as u8;
        Maker {
            random,
            offset_width,
            length_width,
            front: 0,
            early: false,
            numeric: false,
            spaces: None,
            crowd: 0,
            faults,
            rate,
        }
    }

    /// The same maker, of early forms or not.
    pub fn early(self, early: bool) -> Maker<'r> {
        Maker { early, ..self }
    }

    /// The same maker, of numeric attributes.
    pub fn numeric(self) -> Maker<'r> {
        Maker {
            numeric: true,
            ..self
        }
    }

    /// The same maker, of dataspaces. Half of the headers have none that is null on purpose, and so
    /// stay in the comparison.
    pub fn of_spaces(self) -> Maker<'r> {
        let rate = self.random.pick(&[0, 0, 200, 600]);
        Maker {
            spaces: Some(rate),
            ..self
        }
    }

    /// A pick of the choices for early forms, or of the others.
    pub fn pick_early<T: Copy>(&mut self, early: &[T], others: &[T]) -> T {
        self.random.pick(if self.early { early } else { others })
    }

    /// Whether to do something wrong here.
    pub fn fault(&mut self) -> bool {
        self.fault_at(self.rate)
    }

    /// The same, so many times in a thousand.
    pub fn fault_at(&mut self, rate: u64) -> bool {
        let fault = self.faults > 0 && self.random.rarely(rate);
        self.faults -= u32::from(fault);
        fault
    }

    /// A good choice, or, as a fault, a bad one.
    pub fn choose(&mut self, good: &[u64], bad: &[u64]) -> u64 {
        let bad_one = self.fault();
        self.random.pick(if bad_one { bad } else { good })
    }

    /// A number of any size, the boundaries of bytes more often.
    pub fn any_number(&mut self) -> u64 {
        let number = self.random.number() >> self.random.below(64);
        self.random.pick(&[0, 1, u64::MAX, number, number, number])
    }

    /// An address: often undefined, or a number that other ports may take for it.
    pub fn any_address(&mut self) -> u64 {
        let ones = all_ones(self.offset_width);
        let by_lengths = all_ones(self.length_width);
        let some = self.any_number();
        self.random
            .pick(&[ones, ones, ones - 1, by_lengths, some, some, some, some])
    }

    /// Bytes that are zero now and then.
    pub fn bytes(&mut self, count: usize) -> Vec<u8> {
        let mut byte = || match self.random.below(4) {
            0 => 0,
            _ => self.random.byte(),
        };
        (0..count).map(|_| byte()).collect()
    }

    pub fn letters(&mut self, count: usize) -> Vec<u8> {
        let mut letter = || b'a' + self.random.below(26) as u8;
        (0..count).map(|_| letter()).collect()
    }

    /// A text of letters, now and then with zeros at its end or bytes that are no UTF-8.
    pub fn text(&mut self, count: usize) -> Vec<u8> {
        let mut text = self.letters(count);
        if count > 0 && self.random.rarely(250) {
            let zeros = self.random.within(1, 3).min(count as u64) as usize;
            text[count - zeros..].fill(0);
        }
        if count > 0 && self.random.rarely(120) {
            self.strange(&mut text);
        }
        text
    }

    /// Puts a few bytes of other scripts, cut sequences and zeros into a text.
    fn strange(&mut self, text: &mut [u8]) {
        const PIECES: &[&[u8]] = &[
            b"\xc3\xa9",
            b"\xe2\x82\xac",
            b"\xf0\x9f\x8e\xa7",
            b"\xff",
            b"\xe2\x82",
            b"\xc3",
            b"\0",
            b"\n",
            b",",
        ];
        let piece = self.random.pick(PIECES);
        let at = self.random.below(text.len() as u64) as usize;
        for (byte, new) in text[at..].iter_mut().zip(piece) {
            *byte = *new;
        }
    }
}
