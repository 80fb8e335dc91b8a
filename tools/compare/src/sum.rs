//! The sum that closes a superblock, a header or a block: Jenkins' lookup3 (`hashlittle`) with initial
//! value 0, written anew from the published algorithm.

/// What a closing stands at the end of.
#[derive(Clone, Copy, Debug, PartialEq, Eq, PartialOrd, Ord)]
pub enum Of {
    SuperBlock,
    Header,
    Block,
}

/// Bytes that are summed, and the value that is stored right behind them.
#[derive(Clone, Copy, Debug, PartialEq, Eq)]
pub struct Closing {
    pub of: Of,
    pub from: usize,
    /// Where the entries begin; in a superblock, what stands behind the signature.
    pub chunk: usize,
    /// Where the stored value stands.
    pub end: usize,
    /// The entries that are begun before it is tested.
    pub entries: usize,
}

impl Closing {
    /// The sum of its bytes, or nothing where they leave the file.
    pub fn sum(&self, file: &[u8]) -> Option<u32> {
        file.get(self.from..self.end).map(lookup3)
    }

    pub fn stored(&self, file: &[u8]) -> Option<u32> {
        let stored = file.get(self.end..self.end + 4)?;
        Some(u32::from_le_bytes(stored.try_into().ok()?))
    }

    /// Whether its bytes and its value lie in the file. Where the Rust is changed on purpose it may
    /// come to others.
    pub fn is_inside(&self, file: &[u8]) -> bool {
        self.from < self.end && self.stored(file).is_some()
    }

    /// Whether the stored value is the sum.
    pub fn holds(&self, file: &[u8]) -> bool {
        self.stored(file).is_some() && self.stored(file) == self.sum(file)
    }

    /// Stores a value. Whether it is another than before.
    pub fn store(&self, file: &mut [u8], value: u32) -> bool {
        let changed = self.stored(file).is_some_and(|stored| stored != value);
        if changed {
            file[self.end..self.end + 4].copy_from_slice(&value.to_le_bytes());
        }
        changed
    }

    /// What it says, for the eye.
    pub fn text(&self, file: &[u8]) -> String {
        let number =
            |value: Option<u32>| value.map_or("-".into(), |value| format!("{value:#010x}"));
        format!(
            "the {} sum of bytes {} to {}: stored {}, {}\n",
            self.of.text(),
            self.from,
            self.end,
            number(self.stored(file)),
            match self.holds(file) {
                true => "true".into(),
                false => format!("FALSE, it is {}", number(self.sum(file))),
            }
        )
    }
}

impl Of {
    fn text(self) -> &'static str {
        match self {
            Of::SuperBlock => "superblock's",
            Of::Header => "header's",
            Of::Block => "block's",
        }
    }
}

/// Sums that programs get wrong: inputs are given them, and none may pass for the true one.
#[derive(Clone, Copy, Debug, PartialEq, Eq)]
pub enum Wrong {
    /// Begun behind the signature.
    AfterSignature,
    ChunkAlone,
    /// With the place of the stored value, as zeros.
    WithStored,
    /// Without the last byte.
    OneShort,
    /// Stored with the highest byte first.
    Reversed,
    /// Not written.
    Zero,
}

impl Wrong {
    pub const ALL: &[Wrong] = &[
        Wrong::AfterSignature,
        Wrong::ChunkAlone,
        Wrong::WithStored,
        Wrong::OneShort,
        Wrong::Reversed,
        Wrong::Zero,
    ];

    /// What is stored, or nothing where the bytes leave the file.
    pub fn sum(self, file: &[u8], closing: &Closing) -> Option<u32> {
        let signature = match closing.of {
            Of::SuperBlock => closing.chunk,
            _ => closing.from + 4,
        };
        let sum_of = |from: usize, end: usize| file.get(from..end).map(lookup3);
        match self {
            Wrong::AfterSignature => sum_of(signature, closing.end),
            Wrong::ChunkAlone => sum_of(closing.chunk, closing.end),
            Wrong::WithStored => {
                let bytes = file.get(closing.from..closing.end)?;
                Some(lookup3(&[bytes, &[0; 4]].concat()))
            }
            Wrong::OneShort => sum_of(closing.from, closing.end - 1),
            Wrong::Reversed => closing.sum(file).map(u32::swap_bytes),
            Wrong::Zero => Some(0),
        }
    }

    pub fn is_stored(self, file: &[u8], closing: &Closing) -> bool {
        closing.stored(file) == self.sum(file, closing)
    }
}

/// The bytes of a step: three words.
pub const STEP: usize = 12;

/// Adds the bytes in steps of three words; the last 1 to 12 are filled with zeros.
pub const fn lookup3(bytes: &[u8]) -> u32 {
    let start = 0xdead_beef_u32.wrapping_add(bytes.len() as u32);
    let mut state = [start; 3];
    if bytes.is_empty() {
        return start;
    }
    let mut at = 0;
    while bytes.len() - at > STEP {
        state = mix(add(state, bytes, at));
        at += STEP;
    }
    finish(add(state, bytes, at))
}

const fn add([a, b, c]: [u32; 3], bytes: &[u8], at: usize) -> [u32; 3] {
    [
        a.wrapping_add(word(bytes, at)),
        b.wrapping_add(word(bytes, at + 4)),
        c.wrapping_add(word(bytes, at + 8)),
    ]
}

/// Four bytes, the lowest first; zeros behind the last.
const fn word(bytes: &[u8], at: usize) -> u32 {
    let mut four = [0; 4];
    let mut i = 0;
    while i < 4 && at + i < bytes.len() {
        four[i] = bytes[at + i];
        i += 1;
    }
    u32::from_le_bytes(four)
}

const fn mix(mut state: [u32; 3]) -> [u32; 3] {
    const TURNS: [u32; 6] = [4, 6, 8, 16, 19, 4];
    let mut i = 0;
    while i < TURNS.len() {
        let [a, b, c] = state;
        let a = a.wrapping_sub(c) ^ c.rotate_left(TURNS[i]);
        // The next line of the mix has the words moved on by one.
        state = [b, c.wrapping_add(b), a];
        i += 1;
    }
    state
}

/// The third word at the end.
const fn finish(mut state: [u32; 3]) -> u32 {
    const TURNS: [u32; 7] = [14, 11, 25, 16, 4, 14, 24];
    let mut i = 0;
    while i < TURNS.len() {
        let [a, b, c] = state;
        let c = (c ^ b).wrapping_sub(b.rotate_left(TURNS[i]));
        // Here too; so the seventh line leaves the third word in the middle.
        state = [b, c, a];
        i += 1;
    }
    state[1]
}

// The published vectors, and headers without and with a gap: the tool is not built where one fails.
const _: () = {
    assert!(lookup3(b"") == 0xdead_beef);
    assert!(lookup3(b"Four score and seven years ago") == 0x1777_0551);
    assert!(lookup3(b"OHDR\x02\0\0") == 0xac04_17ef);
    assert!(lookup3(b"OHDR\x02\0\x03abc") == 0xfb2f_a889);
};
