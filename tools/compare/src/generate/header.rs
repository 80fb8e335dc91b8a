//! Headers: entries, chunks, continuation blocks, and the file around them.

use super::crowded::FULL;
use super::maker::{Maker, UNDEFINED_RATE};
use super::piece::{Piece, Place};
use crate::address::all_ones;
use crate::input::Input;

/// Which blocks each chunk opens. Chunk 0 is the header's own, chunk n is block n.
type Plan = Vec<Vec<usize>>;

/// Flag bit 2: entries have creation orders.
const ORDERS: u64 = 4;
/// Flag bit 5: the header has times.
const TIMES: u64 = 32;
/// With more chunks than these, each has few messages.
const CROWDED: usize = 8;

impl Maker<'_> {
    /// A file with a header in it. A block lies behind the header, before it, or in a body of it.
    pub fn input(&mut self) -> Input {
        let flags = self.header_flags();
        let plan = self.plan();
        let mut blocks: Vec<Piece> = (1..plan.len())
            .map(|n| self.block(&plan, n, flags))
            .collect();
        let inside = plan.len() == 2 && self.random.rarely(150);
        let held = if inside { blocks.pop() } else { None };
        let first = self.random.rarely(80);
        let before = if first { blocks.pop() } else { None };
        let mut file = Piece::default();
        let gap = self.random.pick(&[0, 0, 0, 1, 5, 8, 40]);
        file.bytes = self.bytes(self.front + gap);
        file.append(&before.unwrap_or_default());
        let position = file.len() as u64;
        let header = self.header(&plan, flags, held.as_ref());
        file.append(&header);
        for block in &blocks {
            let gap = self.random.pick(&[0, 0, 1, 3]);
            file.bytes.extend(self.bytes(gap));
            file.append(block);
        }
        self.data(&mut file);
        self.around(file.resolve(), position)
    }

    /// Bytes for layouts to point to. Of numeric headers most end with the file, so that a value may
    /// leave it.
    fn data(&mut self, file: &mut Piece) {
        let length = match self.numeric {
            true => self.random.pick(&[0, 0, 0, 24]),
            false => self.random.pick(&[0, 8, 24, 32]),
        };
        let mut data = Piece::default();
        data.bytes = self.bytes(length);
        data.name(Place::Data);
        file.append(&data);
    }

    /// Widths, end-of-file address and position for a file.
    fn around(&mut self, mut file: Vec<u8>, position: u64) -> Input {
        if self.fault() {
            let kept = self.random.below(file.len() as u64 + 1) as usize;
            file.truncate(kept);
        }
        let end_of_file = self.end_of_file(file.len() as u64);
        let position = if self.fault() {
            self.strange_position(position)
        } else {
            position
        };
        let bad_width = self.fault() && self.random.rarely(100);
        Input {
            offset_width: if bad_width {
                self.random.pick(&[0, 1, 9, 255])
            } else {
                self.offset_width
            },
            length_width: self.length_width,
            end_of_file,
            position,
            file,
        }
    }

    fn end_of_file(&mut self, length: u64) -> u64 {
        if self.fault() {
            let some = self.random.below(length + 1);
            return self
                .random
                .pick(&[0, 1, length.saturating_sub(1), some, some]);
        }
        if self.random.rarely(180) {
            let ones = all_ones(self.offset_width);
            return self.random.pick(&[
                length + 1,
                length + 100,
                1 << 32,
                u64::MAX - 1,
                u64::MAX,
                ones - 1,
                ones,
                ones.saturating_add(1),
            ]);
        }
        length
    }

    fn strange_position(&mut self, position: u64) -> u64 {
        let moved = position.wrapping_add(self.random.pick(&[1, 4, u64::MAX]));
        self.random
            .pick(&[moved, moved, 1 << 31, 1 << 32, u64::MAX, u64::MAX - 3])
    }

    fn header_flags(&mut self) -> u64 {
        let orders = self.random.pick(&[0, ORDERS]);
        let times = self.random.pick(&[0, 0, TIMES]);
        let free = self.random.pick(&[0, 0, 8, 64, 128, 200]);
        let width = self.random.pick(&[0, 0, 1, 2, 3]);
        width | orders | times | free | self.choose(&[0], &[16])
    }

    fn plan(&mut self) -> Plan {
        match self.random.below(1000) {
            0..620 => vec![vec![]],
            620..860 => self.few_blocks(),
            860..930 => chain(self.random.within(2, 6) as usize, 1),
            930..950 => chain(self.random.pick(&[24, 25, 25, 26, 27]), 1),
            950..980 => chain(self.random.within(2, 5) as usize, 2),
            980..985 => chain(self.random.pick(&[6, 9, 11, 12]), 2),
            985..992 => vec![vec![1], vec![1]],
            _ => vec![vec![1], vec![2], vec![1, 2]],
        }
    }

    fn few_blocks(&mut self) -> Plan {
        let count = self.random.within(1, 3) as usize;
        let mut plan = chain(count, 1);
        if self.random.rarely(300) {
            let again = self.random.within(1, count as u64) as usize;
            plan[0].push(again);
        }
        plan
    }

    fn header(&mut self, plan: &Plan, flags: u64, held: Option<&Piece>) -> Piece {
        let chunk = self.chunk(plan, 0, flags, held);
        let width = 1_u8 << (flags & 3);
        let room = all_ones(width);
        let (width_bits, room) = if chunk.len() as u64 > room {
            (2, u64::MAX)
        } else {
            (flags & 3, room)
        };
        let mut header = Piece::default();
        header
            .bytes
            .extend(if self.fault() { b"OHDS" } else { b"OHDR" });
        let version = self.choose(&[2], &[0, 1, 3, 255]);
        header.put(version, 1);
        header.put(flags & !3 | width_bits, 1);
        if flags & TIMES != 0 {
            header.bytes.extend(self.bytes(16));
        }
        let size = self.chunk_size(chunk.len() as u64).min(room);
        header.put(size, 1 << width_bits);
        header.append(&chunk);
        header.bytes.extend(self.bytes(4));
        header
    }

    /// The chunk size that the header tells: now and then another than the chunk has.
    fn chunk_size(&mut self, length: u64) -> u64 {
        const STRANGE: &[u64] = &[0, 16_777_215, 16_777_216, 16_777_217, 0xffff_ffff, u64::MAX];
        if self.fault() {
            return self.random.pick(STRANGE);
        }
        if self.random.rarely(60) {
            let less = self.random.within(1, 9);
            return length.saturating_sub(less);
        }
        length
    }

    fn block(&mut self, plan: &Plan, number: usize, flags: u64) -> Piece {
        let mut block = Piece::default();
        block
            .bytes
            .extend(if self.fault() { b"OCHX" } else { b"OCHK" });
        let chunk = self.chunk(plan, number, flags, None);
        block.append(&chunk);
        block.bytes.extend(self.bytes(4));
        block.name(Place::Block(number));
        block
    }

    /// Entries, and a gap that is too short for one.
    fn chunk(&mut self, plan: &Plan, number: usize, flags: u64, held: Option<&Piece>) -> Piece {
        let orders = flags & ORDERS != 0;
        let most = match number {
            _ if self.crowd > FULL => 0,
            _ if plan.len() > CROWDED => 1,
            0 => 6,
            _ => 3,
        };
        let mut chunk = Piece::default();
        if let Some(block) = held {
            let entry = self.entry(0, block, orders);
            chunk.append(&entry);
        }
        if self.crowd > 0 {
            let small = self.small(number, plan.len(), orders);
            chunk.append(&small);
        }
        for opened in self.contents(&plan[number], most) {
            let entry = match opened {
                Some(block) => self.continuation(block, orders),
                None => self.message(orders),
            };
            chunk.append(&entry);
        }
        let gap = self.random.pick(&[0, 0, 1, if orders { 5 } else { 3 }]);
        chunk.bytes.extend(self.bytes(gap));
        chunk
    }

    /// What a chunk holds, in its order: messages, and among them the blocks that it opens.
    fn contents(&mut self, opened: &[usize], most: u64) -> Vec<Option<usize>> {
        let mut contents = vec![None; self.random.below(most + 1) as usize];
        for block in opened {
            let at = self.random.below(contents.len() as u64 + 1) as usize;
            contents.insert(at, Some(*block));
        }
        contents
    }

    fn message(&mut self, orders: bool) -> Piece {
        let kind = self.kind();
        let body = self.body(kind);
        self.entry(kind, &body, orders)
    }

    fn continuation(&mut self, block: usize, orders: bool) -> Piece {
        let mut body = Piece::default();
        if self.fault_at(UNDEFINED_RATE) {
            body.put(all_ones(self.offset_width), self.offset_width);
        } else if self.fault() {
            let address = self.any_address();
            body.put(address, self.offset_width);
        } else {
            let shift = self.choose(&[0], &[1, u64::MAX, 4]);
            body.link(Place::Block(block), shift, self.offset_width);
        }
        if self.fault() {
            let length = self.random.pick(&[0, 7, 8, 9, u64::MAX]);
            body.put(length, self.length_width);
        } else {
            let longer = self.random.rarely(50);
            let shift = if longer {
                self.random.pick(&[1, 4, 8, u64::MAX, u64::MAX - 4])
            } else {
                0
            };
            body.link(Place::BlockLength(block), shift, self.length_width);
        }
        self.entry(16, &body, orders)
    }

    /// An entry whose size is that of its body, or now and then another.
    fn entry(&mut self, kind: u64, body: &Piece, orders: bool) -> Piece {
        let fields = matches!(kind, 1..=5 | 8 | 10 | 11 | 12 | 16 | 21);
        let length = body.len() as u64;
        let more = self.random.within(1, 9);
        let smaller = if self.early { 300 } else { 60 };
        let (size, padding) = match self.random.below(1000) {
            part if fields && part < smaller => (self.random.below(length + 1), 0),
            940.. => (length + more, more),
            _ if self.fault() => (self.random.pick(&[length + more, 65_535]), 0),
            _ => (length, 0),
        };
        let mut entry = Piece::default();
        entry.put(kind, 1);
        entry.put(size, 2);
        let flags = self.choose(&[0, 0, 0, 1, 4, 5], &[2, 3, 8, 16, 32, 64, 128, 255]);
        entry.put(flags, 1);
        if orders {
            let order = self.any_number();
            entry.put(order, 2);
        }
        entry.append(body);
        entry.bytes.extend(self.bytes(padding as usize));
        entry
    }
}

/// Blocks in a row, each opened by the one before, so many times.
fn chain(count: usize, times: usize) -> Plan {
    let open = |chunk: usize| {
        if chunk < count {
            vec![chunk + 1; times]
        } else {
            vec![]
        }
    };
    (0..=count).map(open).collect()
}
