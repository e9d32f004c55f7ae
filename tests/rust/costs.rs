//! N12's bound beside the pairs of every accepted write of at least one byte on the house's boards, and the sharp one
//! beside the stores of those that do not begin past the size. Some writes are made here so that many of them cost as
//! much as any.

use crate::calls::Calls;
use std::fmt::{Display, Formatter};
use support::boards::{room, FILES};
use support::kinds::Kinds;
use support::layout::HOUSE;
use support::performed::done;
use support::random::Random;

/// Bytes of a write and N12's figure for them, worked out by hand.
const FIGURES: [(u64, u64); 9] = [
    (1, 96),         // t = 1, u = 1, v = 1
    (2, 120),        // t = 2, u = 2, v = 2
    (64, 120),       // t = 2, u = 2, v = 2
    (66, 128),       // t = 3, u = 2, v = 2
    (512, 176),      // t = 9, u = 2, v = 2
    (514, 192),      // t = 10, u = 3, v = 2
    (4_096, 680),    // t = 65, u = 9, v = 2
    (4_098, 704),    // t = 66, u = 10, v = 3
    (32_768, 4_768), // t = 513, u = 65, v = 9
];

/// The sharp figure is so much less.
const SHARPER: u64 = 30;

/// A plan has no more.
const BARRIERS: u64 = 3;

/// So many pairs fewer than N12's bound has the dearest write past the end.
const SPARE_PAST: u64 = 3;

/// First and last count of bytes: t, u and v are 1, then 2; then t is above 2, then u as well, then v as well.
const BANDS: [(&str, u64, u64); 5] = [
    ("1 byte", 1, 1),
    ("2 to 65 bytes", 2, 65),
    ("66 to 513 bytes", 66, 513),
    ("514 to 4,097 bytes", 514, 4_097),
    ("4,098 bytes or more", 4_098, 32_768),
];

fn figures_are_right() {
    for (bytes, figure) in FIGURES {
        let (most, sharp) = (document::most_stores(bytes), document::sharp_most_stores(bytes));
        assert!(most == figure, "{bytes} bytes: {most} stores at most by docs/src, {figure} by hand");
        assert!(sharp == figure - SHARPER, "{bytes} bytes: {sharp} stores by docs/src, {figure} - {SHARPER} by hand");
    }
}

// ---- Writes that cost much

/// A write to a file of one data block, whose size is far above the span, or which begins past it. The tree grows from
/// height 0; then, as the end lies above the size and the offset in a hole or past the size, all paths to written bytes
/// and the inode leaf are made fresh.
struct Steep {
    offset: u64,
    count: u64,
    size: u64,
}

/// At an end of a band, or any count of bytes in it; of the last band only those that take little time.
fn count(random: &mut Random) -> u64 {
    let (_, first, last) = random.pick(&BANDS);
    let last = last.min(8_192);
    match random.below(4) {
        0 | 1 => first,
        2 => last,
        _ => first + random.below(last - first + 1),
    }
}

impl Steep {
    /// The offset is that of the last byte before a multiple of a span, or a little less. It is no multiple of 64, so
    /// that it lies in a hole even where it is the size.
    fn some(random: &mut Random) -> Steep {
        let count = count(random);
        let span = random.pick(&[64, 512, 4_096, 4_096]);
        let edges = (HOUSE.greatest() + 1 - count - 4_096) / span + 1;
        let edge = 4_096 + span * random.below(edges);
        let offset = edge - 1 - random.below(2) * random.below(63);
        let size = if random.one_in(4) { 1 + random.below(HOUSE.block_bytes()) } else { offset + random.below(count) };
        Steep { offset, count, size }
    }

    fn past_end(&self) -> bool {
        self.size < self.offset
    }

    fn end(&self) -> u64 {
        self.offset + self.count
    }

    /// One for each level that the tree grows by, those on the paths to written bytes and, past the end, on that to the
    /// last byte, and the inode leaf.
    fn fresh_blocks(&self) -> u64 {
        let height = HOUSE.least_height(self.end());
        let with_written = |span: &u64| (self.end() - 1) / span - self.offset / span + 1;
        let paths: u64 = HOUSE.spans[..=height].iter().map(with_written).sum();
        let beside = |span: &&u64| self.past_end() && self.offset >= **span;
        let to_last = HOUSE.spans[..height].iter().filter(beside).count() as u64;
        height as u64 + paths + to_last + 1
    }

    /// Eight to each fresh block, the root word that ends the growth, and the inode pointer.
    fn stores(&self) -> u64 {
        8 * self.fresh_blocks() + 2
    }

    /// A board with room for it: just enough, or more.
    fn blocks(&self, random: &mut Random) -> u64 {
        let (boot, inodes, data, trailer) = (1, 9, 1, 1);
        boot + inodes + data + self.fresh_blocks() + trailer + random.below(2) * random.below(64)
    }
}

/// The board after a call that must be accepted.
fn after(calls: &mut Calls, board: &[u64], call: impl Fn(&mut Calls, usize) -> (i64, Vec<u64>)) -> Vec<u64> {
    let (pairs, plan) = call(calls, room(board));
    calls.perform(board, &plan, done(pairs)).1
}

impl Costs {
    /// One such write, beside docs/src as any other.
    pub fn round(&mut self, random: &mut Random, calls: &mut Calls) {
        figures_are_right();
        let steep = Steep::some(random);
        let (file, blocks) = (random.below(FILES), steep.blocks(random));
        let few = if steep.past_end() { steep.size } else { 1 + random.below(HOUSE.block_bytes()) };
        let (few, bytes) = (random.bytes(few as usize), random.bytes(steep.count as usize));
        let bare = HOUSE.bare(random, blocks);
        let mut board = after(calls, &bare, |calls, room| calls.write(&bare, file, 0, &few, room));
        if !steep.past_end() {
            board = after(calls, &board, |calls, room| calls.set_length(&board, file, steep.size, room));
        }
        let (pairs, plan) = calls.write(&board, file, steep.offset, &bytes, room(&board));
        let write = Held::of(&board, file, (steep.offset, bytes.len()), (done(pairs), &plan));
        assert!(write.stores == steep.stores(), "{write}, not {}", steep.stores());
        self.hold(write);
    }
}

// ---- Stores and bounds

/// What is kept of an accepted write.
struct Held {
    offset: u64,
    count: u64,
    size: u64,
    stores: u64,
    pairs: u64,
}

impl Held {
    /// By the board that was lent, where the write begins and how many bytes it has, its pairs and the slice that they
    /// are in.
    fn of(board: &[u64], file: u64, (offset, count): (u64, usize), (pairs, plan): (u64, &[u64])) -> Held {
        let (_, size) = HOUSE.root_and_size(board, file);
        Held { offset, count: count as u64, size, stores: document::store_count(plan, pairs), pairs }
    }
}

impl Display for Held {
    fn fmt(&self, out: &mut Formatter) -> std::fmt::Result {
        let Held { offset, count, size, stores, pairs } = self;
        write!(out, "write of {count} bytes at {offset}, size {size}: {stores} stores, {pairs} pairs")
    }
}

#[derive(Default)]
pub struct Costs {
    /// Writes past the end, and the least number of pairs by which one missed the bound.
    past: u64,
    least_past: Option<u64>,
    /// The others.
    held: u64,
    /// Those that met the sharp bound, in all and by their bytes.
    met: u64,
    met_by: Kinds,
    /// The least number of stores by which the sharp bound was missed, and the first write that missed it by no more.
    least: Option<(u64, Held)>,
}

impl Costs {
    /// An accepted write of any kind. One of no bytes is left out.
    pub fn write(&mut self, board: &[u64], file: u64, stretch: (u64, usize), plan: (u64, &[u64])) {
        let write = Held::of(board, file, stretch, plan);
        if write.count > 0 {
            self.hold(write);
        }
    }

    fn hold(&mut self, write: Held) {
        let most = document::most_stores(write.count);
        assert!(write.pairs <= most, "{write}, the bound is {most}");
        assert!(write.pairs <= write.stores + BARRIERS, "{write}: more than {BARRIERS} barriers");
        if write.offset <= write.size {
            self.hold_sharp(write);
            return;
        }
        let spare = most - write.pairs;
        self.past += 1;
        self.least_past = Some(self.least_past.map_or(spare, |least| least.min(spare)));
    }

    fn hold_sharp(&mut self, write: Held) {
        let sharp = document::sharp_most_stores(write.count);
        assert!(write.stores <= sharp, "{write}, the sharp bound is {sharp}");
        let slack = sharp - write.stores;
        self.held += 1;
        if slack == 0 {
            self.met += 1;
            self.met_by.count(BANDS.map(|(name, first, last)| (name, (first..=last).contains(&write.count))));
        }
        if self.least.as_ref().is_none_or(|(least, _)| slack < *least) {
            self.least = Some((slack, write));
        }
    }

    pub fn report(&self) {
        let (held, met) = (self.held, self.met);
        println!("stores of writes not past the end: {held} held against the sharp bound, which {met} met exactly");
        if let Some((slack, write)) = &self.least {
            println!("stores of writes not past the end: least slack {slack}, first in the {write}");
        }
        self.met_by.report("writes that met the sharp bound exactly, of");
        if let Some(spare) = self.least_past {
            println!("pairs of writes past the end: {} held against the bound, least slack {spare}", self.past);
        }
    }

    /// A bound that is higher than it need be is never met.
    pub fn all_met(&self) {
        assert!(self.met > 0, "no write met the sharp bound exactly");
        self.met_by.all_met("write that met the sharp bound exactly, of");
        assert!(self.least_past == Some(SPARE_PAST), "least slack of writes past the end: {:?}", self.least_past);
    }
}
