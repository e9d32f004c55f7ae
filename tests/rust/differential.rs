//! The built library held against document 01 in plain Rust (docs/src): every answer, and every word and byte of what a
//! call is lent, on random boards, damaged ones among them, and with arguments at and around every bound. On the house's
//! boards, also N12's bounds on the stores of a write; or with the word `published` on N11's boards.
//!
//!     differential [published] SEED CALLS [ROUND]    rounds of the seed from ROUND on, until CALLS calls were compared

mod calls;
mod costs;
mod damages;
mod walks;

use calls::Calls;
use costs::Costs;
use damages::Damages;
use probes::PUBLISHED;
use std::io::Write;
use std::process::{Command, Stdio};
use support::boards::{image_of, room, FILES};
use support::kinds::Kinds;
use support::layout::Layout;
use support::library::{Library, HOUSE};
use support::random::Random;
use support::rounds::Words;
use support::ways::Ways;
use walks::Walks;

const FAR_FILES: [u64; 7] = [32, 33, 64, 256, 1 << 32, 1 << 63, u64::MAX];

/// A sweep through all arguments is one among so many rounds.
const SWEEP_EVERY: u64 = 400;

/// A write that costs much is made before one among so many.
const COSTS_EVERY: u64 = 4;

/// What is held against what, and how much of it.
struct Trial {
    library: &'static Library,
    document: &'static document::Layout,
    /// Whether boards are also lent as images.
    on_images: bool,
    /// Whether N12's bound is for writes to them.
    bounded: bool,
    /// How many sweeps come before random rounds, and the sizes of their boards.
    sweeps: u64,
    swept: &'static [u64],
    /// How many damaged copies of its board a round looks at.
    copies: usize,
    /// From so many calls on, each answer and each way must have been met.
    enough: u64,
}

static ON_HOUSE: Trial = Trial {
    library: &HOUSE,
    document: &document::HOUSE,
    on_images: true,
    bounded: true,
    sweeps: 8,
    swept: &[16, 24, 40, 100],
    copies: 0,
    enough: 100_000,
};

/// A call takes longer on these boards, and one damaged board finds less, as a block has more words.
static ON_PUBLISHED: Trial = Trial {
    library: &PUBLISHED,
    document: &document::PUBLISHED,
    on_images: false,
    bounded: false,
    sweeps: 2,
    swept: &[16, 17, 24],
    copies: 4,
    enough: 40_000,
};

struct Test {
    random: Random,
    trial: &'static Trial,
    library: &'static Library,
    layout: &'static Layout,
    calls: Calls,
    ways: Ways,
    costs: Costs,
    damages: Damages,
    /// The accepted boards of rounds, by how many blocks they have.
    counts: Kinds,
    pool: Vec<u8>,
}

// ---- Arguments

/// 0, the spans, and numbers far above them.
fn bounds(layout: &Layout) -> Vec<u64> {
    [&[0], layout.spans, &[1 << 32, 1 << 63, u64::MAX]].concat()
}

/// Numbers at and next to each bound, those past 2^64 - 1 going on from 0.
fn around_bounds(layout: &Layout) -> Vec<u64> {
    let around = |bound: u64| [bound.wrapping_sub(1), bound, bound.wrapping_add(1)];
    bounds(layout).into_iter().flat_map(around).collect()
}

fn offset(layout: &Layout, random: &mut Random, size: u64) -> u64 {
    match random.below(11) {
        0 | 1 => random.pick(&bounds(layout)).wrapping_add(random.below(5)).wrapping_sub(2),
        2..=4 => size,
        5 => size.wrapping_add(random.below(5)).wrapping_sub(2),
        6 => random.below(size + 1) / layout.block_bytes() * layout.block_bytes(),
        7 => random.below(size + 1) / 8 * 8,
        8 => size.saturating_sub(1 + random.below(8)),
        _ => random.below(size + 1),
    }
}

/// An offset for a write, past the end more often than for other calls.
fn write_offset(layout: &Layout, random: &mut Random, size: u64) -> u64 {
    if random.one_in(4) {
        layout.past_end(random, size)
    } else {
        offset(layout, random, size)
    }
}

/// The most bytes that a write has here; seldom more than most files have.
fn most_bytes(layout: &Layout, random: &mut Random) -> u64 {
    if random.one_in(16) {
        layout.greatest() + 232
    } else {
        layout.usual + 232
    }
}

/// The count of a write's bytes: small, to a bound of the tree, to the size, inside one word, or any.
fn count(layout: &Layout, random: &mut Random, size: u64, offset: u64) -> usize {
    // Few free blocks are enough for most writes past the end.
    if offset > size && !random.one_in(4) {
        return random.below(100) as usize;
    }
    let bytes = layout.block_bytes();
    let wanted = match random.below(10) {
        0 | 1 => random.pick(&[0, 1, 2, 6, 7, 8, 9, 24, bytes - 1, bytes, bytes + 1]),
        2 | 3 => random.pick(layout.spans).wrapping_sub(offset).wrapping_add(random.below(3)).wrapping_sub(1),
        4 => size.wrapping_sub(offset).wrapping_add(random.below(3)).wrapping_sub(1),
        5 => layout.some_blocks(random),
        6 | 7 => 1 + random.below(8 - offset % 8),
        _ => random.below(150),
    };
    if wanted <= most_bytes(layout, random) {
        wanted as usize
    } else {
        random.below(70) as usize
    }
}

/// In the last word of a file, which may have other bytes past the size.
fn in_last_word(random: &mut Random, size: u64) -> (u64, usize) {
    let first = (size - 1) / 8 * 8;
    let offset = first + random.below(size - first);
    (offset, 1 + random.below(size - offset) as usize)
}

/// Where a write to a file of this root and size begins and how many bytes it has.
fn stretch(layout: &Layout, random: &mut Random, (root, size): (u64, u64)) -> (u64, usize) {
    if size > 0 && random.one_in(8) {
        return in_last_word(random, size);
    }
    layout.growing_stretch(random, (root, size)).unwrap_or_else(|| {
        let offset = write_offset(layout, random, size);
        (offset, count(layout, random, size, offset))
    })
}

fn length(layout: &Layout, random: &mut Random, size: u64) -> u64 {
    let (bytes, most) = (layout.block_bytes(), most_bytes(layout, random));
    match random.below(4) {
        0 => random.below(11 * bytes),
        1 => random.below(most),
        2 => bytes * random.below(layout.usual / bytes + 1),
        _ => offset(layout, random, size),
    }
}

fn file(random: &mut Random, few: &[u64; 3]) -> u64 {
    match random.below(24) {
        0 => random.pick(&FAR_FILES),
        1..=5 => random.below(FILES),
        _ => random.pick(few),
    }
}

/// A slice's length around twice the pairs, which are needed, or any below it.
fn around_need(random: &mut Random, pairs: i64) -> usize {
    let need = 2 * pairs.max(0) as u64;
    match random.below(3) {
        0 => random.below(need + 1) as usize,
        _ => (need + random.below(6)).saturating_sub(3) as usize,
    }
}

// ---- Calls

impl Test {
    fn some_bytes(&mut self, count: usize) -> Vec<u8> {
        let from = self.random.below((self.pool.len() - count) as u64 + 1) as usize;
        self.pool[from..from + count].to_vec()
    }

    /// The size of the file, or 0 where the board or the file number is refused.
    fn size(&self, board: &[u64], file: u64) -> u64 {
        self.library.size(board, file).max(0) as u64
    }

    fn accepted(&self, board: &[u64]) -> bool {
        self.library.check(board) == 0
    }

    fn reading(&mut self, board: &[u64], few: &[u64; 3]) {
        let file = file(&mut self.random, few);
        let size = self.size(board, file);
        let offset = offset(self.layout, &mut self.random, size);
        let rest = size.saturating_sub(offset);
        let room = match self.random.below(3) {
            0 => self.random.below(rest + 1),
            _ => (rest + self.random.below(5)).saturating_sub(2),
        };
        self.calls.check(board);
        self.calls.free_count(board);
        self.calls.size(board, file);
        self.calls.read(board, file, offset, room as usize);
    }

    /// A call that plans, with twice the board's words for the plan. That is room for any.
    fn with_room(&mut self, board: &[u64], call: impl Fn(&mut Calls, usize) -> (i64, Vec<u64>)) -> (i64, Vec<u64>) {
        let (pairs, plan) = call(&mut self.calls, room(board));
        assert!(pairs != -8, "a plan has more pairs than the board has words");
        (pairs, plan)
    }

    /// A call that plans, with ample room and then with room around what the plan needs. Answers the plan, or nothing if
    /// the call is refused.
    fn planned(&mut self, board: &[u64], call: impl Fn(&mut Calls, usize) -> (i64, Vec<u64>)) -> Option<Vec<u64>> {
        let (pairs, mut plan) = self.with_room(board, &call);
        let tight = around_need(&mut self.random, pairs);
        call(&mut self.calls, tight);
        plan.truncate(2 * pairs.max(0) as usize);
        if plan.len() <= 60 && self.random.one_in(20) {
            for length in 0..=plan.len() + 3 {
                call(&mut self.calls, length);
            }
        }
        (pairs >= 0).then_some(plan)
    }

    /// The plan is performed at times, and at times in part, which leaves a board as a power cut would.
    fn performed(&mut self, board: &mut Vec<u64>, plan: &[u64]) {
        let pairs = plan.len() as u64 / 2;
        if !self.random.one_in(5) {
            let some = if self.random.one_in(6) { self.random.below(pairs + 1) } else { pairs };
            *board = self.calls.perform(board, plan, some).1;
        }
    }

    /// The stores of an accepted write are counted where they are bounded.
    fn costed(&mut self, board: &[u64], file: u64, stretch: (u64, usize), plan: (u64, &[u64])) {
        if self.trial.bounded {
            self.costs.write(board, file, stretch, plan);
        }
    }

    fn writing(&mut self, board: &mut Vec<u64>, few: &[u64; 3]) {
        let file = file(&mut self.random, few);
        let size = self.size(board, file);
        let root_and_size = if size > 0 { self.layout.root_and_size(board, file) } else { (0, 0) };
        let (offset, count) = stretch(self.layout, &mut self.random, root_and_size);
        let bytes = self.some_bytes(count);
        let planned = self.planned(board, |calls, room| calls.write(board, file, offset, &bytes, room));
        if let Some(plan) = planned {
            self.ways.write(board, file, offset, offset + count as u64, &plan);
            self.costed(board, file, (offset, count), (plan.len() as u64 / 2, &plan));
            self.performed(board, &plan);
        }
    }

    fn lengths(&mut self, board: &mut Vec<u64>, few: &[u64; 3]) {
        let file = file(&mut self.random, few);
        let size = self.size(board, file);
        let length = length(self.layout, &mut self.random, size);
        let planned = self.planned(board, |calls, room| calls.set_length(board, file, length, room));
        if let Some(plan) = planned {
            self.ways.set_length(board, file, length, &plan);
            self.performed(board, &plan);
        }
    }

    /// Any pairs, on a copy of the board: addresses on it and off it, barriers with any value, any count.
    fn performing(&mut self, board: &[u64]) {
        let words = self.random.below(40);
        let end = board.len() as u64;
        let mut plan: Vec<u64> = (0..words).map(|_| self.random.below(end + 1 + end / 64)).collect();
        for word in plan.iter_mut() {
            if self.random.one_in(12) {
                *word = self.random.pick(&[u64::MAX, u64::MAX - 1, end, end.wrapping_sub(1), 1 << 63, 0]);
            }
        }
        let pairs = match self.random.below(4) {
            0 => self.random.pick(&[u64::MAX, 1 << 63, (1 << 63) + words / 2, 1 << 32]),
            1 => words / 2 + self.random.below(2),
            _ => self.random.below(words / 2 + 1),
        };
        self.calls.perform(board, &plan, pairs);
    }

    fn formatting(&mut self, board: &[u64]) {
        self.with_room(board, |calls, room| calls.format(board, room));
        let pairs = self.layout.format_pairs;
        let need = 2 * pairs;
        let room = self.random.pick(&[0, 1, pairs, need - 2, need - 1, need, need + 1, 2 * need]);
        let (pairs, plan) = self.calls.format(board, room);
        if pairs > 0 {
            let some = self.random.below(pairs as u64 + 1);
            let cut = self.calls.perform(board, &plan, some).1;
            self.calls.check(&cut);
        }
    }

    fn one_call(&mut self, board: &mut Vec<u64>, few: &[u64; 3]) {
        match self.random.below(12) {
            0 | 1 => self.reading(board, few),
            2..=6 => self.writing(board, few),
            7..=9 => self.lengths(board, few),
            10 => self.performing(board),
            _ => self.formatting(board),
        }
    }

    /// The forms on an image, and at times the lister, on the board's bytes, some cut off or added.
    fn images(&mut self, board: &[u64], few: &[u64; 3]) {
        if !self.trial.on_images {
            return;
        }
        let mut image = image_of(board);
        if self.random.one_in(4) {
            let length = image.len() as u64 + self.random.below(17);
            image.resize(length.saturating_sub(8) as usize, 0);
        }
        self.calls.image_check(&image);
        for _ in 0..4 {
            let file = file(&mut self.random, few);
            let size = self.size(board, file);
            let offset = offset(self.layout, &mut self.random, size);
            let room = size.saturating_sub(offset) + self.random.below(4);
            self.calls.image_size(&image, file);
            self.calls.image_read(&image, file, offset, room.saturating_sub(2) as usize);
        }
        if self.random.one_in(4) {
            self.calls.listing(&image, listed(&image));
        }
    }
}

/// What the lister program prints.
fn listed(image: &[u8]) -> String {
    let mut lister = Command::new("target/bin/lister");
    let mut running = lister.stdin(Stdio::piped()).stdout(Stdio::piped()).spawn().expect("target/bin/lister runs");
    // The lister reads at most 65,537 bytes, so what is left over may meet a closed pipe.
    let _ = running.stdin.take().expect("a pipe").write_all(image);
    let done = running.wait_with_output().expect("the lister ends");
    assert!(done.status.success(), "the lister ended with {}", done.status);
    String::from_utf8(done.stdout).expect("text")
}

// ---- Rounds

/// A board of each kind: laid, bare, unknown, hostile words that are no board, or one of the first two damaged.
fn some_board(layout: &Layout, random: &mut Random) -> Vec<u64> {
    let blocks = layout.block_count(random);
    let mut board = match random.below(16) {
        0 => return layout.unknown(random, blocks),
        1 => {
            let more = random.pick(&[0, 0, 1, layout.block - 1]);
            return layout.hostile(random, layout.pointer(blocks, more) as usize);
        }
        2..=9 => layout.laid(random, blocks),
        _ => layout.bare(random, blocks),
    };
    if random.one_in(4) {
        layout.damage(random, &mut board);
    }
    board
}

impl Test {
    /// Every file number with every offset and length at or next to a bound.
    fn sweep(&mut self) {
        let layout = self.layout;
        let blocks = self.random.pick(self.trial.swept);
        let kind = if self.random.one_in(3) { Layout::bare } else { Layout::laid };
        let mut board = kind(layout, &mut self.random, blocks);
        if self.random.one_in(4) {
            layout.damage(&mut self.random, &mut board);
        }
        for file in (0..FILES).chain(FAR_FILES) {
            self.calls.size(&board, file);
            for offset in around_bounds(layout) {
                let bytes = layout.block_bytes() as usize;
                let count = self.random.pick(&[0, 1, 2, 8, 9, bytes, bytes + 1]);
                let bytes = self.some_bytes(count);
                self.calls.read(&board, file, offset, count);
                let (pairs, plan) =
                    self.with_room(&board, |calls, room| calls.write(&board, file, offset, &bytes, room));
                if pairs >= 0 {
                    self.costed(&board, file, (offset, count), (pairs as u64, &plan));
                }
                self.with_room(&board, |calls, room| calls.set_length(&board, file, offset, room));
            }
        }
    }

    /// Copies of an accepted board, each damaged.
    fn damaged_copies(&mut self, board: &[u64], few: &[u64; 3]) {
        for _ in 0..self.trial.copies {
            let mut copy = board.to_vec();
            self.layout.damage(&mut self.random, &mut copy);
            self.calls.check(&copy);
            if self.random.one_in(4) {
                self.one_call(&mut copy, few);
            }
        }
    }

    fn count_blocks(&mut self, board: &[u64]) {
        let (layout, blocks) = (self.layout, self.layout.blocks(board));
        self.counts.count([
            ("of the fewest blocks", blocks == layout.fewest),
            ("of one block more", blocks == layout.fewest + 1),
            ("of the most blocks", blocks == layout.most),
        ]);
    }

    fn round(&mut self) {
        let mut board = some_board(self.layout, &mut self.random);
        let few = [self.random.below(FILES), self.random.below(FILES), self.random.below(FILES)];
        // Every call on a refused board has the same answer, so a few are enough.
        let mut most = 3;
        if self.accepted(&board) {
            most = 40;
            self.count_blocks(&board);
        }
        for _ in 0..2 + self.random.below(most) {
            self.one_call(&mut board, &few);
        }
        self.images(&board, &few);
        if self.accepted(&board) {
            self.damaged_copies(&board, &few);
            if self.random.one_in(2) {
                self.damages.round(self.layout, &mut self.random, &mut self.calls, &board);
            }
        }
        if self.random.one_in(4) && self.accepted(&board) {
            self.layout.damage(&mut self.random, &mut board);
            self.reading(&board, &few);
            self.images(&board, &few);
        }
    }
}

/// N4's bands give document 01's least sufficient heights, and no size lies in two of them.
fn bands_are_spans() {
    let greatest = document::HOUSE.greatest_size;
    for size in 0..=greatest {
        let (banded, least) = (document::height_by_bands(size), document::HOUSE.least_height(size));
        assert!(banded == Some(least), "size {size}: height {banded:?} by the bands, {least} by the spans");
        let bands = document::BANDS.iter().filter(|(first, last)| (first..=last).contains(&&size)).count();
        assert!(bands == 1, "size {size} lies in {bands} bands");
    }
    assert!(document::height_by_bands(greatest + 1).is_none(), "a band above the greatest size");
}

impl Test {
    fn of(trial: &'static Trial, seed: u64) -> Test {
        let (library, layout) = (trial.library, trial.library.layout);
        let mut random = Random::new(seed, u64::MAX);
        let pool = random.bytes(layout.greatest() as usize + 7232);
        let calls = Calls::of(library, trial.document, trial.on_images);
        let (ways, costs) = (Ways::of(library), Costs::default());
        let (damages, counts) = (Damages::default(), Kinds::default());
        Test { random, trial, library, layout, calls, ways, costs, damages, counts, pool }
    }

    fn rounds(&mut self, words: &Words, walks: &mut Walks) {
        for round in words.rounds() {
            if self.calls.compared() >= words.wanted {
                break;
            }
            // Walks and the writes for costs have numbers of their own, so that the other calls of a round are the same
            // with and without them.
            if !words.published {
                walks.round(&mut Random::new(words.seed, !round - 1));
            }
            if self.trial.bounded && round % COSTS_EVERY == 0 {
                self.costs.round(&mut Random::new(words.seed, (1 << 32) + round), &mut self.calls);
            }
            self.random = Random::new(words.seed, round);
            if round < self.trial.sweeps || round % SWEEP_EVERY == 0 {
                self.sweep();
            } else {
                self.round();
            }
        }
    }
}

fn main() {
    let words = Words::read("differential", 300_000);
    let trial = if words.published { &ON_PUBLISHED } else { &ON_HOUSE };
    let mut test = Test::of(trial, words.seed);
    let mut walks = Walks::default();
    test.rounds(&words, &mut walks);
    // What follows belongs to no round.
    drop(std::panic::take_hook());
    test.calls.report();
    test.ways.report();
    test.damages.report();
    test.counts.report("accepted boards");
    if words.wanted >= trial.enough {
        test.calls.all_met();
        test.ways.all_met();
        test.ways.empty_met();
        test.damages.all_met();
        test.counts.all_met("accepted boards");
    }
    if !words.published {
        bands_are_spans();
        test.costs.report();
        walks.report();
        if words.wanted >= trial.enough {
            test.costs.all_met();
            walks.all_met();
        }
    }
    println!("differential: {} calls, each as document 01 in plain Rust has it", test.calls.compared());
}
