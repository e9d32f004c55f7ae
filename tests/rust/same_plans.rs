//! The built library held against read, write and perform in plain Rust as they are made to be fast (docs/src/fast):
//! every answer, every word of a plan and of a board and every byte of a buffer, in random writes and reads, between
//! length changes by the library alone: a long history on the largest board, in which trees are soon as high as they get,
//! then short ones on boards of any size that no history of calls leaves, damaged ones among them. On the house's boards,
//! or with the word `published` on N11's.
//!
//!     same_plans [published] SEED WRITES [ROUND]    rounds of the seed from ROUND on, until WRITES writes are compared

use probes::PUBLISHED;
use support::boards::room;
use support::layout::Layout;
use support::library::{Library, HOUSE};
use support::performed::done;
use support::random::Random;
use support::rounds::Words;

/// Steps of a short history.
const SHORT: usize = 30;
/// Offsets and lengths are drawn up to so many bytes past the greatest size.
const BEYOND: u64 = 232;
/// A write's bytes begin at one of the first places of a vector.
const PLACES: u64 = 100;
/// So many words, at least, stand past a plan that is lent, and so many bytes past a buffer.
const PAST: usize = 64;

/// The calls of plain Rust, for boards of a layout.
struct Plain {
    read: fn(&[u64], u64, u64, &mut [u8]) -> i64,
    write: fn(&[u64], u64, u64, &[u8], &mut [u64]) -> i64,
    perform: fn(&mut [u64], &[u64], u64) -> i64,
}

impl Plain {
    fn of<const W: usize>() -> Plain {
        Plain { read: fast::read::<W>, write: fast::write::<W>, perform: fast::perform::<W> }
    }
}

/// How many writes are accepted; of those, how many begin past the end, and how many are of more than half the greatest
/// size; how many are refused; and how many reads are compared.
#[derive(Default)]
struct Met {
    accepted: u64,
    past: u64,
    large: u64,
    refused: u64,
    reads: u64,
}

impl Met {
    fn compared(&self) -> u64 {
        self.accepted + self.refused
    }

    fn report(&self) {
        let Met { accepted, past, large, refused, reads } = self;
        println!("same plans: {accepted} writes accepted, {past} of them past the end, {refused} refused");
        println!("same plans: {large} accepted writes are of more than half the greatest size");
        println!("same plans: {} writes, each with the plan and the board of plain Rust", self.compared());
        println!("same plans: {reads} reads, each with the bytes of plain Rust");
    }

    /// Of so many writes compared, a share must be of each kind.
    fn enough(&self, wanted: u64) {
        let shares = [(self.accepted, 5), (self.past, 10), (self.refused, 25), (self.reads, 10)];
        assert!(shares.iter().all(|(met, share)| met * share >= wanted), "too few writes of a kind, or reads");
        assert!(self.large > 0, "no large write");
    }
}

// ---- Arguments

fn file(random: &mut Random) -> u64 {
    match random.below(20) {
        0 => 31 + random.below(3),
        _ => random.below(5),
    }
}

fn length(layout: &Layout, random: &mut Random) -> u64 {
    let block = layout.block_bytes();
    let most = random.pick(&[9, 2 * block + 2, 24 * block, layout.greatest() + BEYOND]);
    random.below(most)
}

/// Near the end of a file of this size, among the first blocks, or anywhere.
fn offset(layout: &Layout, random: &mut Random, size: u64) -> u64 {
    let block = layout.block_bytes();
    let far = random.pick(&[12 * block + 32, layout.greatest() + BEYOND]);
    if random.one_in(4) {
        size + random.below(2 * block + 2)
    } else {
        random.below(far)
    }
}

/// Where a write begins and how many bytes it has; one in eight ends where a band of sizes ends or begins.
fn stretch(layout: &Layout, random: &mut Random, size: u64) -> (u64, usize) {
    if random.one_in(8) {
        return layout.band_stretch(random);
    }
    (offset(layout, random, size), length(layout, random) as usize)
}

// ---- Boards

fn formatted(library: &Library) -> Vec<u64> {
    let mut board = vec![0; (library.layout.most * library.layout.block) as usize];
    let mut plan = vec![0; room(&board)];
    let pairs = done(library.format(&board, &mut plan)) as usize;
    library.perform_whole(&mut board, &plan[..2 * pairs]);
    board
}

fn some_board(layout: &Layout, random: &mut Random) -> Vec<u64> {
    let blocks = layout.block_count(random);
    let mut board = layout.laid(random, blocks);
    if random.one_in(8) {
        layout.damage(random, &mut board);
    }
    board
}

// ---- Rounds

struct Test {
    library: &'static Library,
    plain: Plain,
    random: Random,
    bytes: Vec<u8>,
    /// The library's plan, and that of plain Rust.
    plans: [Vec<u64>; 2],
    buffers: [Vec<u8>; 2],
    met: Met,
}

impl Test {
    fn new(words: &Words) -> Test {
        let (library, plain) = match words.published {
            true => (&PUBLISHED, Plain::of::<{ fast::PUBLISHED }>()),
            false => (&HOUSE, Plain::of::<{ fast::HOUSE }>()),
        };
        let mut random = Random::new(words.seed, u64::MAX);
        let bytes = random.bytes((library.layout.greatest() + BEYOND + PLACES) as usize);
        Test {
            library,
            plain,
            random,
            bytes,
            plans: Default::default(),
            buffers: Default::default(),
            met: Met::default(),
        }
    }

    /// A length change by the library alone, where it is accepted.
    fn change_length(&mut self, board: &mut [u64], file: u64) {
        let layout = self.library.layout;
        let most = if self.random.one_in(3) { layout.greatest() + BEYOND } else { 11 * layout.block_bytes() };
        let length = self.random.below(most);
        let plan = &mut self.plans[0];
        plan.resize(room(board), 0);
        let pairs = self.library.set_length(board, file, length, plan);
        if pairs >= 0 {
            done(self.library.perform(board, plan, pairs as u64));
        }
    }

    /// A read by both versions. The front of a vector is lent, and the bytes past it are compared too.
    fn same_read(&mut self, board: &[u64], file: u64) {
        // 0 where the board or the file number is refused.
        let size = self.library.size(board, file).max(0) as u64;
        let offset = offset(self.library.layout, &mut self.random, size);
        let length = length(self.library.layout, &mut self.random) as usize;
        for buffer in &mut self.buffers {
            buffer.clear();
            buffer.resize(length + PAST, 7);
        }
        let [buffer, other] = &mut self.buffers;
        let ours = self.library.read(board, file, offset, &mut buffer[..length]);
        let plain = (self.plain.read)(board, file, offset, &mut other[..length]);
        assert_eq!(ours, plain, "read of {length} bytes at {offset}");
        assert!(buffer == other, "the buffers of a read of {length} bytes at {offset} differ");
        self.met.reads += 1;
    }

    /// A write by both versions. The front of a vector is lent, and the words past it are compared too.
    fn same_plan(&mut self, board: &mut [u64], file: u64) {
        let size = self.library.size(board, file).max(0) as u64;
        let (offset, length) = stretch(self.library.layout, &mut self.random, size);
        let from = self.random.below(PLACES) as usize;
        let lent = if self.random.one_in(8) { self.random.below(200) as usize } else { room(board) };
        let new = &self.bytes[from..from + length];
        for plan in &mut self.plans {
            plan.clear();
            plan.resize(lent.max(room(board)) + PAST, 7);
        }
        let [plan, other] = &mut self.plans;
        let ours = self.library.write(board, file, offset, new, &mut plan[..lent]);
        let plain = (self.plain.write)(board, file, offset, new, &mut other[..lent]);
        assert_eq!(ours, plain, "write of {length} bytes at {offset}");
        assert!(plan == other, "the plans of a write of {length} bytes at {offset} differ");
        if ours < 0 {
            self.met.refused += 1;
            return;
        }
        self.met.accepted += 1;
        self.met.past += u64::from(length != 0 && offset > size);
        self.met.large += u64::from(length as u64 > self.library.layout.greatest() / 2);
        let mut copy = board.to_vec();
        let performed = self.library.perform(board, plan, ours as u64);
        assert_eq!(performed, (self.plain.perform)(&mut copy, plan, ours as u64));
        assert!(board == copy, "the boards differ");
    }

    fn history(&mut self, mut board: Vec<u64>, steps: usize) {
        for _ in 0..steps {
            let file = file(&mut self.random);
            match self.random.below(8) {
                0 | 1 => self.change_length(&mut board, file),
                2 => self.same_read(&board, file),
                _ => self.same_plan(&mut board, file),
            }
        }
    }
}

fn main() {
    let words = Words::read("same_plans", 50_000);
    let mut test = Test::new(&words);
    // Steps of the long history.
    let long = if words.published { 1_500 } else { 20_000 };
    for round in words.rounds() {
        if test.met.compared() >= words.wanted {
            break;
        }
        test.random = Random::new(words.seed, round);
        if round == 0 {
            test.history(formatted(test.library), long);
        } else {
            let board = some_board(test.library.layout, &mut test.random);
            test.history(board, SHORT);
        }
    }
    // What follows belongs to no round.
    drop(std::panic::take_hook());
    test.met.report();
    if words.wanted >= 2_000 {
        test.met.enough(words.wanted);
    }
}
