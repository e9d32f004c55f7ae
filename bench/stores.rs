//! What a change costs at most, as the data sheet has it: the stores of very many of the library's plans, on boards
//! that make a write dear and on any. Those of writes are held against the sharper of N12's figures, where they begin
//! past the end their pairs against the other (docs/src). Prints CSV: a line for each length, with the dearest writes
//! that were met and the most blocks on the paths to so many bytes; a line for changes of a length; a line for each of
//! the least and the greatest boards.
//!
//!     stores           changes at five places of each block
//!     stores --all     changes at every byte

use document::{most_stores, sharp_most_stores, store_count};
use probes::PUBLISHED;
use support::boards::room;
use support::layout::HOUSE as LAYOUT;
use support::library::{Library, HOUSE};
use support::performed::{done, formatted, write};
use support::random::Random;

/// The lengths of the data sheet.
const LENGTHS: [usize; 7] = [1, 8, 24, 64, 512, 4_096, 32_768];

/// Bytes of a block at which a write begins: its first, the second, the second word, the last word, the last byte.
const PLACES: [u64; 5] = [0, 1, 8, 56, 63];

/// So many boards of any kind, and so many writes of each length on each.
const BOARDS: u64 = 3_000;
const WRITES: u64 = 8;

const FILE: u64 = 0;

/// The bytes up to the last at which something is tried.
fn places(last: u64, all: bool) -> impl Iterator<Item = u64> {
    (0..=last).filter(move |byte| all || PLACES.contains(&(byte % LAYOUT.block_bytes())))
}

/// The dearest write of a length.
#[derive(Default)]
struct Dearest {
    stores: u64,
    offset: u64,
    size: u64,
    root: u64,
}

struct Count {
    bytes: Vec<u8>,
    plan: Vec<u64>,
    /// Not past the end, and past it.
    dearest: [Dearest; 2],
    planned: [u64; 2],
    /// The most barriers of a plan.
    barriers: u64,
}

impl Count {
    fn of(length: usize) -> Count {
        let dearest = <[Dearest; 2]>::default();
        Count { bytes: vec![0xA7; length], plan: Vec::new(), dearest, planned: [0; 2], barriers: 0 }
    }

    fn length(&self) -> u64 {
        self.bytes.len() as u64
    }

    /// Plans a write, and counts its stores.
    fn plan(&mut self, board: &[u64], file: u64, offset: u64) {
        self.plan.resize(room(board), 0);
        let answer = HOUSE.write(board, file, offset, &self.bytes, &mut self.plan);
        let Ok(pairs) = u64::try_from(answer) else {
            assert!(answer == -7, "refused {}", -answer);
            return;
        };
        let stores = store_count(&self.plan, pairs);
        let (length, (root, size)) = (self.length(), LAYOUT.root_and_size(board, file));
        let (past, most, sharp) = (offset > size, most_stores(length), sharp_most_stores(length));
        assert!(pairs <= most, "{length} bytes at {offset} of {size}: {pairs} pairs, more than {most}");
        assert!(past || stores <= sharp, "{length} bytes at {offset} of {size}: {stores} stores, more than {sharp}");
        self.barriers = self.barriers.max(pairs - stores);
        self.planned[usize::from(past)] += 1;
        let dearest = &mut self.dearest[usize::from(past)];
        if stores > dearest.stores {
            *dearest = Dearest { stores, offset, size, root };
        }
    }

    /// At an offset of a file with this tree, for each size that changes the way: the write begins at the end, crosses
    /// it, ends one byte past it or at it, or lies far inside; or it begins past the end, of a file of one byte, of one
    /// block, or just past it.
    fn at(&mut self, board: &mut [u64], offset: u64) {
        let end = offset + self.length();
        let at = LAYOUT.inode(board, FILE) + 1;
        let before = [1, LAYOUT.block_bytes(), offset.saturating_sub(1)].map(|size| size.min(offset));
        let mut sizes = [&before[..], &[offset, offset + 1, end - 1, end, LAYOUT.greatest()]].concat();
        sizes.sort_unstable();
        for (i, &size) in sizes.iter().enumerate() {
            if i == 0 || size != sizes[i - 1] {
                board[at] = size;
                self.plan(board, FILE, offset);
            }
        }
    }

    fn tree(&mut self, board: &mut [u64], all: bool) {
        for offset in places(LAYOUT.greatest() - self.length(), all) {
            self.at(board, offset);
        }
    }

    /// Any files of any board.
    fn any(&mut self, random: &mut Random, board: &[u64]) {
        for _ in 0..WRITES {
            let file = random.below(32);
            let (_, size) = LAYOUT.root_and_size(board, file);
            let last = LAYOUT.greatest() - self.length();
            let offset = if random.one_in(4) { LAYOUT.past_end(random, size) } else { random.below(size + 1) };
            self.plan(board, file, offset.min(last));
        }
    }
}

// ---- Boards

/// File 0 has a tree of this height, of which one data block exists.
fn narrow(height: usize) -> Vec<u64> {
    let mut board = formatted(8_192);
    let offset = if height == 0 { 0 } else { LAYOUT.spans[height - 1] };
    write(&mut board, FILE, offset, &[1]);
    board
}

/// All data blocks exist.
fn full(height: usize) -> Vec<u64> {
    let mut board = formatted(8_192);
    write(&mut board, FILE, 0, &vec![1; LAYOUT.spans[height] as usize]);
    board
}

/// No block exists.
fn null(height: usize) -> Vec<u64> {
    let mut board = formatted(8_192);
    let at = LAYOUT.inode(&board, FILE);
    board[at] = height as u64;
    board
}

fn trees() -> Vec<Vec<u64>> {
    let heights = 0..LAYOUT.spans.len();
    heights.flat_map(|height| [narrow(height), full(height), null(height)]).collect()
}

// ---- Changes of a length

/// The most stores of a change of a length, from each size that is tried to the greatest length, to one byte more and
/// to one less; and how many were planned.
fn lengths(boards: &[Vec<u64>], all: bool) -> (u64, u64) {
    let (mut most, mut planned) = (0, 0);
    for tree in boards {
        let mut board = tree.clone();
        let mut plan = vec![0; room(&board)];
        let at = LAYOUT.inode(&board, FILE) + 1;
        for size in places(LAYOUT.greatest(), all) {
            board[at] = size;
            for length in [LAYOUT.greatest(), size + 1, size.saturating_sub(1)] {
                let answer = HOUSE.set_length(&board, FILE, length.min(LAYOUT.greatest()), &mut plan);
                most = most.max(store_count(&plan, done(answer)));
                planned += 1;
            }
        }
    }
    (most, planned)
}

// ---- Blocks on paths

/// The most blocks that lie on the paths to so many bytes of a file without holes, each stretch of 64 bytes by itself.
fn visited(board: &[u64], length: u64) -> u64 {
    let bytes = LAYOUT.block_bytes();
    let greatest = LAYOUT.greatest();
    let paths: Vec<u64> =
        (0..greatest / bytes).map(|stretch| LAYOUT.path(board, FILE, bytes * stretch).len() as u64).collect();
    let met = |offset: u64| paths[(offset / bytes) as usize..=((offset + length - 1) / bytes) as usize].iter().sum();
    (0..=greatest - length).map(met).max().unwrap_or(0)
}

// ---- The least and the greatest boards

/// The most bytes that an empty file can be given in one write, so that none is in a hole.
fn most_held(library: &Library, board: &[u64], plan: &mut [u64]) -> usize {
    let bytes = vec![1; library.layout.greatest() as usize];
    let (mut held, mut refused) = (0, bytes.len() + 1);
    while held + 1 < refused {
        let count = held + (refused - held) / 2;
        match library.write(board, FILE, 0, &bytes[..count], plan) {
            -7 => refused = count,
            answer => held = if done(answer) > 0 { count } else { held },
        }
    }
    held
}

fn limits(kind: &str, library: &Library) {
    let layout = library.layout;
    for blocks in [layout.fewest, layout.most] {
        let mut board = vec![0; (layout.block * blocks) as usize];
        let mut plan = vec![0; room(&board)];
        let pairs = done(library.format(&board, &mut plan));
        library.perform_whole(&mut board, &plan[..2 * pairs as usize]);
        let (words, free) = (board.len(), done(library.free_count(&board)));
        let held = most_held(library, &board, &mut plan);
        println!("{kind},{blocks},{words},{},{free},{held},{}", 8 * words, layout.greatest());
    }
}

fn main() {
    let all = std::env::args().nth(1).is_some_and(|word| word == "--all");
    let mut counts = LENGTHS.map(Count::of);
    let boards = trees();
    for board in &boards {
        for count in &mut counts {
            count.tree(&mut board.clone(), all);
        }
    }
    for round in 0..BOARDS {
        let mut random = Random::new(12, round);
        let blocks = LAYOUT.block_count(&mut random);
        let board = LAYOUT.laid(&mut random, blocks);
        for count in &mut counts {
            count.any(&mut random, &board);
        }
    }
    let tall = full(LAYOUT.greatest_height());
    println!("bytes,figure,sharp,most,offset,size,height,block,planned,past,past_planned,visited,barriers");
    for count in &counts {
        let length = count.length();
        let (figure, sharp, visited) = (most_stores(length), sharp_most_stores(length), visited(&tall, length));
        let (Dearest { stores, offset, size, root }, past) = (&count.dearest[0], count.dearest[1].stores);
        let (height, block, barriers) = (LAYOUT.low_of(*root), LAYOUT.block_of(*root), count.barriers);
        let [planned, past_planned] = count.planned;
        print!("{length},{figure},{sharp},{stores},{offset},{size},{height},{block},{planned},");
        println!("{past},{past_planned},{visited},{barriers}");
    }
    let (most, planned) = lengths(&boards, all);
    println!("\nlengths,most\n{planned},{most}");
    println!("\nboard,blocks,words,bytes,free,held,greatest");
    limits("house", &HOUSE);
    limits("published", &PUBLISHED);
}
