//! The walk to a byte by the library beside the one of docs/src: on boards of every kind, damaged ones and words that are
//! no board among them, for files and bytes of any number. It refuses nothing. What block 0 holds may change no walk.

use crate::{offset, some_board, FAR_FILES};
use document::Place;
use support::kinds::Kinds;
use support::layout::HOUSE;
use support::library;
use support::random::Random;

/// On each board.
const WALKS: usize = 24;

#[derive(Default)]
pub struct Walks {
    made: u64,
    kinds: Kinds,
}

/// What a walk begins with, as it is seen from outside; 0 for what is not there.
struct Seen {
    inode_root: u64,
    leaf: u64,
    root: u64,
    size: u64,
}

impl Seen {
    fn of(board: &[u64], file: u64) -> Seen {
        let word = |block: u64, index: u64| match block {
            0 => 0,
            _ => board.get((8 * block + index) as usize).copied().unwrap_or(0),
        };
        let inode_root = word((board.len() as u64 / 8).saturating_sub(1), 0);
        let leaf = word(inode_root / 8, file / 4 % 8) / 8;
        let at = 2 * (file % 4);
        Seen { inode_root, leaf, root: word(leaf, at), size: word(leaf, at + 1) }
    }

    fn rooted(&self) -> bool {
        self.root / 8 != 0 && self.size > 0
    }

    fn span(&self) -> u64 {
        64 << (3 * (self.root % 8))
    }
}

// ---- Boards and arguments

/// Few words or many of which nothing is known, a board with null inodes, or one as the other calls get them.
fn any_board(random: &mut Random) -> Vec<u64> {
    match random.below(8) {
        0 => {
            let few = random.below(41);
            HOUSE.hostile(random, few as usize)
        }
        1 => {
            let words = 8 * HOUSE.block_count(random) + random.below(41);
            HOUSE.hostile(random, words as usize)
        }
        2 | 3 => {
            let blocks = HOUSE.block_count(random);
            let mut board = HOUSE.laid(random, blocks);
            HOUSE.null_inodes(random, &mut board);
            board
        }
        _ => some_board(&HOUSE, random),
    }
}

/// Any file, or more often one that has a tree, if the board has such.
fn file(random: &mut Random, board: &[u64]) -> u64 {
    match random.below(12) {
        0 => random.pick(&FAR_FILES),
        1..=3 => random.below(41),
        _ => {
            let first = random.below(32);
            let rooted = (first..first + 32).find(|&file| Seen::of(board, file % 32).rooted());
            rooted.map_or(first, |file| file % 32)
        }
    }
}

/// A byte anywhere, next to the size, in the span, or as offsets of other calls are.
fn byte(random: &mut Random, seen: &Seen) -> u64 {
    match random.below(8) {
        0 => random.word(),
        1 => seen.size.wrapping_add(random.below(5)).wrapping_sub(2),
        2..=4 => random.below(seen.span().min(seen.size.saturating_add(100))),
        5 => random.below(seen.span()),
        _ => offset(&HOUSE, random, seen.size.min(1 << 27)),
    }
}

/// The board with other words in block 0.
fn other_block_0(random: &mut Random, board: &[u64]) -> Vec<u64> {
    let mut other = board.to_vec();
    for word in other.iter_mut().take(8) {
        *word = HOUSE.rubbish(random, board.len() as u64 / 8 + 1);
    }
    other
}

// ---- Walks

fn expected(board: &[u64], file: u64, byte: u64) -> i64 {
    match document::walk(board, file, byte) {
        Place::Block(block) => block as i64,
        Place::Hole => 0,
    }
}

impl Walks {
    /// Walks on one board.
    pub fn round(&mut self, random: &mut Random) {
        let board = any_board(random);
        let other = other_block_0(random, &board);
        for _ in 0..WALKS {
            let file = file(random, &board);
            let byte = byte(random, &Seen::of(&board, file));
            self.walk(&board, &other, file, byte);
        }
    }

    fn walk(&mut self, board: &[u64], other: &[u64], file: u64, byte: u64) {
        let said = format!("walk to byte {byte} of file {file} on {} words", board.len());
        let copy = board.to_vec();
        let end = library::walk(&copy, file, byte);
        assert!(board == copy, "{said}: the library stored to what it may only read");
        let expected = expected(board, file, byte);
        assert!(end == expected, "{said}: the library ends at {end}, docs/src at {expected}");
        let again = library::walk(other, file, byte);
        assert!(end == again, "{said}: it ends at {end}, with other words in block 0 at {again}");
        self.made += 1;
        self.count(board, file, byte, end as u64);
    }

    fn count(&mut self, board: &[u64], file: u64, byte: u64, end: u64) {
        let (words, seen, there) = (board.len() as u64, Seen::of(board, file), file < 32);
        let (lent, begun, rooted) = (there && words >= 16, there && seen.leaf != 0, there && seen.rooted());
        let refused = library::HOUSE.check(board) != 0;
        self.kinds.count([
            ("to a block of an accepted board", end != 0 && !refused),
            ("to a hole of an accepted board", end == 0 && !refused),
            ("to a block of a refused board", end != 0 && refused),
            ("to a hole of a refused board", end == 0 && refused),
            ("to a block off the board", end != 0 && end >= words.div_ceil(8)),
            ("to the trailer", end != 0 && end + 1 == words / 8),
            ("to a block at or past the size", end != 0 && byte >= seen.size),
            ("of a file above 31", !there),
            ("on fewer than 16 words", there && words < 16),
            ("on words that are no whole blocks, to a block", end != 0 && words % 8 != 0),
            ("by a null inode root", lent && seen.inode_root / 8 == 0),
            ("by an inode root off the board", lent && seen.inode_root / 8 >= words.div_ceil(8)),
            ("by a null inode pointer", lent && seen.inode_root / 8 != 0 && seen.leaf == 0),
            ("by an inode pointer off the board", lent && seen.leaf >= words.div_ceil(8)),
            ("in an empty file", begun && seen.size == 0),
            ("under a null root", begun && seen.size > 0 && seen.root / 8 == 0),
            ("past the span", rooted && byte >= seen.span()),
            ("to a hole in the span, below the size", rooted && end == 0 && byte < seen.span().min(seen.size)),
            ("to a hole in the span, past the size", rooted && end == 0 && seen.size <= byte && byte < seen.span()),
            ("under a root of height 4 to 7, to a block", end != 0 && seen.root % 8 > 3),
            ("in a file above the greatest size, to a block", end != 0 && seen.size > HOUSE.greatest()),
        ]);
    }

    pub fn report(&self) {
        self.kinds.report("walks");
        println!("differential: {} walks to a byte, each as document 01 in plain Rust has it", self.made);
    }

    pub fn all_met(&self) {
        self.kinds.all_met("walk");
    }
}
