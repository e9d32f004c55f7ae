//! The board that every method starts from, and what the methods share.

use std::collections::BTreeSet;
use std::ops::Range;
use support::boards::FILES as ALL_FILES;
use support::files::{contents, put};
use support::library::HOUSE;
use support::performed::{done, formatted, set_length, write};
use support::random::Random;
use support::stores::{epochs, Epochs};

/// Words of the board. What a method keeps elsewhere, as a journal, stands in the words after them.
pub const BOARD: usize = 8192;
/// Words of the whole memory.
pub const MEMORY: usize = BOARD + 2048;

/// Bytes under a tree of each height.
pub const SPAN: &[u64] = support::layout::HOUSE.spans;

pub const SCORES: u64 = 0;
pub const COINS: u64 = 1;
pub const LOG: u64 = 2;
pub const PICTURE: u64 = 3;
const FILES: u64 = 4;

/// The bytes of each file.
pub type Files = Vec<Vec<u8>>;

/// Bytes that a file gets at an offset; with none, the file becomes as long as the offset.
#[derive(Clone)]
pub struct Change {
    pub file: u64,
    pub offset: u64,
    pub bytes: Vec<u8>,
}

impl Change {
    pub fn range(&self) -> Range<u64> {
        self.offset..self.offset + self.bytes.len() as u64
    }
}

/// What the files read as once the changes are made, and not before.
pub fn after(before: &Files, changes: &[Change]) -> Files {
    let mut files = before.clone();
    for change in changes {
        put(&mut files[change.file as usize], change.offset, &change.bytes);
    }
    files
}

/// The word at an offset of a file's bytes, 0 past their end.
pub fn word_of(bytes: &[u8], offset: u64) -> u64 {
    let byte = |i: u64| bytes.get((offset + i) as usize).map_or(0, |&byte| (byte as u64) << (8 * i));
    (0..8).map(byte).sum()
}

// ---- Calls

/// All files, or nothing where the board is refused.
pub fn read(memory: &[u64]) -> Option<Files> {
    let board = &memory[..BOARD];
    if HOUSE.check(board) != 0 {
        return None;
    }
    let files = contents(board, FILES);
    for (file, bytes) in (0..).zip(&files) {
        assert_eq!(done(HOUSE.size(board, file)), bytes.len() as u64);
    }
    Some(files)
}

pub fn accepted(memory: &[u64]) -> Files {
    read(memory).expect("an accepted board")
}

/// Plans a write, or with no bytes a length change, and performs the plan; answers the plan's epochs.
pub fn change(memory: &mut [u64], change: &Change) -> Epochs {
    let board = &mut memory[..BOARD];
    let plan = match change.bytes.is_empty() {
        true => set_length(board, change.file, change.offset),
        false => write(board, change.file, change.offset, &change.bytes),
    };
    epochs(&plan)
}

// ---- The words of a board

/// The address of a file's root word; its size is in the word after it.
pub fn inode(memory: &[u64], file: u64) -> u64 {
    HOUSE.layout.inode(&memory[..BOARD], file) as u64
}

/// The free blocks, rising.
pub fn free(memory: &[u64]) -> Vec<u64> {
    let (board, layout) = (&memory[..BOARD], HOUSE.layout);
    let mut used: BTreeSet<u64> = layout.live_blocks(board).into_iter().collect();
    used.extend((0..ALL_FILES).map(|file| inode(board, file) / layout.block));
    used.extend([0, layout.pointer_block(board) as u64 / layout.block, layout.blocks(board) - 1]);
    let free: Vec<u64> = (0..layout.blocks(board)).filter(|block| !used.contains(block)).collect();
    assert_eq!(free.len() as u64, done(HOUSE.free_count(board)));
    free
}

// ---- The board that every method starts from

/// A score table of 20 entries, a coin meter, a log of so many entries of 24 bytes, and a file of 16,384 bytes.
pub fn starting_board(log_entries: usize) -> Vec<u64> {
    let mut random = Random::new(1, 0);
    let mut board = formatted(BOARD);
    for (file, bytes) in [(SCORES, 480), (COINS, 8), (PICTURE, 16384)] {
        write(&mut board, file, 0, &random.bytes(bytes));
    }
    for entry in 0..log_entries {
        write(&mut board, LOG, 24 * entry as u64, &random.bytes(24));
    }
    board.resize(MEMORY, 0);
    board
}
