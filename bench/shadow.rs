//! Shadow paging copied up to the root on the same board: the data blocks, every pointer block above them, the inode
//! leaf and the inode pointer block are copied whole. The commit is trailer word 0, the one root of the board.

use crate::board::{accepted, after, free, inode, word_of, Change, Files, BOARD, SPAN};
use support::stores::{Epochs, Store};

struct Copier<'a> {
    memory: &'a [u64],
    free: std::vec::IntoIter<u64>,
    changes: &'a [Change],
    files: &'a Files,
    stores: Vec<Store>,
}

pub fn plan(memory: &[u64], changes: &[Change]) -> Option<Epochs> {
    let files = after(&accepted(memory), changes);
    let free = free(memory).into_iter();
    let mut copier = Copier { memory, free, changes, files: &files, stores: Vec::new() };
    let commit = (BOARD as u64 - 8, 8 * copier.inodes() + 1);
    Some(vec![copier.stores, vec![commit]])
}

impl Copier<'_> {
    /// Stores a free block whole.
    fn block(&mut self, words: [u64; 8]) -> u64 {
        let block = self.free.next().expect("a free block");
        self.stores.extend((8 * block..).zip(words));
        block
    }

    fn words(&self, block: u64) -> [u64; 8] {
        self.memory[8 * block as usize..][..8].try_into().unwrap()
    }

    /// The inode pointer block, with the leaves of all files that change.
    fn inodes(&mut self) -> u64 {
        let mut pointers = self.words(self.memory[BOARD - 8] / 8);
        for (number, pointer) in pointers.iter_mut().enumerate() {
            if self.changes.iter().any(|change| change.file / 4 == number as u64) {
                *pointer = 8 * self.leaf(*pointer / 8, 4 * number as u64);
            }
        }
        self.block(pointers)
    }

    fn leaf(&mut self, block: u64, first_file: u64) -> u64 {
        let mut words = self.words(block);
        for i in 0..4 {
            let file = first_file + i;
            if self.changes.iter().any(|change| change.file == file) {
                let root = 2 * i as usize;
                words[root] = self.root(file);
                words[root + 1] = self.files[file as usize].len() as u64;
            }
        }
        self.block(words)
    }

    fn root(&mut self, file: u64) -> u64 {
        let at = inode(self.memory, file) as usize;
        let (block, height, size) = (self.memory[at] / 8, self.memory[at] % 8, self.memory[at + 1]);
        let end = self.files[file as usize].len() as u64;
        assert!(end <= SPAN[height as usize], "a tree that would have to grow");
        8 * self.tree(file, block, height as usize, 0, size) + height
    }

    /// A copy of a tree that begins at an offset of the file, as far as bytes in it change. Before bytes past the end the
    /// last bytes are copied too, so that nothing old shows between.
    fn tree(&mut self, file: u64, block: u64, height: usize, first: u64, size: u64) -> u64 {
        let end = first + SPAN[height];
        let last = |c: &Change| block != 0 && c.offset > size && first < size && size <= end;
        let changes = |c: &Change| c.file == file && (c.offset < end && first < c.range().end || last(c));
        if !self.changes.iter().any(changes) {
            return block;
        }
        let mut words = [0; 8];
        for (j, word) in (0..).zip(words.iter_mut()) {
            if height == 0 {
                *word = word_of(&self.files[file as usize], first + 8 * j);
                continue;
            }
            let child = first + j * SPAN[height - 1];
            // What a pointer past the size holds means nothing.
            let old = if block != 0 && child < size { self.memory[(8 * block + j) as usize] / 8 } else { 0 };
            *word = 8 * self.tree(file, old, height - 1, child, size);
        }
        self.block(words)
    }
}
