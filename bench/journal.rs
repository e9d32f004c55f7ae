//! A redo journal on the same board. Words that no file shows yet are stored at once, the others first to the journal.
//!
//! The journal stands in the words after the board: a commit word and two areas that transactions take in turn. An
//! entry is a word with address and count, then as many values for the words from that address on. A transaction has
//! three epochs: entries and hidden stores; the commit word; the stores in place. The next one fills the other area,
//! so the commit word is never cleared: until it changes, the last transaction can be replayed.

use crate::board::{accepted, after, free, inode, word_of, Change, BOARD, SPAN};
use std::collections::BTreeMap;
use std::ops::Range;
use support::stores::{Epochs, Store};

const COMMIT: usize = BOARD;
const AREA: usize = 1000;

fn area(parity: u64) -> usize {
    BOARD + 8 + AREA * parity as usize
}

/// What a transaction stores. Words of the board are read through both maps.
struct Transaction<'a> {
    memory: &'a [u64],
    free: std::vec::IntoIter<u64>,
    hidden: BTreeMap<u64, u64>,
    visible: BTreeMap<u64, u64>,
}

/// Everything that is overwritten goes through the journal.
pub fn plan(memory: &[u64], changes: &[Change]) -> Option<Epochs> {
    Some(epochs(memory, changes, false))
}

/// Blocks that are overwritten whole go to free blocks, and only their pointers through the journal.
pub fn plan_of_pointers(memory: &[u64], changes: &[Change]) -> Option<Epochs> {
    Some(epochs(memory, changes, true))
}

fn epochs(memory: &[u64], changes: &[Change], move_blocks: bool) -> Epochs {
    let free = free(memory).into_iter();
    let mut transaction = Transaction { memory, free, hidden: BTreeMap::new(), visible: BTreeMap::new() };
    let files = after(&accepted(memory), changes);
    for change in changes {
        transaction.write(change, &files[change.file as usize], move_blocks);
    }
    transaction.into_epochs()
}

impl Transaction<'_> {
    fn word(&self, at: u64) -> u64 {
        let stored = self.visible.get(&at).or(self.hidden.get(&at));
        stored.copied().unwrap_or(self.memory[at as usize])
    }

    fn fresh(&mut self) -> u64 {
        self.free.next().expect("a free block")
    }

    fn write(&mut self, change: &Change, new: &[u8], move_blocks: bool) {
        let inode = inode(self.memory, change.file);
        let (size, range) = (self.memory[inode as usize + 1], change.range());
        assert!(range.end <= SPAN[(self.memory[inode as usize] % 8) as usize], "a tree that would have to grow");
        if range.start > size {
            self.clear(inode, (self.memory[inode as usize] % 8) as usize, 0, size..range.start);
        }
        for first in (range.start / 64 * 64..range.end).step_by(64) {
            let whole = range.start <= first && first + 64 <= range.end.min(size);
            let pointer = self.pointer(inode, first, size);
            if whole && move_blocks {
                self.moved(pointer, first, new);
                continue;
            }
            let block = self.word(pointer) / 8;
            // A fresh block is shown from its first byte on.
            let from = if first < size { first.max(range.start / 8 * 8) } else { first };
            for offset in (from..range.end.min(first + 64)).step_by(8) {
                let shown = offset.max(range.start) < size;
                let words = if shown { &mut self.visible } else { &mut self.hidden };
                words.insert(8 * block + (offset - first) / 8, word_of(new, offset));
            }
        }
        if range.end > size {
            self.visible.insert(inode + 1, range.end);
        }
    }

    /// Bytes between the size and a place past it are to read 0: words of the last data block, and pointers that lead
    /// to no byte after the gap. `at` is the pointer to a tree that begins at `first`.
    fn clear(&mut self, at: u64, height: usize, first: u64, gap: Range<u64>) {
        if first >= gap.start {
            if first + SPAN[height] <= gap.end {
                self.hidden.insert(at, 0);
            }
            return;
        }
        let block = self.word(at) / 8;
        assert!(block != 0, "a hole");
        if height == 0 {
            for offset in (gap.start / 8 * 8..gap.end.min(first + 64)).step_by(8) {
                let kept = (1 << (8 * gap.start.saturating_sub(offset))) - 1;
                let place = 8 * block + (offset - first) / 8;
                self.hidden.insert(place, self.word(place) & kept);
            }
            return;
        }
        for j in 0..8 {
            let child = first + j * SPAN[height - 1];
            if child < gap.end && gap.start < child + SPAN[height - 1] {
                self.clear(8 * block + j, height - 1, child, gap.clone());
            }
        }
    }

    /// The address of the pointer to the data block of an offset. A pointer past the size gets a free block, and in it
    /// the pointers before the offset are null.
    fn pointer(&mut self, inode: u64, offset: u64, size: u64) -> u64 {
        let (mut at, mut first) = (inode, 0);
        let mut height = (self.word(inode) % 8) as usize;
        loop {
            let taken = first >= size && !self.hidden.contains_key(&at);
            if taken {
                let low = if at == inode { height as u64 } else { 0 };
                let block = self.fresh();
                self.hidden.insert(at, 8 * block + low);
            }
            let block = self.word(at) / 8;
            assert!(block != 0, "a hole");
            if height == 0 {
                return at;
            }
            height -= 1;
            let child = (offset - first) / SPAN[height];
            at = 8 * block + child;
            first += child * SPAN[height];
            if taken {
                self.hidden.extend((8 * block..at).map(|before| (before, 0)));
            }
        }
    }

    fn moved(&mut self, pointer: u64, first: u64, new: &[u8]) {
        let block = self.fresh();
        self.visible.insert(pointer, 8 * block + self.word(pointer) % 8);
        for i in 0..8 {
            self.hidden.insert(8 * block + i, word_of(new, first + 8 * i));
        }
    }

    fn into_epochs(self) -> Epochs {
        let commit = self.memory[COMMIT];
        let parity = 1 - commit % 2;
        let entries = entries(&self.visible);
        assert!(entries.len() <= AREA, "the journal is too short");
        let mut first: Vec<Store> = self.hidden.into_iter().collect();
        first.extend((area(parity) as u64..).zip(entries.iter().copied()));
        let commit = (COMMIT as u64, 2 * entries.len() as u64 + parity);
        vec![first, vec![commit], self.visible.into_iter().collect()]
    }
}

/// Words that follow each other are one entry.
fn entries(words: &BTreeMap<u64, u64>) -> Vec<u64> {
    let (mut entries, mut header, mut next) = (Vec::new(), 0, 0);
    for (&at, &value) in words {
        if at != next {
            header = entries.len();
            entries.push(at << 16);
        }
        entries[header] += 1;
        entries.push(value);
        next = at + 1;
    }
    entries
}

/// After a power cut: performs the last committed transaction again.
pub fn recover(memory: &mut [u64]) {
    let (mut at, commit) = (area(memory[COMMIT] % 2), memory[COMMIT]);
    let end = at + (commit / 2) as usize;
    while at < end {
        let (first, count) = ((memory[at] >> 16) as usize, (memory[at] & 0xffff) as usize);
        if first + count > BOARD || at + count >= end {
            return; // no entry: only a journal without barriers comes to this
        }
        memory.copy_within(at + 1..at + 1 + count, first);
        at += 1 + count;
    }
}
