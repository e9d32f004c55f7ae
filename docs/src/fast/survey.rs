//! Whether a board is accepted, and the marks of its live blocks.

use crate::layout::{Layout, BLOCKS};

pub struct Survey<const W: usize> {
    live: [bool; BLOCKS],
    /// The trailer.
    top: u64,
}

/// Without an end at the first other word, so that several are looked at at once.
fn all_zero(words: &[u64]) -> bool {
    words.iter().fold(0, |bits, word| bits | word) == 0
}

impl<const W: usize> Survey<W> {
    /// The refusal where the board is not accepted.
    pub fn of(board: &[u64]) -> Result<Self, i64> {
        if !Layout::<W>::word_count_fits(board) {
            return Err(-1);
        }
        let blocks = board.len() as u64 / Layout::<W>::WIDTH;
        let trailer = &board[board.len() - W..];
        let (inodes, low) = (trailer[0] / Layout::<W>::WIDTH, trailer[0] % Layout::<W>::WIDTH);
        let figures = [512, blocks, Layout::<W>::MARK];
        if low != 1 || inodes == 0 || inodes >= blocks - 1 || trailer[1..4] != figures || !all_zero(&trailer[4..]) {
            return Err(-2);
        }
        let mut survey = Survey { live: [false; BLOCKS], top: blocks - 1 };
        let sound = survey.leaves(board, inodes) && (0..32).all(|file| survey.file(board, file));
        if sound {
            Ok(survey)
        } else {
            Err(-3)
        }
    }

    /// The free blocks, rising.
    pub fn free<'a>(&self, free: &'a mut [u64; BLOCKS]) -> &'a [u64] {
        let mut count = 0;
        for block in 1..self.top {
            if !self.live[block as usize] {
                free[count] = block;
                count += 1;
            }
        }
        &free[..count]
    }

    fn claim(&mut self, block: u64) -> bool {
        if block == 0 || block >= self.top || self.live[block as usize] {
            return false;
        }
        self.live[block as usize] = true;
        true
    }

    /// The inode pointer block and what it points to; its other words are 0.
    fn leaves(&mut self, board: &[u64], inodes: u64) -> bool {
        let words = &board[W * inodes as usize..][..W];
        let (pointers, spare) = words.split_at(Layout::<W>::LEAVES as usize);
        let mut sound = self.claim(inodes);
        for pointer in pointers {
            sound = sound && pointer % Layout::<W>::WIDTH == 0 && self.claim(pointer / Layout::<W>::WIDTH);
        }
        sound && all_zero(spare)
    }

    fn file(&mut self, board: &[u64], file: u64) -> bool {
        let at = Layout::<W>::inode(board, file) as usize;
        let (root, size) = (board[at], board[at + 1]);
        let (block, height) = (root / Layout::<W>::WIDTH, root % Layout::<W>::WIDTH);
        size <= Layout::<W>::GREATEST
            && (size == 0 || height <= Layout::<W>::TALLEST && self.crawl(board, height, block, size))
    }

    /// A tree of which so many bytes, at least 1, lie below the size.
    fn crawl(&mut self, board: &[u64], height: u64, block: u64, bytes: u64) -> bool {
        if block == 0 {
            return true;
        }
        if !self.claim(block) {
            return false;
        }
        if height == 0 {
            return true;
        }
        let mut rest = bytes;
        for pointer in &board[W * block as usize..][..W] {
            if rest == 0 {
                break;
            }
            let (below, low) = (pointer / Layout::<W>::WIDTH, pointer % Layout::<W>::WIDTH);
            if low != 0 || !self.crawl(board, height - 1, below, rest) {
                return false;
            }
            rest = rest.saturating_sub(Layout::<W>::span(height - 1));
        }
        true
    }
}
