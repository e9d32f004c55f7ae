//! The figures of the two layouts of boards: those of document 01, the house's, and N11's with the published block.

use crate::random::Random;

pub struct Layout {
    /// Words of a block. A pointer is so many times its block, plus low bits.
    pub block: u64,
    /// Fewest and most blocks of a board, and how many most boards here have.
    pub fewest: u64,
    pub most: u64,
    pub common: std::ops::Range<u64>,
    /// What a tree of each height spans, in bytes.
    pub spans: &'static [u64],
    /// Sizes of most files here are at most this.
    pub usual: u64,
    /// Inode leaves, and how many inodes each has.
    pub leaves: u64,
    pub inodes: u64,
    /// Trailer word 3.
    pub mark: u64,
    /// Pairs of format's plan.
    pub format_pairs: usize,
}

pub const HOUSE: Layout = Layout {
    block: 8,
    fewest: 16,
    most: 1024,
    common: 24..224,
    spans: &[64, 512, 4096, 32768],
    usual: 32768,
    leaves: 8,
    inodes: 4,
    mark: 1,
    format_pairs: 83,
};

pub const PUBLISHED: Layout = Layout {
    block: 512,
    fewest: 16,
    most: 512,
    common: 18..42,
    spans: &[4096, 2_097_152],
    usual: 32768,
    leaves: 1,
    inodes: 32,
    mark: 3,
    format_pairs: 1539,
};

impl Layout {
    /// A pointer; with the place of a word for the low bits it is the word's address.
    pub fn pointer(&self, block: u64, low: u64) -> u64 {
        self.block * block + low
    }

    pub fn block_of(&self, pointer: u64) -> u64 {
        pointer / self.block
    }

    pub fn low_of(&self, pointer: u64) -> u64 {
        pointer % self.block
    }

    /// Where the block of a pointer begins.
    pub fn start(&self, pointer: u64) -> usize {
        (pointer - self.low_of(pointer)) as usize
    }

    /// B.
    pub fn blocks(&self, board: &[u64]) -> u64 {
        board.len() as u64 / self.block
    }

    pub fn block_bytes(&self) -> u64 {
        self.spans[0]
    }

    /// What a tree under this root spans.
    pub fn span(&self, root: u64) -> u64 {
        self.spans[self.low_of(root) as usize]
    }

    pub fn greatest_height(&self) -> usize {
        self.spans.len() - 1
    }

    /// The greatest size of a file.
    pub fn greatest(&self) -> u64 {
        self.spans[self.greatest_height()]
    }

    /// Spans of trees that can grow.
    pub fn lower_spans(&self) -> &'static [u64] {
        &self.spans[..self.greatest_height()]
    }

    /// The least height whose span reaches a size within bounds.
    pub fn least_height(&self, size: u64) -> usize {
        self.spans.iter().position(|&span| size <= span).expect("a size within bounds")
    }

    // ---- Numbers

    /// As many blocks as a board may have, small boards more often.
    pub fn block_count(&self, random: &mut Random) -> u64 {
        match random.below(20) {
            0 => self.most,
            1 => self.fewest + random.below(self.most - self.fewest + 1),
            2..=4 => self.fewest,
            5..=8 => self.fewest + 1 + random.below(24),
            _ => self.common.start + random.below(self.common.end - self.common.start),
        }
    }

    /// Bytes of a few blocks, or of many.
    pub fn some_blocks(&self, random: &mut Random) -> u64 {
        let blocks = random.pick(&[3, 30]);
        1 + random.below(blocks * self.block_bytes())
    }

    /// What files are not to be larger than: in most cases the usual.
    pub fn largest(&self, random: &mut Random) -> u64 {
        random.pick(&[self.usual, self.usual, self.usual, self.greatest()])
    }

    /// Low bits of a pointer: those of heights that trees have, the next height, one bit, all bits, or any.
    pub fn low_bits(&self, random: &mut Random) -> u64 {
        let any = random.below(self.block);
        let heights = self.spans.len() as u64;
        random.pick(&[0, 1, heights, self.block / 2, self.block - 1, any])
    }

    /// The place of a word in a block: the first ones, the last ones, or any.
    pub fn index(&self, random: &mut Random) -> u64 {
        let any = random.below(self.block);
        random.pick(&[0, 1, 2, 3, 4, self.block - 2, self.block - 1, any])
    }
}
