//! The two kinds of boards. W, the words of a block, tells them apart; every other figure follows from it.

/// Words of the house's block, document 01's.
pub const HOUSE: usize = 8;
/// Words of the published block, N11's.
pub const PUBLISHED: usize = 512;

/// Blocks of a board of either kind, at most.
pub const BLOCKS: usize = 1024;

pub struct Layout<const W: usize>;

impl<const W: usize> Layout<W> {
    pub const WIDTH: u64 = W as u64;
    /// The layout, as word 3 of the trailer has it.
    pub const MARK: u64 = if W == HOUSE { 1 } else { 3 };
    const BLOCKS: usize = if W == HOUSE { BLOCKS } else { 512 };
    /// The greatest height.
    pub const TALLEST: u64 = if W == HOUSE { 3 } else { 1 };
    /// Size of a file, at most.
    pub const GREATEST: u64 = Self::span(Self::TALLEST);
    pub const LEAVES: u64 = if W == HOUSE { 8 } else { 1 };
    /// Files of a leaf.
    pub const FILES: u64 = 32 / Self::LEAVES;

    /// Bytes under a tree of a height; by a shift, so that divisions by it are shifts too.
    pub const fn span(height: u64) -> u64 {
        (8 * Self::WIDTH) << (W.trailing_zeros() as u64 * height)
    }

    pub fn word_count_fits(board: &[u64]) -> bool {
        (16 * W..=Self::BLOCKS * W).contains(&board.len()) && board.len() % W == 0
    }

    pub fn least_height(end: u64) -> u64 {
        (0..Self::TALLEST).find(|&height| end <= Self::span(height)).unwrap_or(Self::TALLEST)
    }

    /// The address of the pointer to the leaf of a file, on an accepted board.
    pub fn leaf_pointer(board: &[u64], file: u64) -> u64 {
        board[board.len() - W] / Self::WIDTH * Self::WIDTH + file / Self::FILES
    }

    /// The address of a file's root word, on an accepted board.
    pub fn inode(board: &[u64], file: u64) -> u64 {
        let leaf = board[Self::leaf_pointer(board, file) as usize] / Self::WIDTH;
        Self::WIDTH * leaf + 2 * (file % Self::FILES)
    }
}
