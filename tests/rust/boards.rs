//! Boards to test with. Those that are laid here are accepted and look as no history of calls leaves them: holes, null
//! roots with a height, sizes above the span, and rubbish wherever a board may have any bits. Damage spoils one thing.

use crate::layout::Layout;
use crate::random::Random;

pub const FILES: u64 = 32;

/// Room for every plan: none has more pairs than the board has words.
pub fn room(board: &[u64]) -> usize {
    2 * board.len()
}

// ---- Laid boards

struct Maker<'a> {
    layout: &'a Layout,
    random: &'a mut Random,
    words: Vec<u64>,
    unused: Vec<u64>,
    /// So many blocks stay free.
    reserve: usize,
    /// One file in so many is empty.
    empty: u64,
    /// No file is larger.
    largest: u64,
}

impl Maker<'_> {
    fn rubbish(&mut self) -> u64 {
        self.layout.rubbish(self.random, self.layout.blocks(&self.words))
    }

    fn take(&mut self) -> u64 {
        if self.unused.len() <= self.reserve {
            return 0;
        }
        let at = self.random.below(self.unused.len() as u64) as usize;
        self.unused.swap_remove(at)
    }

    /// A tree of which `below` bytes, at least 1, lie below the size; one block in `holes` is left out.
    fn tree(&mut self, height: usize, below: u64, holes: u64) -> u64 {
        let block = if holes > 0 && self.random.one_in(holes) { 0 } else { self.take() };
        if block == 0 || height == 0 {
            return block;
        }
        for j in 0..self.layout.block {
            let start = j * self.layout.spans[height - 1];
            let pointer = if start < below {
                let child = self.tree(height - 1, below - start, holes);
                self.layout.pointer(child, 0)
            } else {
                self.rubbish()
            };
            self.words[self.layout.pointer(block, j) as usize] = pointer;
        }
        block
    }

    /// Root and size of a file.
    fn file(&mut self) -> (u64, u64) {
        if self.random.one_in(self.empty) {
            return (self.rubbish(), 0);
        }
        let height = self.random.pick(&[0, 0, 0, 1, 1, 2, 3]).min(self.layout.greatest_height());
        let size = self.file_size(height);
        let holes = self.random.pick(&[0, 0, 1, 2, 3, 10]);
        let block = self.tree(height, size, holes);
        (self.layout.pointer(block, height as u64), size)
    }

    /// A size of 1 or more for a tree of this height, at and around the spans, sometimes above its own.
    fn file_size(&mut self, height: usize) -> u64 {
        let (layout, random) = (self.layout, &mut *self.random);
        let span = layout.spans[height];
        let step = span / layout.block;
        let size = match random.below(7) {
            0 => 1 + random.below(self.largest),
            1 => random.pick(layout.spans) + random.below(3) - 1,
            2 => span - random.below(9).min(span - 1),
            3 => span + 1 + random.below(3 * span),
            4 => step * (1 + random.below(layout.block.min(layout.usual / step))) + random.below(2),
            _ => 1 + random.below(span.min(layout.usual)),
        };
        size.clamp(1, self.largest)
    }
}

impl Layout {
    /// Bits for a word that decides nothing on a board of so many blocks: any, or a pointer that would do harm if it were
    /// followed.
    pub fn rubbish(&self, random: &mut Random, blocks: u64) -> u64 {
        match random.below(4) {
            0 => random.word(),
            1 => self.pointer(random.below(blocks + 2), 0),
            2 => self.pointer(random.below(blocks), self.low_bits(random)),
            _ => random.pick(&[0, 1, u64::MAX, 1 << 63]),
        }
    }

    /// Stores the trailer, and the inode pointer block with these pointers.
    fn put_top(&self, words: &mut [u64], pointer_block: u64, pointers: &[u64]) {
        let blocks = self.blocks(words);
        self.put_block(words, blocks - 1, &[self.pointer(pointer_block, 1), 512, blocks, self.mark]);
        self.put_block(words, pointer_block, pointers);
    }

    /// Stores a block that begins with these words; the others are 0.
    fn put_block(&self, words: &mut [u64], block: u64, first: &[u64]) {
        let stored = &mut words[self.pointer(block, 0) as usize..][..self.block as usize];
        stored.fill(0);
        stored[..first.len()].copy_from_slice(first);
    }

    fn pointers(&self, blocks: &[u64]) -> Vec<u64> {
        blocks.iter().map(|&block| self.pointer(block, 0)).collect()
    }

    /// An accepted board, its blocks in any order, with rubbish in block 0 and in every free block.
    pub fn laid(&self, random: &mut Random, blocks: u64) -> Vec<u64> {
        let empty = random.pick(&[1, 2, 3, 10]);
        let largest = self.largest(random);
        let words = (0..self.block * blocks).map(|_| self.rubbish(random, blocks)).collect();
        let unused = (1..blocks - 1).collect();
        let mut maker = Maker { layout: self, random, words, unused, reserve: 0, empty, largest };
        let pointer_block = maker.take();
        let leaves: Vec<u64> = (0..self.leaves).map(|_| maker.take()).collect();
        let share = maker.random.pick(&[0, 1, 2, 4, 6]);
        maker.reserve = maker.unused.len() * share / 8;
        for f in 0..FILES {
            let (root, size) = maker.file();
            let at = self.pointer(leaves[(f / self.inodes) as usize], 2 * (f % self.inodes)) as usize;
            (maker.words[at], maker.words[at + 1]) = (root, size);
        }
        self.put_top(&mut maker.words, pointer_block, &self.pointers(&leaves));
        maker.words
    }

    /// A board of 32 empty files over rubbish, as format leaves it.
    pub fn bare(&self, random: &mut Random, blocks: u64) -> Vec<u64> {
        let mut words: Vec<u64> = (0..self.block * blocks).map(|_| random.word()).collect();
        let leaves: Vec<u64> = (2..2 + self.leaves).collect();
        for &leaf in &leaves {
            self.put_block(&mut words, leaf, &[]);
        }
        self.put_top(&mut words, 1, &self.pointers(&leaves));
        words
    }
}

// ---- Walks

impl Layout {
    /// The address of the trailer.
    pub fn trailer(&self, board: &[u64]) -> usize {
        board.len() - self.block as usize
    }

    /// The address of the inode pointer block.
    pub fn pointer_block(&self, board: &[u64]) -> usize {
        self.start(board[self.trailer(board)])
    }

    fn inode_pointers<'a>(&self, board: &'a [u64]) -> &'a [u64] {
        &board[self.pointer_block(board)..][..self.leaves as usize]
    }

    /// The address of a file's root word on an accepted board; the size follows it.
    pub fn inode(&self, board: &[u64], file: u64) -> usize {
        let leaf = self.inode_pointers(board)[(file / self.inodes) as usize];
        self.start(leaf) + 2 * (file % self.inodes) as usize
    }

    pub fn root_and_size(&self, board: &[u64], file: u64) -> (u64, u64) {
        let at = self.inode(board, file);
        (board[at], board[at + 1])
    }

    /// The blocks on the path to a byte below the size, from the root's on, as far as they exist.
    pub fn path(&self, board: &[u64], file: u64, byte: u64) -> Vec<u64> {
        let root = board[self.inode(board, file)];
        let mut height = self.low_of(root) as usize;
        let mut block = if byte < self.span(root) { self.block_of(root) } else { 0 };
        let mut found = Vec::new();
        while block != 0 {
            found.push(block);
            if height == 0 {
                break;
            }
            height -= 1;
            let index = byte / self.spans[height] % self.block;
            block = self.block_of(board[self.pointer(block, index) as usize]);
        }
        found
    }

    /// The data block with a byte below the size, or nothing where the byte is in a hole.
    pub fn data_block(&self, board: &[u64], file: u64, byte: u64) -> Option<u64> {
        let path = self.path(board, file, byte);
        let height = self.low_of(board[self.inode(board, file)]);
        path.get(height as usize).copied()
    }

    /// The addresses of the live pointers of a tree.
    fn live_pointers(&self, board: &[u64], height: u64, block: u64, below: u64, found: &mut Vec<usize>) {
        if height == 0 || block == 0 {
            return;
        }
        for j in 0..self.block {
            let start = j * self.spans[height as usize - 1];
            if start < below {
                let at = self.pointer(block, j) as usize;
                found.push(at);
                self.live_pointers(board, height - 1, self.block_of(board[at]), below - start, found);
            }
        }
    }

    /// The addresses of all live roots and file pointers of an accepted board.
    pub fn all_live_pointers(&self, board: &[u64]) -> Vec<usize> {
        let mut found = Vec::new();
        for file in 0..FILES {
            let (root, size) = self.root_and_size(board, file);
            if size > 0 {
                found.push(self.inode(board, file));
                self.live_pointers(board, self.low_of(root), self.block_of(root), size, &mut found);
            }
        }
        found
    }

    /// The blocks that live roots and file pointers of an accepted board lead to, 0 for a null one.
    pub fn live_blocks(&self, board: &[u64]) -> Vec<u64> {
        self.all_live_pointers(board).into_iter().map(|at| self.block_of(board[at])).collect()
    }
}

// ---- Damage

impl Layout {
    /// What a pointer may be spoilt to: null, low bits, the trailer, off the board, block 0 with low bits, another block.
    fn spoilt(&self, random: &mut Random, board: &[u64], old: u64) -> u64 {
        let (blocks, low) = (self.blocks(board), self.low_of(old));
        match random.below(8) {
            0 => 0,
            1 => self.pointer(self.block_of(old), self.low_bits(random)),
            2 => self.pointer(blocks - 1, low),
            3 => self.pointer(blocks + random.below(3), low),
            4 => (1 << 63) | old,
            5 => self.low_bits(random),
            6 => random.word(),
            _ => self.pointer(random.below(blocks), low),
        }
    }

    fn spoil_size(&self, random: &mut Random, board: &mut [u64]) {
        let at = self.inode(board, random.below(FILES)) + 1;
        let (greatest, bytes) = (self.greatest(), self.block_bytes());
        board[at] = random.pick(&[greatest + 1, greatest, 2 * greatest, 1 << 32, 1 << 63, u64::MAX, 1, bytes]);
    }

    fn spoil_length(&self, random: &mut Random, board: &mut Vec<u64>) {
        let (end, block) = (board.len(), self.block as usize);
        let (low, high) = ((self.fewest * self.block) as usize, (self.most * self.block) as usize);
        let near = [end - block, end - 1, end + 1, end + block];
        let few = [0, 1, block, low - block - 1, low - block, low - 1, low, low + block];
        let many = [high - block, high - 1, high, high + 1, high + block];
        let length = if random.one_in(2) { random.pick(&near) } else { random.pick(&[&few[..], &many].concat()) };
        board.resize(length, 0);
    }

    fn spoil_trailer(&self, random: &mut Random, board: &mut [u64]) {
        let at = self.trailer(board) + self.index(random) as usize;
        let step = random.pick(&[1, 2, self.block, u64::MAX]);
        board[at] = if random.one_in(2) { board[at].wrapping_add(step) } else { self.spoilt(random, board, board[at]) };
    }

    /// A word of the inode pointer block, the spare ones included, any word, or a live root or pointer.
    fn spoil_pointer(&self, random: &mut Random, board: &mut [u64]) {
        let live = self.all_live_pointers(board);
        let at = match random.below(5) {
            0 => self.pointer_block(board) + self.index(random) as usize,
            1 => random.below(board.len() as u64) as usize,
            _ if live.is_empty() => return,
            _ => random.pick(&live),
        };
        board[at] = self.spoilt(random, board, board[at]);
    }

    /// Spoils one thing of an accepted board. Some of this leaves it accepted.
    pub fn damage(&self, random: &mut Random, board: &mut Vec<u64>) {
        match random.below(6) {
            0 => self.spoil_trailer(random, board),
            1 => self.spoil_size(random, board),
            2 => self.spoil_length(random, board),
            _ => self.spoil_pointer(random, board),
        }
    }

    /// Leaves the inode root or inode pointers of an accepted board null, with any low bits.
    pub fn null_inodes(&self, random: &mut Random, board: &mut [u64]) {
        let (trailer, pointers) = (self.trailer(board), self.pointer_block(board));
        if random.one_in(3) {
            board[trailer] = self.low_bits(random);
            return;
        }
        for pointer in &mut board[pointers..][..self.leaves as usize] {
            if random.one_in(2) {
                *pointer = self.low_bits(random);
            }
        }
    }

    /// So many words of which nothing is known.
    pub fn hostile(&self, random: &mut Random, words: usize) -> Vec<u64> {
        let blocks = words as u64 / self.block + 1;
        (0..words).map(|_| self.rubbish(random, blocks)).collect()
    }

    /// A good trailer, and an inode pointer block whose spare words are 0, over words of which nothing else is known.
    pub fn unknown(&self, random: &mut Random, blocks: u64) -> Vec<u64> {
        let half = self.block / 2;
        let any = |random: &mut Random| random.pick(&[0, 1, 2, 3]) * half * random.below(2 * blocks);
        let mut words: Vec<u64> = (0..self.block * blocks).map(|_| any(random)).collect();
        let pointer_block = 1 + random.below(blocks - 2);
        let pointers: Vec<u64> = (0..self.leaves).map(|_| any(random)).collect();
        self.put_top(&mut words, pointer_block, &pointers);
        words
    }
}

pub fn image_of(board: &[u64]) -> Vec<u8> {
    board.iter().flat_map(|word| word.to_le_bytes()).collect()
}
