//! The board: its layout, the trees of its files, which blocks are live, whether it is accepted, and what a file
//! reads as. Functions that take a file's inode or tree expect an accepted board, unless they say otherwise.

use std::ops::RangeInclusive;

/// "File f (0 to 31)." N11: "Files number 32 in one leaf."
pub const FILES: u64 = 32;
/// Bytes of a word.
pub const WORD_BYTES: u64 = 8;
/// Low bits of the inode root.
pub const INODE_ROOT_LOW: u64 = 1;
/// "Word 1 is 512 (bytes of inodes)." N11: "trailer word 1 stays 512."
const INODE_BYTES: u64 = 512;

/// The figures in which boards differ. All else is the same for each layout.
pub struct Layout {
    /// Words of a block. A pointer is so many times the block, plus low bits below this number.
    pub block_words: u64,
    /// Fewest and most blocks of a board.
    pub blocks: RangeInclusive<u64>,
    /// Greatest height of a file's tree.
    pub greatest_height: u64,
    /// Greatest size of a file, in bytes.
    pub greatest_size: u64,
    /// Inode leaves, each with a pointer of its own in the inode pointer block.
    pub leaves: u64,
    /// Inodes of a leaf, of two words each.
    pub leaf_inodes: u64,
    /// Word 3 of the trailer, "the layout".
    pub mark: u64,
}

/// The boards of document 01. "The board is lent as a slice of 64-bit words, 128 to 8,192 of them, a multiple of 8.
/// Eight words are a block; B is the number of blocks (16 to 1,024)." The inode pointer block's "eight words point to
/// eight inode leaves", "a leaf has four inodes of two words", "height 0 to 3", "sizes are in bytes, at most 32,768".
pub const HOUSE: Layout = Layout {
    block_words: 8,
    blocks: 16..=1_024,
    greatest_height: 3,
    greatest_size: 32_768,
    leaves: 8,
    leaf_inodes: 4,
    mark: 1,
};

/// N11's boards: "A new board has 16 to 512 blocks of 512 words (4 KiB)." "A pointer is 512 times the block plus the
/// height, heights are 0 and 1, and files go up to 2,097,152 bytes. Files number 32 in one leaf", "word 3 is 3".
pub const PUBLISHED: Layout = Layout {
    block_words: 512,
    blocks: 16..=512,
    greatest_height: 1,
    greatest_size: 2_097_152,
    leaves: 1,
    leaf_inodes: 32,
    mark: 3,
};

impl Layout {
    /// A block in bytes, eight to a word.
    pub fn block_bytes(&self) -> u64 {
        WORD_BYTES * self.block_words
    }

    /// "Block k begins at word 8 × k": the address of a word of a block.
    pub fn address(&self, block: u64, index: u64) -> u64 {
        self.block_words * block + index
    }

    /// "A file's root word is 8 × block + height", the inode root "8 × (block of the inode pointer block) + 1". "Other
    /// pointers are 8 × block."
    pub fn pointer(&self, block: u64, low: u64) -> u64 {
        self.address(block, 0) + low
    }

    /// The block of a pointer.
    pub fn block_of(&self, pointer: u64) -> u64 {
        pointer / self.block_words
    }

    /// The low bits of a pointer.
    pub fn low_of(&self, pointer: u64) -> u64 {
        pointer % self.block_words
    }

    /// "A tree of height h spans 64, 512, 4,096 or 32,768 bytes for h = 0 to 3."
    pub fn span(&self, height: u64) -> u64 {
        self.block_bytes() * self.block_words.pow(height as u32)
    }

    /// The least height whose span holds `end` bytes, for `end` up to the greatest size. After N4 it still goes by spans:
    /// the library compared with chooses by the bands, so the comparison shows "that no plan changes".
    pub fn least_height(&self, end: u64) -> u64 {
        (0..self.greatest_height).find(|&height| end <= self.span(height)).unwrap_or(self.greatest_height)
    }
}

/// N4: "our bench sheet prints four bands, 0 to 64, 65 to 512, 513 to 4,096 and 4,097 to 32,768 bytes." The first and
/// the last size of each; a band's place in the table, from 0, is its height on the boards of document 01.
pub const BANDS: [(u64, u64); 4] = [(0, 64), (65, 512), (513, 4_096), (4_097, 32_768)];

/// N4: "Have the program choose by those bands": the height of a size; `None` for a size that lies in no band.
pub fn height_by_bands(size: u64) -> Option<u64> {
    let place = BANDS.iter().position(|&(first, last)| (first..=last).contains(&size));
    place.map(|height| height as u64)
}

/// A lent board.
#[derive(Clone, Copy)]
pub struct Board<'a> {
    /// The layout that the call is for, whatever the words hold.
    pub layout: &'static Layout,
    /// Its words.
    pub words: &'a [u64],
}

/// Whether so many words are whole blocks, and as many as a board may have. For any board.
pub fn word_count_fits(board: Board) -> bool {
    board.words.len() as u64 % board.layout.block_words == 0 && board.layout.blocks.contains(&block_count(board))
}

/// B, the number of blocks. For any board.
pub fn block_count(board: Board) -> u64 {
    board.words.len() as u64 / board.layout.block_words
}

/// Word `index` of a block. "Block number 0 means null: a hole, all zeros", and "what it holds decides no answer", so
/// its words aren't looked at. For any board: words off it are 0 too.
pub fn word(board: Board, block: u64, index: u64) -> u64 {
    if block == 0 {
        return 0;
    }
    board.words.get(board.layout.address(block, index) as usize).copied().unwrap_or(0)
}

/// The words of a block.
pub fn words(board: Board, block: u64) -> Vec<u64> {
    (0..board.layout.block_words).map(|index| word(board, block, index)).collect()
}

/// "Byte i of a word (0 to 7) is its value / 256^i mod 256": the byte of a block that stands for a byte of a file, if the
/// block holds data.
pub fn byte(board: Board, block: u64, position: u64) -> u8 {
    let index = position % board.layout.block_bytes();
    word(board, block, index / WORD_BYTES).to_le_bytes()[(index % WORD_BYTES) as usize]
}

/// The words of the trailer after the first: "word 1 is 512 (bytes of inodes), word 2 is B, word 3 is 1 (the layout),
/// words 4 to 7 are 0." N11: "word 3 is 3 and words 4 to 511 are 0."
pub fn trailer_rest(board: Board) -> Vec<u64> {
    let mut rest = vec![INODE_BYTES, block_count(board), board.layout.mark];
    rest.resize(board.layout.block_words as usize - 1, 0);
    rest
}

/// The blocks that a pointer which isn't null may have: 1 to B − 2.
fn in_range(board: Board, block: u64) -> bool {
    1 <= block && block <= block_count(board) - 2
}

/// "Any of the trailer's eight words, word 0 included, whose block must lie in 1 to B − 2 and whose low three bits
/// must be 1." For any board whose word count fits.
pub fn trailer_fits(board: Board) -> bool {
    let trailer = words(board, block_count(board) - 1);
    board.layout.low_of(trailer[0]) == INODE_ROOT_LOW
        && in_range(board, board.layout.block_of(trailer[0]))
        && trailer[1..] == trailer_rest(board)
}

/// The inode pointer block. For any board: of one block or none the trailer would be block 0, all zeros.
fn inode_pointer_block(board: Board) -> u64 {
    board.layout.block_of(word(board, block_count(board).saturating_sub(1), 0))
}

/// A file's root and size, and where they are stored.
#[derive(Clone, Copy)]
pub struct Inode {
    /// The board's layout.
    pub layout: &'static Layout,
    /// Address of the inode pointer to the leaf.
    pub pointer_address: u64,
    /// The inode leaf.
    pub leaf: u64,
    /// Place of the root word in the leaf; the size is the next word.
    pub index: u64,
    /// The root word.
    pub root: u64,
    /// The file's size.
    pub size: u64,
}

impl Inode {
    /// Address of the root word.
    pub fn root_address(self) -> u64 {
        self.layout.address(self.leaf, self.index)
    }

    /// Address of the size.
    pub fn size_address(self) -> u64 {
        self.layout.address(self.leaf, self.index + 1)
    }

    /// The tree under the root word, for a live root. "A file's root word is 8 × block + height."
    pub fn tree(self) -> Subtree {
        let (block, height) = (self.layout.block_of(self.root), self.layout.low_of(self.root));
        Subtree { layout: self.layout, block, height, start: 0 }
    }
}

/// "File f (0 to 31) is inode f mod 4 of leaf f / 4." For any board, whose root may have any height that the low bits
/// hold and whose size may be any word; low bits of the inode root and of inode pointers aren't looked at.
pub fn inode(board: Board, file: u64) -> Inode {
    let layout = board.layout;
    let pointer_block = inode_pointer_block(board);
    let pointer_index = file / layout.leaf_inodes;
    let leaf = layout.block_of(word(board, pointer_block, pointer_index));
    let index = 2 * (file % layout.leaf_inodes);
    Inode {
        layout,
        pointer_address: layout.address(pointer_block, pointer_index),
        leaf,
        index,
        root: word(board, leaf, index),
        size: word(board, leaf, index + 1),
    }
}

/// A part of a file's tree: its block (0 where it is a hole), its height, and the first byte of its span.
#[derive(Clone, Copy)]
pub struct Subtree {
    /// The board's layout.
    pub layout: &'static Layout,
    /// Block number; "block number 0 means null: a hole, all zeros".
    pub block: u64,
    /// Height; at 0 the block holds data.
    pub height: u64,
    /// First byte of the span.
    pub start: u64,
}

impl Subtree {
    /// Address of a word of the block.
    pub fn address(self, index: u64) -> u64 {
        self.layout.address(self.block, index)
    }

    /// The byte after the span.
    pub fn end(self) -> u64 {
        self.start + self.layout.span(self.height)
    }

    /// First byte of the span of pointer `index`, at height 1 or more.
    pub fn first(self, index: u64) -> u64 {
        self.start + index * self.layout.span(self.height - 1)
    }

    /// The pointer that leads to a byte of the span, at height 1 or more.
    pub fn index_over(self, byte: u64) -> u64 {
        (byte - self.start) / self.layout.span(self.height - 1)
    }

    /// What lies under pointer `index`; a hole if this block is null or the pointer isn't live in a file of `size`.
    pub fn below(self, board: Board, index: u64, size: u64) -> Subtree {
        let start = self.first(index);
        let live = self.block != 0 && start < size;
        let block = if live { self.layout.block_of(word(board, self.block, index)) } else { 0 };
        Subtree { block, height: self.height - 1, start, ..self }
    }
}

/// The live blocks of a board whose trailer fits, by block number; `None` if the board isn't accepted.
pub fn live_blocks(board: Board) -> Option<Vec<bool>> {
    let mut live = vec![false; block_count(board) as usize];
    let pointer_block = inode_pointer_block(board);
    reach(board, &mut live, pointer_block)?;
    let words = words(board, pointer_block);
    let (pointers, spare) = words.split_at(board.layout.leaves as usize);
    for &pointer in pointers {
        reach_by_pointer(board, &mut live, pointer)?;
    }
    // N11: "the inode pointer block's other words are 0", and "3 includes a non-zero spare inode pointer".
    if spare.iter().any(|&pointer| pointer != 0) {
        return None;
    }
    for file in 0..FILES {
        reach_file(board, &mut live, inode(board, file))?;
    }
    Some(live)
}

/// Marks a block live; `None` if it is out of range or was reached before.
fn reach(board: Board, live: &mut [bool], block: u64) -> Option<()> {
    if !in_range(board, block) || live[block as usize] {
        return None;
    }
    live[block as usize] = true;
    Some(())
}

/// Reaches the leaf of an inode pointer, which is never null and has low bits 0. Words of a leaf past its inodes aren't
/// looked at. N11: "Leaf words from 64 on may hold anything".
fn reach_by_pointer(board: Board, live: &mut [bool], pointer: u64) -> Option<()> {
    if board.layout.low_of(pointer) != 0 {
        return None;
    }
    reach(board, live, board.layout.block_of(pointer))
}

/// Reaches the live blocks of one file; `None` if the size is out of range, or a live root or pointer isn't as
/// demanded.
fn reach_file(board: Board, live: &mut [bool], inode: Inode) -> Option<()> {
    if inode.size > board.layout.greatest_size {
        return None;
    }
    if inode.size == 0 {
        return Some(()); // The root isn't live and may hold any bits.
    }
    if inode.tree().height > board.layout.greatest_height {
        return None;
    }
    reach_tree(board, live, inode.tree(), inode.size)
}

/// Reaches a subtree under a live pointer. The height falls by one at each pointer followed, so this ends on any
/// board, cyclic pointers included.
fn reach_tree(board: Board, live: &mut [bool], tree: Subtree, size: u64) -> Option<()> {
    if tree.block == 0 {
        return Some(());
    }
    reach(board, live, tree.block)?;
    if tree.height == 0 {
        return Some(());
    }
    for index in (0..board.layout.block_words).filter(|&index| tree.first(index) < size) {
        if board.layout.low_of(word(board, tree.block, index)) != 0 {
            return None;
        }
        reach_tree(board, live, tree.below(board, index, size), size)?;
    }
    Some(())
}

/// "A free block is any of 1 to B − 2 that isn't live." Rising.
pub fn free_blocks(board: Board) -> Vec<u64> {
    let live = live_blocks(board).unwrap_or_default();
    (1..block_count(board) - 1).filter(|&block| live.get(block as usize) == Some(&false)).collect()
}

/// N1: "every live block of the file, data and pointers", found by walking its tree. It marks as `live_blocks` does,
/// but this file's blocks alone, so the inode pointer block and the inode leaves aren't among them.
pub fn held_count(board: Board, inode: Inode) -> u64 {
    let mut held = vec![false; block_count(board) as usize];
    let reached = reach_file(board, &mut held, inode); // Never `None` on an accepted board.
    reached.map_or(0, |()| held.iter().filter(|&&marked| marked).count() as u64)
}

/// Where the walk to a byte ends.
#[derive(Clone, Copy)]
pub enum Place {
    /// At the data block of this number.
    Block(u64),
    /// In a hole, whose bytes are 0.
    Hole,
}

/// The walk to a byte of a file, on any board of document 01's layout. "It starts at the root word; a byte past the
/// span, or under a pointer that isn't live, is in a hole." A block off the board ends it as any other, if it is reached
/// at height 0.
pub fn walk(board: Board, inode: Inode, byte: u64) -> Place {
    if inode.size == 0 || byte >= inode.tree().end() {
        return Place::Hole;
    }
    let mut tree = inode.tree();
    while tree.height > 0 {
        tree = tree.below(board, tree.index_over(byte), inode.size);
    }
    if tree.block == 0 {
        Place::Hole
    } else {
        Place::Block(tree.block)
    }
}

/// N6, of the walk to a byte of a file: "how many blocks it visited, the data block included and a hole not counted".
/// On any board of document 01's layout. "A pointer that isn't live counts as a hole", as a null one does: the blocks
/// above it count. To a byte past the span no block is visited.
pub fn visited(board: Board, inode: Inode, byte: u64) -> u64 {
    let mut tree = inode.tree();
    if tree.start >= inode.size || tree.end() <= byte {
        return 0;
    }
    let mut count = 0;
    while tree.block != 0 {
        count += 1;
        if tree.height == 0 {
            break;
        }
        tree = tree.below(board, tree.index_over(byte), inode.size);
    }
    count
}

/// The byte of a file at a place below its size. For a run of bytes that lie in one block, `place` is the same.
pub fn byte_at(board: Board, place: Place, position: u64) -> u8 {
    match place {
        Place::Block(block) => byte(board, block, position),
        Place::Hole => 0,
    }
}
