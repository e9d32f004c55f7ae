//! Plans: what a write, a length change and a format would store, as a list of epochs. Nothing here tests the room in
//! the plan slice; a write for which the free blocks don't suffice has no plan. Write and length change expect an
//! accepted board, a file number up to 31, and an end or length up to the greatest size.

use crate::board::{
    block_count, byte, free_blocks, inode, trailer_rest, walk, words, Board, Inode, Layout, Place, Subtree,
    INODE_ROOT_LOW, WORD_BYTES,
};

/// One store: address and value.
pub type Store = (u64, u64);
/// Stores that may arrive in any order.
pub type Epoch = Vec<Store>;
/// Epochs in order; a barrier stands between each and the next.
pub type Plan = Vec<Epoch>;

/// A store, after the first file byte that it stands for.
type Placed = (u64, Store);

/// Address of a barrier.
pub const BARRIER: u64 = u64::MAX;

/// The pairs of a plan. "The pair (2^64 − 1, 0) is a barrier and ends an epoch; none stands first or last."
pub fn pairs(plan: &[Epoch]) -> Vec<Store> {
    plan.join(&(BARRIER, 0))
}

/// Performs all stores of a plan on the words of a board.
fn perform_all(words: &mut [u64], plan: &[Epoch]) {
    for &(address, value) in plan.iter().flatten() {
        words[address as usize] = value;
    }
}

/// The word whose first file byte is `first`, from the value of each byte of the file.
fn word_of(first: u64, byte_at: impl Fn(u64) -> u8) -> u64 {
    u64::from_le_bytes(std::array::from_fn(|index| byte_at(first + index as u64)))
}

/// "Then other stores by the first file byte they stand for."
fn in_file_order(mut stores: Vec<Placed>) -> Vec<Store> {
    stores.sort_by_key(|&(first, _)| first);
    stores.into_iter().map(|(_, store)| store).collect()
}

/// The fresh blocks of a plan: those still to be taken, and the stores that fill those taken.
struct Fresh {
    layout: &'static Layout,
    free: std::vec::IntoIter<u64>,
    stores: Vec<Store>,
}

impl Fresh {
    fn of(board: Board) -> Fresh {
        Fresh { layout: board.layout, free: free_blocks(board).into_iter(), stores: Vec::new() }
    }

    /// "Fresh blocks are taken lowest number first", "eight stores each in word order". `None` if none is left.
    fn take(&mut self, words: Vec<u64>) -> Option<u64> {
        let block = self.free.next()?;
        self.stores.extend((0..).zip(words).map(|(index, value)| (self.layout.address(block, index), value)));
        Some(block)
    }
}

/// The plan of a write; `None` if there are fewer free blocks than its fresh ones, growth included.
pub fn write(board: Board, file: u64, offset: u64, bytes: &[u8]) -> Option<Plan> {
    if bytes.is_empty() {
        return Some(Plan::new()); // Rule 1.
    }
    let mut plan = growth(board, inode(board, file), offset + bytes.len() as u64)?;
    // "What follows sees the grown tree."
    let mut grown = board.words.to_vec();
    perform_all(&mut grown, &plan);
    plan.extend(Write::on(Board { words: &grown, ..board }, file, offset, bytes).plan()?);
    Some(plan)
}

/// Rule 2: the epochs of growth, none if the tree needn't grow.
fn growth(board: Board, inode: Inode, end: u64) -> Option<Plan> {
    if inode.size == 0 || end <= inode.tree().end() {
        return Some(Plan::new());
    }
    let layout = board.layout;
    let height = layout.least_height(end);
    if inode.tree().block == 0 {
        // "A null root gets the root word alone."
        return Some(vec![vec![(inode.root_address(), layout.pointer(0, height))]]);
    }
    let mut fresh = Fresh::of(board);
    let mut top = inode.tree().block;
    for _ in inode.tree().height..height {
        // "Its first pointer the old tree and the rest 0."
        let mut words = vec![0; layout.block_words as usize];
        words[0] = layout.pointer(top, 0);
        top = fresh.take(words)?;
    }
    Some(vec![fresh.stores, vec![(inode.root_address(), layout.pointer(top, height))]])
}

/// A write of at least one byte, on a board whose tree for the file has grown already if it had to.
struct Write<'a> {
    board: Board<'a>,
    inode: Inode,
    offset: u64,
    bytes: &'a [u8],
    /// e, the byte after the last one written.
    end: u64,
}

impl<'a> Write<'a> {
    fn on(board: Board<'a>, file: u64, offset: u64, bytes: &'a [u8]) -> Write<'a> {
        Write { board, inode: inode(board, file), offset, bytes, end: offset + bytes.len() as u64 }
    }

    /// Rules 3 to 6, the first that applies. An offset above the size goes by rule 4 or rule 6, as N3 says.
    fn plan(&self) -> Option<Plan> {
        if let Some(plan) = self.single_word() {
            return Some(plan);
        }
        if self.goes_tail_way() {
            return self.tail();
        }
        if self.end <= self.inode.size {
            return self.shadow_inside();
        }
        self.shadow_with_length()
    }

    /// Whether the span from `first` to `past` − 1 has written bytes.
    fn touches(&self, first: u64, past: u64) -> bool {
        first < self.end && self.offset < past
    }

    /// The caller's byte for a byte of the file, if it is written.
    fn written(&self, position: u64) -> Option<u8> {
        let index = position.checked_sub(self.offset)?;
        self.bytes.get(index as usize).copied()
    }

    /// Rule 3: "If e ≤ s, all bytes fall in one word and its data block exists: one store, the word's other bytes
    /// kept."
    fn single_word(&self) -> Option<Plan> {
        let first = self.offset - self.offset % WORD_BYTES;
        if self.end > self.inode.size || self.end > first + WORD_BYTES {
            return None;
        }
        let Place::Block(block) = walk(self.board, self.inode, self.offset) else {
            return None;
        };
        let kept = |position| self.written(position).unwrap_or(byte(self.board, block, position));
        let index = first % self.board.layout.block_bytes() / WORD_BYTES;
        Some(vec![vec![(self.board.layout.address(block, index), word_of(first, kept))]])
    }

    /// Rule 4's condition: "o = s and no live pointer on the path to byte o is null". With s = 0 no pointer is live, so
    /// o = 0 meets it; a larger offset follows N3: "With size 0 it goes the tail way".
    fn goes_tail_way(&self) -> bool {
        self.inode.size == 0 || self.offset == self.inode.size && self.path_has_no_live_null()
    }

    /// "No live pointer on the path to byte o is null", for o = s. The root counts as one of them.
    fn path_has_no_live_null(&self) -> bool {
        let mut tree = self.inode.tree();
        while tree.start < self.inode.size {
            if tree.block == 0 {
                return false;
            }
            if tree.height == 0 {
                return true;
            }
            tree = tree.below(self.board, tree.index_over(self.offset), self.inode.size);
        }
        true // A pointer that isn't live; those after it on the path aren't live either.
    }

    /// Rule 4: "one epoch of hidden stores, then the size alone".
    fn tail(&self) -> Option<Plan> {
        let mut fresh = Fresh::of(self.board);
        let mut others = Vec::new();
        if self.inode.size == 0 {
            // "The old root is ignored and the least sufficient height is used." N3: "with holes left null".
            let layout = self.board.layout;
            let height = layout.least_height(self.end);
            let hole = Subtree { layout, block: 0, height, start: 0 };
            let block = self.build(&mut fresh, hole)?;
            others.push((0, (self.inode.root_address(), layout.pointer(block, height))));
        } else {
            self.extend(&mut fresh, &mut others, self.inode.tree())?;
        }
        let mut hidden = fresh.stores;
        hidden.extend(in_file_order(others));
        Some(vec![hidden, vec![(self.inode.size_address(), self.end)]])
    }

    /// The tail's stores in and under a live block that leads to written bytes.
    fn extend(&self, fresh: &mut Fresh, others: &mut Vec<Placed>, tree: Subtree) -> Option<()> {
        if tree.height == 0 {
            self.extend_data(others, tree);
            return Some(());
        }
        for index in 0..self.board.layout.block_words {
            let below = tree.below(self.board, index, self.inode.size);
            if !self.touches(below.start, below.end()) {
                continue;
            }
            if below.start < self.inode.size {
                self.extend(fresh, others, below)?;
            } else {
                // "Pointers that aren't live and lead to written bytes get fresh subtrees."
                let block = self.build(fresh, below)?;
                others.push((below.start, (tree.address(index), self.board.layout.pointer(block, 0))));
            }
        }
        Some(())
    }

    /// "Existing data words that hold written bytes are stored, bytes at or past e as 0."
    fn extend_data(&self, others: &mut Vec<Placed>, data: Subtree) {
        for index in 0..self.board.layout.block_words {
            let first = data.start + WORD_BYTES * index;
            if self.touches(first, first + WORD_BYTES) {
                let value = word_of(first, |position| self.visible(data.block, position));
                others.push((first, (data.address(index), value)));
            }
        }
    }

    /// Rule 5: "go down from the root word while its block exists, isn't data and all written bytes lie under one of
    /// its pointers. The word arrived at is the commit; all touched beneath it is fresh."
    fn shadow_inside(&self) -> Option<Plan> {
        let mut tree = self.inode.tree();
        let mut commit = self.inode.root_address();
        let mut low = tree.height; // The root word has the height in its low bits, other pointers 0.
        while tree.block != 0 && tree.height > 0 && tree.index_over(self.offset) == tree.index_over(self.end - 1) {
            let index = tree.index_over(self.offset);
            commit = tree.address(index);
            low = 0;
            tree = tree.below(self.board, index, self.inode.size);
        }
        let mut fresh = Fresh::of(self.board);
        let block = self.build(&mut fresh, tree)?;
        Some(vec![fresh.stores, vec![(commit, self.board.layout.pointer(block, low))]])
    }

    /// Rule 6: "fresh blocks on all paths from the root to written bytes, and a fresh copy of the inode leaf with new
    /// root and size; the commit is the inode pointer". An offset above a size that isn't 0 goes this way too. N11: "Leaf
    /// words from 64 on may hold anything and are copied as found."
    fn shadow_with_length(&self) -> Option<Plan> {
        let mut fresh = Fresh::of(self.board);
        let tree = self.inode.tree();
        let block = self.build(&mut fresh, tree)?;
        let mut copy = words(self.board, self.inode.leaf);
        copy[self.inode.index as usize] = self.board.layout.pointer(block, tree.height);
        copy[self.inode.index as usize + 1] = self.end;
        let leaf = fresh.take(copy)?;
        Some(vec![fresh.stores, vec![(self.inode.pointer_address, self.board.layout.pointer(leaf, 0))]])
    }

    /// Whether the path to byte s − 1 has an existing block at `old`, for an offset above the size. N3: "the path to
    /// byte s − 1 is made fresh too, as far as its blocks exist". A null on it is replaced only for written bytes.
    fn on_path_to_old_end(&self, old: Subtree) -> bool {
        let size = self.inode.size;
        self.offset > size && old.block != 0 && old.start < size && size <= old.end()
    }

    /// Whether a fresh block takes the place of `old`.
    fn made_fresh(&self, old: Subtree) -> bool {
        self.touches(old.start, old.end()) || self.on_path_to_old_end(old)
    }

    /// Takes a fresh block in place of the old one of `old`, which is to be made fresh, and fresh blocks beneath it
    /// likewise: "those beneath a block before it, left to right".
    fn build(&self, fresh: &mut Fresh, old: Subtree) -> Option<u64> {
        let words = if old.height == 0 { self.data_words(old) } else { self.pointer_words(fresh, old)? };
        fresh.take(words)
    }

    /// The pointers of a fresh block: "bytes and pointers at or past the new size are 0". N3: "A pointer whose span
    /// starts at s or later and has no written byte beneath it is null." So a pointer that is not replaced is the old
    /// one if it was live, and otherwise 0.
    fn pointer_words(&self, fresh: &mut Fresh, old: Subtree) -> Option<Vec<u64>> {
        let mut words = Vec::new();
        for index in 0..self.board.layout.block_words {
            let below = old.below(self.board, index, self.inode.size);
            let block = if self.made_fresh(below) { self.build(fresh, below)? } else { below.block };
            words.push(self.board.layout.pointer(block, 0));
        }
        Some(words)
    }

    /// The words of a fresh data block. The block with byte s − 1 has "zeros from s on" where nothing is written.
    fn data_words(&self, old: Subtree) -> Vec<u64> {
        let first_of = |index| old.start + WORD_BYTES * index;
        let word_at = |index| word_of(first_of(index), |position| self.visible(old.block, position));
        (0..self.board.layout.block_words).map(word_at).collect()
    }

    /// The byte that is visible after the write, where the old data block is `block` (0 for a hole): the caller's, or
    /// the old one below the size, or 0.
    fn visible(&self, block: u64, position: u64) -> u8 {
        let old = if block != 0 && position < self.inode.size { byte(self.board, block, position) } else { 0 };
        self.written(position).unwrap_or(old)
    }
}

/// The plan of a length change.
pub fn set_length(board: Board, file: u64, length: u64) -> Plan {
    let inode = inode(board, file);
    if length == inode.size {
        return Plan::new();
    }
    let mut plan = Plan::new();
    if length > inode.size {
        plan.push(clearing(board, inode, length));
    }
    plan.push(vec![(inode.size_address(), length)]);
    // "If it would be empty, only the size is stored."
    plan.retain(|epoch| !epoch.is_empty());
    plan
}

/// The epoch that stands before the size when a file gets longer.
fn clearing(board: Board, inode: Inode, length: u64) -> Epoch {
    if inode.size == 0 {
        return vec![(inode.root_address(), 0)]; // "With s = 0 it stores 0 to the root word."
    }
    let mut stores = Vec::new();
    clear(board, inode.tree(), inode.size, length, &mut stores);
    in_file_order(stores)
}

/// "0 to each pointer of a live block whose span starts in s to n − 1", in and under a live block or a null one.
fn clear(board: Board, tree: Subtree, size: u64, length: u64, stores: &mut Vec<Placed>) {
    if tree.block == 0 {
        return;
    }
    if tree.height == 0 {
        return clear_data(board, tree, size, length, stores);
    }
    for index in 0..board.layout.block_words {
        let first = tree.first(index);
        if first < size {
            clear(board, tree.below(board, index, size), size, length, stores);
        } else if first < length {
            stores.push((first, (tree.address(index), 0)));
        }
    }
}

/// "Each word of the live data block holding byte s − 1 that covers bytes s to n − 1, zero there and past it." A word
/// of a live data block that covers one of those bytes is in the block that holds byte s − 1.
fn clear_data(board: Board, data: Subtree, size: u64, length: u64, stores: &mut Vec<Placed>) {
    for index in 0..board.layout.block_words {
        let first = data.start + WORD_BYTES * index;
        if first < length && size < first + WORD_BYTES {
            let kept = |position| if position < size { byte(board, data.block, position) } else { 0 };
            stores.push((first, (data.address(index), word_of(first, kept))));
        }
    }
}

/// The plan of a format, for any board whose word count fits: block 1 with pointers to the leaves, which follow it, then
/// the leaves, "all zero", and the trailer. N11: "Format has the same three epochs, with block 1 for the pointers and
/// block 2 as the leaf."
pub fn format(board: Board) -> Plan {
    let layout = board.layout;
    let trailer = block_count(board) - 1;
    let leaves = 2..2 + layout.leaves;
    let mut pointers: Vec<u64> = leaves.clone().map(|leaf| layout.pointer(leaf, 0)).collect();
    pointers.resize(layout.block_words as usize, 0);
    let pointers = (layout.address(1, 0)..).zip(pointers);
    let zeros = (layout.address(leaves.start, 0)..layout.address(leaves.end, 0)).map(|address| (address, 0));
    let rest = (layout.address(trailer, 1)..).zip(trailer_rest(board));
    vec![
        vec![(layout.address(trailer, 0), 0)],
        pointers.chain(zeros).chain(rest).collect(),
        vec![(layout.address(trailer, 0), layout.pointer(1, INODE_ROOT_LOW))],
    ]
}
