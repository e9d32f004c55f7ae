//! Trees with bytes written to them: fresh blocks, and stores to words that exist.

use crate::layout::Layout;
use crate::sink::{Counter, Sink};
use std::ops::Range;

/// A block (0 for null), its height, and how many bytes of its span lie below the size.
#[derive(Clone, Copy)]
pub struct Tree<const W: usize> {
    pub height: u64,
    pub block: u64,
    pub visible: u64,
}

impl<const W: usize> Tree<W> {
    pub fn of_root(root: u64, size: u64) -> Self {
        Tree { height: root % Layout::<W>::WIDTH, block: root / Layout::<W>::WIDTH, visible: size }
    }

    pub fn span(self) -> u64 {
        Layout::<W>::span(self.height)
    }

    /// Bytes under each of its pointers, at height 1 or more.
    pub fn step(self) -> u64 {
        Layout::<W>::span(self.height - 1)
    }

    pub fn address(self, j: u64) -> u64 {
        Layout::<W>::WIDTH * self.block + j
    }

    /// The tree under pointer j, whose word is given.
    pub fn child(self, j: u64, pointer: u64) -> Self {
        let visible = self.visible.saturating_sub(j * self.step());
        Tree { height: self.height - 1, block: pointer / Layout::<W>::WIDTH, visible }
    }
}

/// Bytes that are written, and where in a span.
#[derive(Clone, Copy)]
pub struct Written<'a> {
    pub at: u64,
    pub bytes: &'a [u8],
}

impl Written<'_> {
    pub fn end(self) -> u64 {
        self.at + self.bytes.len() as u64
    }

    /// The children, each spanning so many bytes, that have any of the bytes.
    fn children(self, span: u64) -> Range<u64> {
        if self.bytes.is_empty() {
            return 0..0;
        }
        self.at / span..(self.end() - 1) / span + 1
    }

    /// Those of the bytes that lie under child j, each child spanning so many bytes.
    fn under(self, span: u64, j: u64) -> Self {
        let first = j * span;
        let skipped = first.saturating_sub(self.at).min(self.bytes.len() as u64) as usize;
        let most = span.saturating_sub(self.at.saturating_sub(first)) as usize;
        let rest = &self.bytes[skipped..];
        Written { at: self.at.saturating_sub(first), bytes: &rest[..most.min(rest.len())] }
    }

    /// Word j of a block after this, where `old` stands and so many bytes of the block are visible.
    pub fn spliced(self, old: u64, visible: u64, j: u64) -> u64 {
        let first = 8 * j;
        if self.at <= first {
            let skipped = (first - self.at) as usize;
            if let Some(bytes) = self.bytes.get(skipped..skipped + 8) {
                return u64::from_le_bytes(bytes.try_into().unwrap());
            }
        }
        let shown = front(old, visible.saturating_sub(first));
        if first + 8 <= self.at || first >= self.end() {
            return shown;
        }
        let mut bytes = shown.to_le_bytes();
        for (at, byte) in (first..).zip(bytes.iter_mut()) {
            if at >= self.at && at < self.end() {
                *byte = self.bytes[(at - self.at) as usize];
            }
        }
        u64::from_le_bytes(bytes)
    }
}

/// The first bytes of a word, so many of them; the others are 0.
fn front(word: u64, bytes: u64) -> u64 {
    if bytes >= 8 {
        word
    } else {
        word & ((1 << (8 * bytes)) - 1)
    }
}

/// The board with growth's stores performed, and the free blocks.
pub struct View<'a, const W: usize> {
    pub board: &'a [u64],
    /// Growth's blocks, each with the block that its first pointer leads to; their other words are 0.
    pub grown: &'a [(u64, u64)],
    pub free: &'a [u64],
}

impl<const W: usize> View<'_, W> {
    pub fn word(&self, at: u64) -> u64 {
        match self.grown.iter().find(|grown| grown.0 == at / Layout::<W>::WIDTH) {
            Some(grown) if at % Layout::<W>::WIDTH == 0 => Layout::<W>::WIDTH * grown.1,
            Some(_) => 0,
            None => self.board[at as usize],
        }
    }

    /// The words of a block of pointers, 0 for those that are not live.
    pub fn live_pointers(&self, tree: Tree<W>) -> [u64; W] {
        let mut words = [0; W];
        if tree.block == 0 {
            return words;
        }
        for (j, word) in (0..).zip(words.iter_mut()) {
            if j * tree.step() < tree.visible {
                *word = self.word(tree.address(j));
            }
        }
        words
    }

    /// The words of a data block, or of none.
    fn data(&self, tree: Tree<W>) -> Shown<'_> {
        let words = if tree.block == 0 { &[] } else { &self.board[W * tree.block as usize..][..W] };
        Shown { words, visible: tree.visible }
    }

    /// The data block of a byte, if there is one.
    pub fn data_block(&self, mut tree: Tree<W>, mut byte: u64) -> Option<u64> {
        if byte >= tree.span() {
            return None;
        }
        while tree.height > 0 && tree.block != 0 {
            let span = tree.step();
            let j = byte / span;
            let pointer = if j * span < tree.visible { self.word(tree.address(j)) } else { 0 };
            tree = tree.child(j, pointer);
            byte %= span;
        }
        (tree.block != 0 && tree.visible != 0).then_some(tree.block)
    }

    /// Bytes of one data block, from a byte of the file on.
    pub fn copy(&self, tree: Tree<W>, byte: u64, out: &mut [u8]) {
        match self.data_block(tree, byte) {
            Some(block) => copy(&self.board[W * block as usize..][..W], byte as usize % (8 * W), out),
            None => out.fill(0),
        }
    }

    /// Whether no live pointer on the path to the first byte past the visible ones is null.
    pub fn live_path(&self, mut tree: Tree<W>) -> bool {
        while tree.block != 0 && tree.height > 0 && tree.visible % tree.step() != 0 {
            let j = tree.visible / tree.step();
            tree = tree.child(j, self.word(tree.address(j)));
        }
        tree.block != 0
    }
}

/// Words of a data block, of which so many bytes are visible; where there are none, 0.
struct Shown<'a> {
    words: &'a [u64],
    visible: u64,
}

impl Shown<'_> {
    fn word(&self, j: usize) -> u64 {
        match self.words.get(j) {
            Some(&word) => front(word, self.visible.saturating_sub(8 * j as u64)),
            None => 0,
        }
    }
}

/// Bytes of words, from one of them on: the rest of a word, whole words, and the front of one.
fn copy(words: &[u64], from: usize, out: &mut [u8]) {
    let (first, skipped) = (from / 8, from % 8);
    if skipped == 0 {
        return copy_front(&words[first..], out);
    }
    let rest = &words[first].to_le_bytes()[skipped..];
    let (front, after) = out.split_at_mut(rest.len().min(out.len()));
    front.copy_from_slice(&rest[..front.len()]);
    copy_front(&words[first + 1..], after);
}

fn copy_front(words: &[u64], out: &mut [u8]) {
    let (whole, rest) = out.split_at_mut(out.len() / 8 * 8);
    for (piece, word) in whole.chunks_exact_mut(8).zip(words) {
        piece.copy_from_slice(&word.to_le_bytes());
    }
    if !rest.is_empty() {
        rest.copy_from_slice(&words[whole.len() / 8].to_le_bytes()[..rest.len()]);
    }
}

/// A plan on the way: where its pairs go, and how many free blocks it has taken.
pub struct Work<'a, S, const W: usize> {
    pub view: &'a View<'a, W>,
    pub sink: &'a mut S,
    pub taken: usize,
}

// `lay`, `data` and `pointers` stand in `build`'s own code, so that a block's words are laid where they are made.
impl<S: Sink, const W: usize> Work<'_, S, W> {
    /// Lays the words of the next free block and answers its number; 0 where there is none.
    #[inline(always)]
    pub fn lay(&mut self, words: impl ExactSizeIterator<Item = u64>) -> u64 {
        let block = self.take();
        self.sink.row(Layout::<W>::WIDTH * block, words);
        block
    }

    fn take(&mut self) -> u64 {
        self.taken += 1;
        self.view.free.get(self.taken - 1).copied().unwrap_or(0)
    }

    /// Lays the fresh blocks of a tree, its own last, and answers that one.
    pub fn build(&mut self, tree: Tree<W>, new: Written) -> u64 {
        if tree.height > 0 {
            let words = self.pointers(tree, new);
            return self.lay(words.into_iter());
        }
        self.data(tree, new)
    }

    /// A data block: where bytes are written to a part of it, the words before them, those with them and the others.
    #[inline(always)]
    fn data(&mut self, tree: Tree<W>, new: Written) -> u64 {
        if new.at == 0 && new.bytes.len() == 8 * W {
            return self.lay(new.bytes.chunks_exact(8).map(|bytes| u64::from_le_bytes(bytes.try_into().unwrap())));
        }
        let (old, block, written) = (self.view.data(tree), self.take(), new.children(8));
        let first = Layout::<W>::WIDTH * block;
        let (from, to) = (written.start as usize, written.end as usize);
        self.sink.row(first, (0..from).map(|j| old.word(j)));
        self.sink.row(first + written.start, (from..to).map(|j| new.spliced(old.word(j), tree.visible, j as u64)));
        self.sink.row(first + written.end, (to..W).map(|j| old.word(j)));
        block
    }

    #[inline(always)]
    fn pointers(&mut self, tree: Tree<W>, new: Written) -> [u64; W] {
        let mut words = self.view.live_pointers(tree);
        let written = new.children(tree.step());
        // Past the end the child that holds the last visible byte is made fresh too, if it exists.
        if tree.visible != 0 && tree.visible < new.at {
            let last = (tree.visible - 1) / tree.step();
            if words[last as usize] != 0 && !written.contains(&last) {
                self.renew(&mut words, tree, new, last);
            }
        }
        for j in written {
            self.renew(&mut words, tree, new, j);
        }
        words
    }

    /// Makes the child under pointer j fresh.
    #[inline(always)]
    fn renew(&mut self, words: &mut [u64; W], tree: Tree<W>, new: Written, j: u64) {
        let word = &mut words[j as usize];
        *word = Layout::<W>::WIDTH * self.build(tree.child(j, *word), new.under(tree.step(), j));
    }

    // ---- A tail, written where the visible bytes end

    /// Lays the fresh subtrees.
    pub fn tail_pages(&mut self, tree: Tree<W>, new: Written) {
        if tree.visible == 0 {
            self.build(Tree { block: 0, ..tree }, new);
        } else if tree.height > 0 {
            for j in new.children(tree.step()) {
                let pointer = self.view.word(tree.address(j));
                self.tail_pages(tree.child(j, pointer), new.under(tree.step(), j));
            }
        }
    }

    /// Lays the stores to words that exist; `at` is the address of the tree's pointer. Blocks are counted, not laid.
    pub fn in_place(&mut self, tree: Tree<W>, new: Written, at: u64) {
        if tree.visible == 0 {
            let mut counted = Work { view: self.view, sink: &mut Counter::default(), taken: self.taken };
            let block = counted.build(Tree { block: 0, ..tree }, new);
            self.taken = counted.taken;
            self.sink.pair(at, Layout::<W>::WIDTH * block);
            return;
        }
        let span = if tree.height == 0 { 8 } else { tree.step() };
        for j in new.children(span) {
            let at = tree.address(j);
            if tree.height == 0 {
                self.sink.pair(at, new.spliced(self.view.word(at), tree.visible, j));
            } else {
                self.in_place(tree.child(j, self.view.word(at)), new.under(span, j), at);
            }
        }
    }
}
