//! The plan of a write: growth, and the way that follows it.

use crate::layout::Layout;
use crate::sink::Sink;
use crate::tree::{Tree, View, Work, Written};
use crate::BARRIER;

/// A file's root and size, and the address of the root word; the size follows it.
struct Inode {
    at: u64,
    root: u64,
    size: u64,
}

/// The blocks that growth takes, three at most, each with the one below it, and the root that it leaves.
struct Growth {
    blocks: [(u64, u64); 3],
    taken: usize,
    root: u64,
}

/// Plans a write of at least one byte; answers how many blocks it takes.
pub fn plan<const W: usize, S: Sink>(board: &[u64], free: &[u64], sink: &mut S, file: u64, new: Written) -> usize {
    let at = Layout::<W>::inode(board, file);
    let inode = Inode { at, root: board[at as usize], size: board[at as usize + 1] };
    let growth = grow::<W, S>(free, sink, &inode, new.end());
    let view = View { board, grown: &growth.blocks[..growth.taken], free };
    let tree = Tree::<W>::of_root(growth.root, inode.size);
    let mut work = Work { view: &view, sink, taken: growth.taken };
    work.place(&inode, tree, file, new);
    work.taken
}

fn grow<const W: usize, S: Sink>(free: &[u64], sink: &mut S, inode: &Inode, end: u64) -> Growth {
    let mut growth = Growth { blocks: [(0, 0); 3], taken: 0, root: inode.root };
    let old = Tree::<W>::of_root(inode.root, inode.size);
    if inode.size == 0 || end <= old.span() {
        return growth;
    }
    let (from, height) = (sink.count(), Layout::<W>::least_height(end));
    let mut below = old.block;
    let levels = if below == 0 { 0 } else { height - old.height };
    for _ in 0..levels {
        let block = free.get(growth.taken).copied().unwrap_or(0);
        let first = Layout::<W>::WIDTH * below;
        sink.row(Layout::<W>::WIDTH * block, (0..W).map(|j| if j == 0 { first } else { 0 }));
        growth.blocks[growth.taken] = (block, below);
        growth.taken += 1;
        below = block;
    }
    growth.root = Layout::<W>::WIDTH * below + height;
    sink.commit(from, inode.at, growth.root);
    sink.pair(BARRIER, 0);
    growth
}

impl<S: Sink, const W: usize> Work<'_, S, W> {
    fn place(&mut self, inode: &Inode, tree: Tree<W>, file: u64, new: Written) {
        let (size, end) = (inode.size, new.end());
        if end <= size && new.at / 8 == (end - 1) / 8 {
            if let Some(block) = self.view.data_block(tree, new.at) {
                return self.single_word(block, new);
            }
        }
        if size == 0 {
            self.into_empty(inode, new);
        } else if new.at == size && self.view.live_path(tree) {
            self.tail(inode, tree, new);
        } else if end <= size {
            self.shadow_inside(inode.at, tree, new);
        } else {
            self.shadow_with_length(inode, tree, file, new);
        }
    }

    fn single_word(&mut self, block: u64, new: Written) {
        let at = Layout::<W>::WIDTH * block + new.at / 8 % Layout::<W>::WIDTH;
        let in_word = Written { at: new.at % 8, bytes: new.bytes };
        self.sink.pair(at, in_word.spliced(self.view.word(at), 8, 0));
    }

    fn into_empty(&mut self, inode: &Inode, new: Written) {
        let (from, height) = (self.sink.count(), Layout::<W>::least_height(new.end()));
        let block = self.build(Tree { height, block: 0, visible: 0 }, new);
        self.sink.pair(inode.at, Layout::<W>::WIDTH * block + height);
        self.sink.commit(from, inode.at + 1, new.end());
    }

    fn tail(&mut self, inode: &Inode, tree: Tree<W>, new: Written) {
        let (from, taken) = (self.sink.count(), self.taken);
        self.tail_pages(tree, new);
        self.taken = taken;
        self.in_place(tree, new, inode.at);
        self.sink.commit(from, inode.at + 1, new.end());
    }

    fn shadow_inside(&mut self, mut at: u64, mut tree: Tree<W>, mut new: Written) {
        let from = self.sink.count();
        // The root word has the height in its low bits, any other pointer 0.
        let mut low = tree.height;
        while tree.height > 0 && tree.block != 0 {
            let span = tree.step();
            if new.at % span + new.bytes.len() as u64 > span {
                break;
            }
            let j = new.at / span;
            at = tree.address(j);
            tree = tree.child(j, self.view.word(at));
            new.at %= span;
            low = 0;
        }
        let block = self.build(tree, new);
        self.sink.commit(from, at, Layout::<W>::WIDTH * block + low);
    }

    fn shadow_with_length(&mut self, inode: &Inode, tree: Tree<W>, file: u64, new: Written) {
        let from = self.sink.count();
        let block = self.build(tree, new);
        let board = self.view.board;
        let index = inode.at as usize % W;
        let mut leaf: [u64; W] = board[inode.at as usize - index..][..W].try_into().unwrap();
        leaf[index] = Layout::<W>::WIDTH * block + tree.height;
        leaf[index + 1] = inode.size.max(new.end());
        let copy = self.lay(leaf.into_iter());
        self.sink.commit(from, Layout::<W>::leaf_pointer(board, file), Layout::<W>::WIDTH * copy);
    }
}
