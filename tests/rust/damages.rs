//! One word of an accepted board changed, in a way that has a name, and the number by which the board is then refused, or
//! 0 where the word may hold anything.

use crate::calls::Calls;
use support::boards::FILES;
use support::kinds::Kinds;
use support::layout::Layout;
use support::random::Random;

/// An accepted board, and the addresses of its live roots and of the live pointers below them.
struct Seen {
    layout: &'static Layout,
    board: Vec<u64>,
    roots: Vec<usize>,
    pointers: Vec<usize>,
}

/// The address of a word, or nothing where the board has no such word.
type Place = fn(&Seen, &mut Random) -> Option<usize>;
/// What the word at the address is changed to.
type Value = fn(&Seen, &mut Random, usize) -> u64;
type Damage = (&'static str, i64, Place, Value);

const DAMAGES: [Damage; 24] = [
    ("word 1, 2 or 3 of the trailer", 2, |seen, random| seen.trailer(1 + random.below(3)), Seen::any),
    ("word 4 of the trailer", 2, |seen, _| seen.trailer(4), Seen::any),
    ("the last word of the trailer but one", 2, |seen, _| seen.trailer(seen.layout.block - 2), Seen::any),
    ("the last word of the trailer", 2, |seen, _| seen.trailer(seen.layout.block - 1), Seen::any),
    ("the inode root without low bits", 2, Seen::inode_root, |seen, _, at| seen.low(at, 0)),
    ("the highest low bit of the inode root", 2, Seen::inode_root, Seen::highest_bit),
    ("the block of the inode root", 2, Seen::inode_root, Seen::no_block),
    ("the lowest bit of an inode pointer", 3, Seen::inode_pointer, |seen, _, at| seen.low(at, 1)),
    ("the highest low bit of an inode pointer", 3, Seen::inode_pointer, Seen::highest_bit),
    ("an inode pointer, null", 3, Seen::inode_pointer, |_, _, _| 0),
    ("the block of an inode pointer", 3, Seen::inode_pointer, Seen::no_block),
    ("a root, of the next height", 3, Seen::root, |seen, _, at| seen.low(at, seen.next_height())),
    ("a root, null and of the next height", 3, Seen::root, |seen, _, _| seen.next_height()),
    ("the highest low bit of a root", 3, Seen::root, Seen::highest_bit),
    ("all low bits of a root", 3, Seen::root, |seen, _, at| seen.low(at, seen.layout.block - 1)),
    ("the block of a root", 3, Seen::root, Seen::no_block),
    ("the lowest bit of a pointer", 3, Seen::pointer, |seen, _, at| seen.low(at, 1)),
    ("the highest low bit of a pointer", 3, Seen::pointer, Seen::highest_bit),
    ("all low bits of a pointer", 3, Seen::pointer, |seen, _, at| seen.low(at, seen.layout.block - 1)),
    ("the block of a pointer", 3, Seen::pointer, Seen::no_block),
    ("a pointer, to a block that is reached", 3, Seen::pointer, Seen::reached),
    (
        "a size",
        3,
        |seen, random| Some(seen.inode(random) + 1),
        |seen, random, _| {
            let greatest = seen.layout.greatest();
            random.pick(&[greatest + 1, 2 * greatest, 1 << 63, u64::MAX])
        },
    ),
    ("a pointer that is not live", 0, Seen::dead_pointer, Seen::any),
    ("the root of an empty file", 0, Seen::empty_root, Seen::any),
];

/// In a layout whose inode pointer block and leaves have words to spare.
const SPARE_DAMAGES: [Damage; 6] = [
    ("the first spare inode pointer", 3, |seen, _| seen.top(seen.layout.leaves), Seen::any),
    ("the second spare inode pointer", 3, |seen, _| seen.top(seen.layout.leaves + 1), Seen::any),
    ("any spare inode pointer", 3, Seen::any_spare, Seen::any),
    ("the last spare inode pointer", 3, |seen, _| seen.top(seen.layout.block - 1), Seen::any),
    ("the first leaf word past the inodes", 0, |seen, _| seen.leaf(2 * seen.layout.inodes), Seen::any),
    ("the last leaf word", 0, |seen, _| seen.leaf(seen.layout.block - 1), Seen::any),
];

// ---- Places

fn one_of(random: &mut Random, from: &[usize]) -> Option<usize> {
    (!from.is_empty()).then(|| random.pick(from))
}

impl Seen {
    fn of(layout: &'static Layout, board: &[u64]) -> Seen {
        let inodes: Vec<usize> = (0..FILES).map(|file| layout.inode(board, file)).collect();
        let (roots, pointers) = layout.all_live_pointers(board).into_iter().partition(|at| inodes.contains(at));
        Seen { layout, board: board.to_vec(), roots, pointers }
    }

    fn trailer(&self, index: u64) -> Option<usize> {
        Some(self.layout.trailer(&self.board) + index as usize)
    }

    fn inode_root(&self, _: &mut Random) -> Option<usize> {
        self.trailer(0)
    }

    /// A word of the inode pointer block.
    fn top(&self, index: u64) -> Option<usize> {
        Some(self.layout.pointer_block(&self.board) + index as usize)
    }

    fn any_spare(&self, random: &mut Random) -> Option<usize> {
        self.top(self.layout.leaves + random.below(self.layout.block - self.layout.leaves))
    }

    fn inode_pointer(&self, random: &mut Random) -> Option<usize> {
        self.top(random.below(self.layout.leaves))
    }

    /// A word of the first leaf.
    fn leaf(&self, index: u64) -> Option<usize> {
        Some(self.layout.inode(&self.board, 0) + index as usize)
    }

    fn inode(&self, random: &mut Random) -> usize {
        self.layout.inode(&self.board, random.below(FILES))
    }

    fn root(&self, random: &mut Random) -> Option<usize> {
        one_of(random, &self.roots)
    }

    fn pointer(&self, random: &mut Random) -> Option<usize> {
        one_of(random, &self.pointers)
    }

    fn empty_root(&self, random: &mut Random) -> Option<usize> {
        Some(self.inode(random)).filter(|inode| self.board[inode + 1] == 0)
    }

    /// The last pointer of a root's block, if it is not live.
    fn dead_pointer(&self, random: &mut Random) -> Option<usize> {
        let root = self.root(random)?;
        let (word, size) = (self.board[root], self.board[root + 1]);
        let (block, height) = (self.layout.block_of(word), self.layout.low_of(word) as usize);
        if block == 0 || height == 0 {
            return None;
        }
        let last = self.layout.block - 1;
        (last * self.layout.spans[height - 1] >= size).then_some(self.layout.pointer(block, last) as usize)
    }
}

// ---- Values

impl Seen {
    /// Any other value.
    fn any(&self, random: &mut Random, at: usize) -> u64 {
        let (old, any) = (self.board[at], self.layout.rubbish(random, self.layout.blocks(&self.board)));
        if any == old {
            !old
        } else {
            any
        }
    }

    /// The height above the greatest.
    fn next_height(&self) -> u64 {
        self.layout.spans.len() as u64
    }

    fn low(&self, at: usize, low: u64) -> u64 {
        self.layout.pointer(self.layout.block_of(self.board[at]), low)
    }

    fn highest_bit(&self, _: &mut Random, at: usize) -> u64 {
        self.board[at] ^ (self.layout.block / 2)
    }

    /// The trailer, the block past it, or one far off.
    fn no_block(&self, random: &mut Random, at: usize) -> u64 {
        let blocks = self.layout.blocks(&self.board);
        let block = random.pick(&[blocks - 1, blocks, 2 * blocks, u64::MAX / self.layout.block]);
        self.layout.pointer(block, self.layout.low_of(self.board[at]))
    }

    /// The block of a root, of the inode root or of the inode pointer to the first leaf.
    fn reached(&self, random: &mut Random, at: usize) -> u64 {
        let root = self.root(random).filter(|&root| root != at && self.layout.block_of(self.board[root]) != 0);
        let others = [self.trailer(0), self.top(0)];
        let other = root.or(random.pick(&others)).map_or(0, |other| self.layout.block_of(self.board[other]));
        self.layout.pointer(other, self.layout.low_of(self.board[at]))
    }
}

// ---- Rounds

#[derive(Default)]
pub struct Damages {
    kinds: Kinds,
}

impl Damages {
    /// Every damage to a board in turn.
    pub fn round(&mut self, layout: &'static Layout, random: &mut Random, calls: &mut Calls, board: &[u64]) {
        let seen = Seen::of(layout, board);
        let mut copy = board.to_vec();
        let spare: &[Damage] = if layout.leaves < layout.block { &SPARE_DAMAGES } else { &[] };
        let met = DAMAGES.iter().chain(spare).map(|(name, refusal, place, value)| {
            let place = place(&seen, random);
            if let Some(at) = place {
                copy[at] = value(&seen, random, at);
                let answer = calls.check(&copy);
                copy[at] = board[at];
                assert!(answer == -refusal, "{name} changed: the check answers {answer}");
            }
            (*name, place.is_some())
        });
        self.kinds.count(met);
    }

    pub fn report(&self) {
        self.kinds.report("damage to");
    }

    pub fn all_met(&self) {
        self.kinds.all_met("damage to");
    }
}
