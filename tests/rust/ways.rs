//! Which of document 01's ways a plan goes by, told from the lent board, the arguments and the last store, and how
//! often each was met.

use crate::bands::Bands;
use crate::kinds::Kinds;
use crate::library::Library;
use crate::past_end::PastEnd;

/// A write's ways, and whether growth over a block and over a null root can come before each.
const WRITES: [(&str, [bool; 2]); 6] = [
    ("single word", [false, false]),
    ("tail", [true, false]),
    ("tail of an empty file", [false, false]),
    ("shadow inside the file, at the root", [true, true]),
    ("shadow inside the file, deeper", [true, false]),
    ("shadow with length", [true, true]),
];

const EMPTY_TAIL: usize = 2;
const SHADOW_WITH_LENGTH: usize = 5;

/// Accepted calls by each way: those of writes without growth, over a block and over a null root; those of writes that
/// choose a height; and those of writes past the end by their kinds.
pub struct Ways {
    library: &'static Library,
    writes: [[u64; 3]; 6],
    lengths: Kinds,
    empty: Kinds,
    bands: Bands,
    past_end: Kinds,
}

impl Ways {
    pub fn of(library: &'static Library) -> Ways {
        let (lengths, empty, past_end) = (Kinds::default(), Kinds::default(), Kinds::default());
        Ways { library, writes: [[0; 3]; 6], lengths, empty, bands: Bands::of(library.layout), past_end }
    }

    /// A write's way, by its number of pairs and the address of its last store.
    fn way(&self, board: &[u64], file: u64, pairs: usize, last: usize) -> usize {
        let layout = self.library.layout;
        let (root, pointers) = (layout.inode(board, file), layout.pointer_block(board));
        let inode_pointers = pointers..pointers + layout.leaves as usize;
        match last {
            _ if last == root + 1 && board[last] == 0 => EMPTY_TAIL,
            _ if last == root + 1 => 1,
            _ if inode_pointers.contains(&last) => SHADOW_WITH_LENGTH,
            _ if pairs == 1 => 0,
            _ if last == root => 3,
            _ => 4,
        }
    }

    /// 0 where the tree needn't grow, 1 where it grows over a block, 2 over a null root.
    fn growth(&self, board: &[u64], file: u64, end: u64) -> usize {
        let layout = self.library.layout;
        let (root, size) = layout.root_and_size(board, file);
        match layout.block_of(root) {
            _ if size == 0 || end <= layout.span(root) => 0,
            0 => 2,
            _ => 1,
        }
    }

    /// Of an accepted write from `offset` to `end`, on the board that was lent.
    pub fn write(&mut self, board: &[u64], file: u64, offset: u64, end: u64, plan: &[u64]) {
        self.empty.count([("write of no bytes", plan.is_empty()), ("length as it was", false)]);
        assert!((offset < end) != plan.is_empty(), "a write of no bytes has a plan, or one of some bytes has none");
        if plan.is_empty() {
            return;
        }
        let way = self.way(board, file, plan.len() / 2, plan[plan.len() - 2] as usize);
        self.writes[way][self.growth(board, file, end)] += 1;
        self.bands.count(board, file, end, plan);
        if let Some(write) = PastEnd::of(self.library, board, file, offset, end) {
            let expected = if write.into_empty() { EMPTY_TAIL } else { SHADOW_WITH_LENGTH };
            let (name, wanted) = (WRITES[way].0, WRITES[expected].0);
            assert!(way == expected, "a write past the end goes by {name}, not by {wanted}");
            write.look(plan);
            write.count(&mut self.past_end);
        }
    }

    /// Of an accepted length change.
    pub fn set_length(&mut self, board: &[u64], file: u64, length: u64, plan: &[u64]) {
        let (_, size) = self.library.layout.root_and_size(board, file);
        self.empty.count([("write of no bytes", false), ("length as it was", plan.is_empty())]);
        assert!((length == size) == plan.is_empty(), "a length as it was has a plan, or another has none");
        self.lengths.count([
            ("smaller length", length < size),
            ("larger length with hidden stores", length > size && plan.len() > 2),
            ("larger length by the size alone", length > size && plan.len() == 2),
        ]);
    }

    pub fn report(&self) {
        for ((name, _), [plain, over_block, over_null]) in WRITES.iter().zip(self.writes) {
            println!("plans by {name}: {plain}, after growth over a block {over_block}, over a null root {over_null}");
        }
        self.lengths.report("plans by");
        self.empty.report("empty plans,");
        self.bands.report();
        self.past_end.report("plans of writes past the end,");
    }

    /// Every way must have been met, those that can follow growth also after it and no other, every end of a band, and
    /// every kind past the end.
    pub fn all_met(&self) {
        for ((name, after), [plain, grown @ ..]) in WRITES.iter().zip(self.writes) {
            assert!(plain > 0, "no plan by {name}");
            assert!(grown.map(|met| met > 0) == *after, "plans by {name} after growth over a block or a null root");
        }
        self.lengths.all_met("plan by");
        self.bands.all_met();
        self.past_end.all_met("plan of a write past the end,");
    }

    /// Both calls must have had empty plans.
    pub fn empty_met(&self) {
        self.empty.all_met("empty plan,");
    }
}
