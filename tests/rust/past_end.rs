//! Writes past the end of a file, as N3 has them: offsets for them, how often each kind of them was met, and what they
//! must leave of the tree. All of this is told from the lent board, the arguments and the plan.

use crate::kinds::Kinds;
use crate::layout::Layout;
use crate::library::Library;
use crate::random::Random;

impl Layout {
    /// An offset above the size: just past it, far past it, or around one of the next multiples of a span.
    pub fn past_end(&self, random: &mut Random, size: u64) -> u64 {
        let span = random.pick(self.lower_spans());
        match random.below(4) {
            0 => size + 1 + random.below(70),
            1 => size + 1 + random.below(self.usual / 3),
            _ => ((size / span + 1 + random.below(3)) * span + random.below(5) - 2).max(size + 1),
        }
    }
}

/// A write of at least one byte past the end, on the board that was lent.
pub struct PastEnd<'a> {
    library: &'static Library,
    board: &'a [u64],
    file: u64,
    offset: u64,
    end: u64,
    root: u64,
    size: u64,
}

impl PastEnd<'_> {
    /// Nothing where the offset is not above the size.
    pub fn of<'a>(
        library: &'static Library, board: &'a [u64], file: u64, offset: u64, end: u64,
    ) -> Option<PastEnd<'a>> {
        let (root, size) = library.layout.root_and_size(board, file);
        (offset > size).then_some(PastEnd { library, board, file, offset, end, root, size })
    }

    // ---- Facts

    fn layout(&self) -> &'static Layout {
        self.library.layout
    }

    pub fn into_empty(&self) -> bool {
        self.size == 0
    }

    /// Of an empty file the root is ignored.
    fn rooted(&self) -> bool {
        !self.into_empty() && self.layout().block_of(self.root) != 0
    }

    fn height(&self) -> usize {
        self.layout().low_of(self.root) as usize
    }

    /// How many levels a root that is not null grows by.
    fn growth(&self) -> Option<usize> {
        self.rooted().then(|| self.layout().least_height(self.end).saturating_sub(self.height()))
    }

    fn last_is_spanned(&self) -> bool {
        self.size <= self.layout().span(self.root)
    }

    /// The data block with the last byte.
    fn last_block(&self) -> Option<u64> {
        let last = self.size.checked_sub(1)?;
        self.layout().data_block(self.board, self.file, last)
    }

    /// Whether bytes are written to the block's bytes that the last byte is one of.
    fn beside_last(&self) -> bool {
        let bytes = self.layout().block_bytes();
        !self.into_empty() && self.offset / bytes == (self.size - 1) / bytes
    }

    fn fills_last(&self) -> bool {
        self.size % self.layout().block_bytes() == 0
    }

    /// How many spans, from the least on, the size is a multiple of.
    fn multiple_of(&self) -> Option<usize> {
        let spans = self.layout().spans.iter();
        (!self.into_empty()).then(|| spans.take_while(|&span| self.size % span == 0).count())
    }
}

// ---- Kinds

/// What a kind is called, the height that trees must be able to reach for it, and whether a write is of it.
type Kind = (&'static str, usize, fn(&PastEnd) -> bool);

/// The last byte is that of the file as it was lent.
const KINDS: [Kind; 16] = [
    ("into an empty file", 0, |write| write.into_empty()),
    ("under a null root", 0, |write| !write.into_empty() && !write.rooted()),
    ("without growth", 0, |write| write.growth() == Some(0)),
    ("after growth by one level", 1, |write| write.growth() == Some(1)),
    ("after growth by two levels", 2, |write| write.growth() == Some(2)),
    ("after growth by three levels", 3, |write| write.growth() == Some(3)),
    ("the last byte in a data block", 0, |write| write.last_block().is_some()),
    ("the last byte under a null pointer below the root", 1, |write| {
        write.rooted() && write.last_is_spanned() && write.last_block().is_none()
    }),
    ("the last byte past the span", 0, |write| write.rooted() && !write.last_is_spanned()),
    ("the size a multiple of the third span", 3, |write| write.multiple_of() == Some(3)),
    ("the size a multiple of the second span, not of the third", 2, |write| write.multiple_of() == Some(2)),
    ("the size a multiple of the first span, not of the second", 1, |write| write.multiple_of() == Some(1)),
    ("the size no multiple of the first span", 0, |write| write.multiple_of() == Some(0)),
    ("the last byte's data block written to", 0, |write| write.last_block().is_some() && write.beside_last()),
    ("the last byte's data block full and not written to", 0, |write| {
        write.last_block().is_some() && write.fills_last()
    }),
    ("the last byte's data block not full and not written to", 0, |write| {
        write.last_block().is_some() && !write.fills_last() && !write.beside_last()
    }),
];

impl PastEnd<'_> {
    pub fn count(&self, met: &mut Kinds) {
        let possible = KINDS.iter().filter(|(_, height, _)| *height <= self.layout().greatest_height());
        met.count(possible.map(|(name, _, of_kind)| (*name, of_kind(self))));
    }
}

// ---- What is left

impl PastEnd<'_> {
    /// Performs the whole plan and looks at the tree.
    pub fn look(&self, plan: &[u64]) {
        let mut after = self.board.to_vec();
        self.library.perform_whole(&mut after, plan);
        let near_last = if self.into_empty() { Vec::new() } else { self.path_is_fresh(&after) };
        self.gap_is_null(&after, &near_last);
    }

    /// "The path to byte s - 1 is made fresh too, as far as its blocks exist." Answers that path.
    fn path_is_fresh(&self, after: &[u64]) -> Vec<u64> {
        let last = self.size - 1;
        let live = self.layout().live_blocks(after);
        let kept = self.layout().path(self.board, self.file, last).into_iter().find(|block| live.contains(block));
        assert!(kept.is_none(), "past the end: block {kept:?} on the path to the last byte is still live");
        let there = self.layout().data_block(after, self.file, last).is_some();
        let expected = self.last_block().is_some() || self.beside_last();
        assert!(there == expected, "past the end: the last byte is in a data block: {there}, not {expected}");
        self.layout().path(after, self.file, last)
    }

    /// "A pointer whose span starts at s or later and has no written byte beneath it is null." So the walk to a block's
    /// bytes between the size and the offset meets only blocks that the last byte or the first written one is under.
    fn gap_is_null(&self, after: &[u64], near_last: &[u64]) {
        let bytes = self.layout().block_bytes();
        let near_first = self.layout().path(after, self.file, self.offset);
        let gap = self.size.next_multiple_of(bytes)..self.offset / bytes * bytes;
        for start in gap.step_by(bytes as usize) {
            let met = self.layout().path(after, self.file, start);
            let stray = met.iter().find(|block| !near_last.contains(block) && !near_first.contains(block));
            assert!(stray.is_none(), "past the end: block {stray:?} at {start}, and nothing is written beneath");
        }
    }
}
