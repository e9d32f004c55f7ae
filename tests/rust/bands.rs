//! The height that a write chooses, into an empty file or to grow, as N4 has it: "four bands, 0 to 64, 65 to 512, 513 to
//! 4,096 and 4,097 to 32,768 bytes"; published boards have two, which end at their spans. It is looked for in each plan;
//! and how often each end of a band was met.

use crate::layout::Layout;
use crate::random::Random;

impl Layout {
    /// The last size of each band and the first of the next. No write with a plan ends at 0.
    fn band_ends(&self) -> Vec<u64> {
        let mut ends: Vec<u64> = self.spans.iter().flat_map(|&last| [last, last + 1]).collect();
        ends.pop();
        ends
    }

    /// Where a write begins and how many bytes it has, few of them, so that it ends where a band ends or begins.
    pub fn band_stretch(&self, random: &mut Random) -> (u64, usize) {
        let count = 1 + random.below(64);
        (random.pick(&self.band_ends()) - count, count as usize)
    }

    /// At times such a write, or one by which the tree of a file of this root and size must grow: it goes on from the size,
    /// or where that is above the span, it lies across the end of the span, past it, or past the size.
    pub fn growing_stretch(&self, random: &mut Random, (root, size): (u64, u64)) -> Option<(u64, usize)> {
        if size == 0 || self.span(root) == self.greatest() || random.one_in(2) {
            return random.one_in(4).then(|| self.band_stretch(random));
        }
        let (span, few) = (self.span(root), 1 + random.below(20));
        let offset = match random.below(4) {
            _ if size <= span => size,
            0 => self.past_end(random, size),
            1 => span + random.below(size - span),
            _ => span - few,
        };
        Some((offset, (span.saturating_sub(offset) + few) as usize))
    }
}

/// Plans of writes that end at one of these sizes.
struct Met {
    end: u64,
    into_empty: u64,
    grown: u64,
}

pub struct Bands {
    layout: &'static Layout,
    met: Vec<Met>,
}

impl Bands {
    pub fn of(layout: &'static Layout) -> Bands {
        let met = layout.band_ends().into_iter().map(|end| Met { end, into_empty: 0, grown: 0 }).collect();
        Bands { layout, met }
    }

    /// Of a write that ends at `end`, on the board that was lent. Where no height is chosen it counts nowhere.
    pub fn count(&mut self, board: &[u64], file: u64, end: u64, plan: &[u64]) {
        let (at, (root, size)) = (self.layout.inode(board, file), self.layout.root_and_size(board, file));
        if size > 0 && end <= self.layout.span(root) {
            return;
        }
        let stored = plan.chunks(2).find(|pair| pair[0] == at as u64);
        let (chosen, least) = (stored.map(|pair| self.layout.low_of(pair[1])), self.layout.least_height(end));
        assert!(chosen == Some(least as u64), "a write that ends at {end} chooses height {chosen:?}");
        if let Some(met) = self.met.iter_mut().find(|met| met.end == end) {
            let times = if size == 0 { &mut met.into_empty } else { &mut met.grown };
            *times += 1;
        }
    }

    pub fn report(&self) {
        for Met { end, into_empty, grown } in &self.met {
            println!("plans of writes that end at {end}, into an empty file: {into_empty}, after growth: {grown}");
        }
    }

    /// Every end of a band must have been met; growth begins past the first.
    pub fn all_met(&self) {
        assert!(self.met.iter().all(|met| met.into_empty > 0), "an end of a band was not met in an empty file");
        assert!(self.met[1..].iter().all(|met| met.grown > 0), "an end of a band was not met by growth");
    }
}
