//! Where pairs go: into the plan, or nowhere while they are counted.

use crate::BARRIER;

pub trait Sink {
    fn pair(&mut self, at: u64, value: u64);
    /// Words for the addresses from `at` on.
    fn row(&mut self, at: u64, words: impl ExactSizeIterator<Item = u64>);
    fn count(&self) -> u64;

    /// Ends a step that began at the count `from`: a barrier after hidden stores, and the commit.
    fn commit(&mut self, from: u64, at: u64, value: u64) {
        if self.count() > from {
            self.pair(BARRIER, 0);
        }
        self.pair(at, value);
    }
}

#[derive(Default)]
pub struct Counter {
    pub pairs: u64,
}

impl Sink for Counter {
    fn pair(&mut self, _: u64, _: u64) {
        self.pairs += 1;
    }

    fn row(&mut self, _: u64, words: impl ExactSizeIterator<Item = u64>) {
        self.pairs += words.len() as u64;
    }

    fn count(&self) -> u64 {
        self.pairs
    }
}

pub struct Layer<'a> {
    pub plan: &'a mut [u64],
    pub pairs: usize,
}

impl Sink for Layer<'_> {
    fn pair(&mut self, at: u64, value: u64) {
        self.plan[2 * self.pairs] = at;
        self.plan[2 * self.pairs + 1] = value;
        self.pairs += 1;
    }

    // The room for a row is tested once.
    #[inline(always)]
    fn row(&mut self, at: u64, words: impl ExactSizeIterator<Item = u64>) {
        let count = words.len();
        let room = &mut self.plan[2 * self.pairs..][..2 * count];
        for ((at, word), pair) in (at..).zip(words).zip(room.chunks_exact_mut(2)) {
            pair[0] = at;
            pair[1] = word;
        }
        self.pairs += count;
    }

    fn count(&self) -> u64 {
        self.pairs as u64
    }
}
