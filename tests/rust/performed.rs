//! Calls of the library that must not be refused, their plans performed.

use crate::boards::room;
use crate::library::{Library, HOUSE};

/// The count that a call answers.
pub fn done(answer: i64) -> u64 {
    assert!(answer >= 0, "refused {}", -answer);
    answer as u64
}

impl Library {
    /// Performs a whole plan.
    pub fn perform_whole(&self, board: &mut [u64], plan: &[u64]) {
        let pairs = plan.len() as u64 / 2;
        let performed = done(self.perform(board, plan, pairs));
        assert!(performed == pairs, "perform of {pairs} pairs answers {performed}");
    }
}

// ---- On the house's boards

/// Performs what a call plans on the board; answers the plan.
fn planned(board: &mut [u64], call: impl Fn(&[u64], &mut [u64]) -> i64) -> Vec<u64> {
    let mut plan = vec![0; room(board)];
    let pairs = done(call(board, &mut plan));
    plan.truncate(2 * pairs as usize);
    HOUSE.perform_whole(board, &plan);
    plan
}

pub fn write(board: &mut [u64], file: u64, offset: u64, bytes: &[u8]) -> Vec<u64> {
    planned(board, |board, plan| HOUSE.write(board, file, offset, bytes, plan))
}

pub fn set_length(board: &mut [u64], file: u64, length: u64) -> Vec<u64> {
    planned(board, |board, plan| HOUSE.set_length(board, file, length, plan))
}

/// A board with 32 empty files over zeros.
pub fn formatted(words: usize) -> Vec<u64> {
    let mut board = vec![0; words];
    planned(&mut board, |board, plan| HOUSE.format(board, plan));
    board
}
