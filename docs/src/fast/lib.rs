//! Read, write and perform of document 01, with N3, N4 and N11 of document 02, in plain Rust as one would write them
//! without proofs: safe code that tests each index, goes through each tree with marks and takes no memory of its own. It
//! is a crate of its own kind, made to be fast, so that the library's speed can be measured beside it
//! (bench/planning.rs, bench/published.rs); tests/rust/same_plans.rs holds its plans, boards and buffers against the
//! library's. It is not the reference: that is the crate in the folder above, slow and plain, and the two share nothing.
//!
//! Each call takes the words of a block as W, HOUSE or PUBLISHED. Answers are as C gets them, a refusal r as −r.

#![forbid(unsafe_code)]

mod layout;
mod sink;
mod survey;
mod tree;
mod ways;

use layout::{Layout, BLOCKS};
pub use layout::{HOUSE, PUBLISHED};
use sink::{Counter, Layer};
use survey::Survey;
use tree::{Tree, View, Written};

const BARRIER: u64 = u64::MAX;

/// Reads from a file, block by block, as many bytes as there are and fit.
pub fn read<const W: usize>(board: &[u64], file: u64, offset: u64, out: &mut [u8]) -> i64 {
    if let Err(refusal) = Survey::<W>::of(board) {
        return refusal;
    }
    if file > 31 {
        return -4;
    }
    let at = Layout::<W>::inode(board, file) as usize;
    let tree = Tree::<W>::of_root(board[at], board[at + 1]);
    let count = tree.visible.saturating_sub(offset).min(out.len() as u64);
    let view = View { board, grown: &[], free: &[] };
    let (mut offset, mut rest) = (offset, &mut out[..count as usize]);
    while !rest.is_empty() {
        let from = offset as usize % (8 * W);
        let (piece, after) = rest.split_at_mut(rest.len().min(8 * W - from));
        view.copy(tree, offset, piece);
        offset += piece.len() as u64;
        rest = after;
    }
    count as i64
}

/// Plans a write: counts the pairs and blocks by a run that lays nothing, then lays the plan.
pub fn write<const W: usize>(board: &[u64], file: u64, offset: u64, bytes: &[u8], plan: &mut [u64]) -> i64 {
    let survey = match Survey::<W>::of(board) {
        Ok(survey) => survey,
        Err(refusal) => return refusal,
    };
    if file > 31 {
        return -4;
    }
    if offset > Layout::<W>::GREATEST || bytes.len() as u64 > Layout::<W>::GREATEST - offset {
        return -6;
    }
    if bytes.is_empty() {
        return 0;
    }
    let mut free = [0; BLOCKS];
    let free = survey.free(&mut free);
    let new = Written { at: offset, bytes };
    let mut counter = Counter::default();
    if ways::plan::<W, _>(board, free, &mut counter, file, new) > free.len() {
        return -7;
    }
    if plan.len() as u64 / 2 < counter.pairs {
        return -8;
    }
    ways::plan::<W, _>(board, free, &mut Layer { plan, pairs: 0 }, file, new);
    counter.pairs as i64
}

/// Performs the first pairs of a plan: first all addresses are looked at, then all values stored.
pub fn perform<const W: usize>(board: &mut [u64], plan: &[u64], pairs: u64) -> i64 {
    if !Layout::<W>::word_count_fits(board) {
        return -1;
    }
    if pairs > plan.len() as u64 / 2 {
        return -9;
    }
    let plan = &plan[..2 * pairs as usize];
    for pair in plan.chunks_exact(2) {
        if pair[0] >= board.len() as u64 && pair[0] != BARRIER {
            return -10;
        }
    }
    for pair in plan.chunks_exact(2) {
        if pair[0] != BARRIER {
            board[pair[0] as usize] = pair[1];
        }
    }
    pairs as i64
}
