//! N12, "How many stores a write may cost": the figure for the data sheet, a sharper one, and the count of a plan's
//! stores that both are held against. The figures are for the boards of document 01 alone.

use crate::plan::BARRIER;

/// N12: "For a base-layout write of L bytes, L at least 1 and the offset not past the size", "its plan has at most
/// 8 × (t + u + v + 5) + 32 stores, barriers not counted."
pub fn most_stores(length: u64) -> u64 {
    block_stores(length) + 32
}

/// A sharper figure than N12 asks for, for the same writes: 2 takes the place of 32.
pub fn sharp_most_stores(length: u64) -> u64 {
    block_stores(length) + 2
}

/// What both figures share, 8 × (t + u + v + 5). "Let t = floor((L + 62) / 64) + 1, u = floor((t + 6) / 8) + 1 and
/// v = floor((u + 6) / 8) + 1." No step exceeds a word for L up to 2^60.
fn block_stores(length: u64) -> u64 {
    let t = (length + 62) / 64 + 1;
    let u = (t + 6) / 8 + 1;
    let v = (u + 6) / 8 + 1;
    8 * (t + u + v + 5)
}

/// The stores among the first `pairs` pairs of a plan, "barriers not counted": a pair is a barrier if its address is
/// 2^64 − 1, and a store otherwise. Pairs that the slice doesn't hold aren't counted either.
pub fn store_count(plan: &[u64], pairs: u64) -> u64 {
    let listed = plan.chunks_exact(2).take(pairs as usize);
    listed.filter(|pair| pair[0] != BARRIER).count() as u64
}
