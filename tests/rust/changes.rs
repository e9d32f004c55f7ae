//! Random writes and length changes: the library's plan, and before and after as plain arrays of bytes.

use support::boards::{room, FILES};
use support::files::put;
use support::layout::Layout;
use support::library::Library;
use support::random::Random;
use support::ways::Ways;

enum Asked {
    /// Offset and bytes.
    Write(u64, Vec<u8>),
    Length(u64),
}

/// A plan, with what the change is to do.
pub struct Change {
    pub file: usize,
    pub before: Vec<Vec<u8>>,
    pub after: Vec<u8>,
    pub plan: Vec<u64>,
}

/// Where a write to a file of this root and size begins and how many bytes it has, small ones more often, past the end
/// still more so.
fn stretch(layout: &Layout, random: &mut Random, (root, size): (u64, u64)) -> (u64, usize) {
    if let Some(stretch) = layout.growing_stretch(random, (root, size)) {
        return stretch;
    }
    let bytes = layout.block_bytes();
    let offset = match random.below(7) {
        0 => size,
        1 => random.below(size + 1) / 8 * 8,
        // Many of these are refused: the end is too far, or the blocks are too few.
        2..=4 => layout.past_end(random, size),
        _ => random.below(size + 1),
    };
    let count = match random.below(if offset > size { 14 } else { 7 }) {
        0 => 1 + random.below(8 - offset % 8),
        1 => layout.some_blocks(random),
        2 => random.pick(layout.spans).min(layout.usual).max(offset + 1) - offset,
        3 => bytes - offset % bytes,
        _ => 1 + random.below(100),
    };
    (offset, count as usize)
}

/// A length: any, near the size, or a multiple of a span, so that later writes past the end find full blocks.
fn length(layout: &Layout, random: &mut Random, size: u64) -> u64 {
    let (span, most) = (random.pick(layout.lower_spans()), layout.largest(random));
    match random.below(4) {
        0 => random.below(most + 1),
        1 => random.below(2 * size + 200),
        2 => (size / span).max(1) * span,
        _ => (1 + random.below(8)) * span,
    }
}

fn asked(layout: &Layout, random: &mut Random, file: (u64, u64)) -> Asked {
    if random.one_in(3) {
        return Asked::Length(length(layout, random, file.1));
    }
    let (offset, count) = stretch(layout, random, file);
    Asked::Write(offset, random.bytes(count))
}

/// The file as a plain array of bytes, changed.
fn after(before: &[u8], asked: &Asked) -> Vec<u8> {
    let mut after = before.to_vec();
    match asked {
        Asked::Length(length) => after.resize(*length as usize, 0),
        Asked::Write(offset, bytes) => put(&mut after, *offset, bytes),
    }
    after
}

/// The plan that the library makes, or nothing if the call is refused.
fn planned(library: &Library, board: &[u64], file: u64, asked: &Asked, ways: &mut Ways) -> Option<Vec<u64>> {
    let mut plan = vec![0; room(board)];
    let pairs = match asked {
        Asked::Length(length) => library.set_length(board, file, *length, &mut plan),
        Asked::Write(offset, bytes) => library.write(board, file, *offset, bytes, &mut plan),
    };
    plan.truncate(2 * usize::try_from(pairs).ok()?);
    match asked {
        Asked::Length(length) => ways.set_length(board, file, *length, &plan),
        Asked::Write(offset, bytes) => ways.write(board, file, *offset, offset + bytes.len() as u64, &plan),
    }
    Some(plan)
}

/// One of the first files more often, so that one is changed again; in most cases one that is not empty.
fn file(random: &mut Random, before: &[Vec<u8>]) -> usize {
    let filled: Vec<usize> = (0..before.len()).filter(|&file| !before[file].is_empty()).collect();
    let most = random.pick(&[3, 3, FILES]) as usize;
    if filled.is_empty() || random.one_in(4) {
        return random.below(most as u64) as usize;
    }
    random.pick(&filled[..most.min(filled.len())])
}

/// A random write or length change that the library plans with at least one pair, or nothing.
pub fn change(library: &Library, random: &mut Random, board: &[u64], ways: &mut Ways) -> Option<Change> {
    let before = library.contents(board, FILES);
    let file = file(random, &before);
    let asked = asked(library.layout, random, library.layout.root_and_size(board, file as u64));
    let plan = planned(library, board, file as u64, &asked, ways)?;
    let after = after(&before[file], &asked);
    assert!(!plan.is_empty() || after == before[file], "an accepted change without a plan");
    (!plan.is_empty()).then_some(Change { file, before, after, plan })
}
