//! The calls: each tests its refusals in the document's order, then answers. Boards, plans and buffers are lent and
//! may hold anything.

use crate::board::{
    self, byte_at, free_blocks, inode, live_blocks, trailer_fits, word_count_fits, Board, Inode, Layout, Place, FILES,
    HOUSE,
};
use crate::plan::{self, Plan, BARRIER};

/// N6's "64-byte stretch".
const STRETCH_BYTES: u64 = 64;

/// `Err(refusal)` unless the condition holds.
fn demand(condition: bool, refusal: u64) -> Result<(), u64> {
    if condition {
        Ok(())
    } else {
        Err(refusal)
    }
}

/// "Check, free count. 1: word count. 2: any of the trailer's eight words. 3: any other reason not to be accepted."
fn demand_accepted(board: Board) -> Result<(), u64> {
    demand(word_count_fits(board), 1)?;
    demand(trailer_fits(board), 2)?;
    demand(live_blocks(board).is_some(), 3)
}

/// Refusals 1, 2, 3 and "4: file number above 31"; the inode of the file.
fn demand_file(board: Board, file: u64) -> Result<Inode, u64> {
    demand_accepted(board)?;
    demand(file < FILES, 4)?;
    Ok(inode(board, file))
}

/// "8: plan slice shorter than twice its pairs." Otherwise copies the pairs into the slice and answers their count;
/// words of the slice past the plan stay.
fn hand_over(plan: &Plan, slice: &mut [u64]) -> Result<u64, u64> {
    let pairs = plan::pairs(plan);
    demand(slice.len() >= 2 * pairs.len(), 8)?;
    for (place, (address, value)) in slice.chunks_exact_mut(2).zip(&pairs) {
        place.copy_from_slice(&[*address, *value]);
    }
    Ok(pairs.len() as u64)
}

/// Answers 0 if the board is accepted. Refuses 1, 2, 3.
pub fn check(layout: &'static Layout, words: &[u64]) -> Result<u64, u64> {
    demand_accepted(Board { layout, words })?;
    Ok(0)
}

/// Answers the number of free blocks. Refuses 1, 2, 3.
pub fn free_count(layout: &'static Layout, words: &[u64]) -> Result<u64, u64> {
    let board = Board { layout, words };
    demand_accepted(board)?;
    Ok(free_blocks(board).len() as u64)
}

/// Answers the size of a file in bytes. Refuses 1, 2, 3, 4.
pub fn size(layout: &'static Layout, words: &[u64], file: u64) -> Result<u64, u64> {
    Ok(demand_file(Board { layout, words }, file)?.size)
}

/// Reads a file from `offset` on into the buffer and answers the count of bytes; those of the buffer after the count
/// keep their values. Refuses 1, 2, 3, 4.
pub fn read(layout: &'static Layout, words: &[u64], file: u64, offset: u64, out: &mut [u8]) -> Result<u64, u64> {
    let board = Board { layout, words };
    let inode = demand_file(board, file)?;
    // "The smaller of the buffer's length and the bytes from the offset to the size; at or past the size it is 0."
    let count = inode.size.saturating_sub(offset).min(out.len() as u64);
    let mut rest = &mut out[..count as usize];
    let mut position = offset;
    while !rest.is_empty() {
        let in_block = (layout.block_bytes() - position % layout.block_bytes()).min(rest.len() as u64);
        let (piece, after) = rest.split_at_mut(in_block as usize);
        let place = board::walk(board, inode, position);
        for (at, byte) in (position..).zip(piece) {
            *byte = byte_at(board, place, at);
        }
        position += in_block;
        rest = after;
    }
    Ok(count)
}

/// Where the walk to a byte of a file ends, on any board of document 01's layout. It refuses nothing; there is no file
/// above 31, so its bytes are in a hole.
pub fn walk(words: &[u64], file: u64, byte: u64) -> Place {
    let board = Board { layout: &HOUSE, words };
    if file < FILES {
        board::walk(board, inode(board, file), byte)
    } else {
        Place::Hole
    }
}

/// N6: "The walk to a byte also answers how many blocks it visited": where `walk` ends, and that number, 0 for a file
/// above 31.
pub fn walk_visited(words: &[u64], file: u64, byte: u64) -> (Place, u64) {
    let board = Board { layout: &HOUSE, words };
    let visited = if file < FILES { board::visited(board, inode(board, file), byte) } else { 0 };
    (walk(words, file, byte), visited)
}

/// N6: "Read and write add these up, once for each 64-byte stretch from a multiple of 64 with a byte read or written",
/// here the `count` bytes from `offset` on, all below the greatest size. For an accepted board and a file up to 31.
fn visited_in_stretches(words: &[u64], file: u64, offset: u64, count: u64) -> u64 {
    let board = Board { layout: &HOUSE, words };
    let inode = inode(board, file);
    let mut sum = 0;
    for start in (0..HOUSE.greatest_size).step_by(STRETCH_BYTES as usize) {
        let used = offset.max(start)..(offset + count).min(start + STRETCH_BYTES);
        if !used.is_empty() {
            sum += board::visited(board, inode, start);
        }
    }
    sum
}

/// `read` on a board of document 01: its answer, and N6's sum for the bytes read. "Refused: as before, with count 0."
pub fn read_visited(words: &[u64], file: u64, offset: u64, out: &mut [u8]) -> (Result<u64, u64>, u64) {
    let answer = read(&HOUSE, words, file, offset, out);
    let visited = answer.map_or(0, |count| visited_in_stretches(words, file, offset, count));
    (answer, visited)
}

/// Plans a write of `bytes` at `offset` and answers the pair count. Refuses 1, 2, 3, 4, then 6: the end exceeds the
/// greatest size; 7: too few free blocks; 8: the plan slice is too short. N3: "Offsets above the size are allowed", "5
/// never occurs".
pub fn write(
    layout: &'static Layout, words: &[u64], file: u64, offset: u64, bytes: &[u8], plan: &mut [u64],
) -> Result<u64, u64> {
    let board = Board { layout, words };
    demand_file(board, file)?;
    let end = offset.checked_add(bytes.len() as u64); // "A sum too large for 64 bits included."
    demand(end.is_some_and(|end| end <= layout.greatest_size), 6)?;
    let planned = plan::write(board, file, offset, bytes).ok_or(7_u64)?;
    hand_over(&planned, plan)
}

/// `write` on a board of document 01: its answer, and N6's sum for the bytes written, "over the tree as it was before
/// the call": planning stores nothing, so the lent words hold that tree. "Refused: as before, with count 0."
pub fn write_visited(words: &[u64], file: u64, offset: u64, bytes: &[u8], plan: &mut [u64]) -> (Result<u64, u64>, u64) {
    let answer = write(&HOUSE, words, file, offset, bytes, plan);
    let visited = answer.map_or(0, |_| visited_in_stretches(words, file, offset, bytes.len() as u64));
    (answer, visited)
}

/// Plans a length change and answers the pair count. Refuses 1, 2, 3, 4, 6 (length above the greatest size), 8.
pub fn set_length(
    layout: &'static Layout, words: &[u64], file: u64, length: u64, plan: &mut [u64],
) -> Result<u64, u64> {
    let board = Board { layout, words };
    demand_file(board, file)?;
    demand(length <= layout.greatest_size, 6)?;
    hand_over(&plan::set_length(board, file, length), plan)
}

/// Plans a format, whatever the board holds, and answers the pair count, 83 on the boards of document 01. Refuses 1, 8.
pub fn format(layout: &'static Layout, words: &[u64], plan: &mut [u64]) -> Result<u64, u64> {
    let board = Board { layout, words };
    demand(word_count_fits(board), 1)?;
    hand_over(&plan::format(board), plan)
}

/// Performs the first `pairs` pairs of a plan on the board and answers their count; barriers store nothing. Refuses 1,
/// then 9: the plan has fewer pairs; 10: one of their addresses is neither on the board nor a barrier's.
pub fn perform(layout: &'static Layout, words: &mut [u64], plan: &[u64], pairs: u64) -> Result<u64, u64> {
    demand(word_count_fits(Board { layout, words }), 1)?;
    // 2 × k exceeds the word count exactly if k exceeds its half, rounded down.
    demand(pairs <= plan.len() as u64 / 2, 9)?;
    let on_board = 0..words.len() as u64;
    let listed = plan.chunks_exact(2).take(pairs as usize);
    demand(listed.clone().all(|pair| on_board.contains(&pair[0]) || pair[0] == BARRIER), 10)?;
    for pair in listed.filter(|pair| pair[0] != BARRIER) {
        words[pair[0] as usize] = pair[1];
    }
    Ok(pairs)
}
