//! Board images held as bytes: their decoding, the calls that the cabinet's C program makes on them, and the text that
//! the lister prints. All of this is for the boards of document 01.

use crate::board::{block_count, held_count, inode, Board, FILES, HOUSE};
use crate::calls;

/// The lister refuses an image of more bytes than this.
const IMAGE_LIMIT: usize = 65_536;

/// The words of an image, "eight to a word, byte 0 first. A byte count that isn't a multiple of 8 is refused 1." An
/// image of too many bytes is refused 1 too, as its word count would be, before anything is copied.
fn decode(image: &[u8]) -> Result<Vec<u64>, u64> {
    if image.len() % 8 != 0 || image.len() > IMAGE_LIMIT {
        return Err(1);
    }
    Ok(image.chunks_exact(8).map(decode_word).collect())
}

/// A word from its eight bytes: byte i stands for 256^i.
fn decode_word(bytes: &[u8]) -> u64 {
    bytes.iter().rev().fold(0, |word, &byte| word << 8 | u64::from(byte))
}

/// `check` on an image.
pub fn image_check(image: &[u8]) -> Result<u64, u64> {
    calls::check(&HOUSE, &decode(image)?)
}

/// `size` on an image.
pub fn image_size(image: &[u8], file: u64) -> Result<u64, u64> {
    calls::size(&HOUSE, &decode(image)?, file)
}

/// `read` on an image.
pub fn image_read(image: &[u8], file: u64, offset: u64, out: &mut [u8]) -> Result<u64, u64> {
    calls::read(&HOUSE, &decode(image)?, file, offset, out)
}

/// "C gets each answer as a signed 64-bit number, a refusal r as −r."
pub fn signed(answer: Result<u64, u64>) -> i64 {
    match answer {
        Ok(answer) => answer as i64,
        Err(refusal) => (refusal as i64).wrapping_neg(),
    }
}

/// What the lister prints for an image, whole. "A refused image prints only `refused` and the number."
pub fn listing(image: &[u8]) -> String {
    accepted_listing(image).unwrap_or_else(|refusal| format!("refused {refusal}\n"))
}

/// "First line: B, free count. Then each file of size above 0, rising."
fn accepted_listing(image: &[u8]) -> Result<String, u64> {
    let words = decode(image)?;
    let free = calls::free_count(&HOUSE, &words)?;
    let board = Board { layout: &HOUSE, words: &words };
    let files: String = (0..FILES).map(|file| file_line(board, file)).collect();
    Ok(format!("blocks {} free {free}\n{files}", block_count(board)))
}

/// The line of a file: "number, size, root's height", then as N1 says "the column is headed held and counts every live
/// block of the file, data and pointers"; nothing for a file of size 0.
fn file_line(board: Board, file: u64) -> String {
    let inode = inode(board, file);
    if inode.size == 0 {
        return String::new();
    }
    let (size, height, held) = (inode.size, inode.tree().height, held_count(board, inode));
    format!("file {file} size {size} height {height} held {held}\n")
}
