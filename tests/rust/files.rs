//! What files read as: by the library, and after a write on plain arrays of bytes.

use crate::library::{Library, HOUSE};
use crate::performed::done;

impl Library {
    /// What the first files of an accepted board read as, so many of them.
    pub fn contents(&self, board: &[u64], files: u64) -> Vec<Vec<u8>> {
        let mut out = vec![0; self.layout.greatest() as usize + 1];
        let read = |file| {
            let count = done(self.read(board, file, 0, &mut out));
            out[..count as usize].to_vec()
        };
        (0..files).map(read).collect()
    }

    /// Whether a file of an accepted board reads as this, into a buffer with room for one byte more.
    pub fn reads_as(&self, board: &[u64], file: u64, content: &[u8], buffer: &mut Vec<u8>) -> bool {
        let room = content.len() + 1;
        buffer.resize(buffer.len().max(room), 0);
        let count = done(self.read(board, file, 0, &mut buffer[..room]));
        buffer[..count as usize] == *content
    }
}

/// What the first files of one of the house's boards read as.
pub fn contents(board: &[u64], files: u64) -> Vec<Vec<u8>> {
    HOUSE.contents(board, files)
}

/// Writes bytes to a file at an offset, which may lie past its end.
pub fn put(file: &mut Vec<u8>, offset: u64, bytes: &[u8]) {
    let (start, end) = (offset as usize, offset as usize + bytes.len());
    file.resize(file.len().max(end), 0);
    file[start..end].copy_from_slice(bytes);
}
