//! The built library's C forms (include/montebeech.h), on Rust slices: libcabinet.a on images, libhosts.a on words. Each
//! layout has calls on words of its own.

use crate::layout::{self, Layout};

extern "C" {
    fn montebeech_check(image: *const u8, image_len: usize) -> i64;
    fn montebeech_size(image: *const u8, image_len: usize, file: u64) -> i64;
    fn montebeech_read(image: *const u8, image_len: usize, file: u64, offset: u64, out: *mut u8, out_len: usize)
        -> i64;
    fn montebeech_words_check(board: *const u64, board_len: usize) -> i64;
    fn montebeech_words_free_count(board: *const u64, board_len: usize) -> i64;
    fn montebeech_words_size(board: *const u64, board_len: usize, file: u64) -> i64;
    fn montebeech_words_read(
        board: *const u64, board_len: usize, file: u64, offset: u64, out: *mut u8, out_len: usize,
    ) -> i64;
    fn montebeech_words_walk(board: *const u64, board_len: usize, file: u64, byte: u64) -> i64;
    fn montebeech_words_write(
        board: *const u64, board_len: usize, file: u64, offset: u64, bytes: *const u8, bytes_len: usize,
        plan: *mut u64, plan_len: usize,
    ) -> i64;
    fn montebeech_words_set_length(
        board: *const u64, board_len: usize, file: u64, length: u64, plan: *mut u64, plan_len: usize,
    ) -> i64;
    fn montebeech_words_format(board: *const u64, board_len: usize, plan: *mut u64, plan_len: usize) -> i64;
    fn montebeech_words_perform(
        board: *mut u64, board_len: usize, plan: *const u64, plan_len: usize, pairs: u64,
    ) -> i64;
}

// ---- On an image

pub fn image_check(image: &[u8]) -> i64 {
    unsafe { montebeech_check(image.as_ptr(), image.len()) }
}

pub fn image_size(image: &[u8], file: u64) -> i64 {
    unsafe { montebeech_size(image.as_ptr(), image.len(), file) }
}

pub fn image_read(image: &[u8], file: u64, offset: u64, out: &mut [u8]) -> i64 {
    unsafe { montebeech_read(image.as_ptr(), image.len(), file, offset, out.as_mut_ptr(), out.len()) }
}

// ---- On words

type Answer = unsafe extern "C" fn(*const u64, usize) -> i64;
type Size = unsafe extern "C" fn(*const u64, usize, u64) -> i64;
type Read = unsafe extern "C" fn(*const u64, usize, u64, u64, *mut u8, usize) -> i64;
type Write = unsafe extern "C" fn(*const u64, usize, u64, u64, *const u8, usize, *mut u64, usize) -> i64;
type SetLength = unsafe extern "C" fn(*const u64, usize, u64, u64, *mut u64, usize) -> i64;
type Format = unsafe extern "C" fn(*const u64, usize, *mut u64, usize) -> i64;
type Perform = unsafe extern "C" fn(*mut u64, usize, *const u64, usize, u64) -> i64;

/// The calls for boards of a layout.
pub struct Library {
    pub layout: &'static Layout,
    pub check: Answer,
    pub free_count: Answer,
    pub size: Size,
    pub read: Read,
    pub write: Write,
    pub set_length: SetLength,
    pub format: Format,
    pub perform: Perform,
}

pub static HOUSE: Library = Library {
    layout: &layout::HOUSE,
    check: montebeech_words_check,
    free_count: montebeech_words_free_count,
    size: montebeech_words_size,
    read: montebeech_words_read,
    write: montebeech_words_write,
    set_length: montebeech_words_set_length,
    format: montebeech_words_format,
    perform: montebeech_words_perform,
};

impl Library {
    pub fn check(&self, board: &[u64]) -> i64 {
        unsafe { (self.check)(board.as_ptr(), board.len()) }
    }

    pub fn free_count(&self, board: &[u64]) -> i64 {
        unsafe { (self.free_count)(board.as_ptr(), board.len()) }
    }

    pub fn size(&self, board: &[u64], file: u64) -> i64 {
        unsafe { (self.size)(board.as_ptr(), board.len(), file) }
    }

    pub fn read(&self, board: &[u64], file: u64, offset: u64, out: &mut [u8]) -> i64 {
        unsafe { (self.read)(board.as_ptr(), board.len(), file, offset, out.as_mut_ptr(), out.len()) }
    }

    pub fn write(&self, board: &[u64], file: u64, offset: u64, bytes: &[u8], plan: &mut [u64]) -> i64 {
        let (from, count, to, room) = (bytes.as_ptr(), bytes.len(), plan.as_mut_ptr(), plan.len());
        unsafe { (self.write)(board.as_ptr(), board.len(), file, offset, from, count, to, room) }
    }

    pub fn set_length(&self, board: &[u64], file: u64, length: u64, plan: &mut [u64]) -> i64 {
        unsafe { (self.set_length)(board.as_ptr(), board.len(), file, length, plan.as_mut_ptr(), plan.len()) }
    }

    pub fn format(&self, board: &[u64], plan: &mut [u64]) -> i64 {
        unsafe { (self.format)(board.as_ptr(), board.len(), plan.as_mut_ptr(), plan.len()) }
    }

    pub fn perform(&self, board: &mut [u64], plan: &[u64], pairs: u64) -> i64 {
        unsafe { (self.perform)(board.as_mut_ptr(), board.len(), plan.as_ptr(), plan.len(), pairs) }
    }
}

// ---- On words of the house's boards

pub fn walk(board: &[u64], file: u64, byte: u64) -> i64 {
    unsafe { montebeech_words_walk(board.as_ptr(), board.len(), file, byte) }
}

pub fn write(board: &[u64], file: u64, offset: u64, bytes: &[u8], plan: &mut [u64]) -> i64 {
    HOUSE.write(board, file, offset, bytes, plan)
}

pub fn perform(board: &mut [u64], plan: &[u64], pairs: u64) -> i64 {
    HOUSE.perform(board, plan, pairs)
}
