//! The built library's calls for boards with the published block. They have no C forms but those for tests (libprobes.a).

use support::layout;
use support::library::Library;

extern "C" {
    fn probe_check(board: *const u64, board_len: usize) -> i64;
    fn probe_free_count(board: *const u64, board_len: usize) -> i64;
    fn probe_size(board: *const u64, board_len: usize, file: u64) -> i64;
    fn probe_read(board: *const u64, board_len: usize, file: u64, offset: u64, out: *mut u8, out_len: usize) -> i64;
    fn probe_write(
        board: *const u64, board_len: usize, file: u64, offset: u64, bytes: *const u8, bytes_len: usize,
        plan: *mut u64, plan_len: usize,
    ) -> i64;
    fn probe_set_length(
        board: *const u64, board_len: usize, file: u64, length: u64, plan: *mut u64, plan_len: usize,
    ) -> i64;
    fn probe_format(board: *const u64, board_len: usize, plan: *mut u64, plan_len: usize) -> i64;
    fn probe_perform(board: *mut u64, board_len: usize, plan: *const u64, plan_len: usize, pairs: u64) -> i64;
}

pub static PUBLISHED: Library = Library {
    layout: &layout::PUBLISHED,
    check: probe_check,
    free_count: probe_free_count,
    size: probe_size,
    read: probe_read,
    write: probe_write,
    set_length: probe_set_length,
    format: probe_format,
    perform: probe_perform,
};
