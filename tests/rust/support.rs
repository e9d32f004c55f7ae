//! What the tests of the built library and the benchmarks share.

pub mod bands;
pub mod boards;
pub mod files;
pub mod kinds;
pub mod layout;
pub mod library;
pub mod past_end;
pub mod performed;
pub mod random;
pub mod rounds;
pub mod stores;
pub mod ways;
