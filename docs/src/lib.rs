//! Document 01 ("Cabinet memory board: block trees and planned stores"), as changed by requests N1 ("The block column
//! in the lister"), N3 ("Writing past the end"), N4 ("Height by cases"), N6 ("How deep was the walk"), N11 ("Boards
//! with the published block") and N12 ("How many stores a write may cost"), written out a second time, from their
//! sentences alone but for N12's sharper figure, which no document has, so that another implementation can be compared
//! with it. It is slow and plain on purpose: each call reads the lent board, makes its whole plan as a list of epochs,
//! and only then tests the refusals that depend on it.
//!
//! A call takes the layout of the boards that it is for. The bands, the walk to a byte, the counts of visited blocks,
//! the most stores of a write, the calls on images and the lister are for the boards of document 01 alone.
//!
//! Every public call gives `Ok(answer)` or `Err(refusal number)`, but the walk to a byte and the figures of N12, which
//! refuse nothing. `read_visited` and `write_visited` give the count of N6 beside that. A refused call changes nothing
//! that it was lent.

#![forbid(unsafe_code)]
#![deny(missing_docs)]

mod board;
mod calls;
mod costs;
mod lister;
mod plan;

pub use board::{height_by_bands, Layout, Place, BANDS, HOUSE, PUBLISHED};
pub use calls::{
    check, format, free_count, perform, read, read_visited, set_length, size, walk, walk_visited, write, write_visited,
};
pub use costs::{most_stores, sharp_most_stores, store_count};
pub use lister::{image_check, image_read, image_size, listing, signed};
