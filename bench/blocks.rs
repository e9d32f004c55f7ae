//! What the size of a block costs: the same changes of the same files on one of the house's boards and on one with the
//! published block, counted from the plans that the library leaves.

use crate::tables::{print_heading, print_row, with_commas};
use probes::PUBLISHED;
use support::boards::room;
use support::files::put;
use support::library::{Library, HOUSE};
use support::performed::done;
use support::random::Random;
use support::stores::{arrive, epochs, Epochs};

/// A file that ends with a block of either kind, and one that ends within both.
const WHOLE: (u64, u64) = (0, 16384);
const PARTLY: (u64, u64) = (1, 10280);
/// An entry past the end begins so many bytes after it.
const GAP: u64 = 240;
const COUNTS: [usize; 4] = [8, 64, 512, 4096];

/// A kind of change: its name, with the bytes that are written in the place of the asterisk, the file, and the offset.
type Kind = (&'static str, u64, u64);

const KINDS: [Kind; 5] = [
    ("overwrite of * bytes from the start of a block", WHOLE.0, 4096),
    ("overwrite of * bytes from the middle of a word", WHOLE.0, 4100),
    ("append of * bytes from the middle of a block", PARTLY.0, PARTLY.1),
    ("append of * bytes after the end of a block", WHOLE.0, WHOLE.1),
    ("* bytes 240 bytes past the end", PARTLY.0, PARTLY.1 + GAP),
];

/// Performs what a call plans on the board, by the library and store by store, and answers the plan.
fn performed(library: &Library, board: &mut Vec<u64>, call: impl Fn(&[u64], &mut [u64]) -> i64) -> Vec<u64> {
    let mut plan = vec![0; room(board)];
    let pairs = done(call(board, &mut plan)) as usize;
    plan.truncate(2 * pairs);
    let mut by_stores = board.clone();
    library.perform_whole(board, &plan);
    arrive(&mut by_stores, &epochs(&plan).concat(), |_| true);
    assert!(*board == by_stores, "perform and the plan's stores leave other boards");
    plan
}

fn write(library: &Library, board: &mut Vec<u64>, file: u64, offset: u64, bytes: &[u8]) -> Vec<u64> {
    performed(library, board, |board, plan| library.write(board, file, offset, bytes, plan))
}

fn starting_board(library: &Library, files: &[Vec<u8>]) -> Vec<u64> {
    let mut board = vec![0; (library.layout.most * library.layout.block) as usize];
    performed(library, &mut board, |board, plan| library.format(board, plan));
    for (file, bytes) in (0..).zip(files) {
        write(library, &mut board, file, 0, bytes);
    }
    board
}

/// The stores of a change, epoch by epoch, on the largest board with these files, which must read as they should
/// afterwards.
fn stores(library: &Library, files: &[Vec<u8>], file: u64, offset: u64, bytes: &[u8]) -> Epochs {
    let mut board = starting_board(library, files);
    let plan = write(library, &mut board, file, offset, bytes);
    let mut after = files.to_vec();
    put(&mut after[file as usize], offset, bytes);
    assert_eq!(library.check(&board), 0);
    assert!(library.contents(&board, files.len() as u64) == after, "not as after");
    epochs(&plan)
}

pub fn print_table() {
    let mut random = Random::new(1, 0);
    let files = [WHOLE.1, PARTLY.1].map(|size| random.bytes(size as usize));
    let named = |figure: &str| ["64-byte", "4,096-byte"].map(|block| format!("{figure}: {block} blocks"));
    print_heading(&[named("stores"), named("bytes stored")].concat());
    for (name, file, offset) in KINDS {
        for count in COUNTS {
            let bytes = random.bytes(count);
            let epochs = [&HOUSE, &PUBLISHED].map(|library| stores(library, &files, file, offset, &bytes));
            assert_eq!(epochs[0].len(), epochs[1].len(), "as many barriers by either block");
            let stores = epochs.map(|epochs| epochs.concat().len() as u64);
            let cells = [stores, stores.map(|stores| 8 * stores)].concat();
            let name = name.replace('*', &with_commas(count as u64));
            print_row(&name, &cells.into_iter().map(with_commas).collect::<Vec<_>>());
        }
    }
}
