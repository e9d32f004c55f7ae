//! How long reads, planning and performing take on boards with the published block, beside the same calls in plain Rust
//! (docs/src/fast), on a board of 512 blocks. That both leave the same bytes, plans and boards is tested apart
//! (tests/rust/same_plans.rs).

mod timing;

use fast::PUBLISHED as W;
use probes::PUBLISHED;
use std::hint::black_box;
use support::boards::room;
use support::performed::done;
use support::random::Random;
use timing::{median, print_table, repeats, time, Calls, Job, ROUNDS};

const WORDS: usize = 512 * 512;
const BLOCK: usize = 4096;
const MIB: usize = 1 << 20;
/// The greatest file has 512 data blocks. A board has 507 for them: all but block 0, the trailer, the two of the inodes
/// and the pointer block over the data.
const DATA_BLOCKS: usize = 507;

// ---- Boards

fn performed(board: &mut [u64], plan: impl Fn(&[u64], &mut [u64]) -> i64) {
    let mut words = vec![0; room(board)];
    let pairs = done(plan(board, &mut words)) as usize;
    PUBLISHED.perform_whole(board, &words[..2 * pairs]);
}

fn formatted() -> Vec<u64> {
    let mut board = vec![0; WORDS];
    performed(&mut board, |board, plan| PUBLISHED.format(board, plan));
    board
}

/// A board with these bytes in file 0, and nothing else.
fn holding(bytes: &[u8]) -> Vec<u64> {
    let mut board = formatted();
    performed(&mut board, |board, plan| PUBLISHED.write(board, 0, 0, bytes, plan));
    board
}

/// A full board: file 0 is as large as files get, and its last five blocks are holes.
fn full(bytes: &[u8]) -> Vec<u64> {
    let mut board = holding(&bytes[..DATA_BLOCKS * BLOCK]);
    performed(&mut board, |board, plan| PUBLISHED.set_length(board, 0, 2 * MIB as u64, plan));
    assert_eq!(PUBLISHED.free_count(&board), 0);
    board
}

// ---- Reads

type Read = fn(&[u64], u64, u64, &mut [u8]) -> i64;

fn time_read(read: Read, board: &[u64], offset: u64, out: &mut [u8], repeats: u32) -> f64 {
    time(repeats, || {
        black_box(read(black_box(board), 0, offset, black_box(&mut *out)));
    })
}

/// The row of a read, by the library and by plain Rust.
fn print_read(name: &str, board: &[u64], offset: u64, count: usize) {
    let versions: [Read; 2] = [|board, file, offset, out| PUBLISHED.read(board, file, offset, out), fast::read::<W>];
    let mut out = vec![1; count];
    let repeats = repeats(time_read(versions[1], board, offset, &mut out, 1));
    let mut figures: [Vec<f64>; 2] = Default::default();
    for _ in 0..ROUNDS {
        for (list, read) in figures.iter_mut().zip(versions) {
            list.push(time_read(read, board, offset, &mut out, repeats));
        }
    }
    let [ours, plain] = figures.map(median);
    println!("{name:<46} {ours:>10.0} {plain:>10.0} {:>8.2}", ours / plain);
}

fn print_reads(bytes: &[u8]) {
    let (full, half) = (full(bytes), holding(&bytes[..MIB]));
    println!("ns, published boards                              library plain Rust    ratio");
    print_read("read of no byte from a full board", &full, 0, 0);
    print_read("read of 4,096 bytes", &half, 8 * BLOCK as u64, BLOCK);
    print_read("read of 1,048,576 bytes, all data", &half, 0, MIB);
    print_read("read of 2,097,152 bytes, 20,480 of them holes", &full, 0, 2 * MIB);
    print_read("the same from offset 3", &full, 3, 2 * MIB);
}

// ---- Writes

fn jobs(bytes: &[u8]) -> Vec<Job> {
    let (filled, short) = (holding(&bytes[..MIB]), holding(&bytes[..MIB - 1000]));
    let job = |name, board: &Vec<u64>, offset: usize, count: usize| {
        let bytes = bytes[MIB..MIB + count].to_vec();
        Job { name, board: board.clone(), offset: offset as u64, bytes }
    };
    vec![
        job("one word", &filled, 8000, 8),
        job("8 bytes past the end", &short, MIB + 3000, 8),
        job("4,096-byte append", &filled, MIB, BLOCK),
        job("4,096-byte overwrite", &filled, 8 * BLOCK, BLOCK),
        job("the same across two blocks", &filled, 8 * BLOCK + 1003, BLOCK),
        job("1,048,576-byte write", &formatted(), 0, MIB),
    ]
}

fn main() {
    let bytes = Random::new(1, 0).bytes(2 * MIB);
    print_reads(&bytes);
    let ours = Calls {
        write: |board, file, offset, bytes, plan| PUBLISHED.write(board, file, offset, bytes, plan),
        perform: |board, plan, pairs| PUBLISHED.perform(board, plan, pairs),
    };
    println!();
    print_table(&jobs(&bytes), &[ours, Calls { write: fast::write::<W>, perform: fast::perform::<W> }]);
}
