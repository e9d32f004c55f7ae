//! The time of calls by the library and by plain Rust: each figure is the median of rounds in which the two alternate.

use std::hint::black_box;
use std::time::Instant;
use support::boards::room;
use support::performed::done;

pub const ROUNDS: usize = 101;

/// How long a version's turn of a round takes, about.
const TURN: u64 = 1_000_000;

pub struct Calls {
    pub write: fn(&[u64], u64, u64, &[u8], &mut [u64]) -> i64,
    pub perform: fn(&mut [u64], &[u64], u64) -> i64,
}

/// The library's calls, then those of plain Rust.
pub type Versions = [Calls; 2];

/// A write to file 0. Its plan is made by each version and performed on a board that is put back afterwards.
pub struct Job {
    pub name: &'static str,
    pub board: Vec<u64>,
    pub offset: u64,
    pub bytes: Vec<u8>,
}

/// Nanoseconds for one of some calls.
pub fn time(repeats: u32, mut call: impl FnMut()) -> f64 {
    let start = Instant::now();
    for _ in 0..repeats {
        call();
    }
    start.elapsed().as_nanos() as f64 / repeats as f64
}

/// So many calls that take so long once are a turn.
pub fn repeats(once: f64) -> u32 {
    (TURN / once.max(1.0) as u64).clamp(2, 100) as u32
}

pub fn median(mut figures: Vec<f64>) -> f64 {
    figures.sort_by(f64::total_cmp);
    figures[figures.len() / 2]
}

/// For one planning, and for one performing.
fn times(job: &Job, calls: &Calls, repeats: u32) -> (f64, f64) {
    let mut board = job.board.clone();
    let mut plan = vec![0; room(&board)];
    // Once before, so that the plan's pages are there.
    let pairs = done((calls.write)(&board, 0, job.offset, &job.bytes, &mut plan));
    let planning = time(repeats, || {
        black_box((calls.write)(black_box(&board), 0, job.offset, black_box(&job.bytes), &mut plan));
    });
    let performing = time(repeats, || {
        black_box((calls.perform)(black_box(&mut board), black_box(&plan), pairs));
    });
    (planning, performing)
}

/// Planning by the library and by plain Rust, performing by both.
fn medians(job: &Job, [ours, plain]: &Versions) -> [f64; 4] {
    let (planning, performing) = times(job, ours, 1);
    let repeats = repeats((planning + performing) / 2.0);
    let mut figures: [Vec<f64>; 4] = Default::default();
    for _ in 0..ROUNDS {
        let (ours, plain) = (times(job, ours, repeats), times(job, plain, repeats));
        for (list, figure) in figures.iter_mut().zip([ours.0, plain.0, ours.1, plain.1]) {
            list.push(figure);
        }
    }
    figures.map(median)
}

pub fn print_table(jobs: &[Job], versions: &Versions) {
    println!("{:32}plan, ns     plain   ratio perform, ns     plain   ratio    both", "");
    for job in jobs {
        let [plan, plain, performs, plain_performs] = medians(job, versions);
        print!("{:<30}{plan:>10.0}{plain:>10.0}{:>8.2}", job.name, plan / plain);
        print!("{performs:>12.0}{plain_performs:>10.0}{:>8.2}", performs / plain_performs);
        println!("{:>8.2}", (plan + performs) / (plain + plain_performs));
    }
}
