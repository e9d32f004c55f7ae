//! How long it takes to plan a write and to perform the plan, beside the same calls in plain Rust (docs/src/fast), on a
//! board of 1,024 blocks. That both leave the same plans and boards is tested apart (tests/rust/same_plans.rs).

mod timing;

use support::library::{perform, write};
use support::performed::{self, formatted};
use support::random::Random;
use timing::{print_table, Calls, Job};

const WORDS: usize = 8192;

fn jobs(random: &mut Random) -> Vec<Job> {
    let [whole, large, block, word] = [32768, 4096, 64, 8].map(|count| random.bytes(count));
    let empty = formatted(WORDS);
    let mut filled = empty.clone();
    performed::write(&mut filled, 0, 0, &whole[..16384]);
    let mut short = empty.clone();
    performed::write(&mut short, 0, 0, &whole[..3000]);
    let append = 16384;
    vec![
        Job { name: "one word", board: filled.clone(), offset: 8000, bytes: word.clone() },
        Job { name: "8 bytes past the end", board: short, offset: 3400, bytes: word },
        Job { name: "64-byte append", board: filled.clone(), offset: append, bytes: block },
        Job { name: "4,096-byte overwrite", board: filled.clone(), offset: 4096, bytes: large },
        Job { name: "32,768-byte write", board: empty, offset: 0, bytes: whole },
    ]
}

fn main() {
    let plain = Calls { write: fast::write::<{ fast::HOUSE }>, perform: fast::perform::<{ fast::HOUSE }> };
    print_table(&jobs(&mut Random::new(1, 0)), &[Calls { write, perform }, plain]);
}
