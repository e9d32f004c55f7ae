//! Power cuts: what stands after any set of the stores of one epoch must read wholly as before or wholly as after.

use crate::board::{read, Files};
use support::random::Random;
use support::stores::{all_but, alone, arrive, sets, Epochs};

/// Up to so many stores in an epoch all sets are tried.
const ALL: usize = 10;
const SOME: usize = 100;

/// Performs the epochs on the memory and answers the number of cuts tried, or what a cut left that is neither.
pub fn tried(
    memory: &mut [u64], epochs: &Epochs, recover: fn(&mut [u64]), before: &Files, after: &Files,
) -> Result<u64, String> {
    let mut cuts = 0;
    for (number, epoch) in epochs.iter().enumerate() {
        let n = epoch.len();
        for set in sets(n, ALL, || each_and_some(n)) {
            let mut cut = memory.to_vec();
            arrive(&mut cut, epoch, |i| set[i]);
            recover(&mut cut);
            let found = read(&cut);
            if found.as_ref() != Some(before) && found.as_ref() != Some(after) {
                return Err(format!("a cut in epoch {number} of {} leaves something else", epochs.len()));
            }
            cuts += 1;
        }
        arrive(memory, epoch, |_| true);
    }
    Ok(cuts)
}

/// The same, and what stands at the end must read as after without a recovery.
pub fn performed(
    memory: &mut [u64], epochs: &Epochs, recover: fn(&mut [u64]), before: &Files, after: &Files,
) -> Result<u64, String> {
    let cuts = tried(memory, epochs, recover, before, after)?;
    match read(memory).as_ref() == Some(after) {
        true => Ok(cuts),
        false => Err("not as after at the end".to_string()),
    }
}

/// Of many stores each one alone, all but each one, and some sets at random.
fn each_and_some(n: usize) -> Vec<Vec<bool>> {
    let mut random = Random::new(1, 0);
    let each = (0..n).flat_map(|one| [alone(n, one), all_but(n, one)]);
    each.chain((0..SOME).map(|_| (0..n).map(|_| random.one_in(2)).collect())).collect()
}
