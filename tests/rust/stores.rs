//! A plan's stores by epochs, and the sets of them that a power cut may let arrive.

pub const BARRIER: u64 = u64::MAX;

/// Address and value.
pub type Store = (u64, u64);
/// The stores of each epoch. A barrier stands between any two epochs, and one after the last.
pub type Epochs = Vec<Vec<Store>>;

pub fn epochs(plan: &[u64]) -> Epochs {
    let pairs: Vec<Store> = plan.chunks(2).map(|pair| (pair[0], pair[1])).collect();
    pairs.split(|&(address, _)| address == BARRIER).map(<[Store]>::to_vec).collect()
}

/// The stores as a plan of one epoch.
pub fn as_plan(stores: &[Store]) -> Vec<u64> {
    stores.iter().flat_map(|&(address, value)| [address, value]).collect()
}

/// Performs the stores that arrive.
pub fn arrive(board: &mut [u64], stores: &[Store], arrives: impl Fn(usize) -> bool) {
    for (i, &(address, value)) in stores.iter().enumerate() {
        if arrives(i) {
            board[address as usize] = value;
        }
    }
}

// ---- Sets of n stores, those that have arrived

/// The sets to try: all of them where there are at most so many stores; of more, none, all and the others that are given.
pub fn sets(n: usize, most: usize, others: impl FnOnce() -> Vec<Vec<bool>>) -> Vec<Vec<bool>> {
    if n <= most {
        return all_sets(n);
    }
    let mut sets = vec![vec![false; n], vec![true; n]];
    sets.extend(others());
    sets
}

fn all_sets(n: usize) -> Vec<Vec<bool>> {
    (0..1usize << n).map(|mask| (0..n).map(|i| mask >> i & 1 == 1).collect()).collect()
}

pub fn alone(n: usize, one: usize) -> Vec<bool> {
    (0..n).map(|i| i == one).collect()
}

pub fn all_but(n: usize, one: usize) -> Vec<bool> {
    (0..n).map(|i| i != one).collect()
}
