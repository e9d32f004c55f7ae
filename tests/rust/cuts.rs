//! Power cuts on plans as the built library leaves them: in every epoch all sets of its stores where it has few, and
//! random sets where it has more. On each board that such a cut leaves, the library checks the board and reads all 32
//! files, which are held against before and after. After is worked out on plain arrays of bytes, not from the plan. On
//! the house's boards, or with the word `published` on N11's.
//!
//!     cuts [published] SEED BOARDS [ROUND]    rounds of the seed from ROUND on, until BOARDS boards have been tried

mod changes;

use changes::{change, Change};
use probes::PUBLISHED;
use std::ops::AddAssign;
use support::boards::FILES;
use support::layout::Layout;
use support::library::{Library, HOUSE};
use support::random::Random;
use support::rounds::Words;
use support::stores::{all_but, alone, arrive, as_plan, epochs, sets, Store, BARRIER};
use support::ways::Ways;

/// Whose plans are cut, and where.
struct Trial {
    library: &'static Library,
    /// Epochs of at most so many stores are cut at all sets of them.
    all_sets: usize,
    /// Others at so many sets, most of them random.
    tried_sets: usize,
    /// From so many boards on, each way must have been met.
    enough: u64,
}

static ON_HOUSE: Trial = Trial { library: &HOUSE, all_sets: 12, tried_sets: 40, enough: 200_000 };
/// A board takes longer here, so there are fewer for each plan.
static ON_PUBLISHED: Trial = Trial { library: &PUBLISHED, all_sets: 5, tried_sets: 12, enough: 20_000 };

#[derive(Default)]
struct Tally {
    boards: u64,
    epochs: u64,
    epochs_by_all_sets: u64,
    read_as_after: u64,
}

impl AddAssign for Tally {
    fn add_assign(&mut self, more: Tally) {
        self.boards += more.boards;
        self.epochs += more.epochs;
        self.epochs_by_all_sets += more.epochs_by_all_sets;
        self.read_as_after += more.read_as_after;
    }
}

// ---- Cuts

/// Says what is wrong with a board that a cut left, if anything is.
fn fault(
    library: &Library, board: &[u64], change: &Change, last_arrived: bool, buffer: &mut Vec<u8>,
) -> Option<String> {
    let checked = library.check(board);
    if checked != 0 {
        return Some(format!("the board is refused {}", -checked));
    }
    let mut reads = |file, content| library.reads_as(board, file as u64, content, buffer);
    for (file, before) in change.before.iter().enumerate() {
        let expected = if file == change.file && last_arrived { &change.after } else { before };
        if !reads(file, expected) {
            let as_before = if reads(file, before) { "as before" } else { "not as before" };
            return Some(format!("in a change of file {} file {file} reads {as_before}", change.file));
        }
    }
    None
}

/// One of n stores alone, all but one, or any.
fn random_set(random: &mut Random, n: usize) -> Vec<bool> {
    let (one, most) = (random.below(n as u64) as usize, random.below(9));
    match random.below(4) {
        0 => alone(n, one),
        1 => all_but(n, one),
        _ => (0..n).map(|_| random.below(8) < most).collect(),
    }
}

/// The sets of n stores that are tried. None, all, and all but one are three of those of many stores.
fn tried_sets(trial: &Trial, random: &mut Random, n: usize) -> Vec<Vec<bool>> {
    sets(n, trial.all_sets, || {
        let one = random.below(n as u64) as usize;
        let others = (3..trial.tried_sets).map(|_| random_set(random, n));
        std::iter::once(all_but(n, one)).chain(others).collect()
    })
}

/// What is found on the board while those stores of the epoch have arrived that the set has, and no others.
fn cut_in<T>(board: &mut [u64], epoch: &[Store], set: &[bool], found: impl FnOnce(&[u64]) -> T) -> T {
    let old: Vec<Store> = epoch.iter().map(|&(address, _)| (address, board[address as usize])).collect();
    arrive(board, epoch, |i| set[i]);
    let found = found(board);
    arrive(board, &old, |_| true);
    found
}

/// Every cut of the plan; the first that shows what it must not ends it.
fn cut(trial: &Trial, random: &mut Random, board: &[u64], change: &Change) -> Result<Tally, String> {
    let mut tally = Tally::default();
    let (mut stands, mut buffer) = (board.to_vec(), Vec::new());
    let epochs = epochs(&change.plan);
    for (at, epoch) in epochs.iter().enumerate() {
        let n = epoch.len();
        for set in tried_sets(trial, random, n) {
            // Where before and after are the same, either may stand for the other.
            let last_arrived = at + 1 == epochs.len() && set[n - 1];
            let fault =
                cut_in(&mut stands, epoch, &set, |left| fault(trial.library, left, change, last_arrived, &mut buffer));
            if let Some(fault) = fault {
                let arrived = set.iter().filter(|&&arrived| arrived).count();
                return Err(format!("{fault}: cut in epoch {at} of {}, {arrived} of {n} stores arrived", epochs.len()));
            }
            tally.boards += 1;
            tally.read_as_after += u64::from(last_arrived);
        }
        trial.library.perform_whole(&mut stands, &as_plan(epoch));
        tally.epochs += 1;
        tally.epochs_by_all_sets += u64::from(n <= trial.all_sets);
    }
    Ok(tally)
}

/// "A cut inside it leaves the old board's word 0, or 0 (refused 2), or 32 empty files."
fn format_cut(library: &Library, board: &[u64], left: &[u64], first_arrived: bool, last_arrived: bool) -> bool {
    if !first_arrived {
        return left == board;
    }
    if !last_arrived {
        return left[library.layout.trailer(left)] == 0 && library.check(left) == -2;
    }
    library.check(left) == 0 && library.contents(left, FILES).iter().all(Vec::is_empty)
}

// ---- Plans that must not pass

#[derive(Default)]
struct Spoilt {
    tried: u64,
    found: u64,
}

impl Spoilt {
    fn try_plan(&mut self, trial: &Trial, random: &mut Random, board: &[u64], change: &Change, plan: Vec<u64>) {
        let spoilt = Change { file: change.file, before: change.before.clone(), after: change.after.clone(), plan };
        self.tried += 1;
        self.found += u64::from(cut(trial, random, board, &spoilt).is_err());
    }

    fn report(&self, how: &str) {
        println!("plans {how}: {} of {} would show a false history, and are found", self.found, self.tried);
    }
}

fn without_barriers(plan: &[u64]) -> Vec<u64> {
    as_plan(&epochs(plan).concat())
}

fn last_store_alone(plan: &[u64]) -> Vec<u64> {
    plan[plan.len() - 2..].to_vec()
}

// ---- Rounds

struct Test {
    trial: &'static Trial,
    library: &'static Library,
    random: Random,
    tally: Tally,
    ways: Ways,
    plans: u64,
    formats: u64,
    format_boards: u64,
    no_barriers: Spoilt,
    commits_alone: Spoilt,
}

impl Test {
    fn spoil(&mut self, board: &[u64], change: &Change) {
        if change.plan.contains(&BARRIER) && self.random.one_in(10) {
            let (trial, random) = (self.trial, &mut self.random);
            self.no_barriers.try_plan(trial, random, board, change, without_barriers(&change.plan));
            self.commits_alone.try_plan(trial, random, board, change, last_store_alone(&change.plan));
        }
    }

    /// Changes one after the other, each cut everywhere and then performed; at times one is left half performed.
    fn history(&mut self, board: &mut [u64]) {
        for _ in 0..1 + self.random.below(8) {
            let Some(change) = change(self.library, &mut self.random, board, &mut self.ways) else { continue };
            let cut = cut(self.trial, &mut self.random, board, &change);
            self.tally += cut.unwrap_or_else(|fault| panic!("{fault}"));
            self.plans += 1;
            self.spoil(board, &change);
            let all = change.plan.len() as u64 / 2;
            let some = if self.random.one_in(6) { self.random.below(all + 1) } else { all };
            self.library.perform(board, &change.plan, some);
        }
    }

    /// Every cut of a format of the board.
    fn format(&mut self, board: &[u64]) {
        let pairs = self.library.layout.format_pairs;
        let mut plan = vec![0; 2 * pairs];
        assert!(self.library.format(board, &mut plan) == pairs as i64, "format's pairs");
        let mut stands = board.to_vec();
        let epochs = epochs(&plan);
        for (at, epoch) in epochs.iter().enumerate() {
            for set in tried_sets(self.trial, &mut self.random, epoch.len()) {
                let first_arrived = at > 0 || set[0];
                let last_arrived = at + 1 == epochs.len() && set[0];
                let look = |left: &[u64]| format_cut(self.library, board, left, first_arrived, last_arrived);
                assert!(cut_in(&mut stands, epoch, &set, look), "format cut in epoch {at}");
                self.format_boards += 1;
            }
            self.library.perform_whole(&mut stands, &as_plan(epoch));
        }
        self.formats += 1;
    }

    fn round(&mut self) {
        let layout = self.library.layout;
        let blocks = layout.block_count(&mut self.random);
        let kind = if self.random.one_in(4) { Layout::bare } else { Layout::laid };
        let mut board = kind(layout, &mut self.random, blocks);
        self.history(&mut board);
        if self.random.one_in(8) {
            self.format(&board);
        }
    }

    fn report(&self) {
        let Tally { boards, epochs, epochs_by_all_sets, read_as_after } = self.tally;
        println!(
            "cuts: {} plans, {epochs} epochs, {epochs_by_all_sets} of them by all sets of their stores",
            self.plans
        );
        self.ways.report();
        self.no_barriers.report("without their barriers");
        self.commits_alone.report("by the last store alone");
        println!("cuts: {} plans of format, {} boards, each as it must be", self.formats, self.format_boards);
        println!("cuts: {boards} boards tried, each accepted, every file wholly as before or wholly as after");
        println!("cuts: as after on {read_as_after} of them, those that the last planned store had reached");
    }
}

fn main() {
    let words = Words::read("cuts", 200_000);
    let trial = if words.published { &ON_PUBLISHED } else { &ON_HOUSE };
    let mut test = Test {
        trial,
        library: trial.library,
        random: Random::new(words.seed, 0),
        tally: Tally::default(),
        ways: Ways::of(trial.library),
        plans: 0,
        formats: 0,
        format_boards: 0,
        no_barriers: Spoilt::default(),
        commits_alone: Spoilt::default(),
    };
    for round in words.rounds() {
        if test.tally.boards >= words.wanted {
            break;
        }
        test.random = Random::new(words.seed, round);
        test.round();
    }
    test.report();
    if words.wanted >= trial.enough {
        test.ways.all_met();
        assert!(test.no_barriers.found > 0 && test.commits_alone.found > 0, "no spoilt plan was found");
    }
}
