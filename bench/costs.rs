//! What a change of a file costs in stores, bytes, barriers and space: by this store's own plans, by a redo journal
//! (journal.rs) and by shadow paging copied up to the root (shadow.rs), on the same board. Each is performed, and every
//! method must pass the same power cuts (cuts.rs). Then the same on boards with either block (blocks.rs). Prints Markdown
//! tables, or CSV if called with `--csv`.

mod blocks;
mod board;
mod cuts;
mod journal;
mod shadow;
mod tables;

use board::{accepted, after, change, free, starting_board, Change, BOARD, COINS, LOG, PICTURE, SCORES};
use std::collections::BTreeSet;
use support::random::Random;
use support::stores::{arrive, Epochs};
use tables::{print_heading, print_row, with_commas};

struct Method {
    name: &'static str,
    /// Nothing where the method has no way to make the changes together.
    plan: fn(&[u64], &[Change]) -> Option<Epochs>,
    recover: fn(&mut [u64]),
}

const METHODS: [Method; 4] = [
    Method { name: "this store", plan: own_plan, recover: nothing },
    Method { name: "redo journal", plan: journal::plan, recover: journal::recover },
    Method { name: "shadow to the root", plan: shadow::plan, recover: nothing },
    Method { name: "journal of pointers", plan: journal::plan_of_pointers, recover: journal::recover },
];
/// Those that stand side by side in the first tables.
const COMPARED: usize = 3;

/// Transactions in a row, each of changes that must be made together.
struct Operation {
    name: &'static str,
    log_entries: usize,
    transactions: Vec<Vec<Change>>,
}

#[derive(Clone, Copy, Default)]
struct Cost {
    stores: u64,
    barriers: u64,
    /// Bytes that must be free or reserved while the operation runs and that the file does not keep.
    extra: u64,
    /// Of these, words of the journal's entries.
    entries: u64,
}

fn nothing(_: &mut [u64]) {}

/// The plan of one call; it covers all changes of a file, with the bytes between them.
fn own_plan(memory: &[u64], changes: &[Change]) -> Option<Epochs> {
    let file = changes[0].file;
    if changes.iter().any(|change| change.file != file) {
        return None;
    }
    let files = after(&accepted(memory), changes);
    let first = changes.iter().map(|change| change.range().start).min()?;
    let end = changes.iter().map(|change| change.range().end).max()?;
    let bytes = files[file as usize][first as usize..end as usize].to_vec();
    let (mut by_library, mut by_stores) = (memory.to_vec(), memory.to_vec());
    let epochs = change(&mut by_library, &Change { file, offset: first, bytes });
    arrive(&mut by_stores, &epochs.concat(), |_| true);
    assert!(by_library == by_stores, "perform and the plan's stores leave other boards");
    Some(epochs)
}

// ---- The operations

/// Entries of the log on the board: 124 end in the middle of a block, and the 126th goes into a fresh block.
const ENTRIES: usize = 124;

fn operations() -> Vec<Operation> {
    let files = accepted(&starting_board(ENTRIES));
    let other = |file: u64, offset: usize, count: usize| {
        let bytes = files[file as usize][offset..offset + count].iter().map(|byte| !byte).collect();
        Change { file, offset: offset as u64, bytes }
    };
    let entry = |entries: usize| Change { file: LOG, offset: 24 * entries as u64, bytes: Random::new(7, 0).bytes(24) };
    let score = other(SCORES, 24, 8);
    let initials = other(SCORES, 36, 6);
    let coin = other(COINS, 0, 8);
    let end = [score, initials, coin, entry(ENTRIES)];
    let row = |name, transactions| Operation { name, log_entries: ENTRIES, transactions };
    let one = |name, change: &Change| row(name, vec![vec![change.clone()]]);
    let rewrite = |name, count| one(name, &other(PICTURE, 4096, count));
    // Ten entries are left out: they read 0.
    let far = entry(ENTRIES + 10);
    let longer = Change { bytes: Vec::new(), ..far.clone() };
    vec![
        one("one word of the score table", &end[0]),
        one("six bytes of initials across two words", &end[1]),
        one("the coin meter's word", &end[2]),
        one("24-byte append to the log", &end[3]),
        row("the four in a row", end.iter().map(|change| vec![change.clone()]).collect()),
        row("the four as one change", vec![end.to_vec()]),
        Operation { log_entries: 125, ..one("24-byte append that goes into a fresh block", &entry(125)) },
        rewrite("rewrite of 64 bytes", 64),
        rewrite("rewrite of 512 bytes", 512),
        rewrite("rewrite of 4,096 bytes", 4096),
        row("two words 96 bytes apart, together", vec![vec![other(SCORES, 48, 8), other(SCORES, 144, 8)]]),
        one("24-byte entry 240 bytes past the log's end", &far),
        row("the same by a length change and a write", vec![vec![longer], vec![far]]),
    ]
}

// ---- Counting

/// Performs a transaction with its power cuts; nothing where the method cannot.
fn transact(method: &Method, memory: &mut [u64], changes: &[Change], cuts: &mut u64) -> Option<Cost> {
    let before = accepted(memory);
    let free_before = free(memory);
    let epochs = (method.plan)(memory, changes)?;
    let result = cuts::performed(memory, &epochs, method.recover, &before, &after(&before, changes));
    *cuts += result.unwrap_or_else(|fault| panic!("{}: {fault}", method.name));
    let stores: Vec<u64> = epochs.concat().iter().map(|store| store.0).collect();
    let journal = stores.iter().filter(|&&at| at >= BOARD as u64).count() as u64;
    let was_free = |block: &u64| free_before.binary_search(block).is_ok();
    let blocks: BTreeSet<u64> = stores.iter().map(|at| at / 8).filter(was_free).collect();
    let kept = (free_before.len() - free(memory).len()) as u64;
    Some(Cost {
        stores: stores.len() as u64,
        barriers: epochs.len() as u64,
        extra: 64 * (blocks.len() as u64 - kept) + 8 * journal,
        entries: journal.saturating_sub(1),
    })
}

fn cost(method: &Method, operation: &Operation, cuts: &mut u64) -> Option<Cost> {
    let mut memory = starting_board(operation.log_entries);
    // An earlier transaction stands in the journal, as it always does but for the first.
    let coins = accepted(&memory).swap_remove(COINS as usize);
    transact(method, &mut memory, &[Change { file: COINS, offset: 0, bytes: coins }], cuts)?;
    let mut sum = Cost::default();
    for changes in &operation.transactions {
        let cost = transact(method, &mut memory, changes, cuts)?;
        sum.stores += cost.stores;
        sum.barriers += cost.barriers;
        sum.extra = sum.extra.max(cost.extra);
        sum.entries = sum.entries.max(cost.entries);
    }
    Some(sum)
}

/// The power cuts must find a plan without its barriers.
fn cuts_find_missing_barriers(operation: &Operation) {
    for method in &METHODS {
        let mut memory = starting_board(operation.log_entries);
        let (before, changes) = (accepted(&memory), &operation.transactions[0]);
        let all = vec![(method.plan)(&memory, changes).unwrap().concat()];
        let result = cuts::performed(&mut memory, &all, method.recover, &before, &after(&before, changes));
        assert!(result.is_err(), "{}: a plan without barriers passes", method.name);
    }
}

/// A journal may leave its stores in place to the epoch of the next transaction's entries: two barriers for each.
fn in_place_with_next(operation: &Operation, cuts: &mut u64) -> Cost {
    let mut arrived = starting_board(operation.log_entries);
    let (mut in_place, mut cost) = (Vec::new(), Cost::default());
    for changes in &operation.transactions {
        let mut seen = arrived.clone();
        arrive(&mut seen, &in_place, |_| true);
        let before = accepted(&seen);
        let plan = journal::plan(&seen, changes).expect("a journal makes every change");
        let epochs = vec![[in_place, plan[0].clone()].concat(), plan[1].clone()];
        *cuts += cuts::tried(&mut arrived, &epochs, journal::recover, &before, &after(&before, changes)).unwrap();
        let stores = plan.concat();
        cost.stores += stores.len() as u64;
        cost.barriers += epochs.len() as u64;
        cost.extra = cost.extra.max(8 * stores.iter().filter(|store| store.0 >= BOARD as u64).count() as u64);
        in_place = plan[2].clone();
    }
    cost.barriers += 1; // after the last stores in place
    cost
}

// ---- Tables

type Row = (&'static str, Vec<Option<Cost>>);
type Figure = fn(&Cost) -> u64;

/// Two figures of each of the compared methods.
fn print_table(rows: &[Row], headings: [&str; 2], figures: [Figure; 2], last: Option<(&str, [u64; COMPARED])>) {
    let named = |heading: &str| METHODS[..COMPARED].iter().map(move |m| format!("{heading}: {}", m.name)).collect();
    let columns: [Vec<String>; 2] = headings.map(named);
    print_heading(&columns.concat());
    for (name, costs) in rows {
        let cell = |cost: &Option<Cost>, figure: Figure| cost.map_or("not offered".into(), |c| with_commas(figure(&c)));
        let half = |figure: Figure| costs[..COMPARED].iter().map(|cost| cell(cost, figure)).collect();
        let cells: [Vec<String>; 2] = figures.map(half);
        print_row(name, &cells.concat());
    }
    if let Some((name, numbers)) = last {
        let cells = [vec![String::new(); COMPARED], numbers.map(with_commas).to_vec()];
        print_row(name, &cells.concat());
    }
}

/// Journals of another kind.
fn print_other_journals(rows: &[Row], in_place_with_next: &Cost) {
    print_heading(&["stores", "bytes stored", "barriers", "extra bytes"].map(String::from));
    let row = |name: &str, cost: &Cost| {
        let figures = [cost.stores, 8 * cost.stores, cost.barriers, cost.extra];
        print_row(name, &figures.map(with_commas));
    };
    row("the four in a row, stores in place with the next entries", in_place_with_next);
    for (name, costs) in rows.iter().filter(|row| row.0.starts_with("rewrite")) {
        let cost = costs[COMPARED].expect("a journal makes every change");
        row(&format!("{name}, {}", METHODS[COMPARED].name), &cost);
    }
}

fn print_csv(rows: &[Row]) {
    println!("operation,method,stores,bytes,barriers,extra");
    for (name, costs) in rows {
        for (method, cost) in METHODS.iter().zip(costs) {
            if let Some(Cost { stores, barriers, extra, .. }) = cost {
                println!("\"{name}\",{},{stores},{},{barriers},{extra}", method.name, 8 * stores);
            }
        }
    }
}

fn main() {
    let mut cuts = 0;
    let operations = operations();
    let mut costs = |o: &Operation| (o.name, METHODS.iter().map(|method| cost(method, o, &mut cuts)).collect());
    let rows: Vec<Row> = operations.iter().map(&mut costs).collect();
    let named = |name: &str| operations.iter().find(|operation| operation.name == name).expect(name);
    let in_place_with_next = in_place_with_next(named("the four in a row"), &mut cuts);
    cuts_find_missing_barriers(named("rewrite of 64 bytes"));
    if std::env::args().any(|argument| argument == "--csv") {
        return print_csv(&rows);
    }
    let entries = rows.iter().filter_map(|row| row.1[1]).map(|cost| cost.entries).max().unwrap_or(0);
    print_table(&rows, ["stores", "barriers"], [|c| c.stores, |c| c.barriers], None);
    let standing = ("reserved at all times", [0, 8 * (2 * entries + 1), 0]);
    print_table(&rows, ["bytes stored", "extra bytes"], [|c| 8 * c.stores, |c| c.extra], Some(standing));
    print_other_journals(&rows, &in_place_with_next);
    blocks::print_table();
    println!("\npower cuts: {}, each read wholly as before or wholly as after", with_commas(cuts));
}
