//! The oracle against the port at scale: see ../run.

mod calls;
mod others;

use std::collections::BTreeMap;

use cases::oracle::Case;
use cases::rng::Rng;
use cases::{exact, given};
use model::search::{questions, FRESH};
use model::table::open;

/// What was done on the cases of one kind.
#[derive(Clone, Copy, Default)]
struct Row {
    same: u64,
    outside: u64,
    different: u64,
    tally: calls::Tally,
    slots: u64,
}

/// Rows by kind.
type Rows = BTreeMap<&'static str, Row>;

/// Everything about one case: the first difference, if there is one.
fn differs(case: &Case, seed: u64, row: &mut Row) -> Option<String> {
    let taken = case.run();
    row.slots += case.given.slots as u64;
    calls::whole_differs(case, &taken, &mut row.tally)
        .or_else(|| calls::divided_differs(case, &taken, seed, &mut row.tally))
        .or_else(|| calls::listed_differs(case, &taken, seed, &mut row.tally))
        .or_else(|| others::completing_differs(case, &taken))
        .or_else(|| others::sweep_differs(case))
        .or_else(|| others::slots_differ(case))
}

/// Compares one case and counts it.
fn take(case: &Case, seed: u64, rows: &mut Rows) {
    let row = rows.entry(case.kind).or_default();
    let (search, table) = (questions(&case.lent, &FRESH), open(&case.lent.table));
    let refused = others::refusal_differs(case, search, table);
    let found = if search + table == 0 { refused.or_else(|| differs(case, seed, row)) } else { refused };
    match found {
        Some(text) => {
            row.different += 1;
            println!("seed {seed} ({}): {text}", case.kind);
        }
        None if search + table == 0 => row.same += 1,
        None => row.outside += 1,
    }
}

/// The cases of a range of seeds, of which this thread takes every so-many-th.
fn seeds(first: u64, count: u64, threads: u64, thread: u64) -> Rows {
    let mut rows = Rows::new();
    for seed in (first..first + count).filter(|seed| seed % threads == thread) {
        let mut list = exact::cases(seed);
        list.push(given::case(seed));
        list.iter().for_each(|case| take(case, seed, &mut rows));
    }
    rows
}

/// Tables from thousands of slots up to the most that question 6 lets through.
fn huge() -> Rows {
    let sizes = [8_192, 65_537, 478_001, 999_983, (1 << 20) + 7, 4_000_037, (1 << 24) - 1, 1 << 24];
    let mut rows = Rows::new();
    for (seed, slots) in (1000..).zip(sizes) {
        let patterns = 240_000.min(slots / 2);
        let case = Case::new("huge", given::huge(&mut Rng::new(seed), slots, patterns));
        take(&case, seed, &mut rows);
    }
    rows
}

/// Adds the rows of one thread to the others'.
fn add(all: &mut Rows, more: Rows) {
    for (kind, row) in more {
        let sum = all.entry(kind).or_default();
        sum.same += row.same;
        sum.outside += row.outside;
        sum.different += row.different;
        sum.slots += row.slots;
        sum.tally.add(&row.tally);
    }
}

/// Prints a row for each kind, and one of all; false where anything differs.
fn report(rows: &Rows) -> bool {
    println!("kind | same | outside the limits | different | calls | refused calls | reads | candidates | states by the model | slots");
    let mut all = Rows::new();
    for (kind, row) in rows {
        line(kind, row);
        add(&mut all, Rows::from([("all", *row)]));
    }
    all.iter().for_each(|(kind, row)| line(kind, row));
    all.values().all(|row| row.different == 0)
}

/// Prints one row.
fn line(kind: &str, row: &Row) {
    let calls::Tally { calls, refused, reads, candidates, states } = row.tally;
    let numbers = [row.same, row.outside, row.different, calls, refused, reads, candidates, states, row.slots];
    println!("{kind} | {}", numbers.map(|number| number.to_string()).join(" | "));
}

/// Does what the words ask for.
fn main() {
    let words: Vec<String> = std::env::args().skip(1).collect();
    let number = |at: usize, other: u64| words.get(at).map_or(other, |word| word.parse().expect("a number"));
    let mut rows = Rows::new();
    if words.first().is_some_and(|word| word == "huge") {
        rows = huge();
    } else {
        let (first, count, threads) = (number(0, 100_000), number(1, 2_000), number(2, 1));
        std::thread::scope(|scope| {
            let jobs: Vec<_> = (0..threads).map(|thread| scope.spawn(move || seeds(first, count, threads, thread))).collect();
            jobs.into_iter().for_each(|job| add(&mut rows, job.join().expect("a thread that ends")));
        });
    }
    std::process::exit(i32::from(!report(&rows)));
}
