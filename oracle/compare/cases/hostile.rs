//! Saved states that no search left, by the model.

use model::replay::Record;
use model::search::{passes, Combination, Kept, Lent, Phase, Position, State, Status};

use crate::rng::Rng;
use crate::sheet::Sheet;

/// The counts that question 8 still lets through.
const MOST_PATTERNS: u64 = 162_656_256;
const MOST_READS: u64 = 1 << 62;

/// The first read of the first pass.
const FIRST: Position = Position { pass: 0, four: [0, 1, 2, 3], key: 0, probe: 0 };

/// A state at a position, with these counts.
fn at(position: Position, patterns: u64, reads: u64) -> State {
    State { phase: Phase::At(position), patterns, reads }
}

/// A random position that exists, if the pass has one.
fn existing(rng: &mut Rng, lent: &Lent, pass: u32) -> Option<(Position, usize, usize)> {
    let kept = Kept::new(lent, pass);
    if kept.places.len() < 4 {
        return None;
    }
    let all = model::combinations::fours(kept.places.len());
    let four = match rng.below(4) {
        0 => all[0],
        1 => all[all.len() - 1],
        _ => all[rng.below(all.len() as u64) as usize],
    };
    let keys = Combination::new(lent, &kept, four).keys.len();
    let (any_key, any_probe) = (rng.below(keys as u64), rng.below(lent.table.slots));
    let key = rng.pick(&[0, keys as u64 - 1, any_key]) as u32;
    let probe = rng.pick(&[0, lent.table.slots - 1, any_probe]) as u32;
    Some((Position { pass, four, key, probe }, keys, kept.places.len()))
}

/// One number of a position moved to a limit or beyond it.
fn moved(rng: &mut Rng, position: Position, keys: usize, kept: usize, lent: &Lent) -> Position {
    let mut moved = position;
    match rng.below(10) {
        0 => moved.pass = passes(lent),
        1 => moved.pass = u32::MAX,
        2 => moved.four[3] = kept as u32,
        3 => moved.four[3] = u32::MAX,
        4 => moved.four[1] = moved.four[0],
        5 => moved.four.swap(2, 3),
        6 => moved.key = keys as u32,
        7 => moved.key = u32::MAX,
        8 => moved.probe = lent.table.slots as u32,
        _ => moved.probe = u32::MAX,
    }
    moved
}

/// A state of any sort: fresh with counts, ended, at a position that exists or just doesn't.
fn state(rng: &mut Rng, lent: &Lent) -> State {
    let patterns = rng.pick(&[0, 1, 5, 6, 7, MOST_PATTERNS - 1, MOST_PATTERNS, MOST_PATTERNS + 1, u64::MAX]);
    let reads = rng.pick(&[0, 1, 100, MOST_READS - 1, MOST_READS, MOST_READS + 1, u64::MAX]);
    let (patterns, reads) = if rng.once_in(2) { (patterns.min(7), reads.min(100)) } else { (patterns, reads) };
    let status = rng.pick(&[Status::TooFew, Status::NoMatch, Status::Timeout]);
    let bare = model::search::bare(lent);
    let position = if bare { None } else { existing(rng, lent, rng_pass(lent, patterns)) };
    match (rng.below(10), position) {
        (0, _) => State { phase: Phase::Fresh, patterns, reads },
        (1, _) => State { phase: Phase::Ended(status), patterns, reads },
        (2..=5, Some((here, keys, kept))) => at(moved(rng, here, keys, kept, lent), patterns, reads),
        (_, Some((here, _, _))) => at(here, patterns, reads),
        _ => at(FIRST, patterns, reads),
    }
}

/// A pass that varies with a number.
fn rng_pass(lent: &Lent, number: u64) -> u32 {
    (number % u64::from(passes(lent))) as u32
}

/// Random hostile states over one lending: calls with few reads, then a run to the end now and then.
pub fn states(sheet: &mut Sheet, name: &str, lent: &Lent, seed: u64, count: usize, most_lines: u64) {
    let mut rng = Rng::new(seed);
    sheet.case(&format!("hostile states, {name}"));
    sheet.lend(lent);
    for _ in 0..count {
        sheet.put(Record::State(state(&mut rng, lent)));
        for _ in 0..rng.between(1, 4) {
            let allowance = rng.pick(&[0, 1, 2, 7, 60]);
            sheet.put(Record::Call(allowance));
        }
        if rng.once_in(5) {
            for _ in 0..most_lines {
                let line = sheet.put(Record::Call(5_000));
                if line.starts_with("ended") || line.starts_with("refused") {
                    break;
                }
            }
        }
    }
}

/// Every number of a position at its last existing and first missing value.
pub fn limits(sheet: &mut Sheet, name: &str, lent: &Lent) {
    sheet.case(&format!("limits of saved states, {name}"));
    sheet.lend(lent);
    let mut rng = Rng::new(1);
    for pass in [0, passes(lent) - 1] {
        let Some((here, keys, kept)) = existing(&mut rng, lent, pass) else {
            continue;
        };
        let last = [kept as u32 - 4, kept as u32 - 3, kept as u32 - 2, kept as u32 - 1];
        let mut list = vec![here, Position { key: keys as u32 - 1, ..here }, Position { key: keys as u32, ..here }];
        list.push(Position { probe: lent.table.slots as u32 - 1, ..here });
        list.push(Position { probe: lent.table.slots as u32, ..here });
        list.push(Position { pass: passes(lent), ..here });
        for four in [
            last,
            [last[0], last[1], last[2], last[3] + 1],
            [0, 1, 2, 2],
            [0, 1, 1, 2],
            [1, 1, 2, 3],
            [1, 0, 2, 3],
            [0, 2, 1, 3],
            [0, 1, 3, 2],
        ] {
            list.push(Position { four, key: 0, probe: 0, ..here });
        }
        for position in list {
            for (patterns, reads) in [(0, 0), (MOST_PATTERNS, MOST_READS), (MOST_PATTERNS + 1, 0), (0, MOST_READS + 1)] {
                sheet.put(Record::State(at(position, patterns, reads)));
                sheet.put(Record::Call(0));
                sheet.put(Record::Call(1));
                sheet.put(Record::Call(2));
            }
        }
    }
    ended_and_fresh(sheet);
}

/// Ended states of each status and fresh ones, their counts within and beyond the limits.
fn ended_and_fresh(sheet: &mut Sheet) {
    let phases = [Phase::Fresh, Phase::Ended(Status::TooFew), Phase::Ended(Status::NoMatch), Phase::Ended(Status::Timeout)];
    for phase in phases {
        for (patterns, reads) in [(0, 0), (1, 0), (0, 1), (MOST_PATTERNS, MOST_READS), (MOST_PATTERNS + 1, 0), (0, MOST_READS + 1)] {
            sheet.put(Record::State(State { phase, patterns, reads }));
            sheet.put(Record::Call(0));
            sheet.put(Record::Call(4));
        }
    }
}

/// A state at the first read of a combination whose count has reached or passed the cap.
pub fn capped(sheet: &mut Sheet, lent: &Lent) {
    for cap in [0, 1, 3] {
        sheet.case("saved state at or past the cap");
        let mut lent = lent.clone();
        lent.settings.cap = Some(cap);
        sheet.lend(&lent);
        for patterns in [0, cap.saturating_sub(1), cap, cap + 1] {
            for four in [[0, 1, 2, 3], [0, 1, 2, 4]] {
                let position = Position { four, ..FIRST };
                sheet.put(Record::State(at(position, patterns, 10)));
                sheet.put(Record::Call(0));
                sheet.put(Record::Call(1));
                sheet.put(Record::Run(100));
            }
        }
    }
}

/// No position exists where there is nothing to read: no slots, or no patterns claimed.
pub fn nowhere(sheet: &mut Sheet, lent: &Lent) {
    for (slots, count) in [(true, 0), (true, 1), (false, 1), (false, 0)] {
        sheet.case("saved state with nothing to read");
        let mut lent = lent.clone();
        lent.settings.pattern_count = count;
        if !slots {
            lent.table = model::table::Table { stars: lent.table.stars, ..Default::default() };
        }
        sheet.lend(&lent);
        for state in [at(FIRST, 0, 0), at(FIRST, 3, 30), model::search::FRESH] {
            sheet.put(Record::State(state));
            sheet.put(Record::Call(0));
            sheet.put(Record::Call(1));
        }
    }
}
