//! Opening checks and slot reads on valid and damaged tables, question 9 in mid-call, sweeps and completings.

use model::complete::GivenCandidate;
use model::replay::Record;
use model::search::Lent;
use model::table::Table;

use crate::oracle::{Case, Taken};
use crate::rng::{down, up, Rng};
use crate::sheet::Sheet;

/// The f32 nearest pi.
const PI: f32 = std::f32::consts::PI;

/// Sets the first bit past the last slot.
fn past_bit(table: &mut Table) {
    let past = table.slots % 448;
    let last = table.words.len() - 8;
    table.words[last + 1 + (past / 64) as usize] |= 1 << (past % 64);
}

/// Leaves only slot 0 filled, its first star beyond the slice.
fn first_slot_unsound(table: &mut Table) {
    table.packed.truncate(22);
    table.packed[..4].copy_from_slice(&u32::MAX.to_le_bytes());
    table.words.fill(0);
    table.words[1] = 1;
    table.words.iter_mut().skip(8).step_by(8).for_each(|rank| *rank = 1);
}

/// Puts a star index into one of an entry's four places.
fn put_star(table: &mut Table, entry: usize, place: usize, star: u32) {
    let at = entry * 22 + place * 4;
    table.packed[at..at + 4].copy_from_slice(&star.to_le_bytes());
}

/// Damages one thing about a table.
fn damage(rng: &mut Rng, table: &mut Table, how: u64) {
    let block = rng.below(table.words.len() as u64 / 8) as usize;
    let entry = rng.below(table.packed.len() as u64 / 22) as usize;
    let part = rng.below(table.stars.len() as u64) as usize;
    let stars = (table.stars.len() / 3) as u32;
    match how {
        0 => table.words[block * 8] += 1,
        1 => table.words[block * 8] = u64::MAX - rng.below(3),
        2 => table.words[block * 8 + 1 + rng.below(7) as usize] ^= 1 << rng.below(64),
        3 => past_bit(table),
        4 => table.packed.truncate(table.packed.len() - 1),
        5 => table.packed.push(0),
        6 => table.packed.truncate(table.packed.len() - 22),
        7 => table.packed.extend([0; 22]),
        8 => put_star(table, entry, 0, stars),
        9 => put_star(table, entry, 3, u32::MAX),
        10 => put_star(table, entry, 1, stars - 1),
        11 => table.stars[part] = rng.pick(&[f32::NAN, f32::INFINITY, f32::NEG_INFINITY, up(1.0), -up(1.0)]),
        12 => table.stars[part] = rng.pick(&[1.0, -1.0, -0.0]),
        13 => table.stars.truncate(3),
        14 => table.packed.clear(),
        15 => table.words[block * 8] = 1 << 63,
        16 => {
            past_bit(table);
            let copy = table.packed[..22].to_vec();
            table.packed.extend(copy);
        }
        17 => put_star(table, 0, 0, u32::MAX),
        18 => first_slot_unsound(table),
        _ => table.stars.clear(),
    }
}

/// Sound tables and tables damaged in every way: opening check, slot reads, and a search over them.
pub fn damaged_tables(sheet: &mut Sheet, cases: &[(Case, Taken)]) {
    let usable: Vec<&Case> = cases
        .iter()
        .map(|(case, _)| case)
        .filter(|case| case.lent.table.packed.len() >= 44 && case.lent.table.packed.len() < 3000)
        .collect();
    for how in 0..20 {
        for round in 0..5 {
            let mut rng = Rng::new(how * 100 + round);
            let case = usable[(how as usize * 5 + round as usize * 3) % usable.len()];
            let mut lent = case.lent.clone();
            damage(&mut rng, &mut lent.table, how);
            if round == 4 && lent.table.packed.len() > 44 && !lent.table.stars.is_empty() {
                lent.table.stars.pop();
            }
            sheet.case(&format!("damaged table {how}, {}", case.kind));
            sheet.lend(&lent);
            sheet.put(Record::Open);
            slot_reads(sheet, &lent.table, &mut rng);
            sheet.put(Record::Fresh);
            for allowance in [0, 1, 3, 10, 30, 30, 60, 1000] {
                sheet.put(Record::Call(allowance));
            }
        }
    }
}

/// Slot reads at random, at both ends and beyond.
fn slot_reads(sheet: &mut Sheet, table: &Table, rng: &mut Rng) {
    for _ in 0..6 {
        sheet.put(Record::Slot(rng.below(table.slots.max(1))));
    }
    for slot in [0, table.slots.saturating_sub(1), table.slots, table.slots + 1, u64::MAX, 1 << 32] {
        sheet.put(Record::Slot(slot));
    }
}

/// Every slot of some valid tables, and blocks of the paper's own example.
pub fn slots(sheet: &mut Sheet, cases: &[(Case, Taken)]) {
    for (case, _) in cases.iter().filter(|(case, _)| case.given.slots < 600).step_by(9).take(6) {
        sheet.case(&format!("every slot, {}", case.kind));
        sheet.put(Record::Table(case.lent.table.clone()));
        for slot in 0..case.lent.table.slots {
            sheet.put(Record::Slot(slot));
        }
    }
    sheet.case("rank 5, first word 1011");
    let mut words = vec![0u64; 8];
    (words[0], words[1]) = (5, 0b1011);
    let packed: Vec<u8> = (0..22 * 9).map(|byte| byte as u8).collect();
    let table = Table { slots: 448, words, packed, stars: vec![] };
    sheet.put(Record::Table(table.clone()));
    (0..6).for_each(|slot| drop(sheet.put(Record::Slot(slot))));
    for (slots, words) in [(449, 8), (448, 16), (0, 0), (0, 8), (1 << 24, 8), ((1 << 24) + 1, 8)] {
        let mut table = table.clone();
        table.slots = slots;
        table.words.resize(words, 0);
        sheet.put(Record::Table(table));
        sheet.put(Record::Slot(0));
        sheet.put(Record::Slot(3));
        sheet.put(Record::Open);
    }
}

/// One sweep record.
fn sweep(estimate: f32, error: Option<f32>, step: f32, room: u32) -> Record {
    Record::Sweep { estimate, error, step, room }
}

/// Sweeps: the paper's own, each limit and its neighbours, lists that just fit, and random ones.
pub fn sweeps(sheet: &mut Sheet) {
    sheet.case("sweeps of the paper");
    sheet.put(sweep(1.0, Some(0.5), 0.25, 5));
    sheet.put(sweep(0.25, Some(0.25), 0.25, 8));
    sheet.case("sweeps that meet pi and 0 exactly");
    for room in [1, 2, 3, 9] {
        for step in [PI / 2.0, PI / 4.0, down(PI / 4.0)] {
            sheet.put(sweep(PI / 2.0, Some(PI), step, room));
            sheet.put(sweep(PI / 4.0, Some(1.0), step, room));
        }
    }
    sheet.case("sweep limits");
    for estimate in [0.0, -0.0, 1e-45, -1.0, down(PI), PI, up(PI), f32::NAN, f32::INFINITY, 1.0] {
        for error in [
            None,
            Some(0.0),
            Some(-0.0),
            Some(-1.0),
            Some(1e-45),
            Some(0.1),
            Some(PI),
            Some(100.0),
            Some(f32::MAX),
            Some(f32::NAN),
            Some(f32::INFINITY),
            Some(f32::NEG_INFINITY),
        ] {
            for step in [0.0, -0.0, 1e-45, 0.03, 0.1, up(0.1), down(0.1), -0.1, 4.0, f32::MAX, f32::NAN, f32::INFINITY, f32::NEG_INFINITY] {
                sheet.put(sweep(estimate, error, step, 260));
            }
        }
    }
    sheet.case("sweeps that just fit");
    for (estimate, error, step, count) in
        [(1.0, 0.5, 0.25, 5), (0.25, 0.25, 0.25, 2), (2.0, 2.0, 0.125, 20), (1.0, 0.0, 0.5, 1), (3.0, 1.0, 0.0625, 5)]
    {
        for room in [0, 1, count - 1, count, count + 1, 1_024] {
            sheet.put(sweep(estimate, Some(error), step, room));
        }
    }
    random_sweeps(sheet);
}

/// Sweeps with steps and errors of all sizes, and errors that are whole numbers of steps.
fn random_sweeps(sheet: &mut Sheet) {
    let mut rng = Rng::new(55);
    sheet.case("random sweeps");
    for _ in 0..150 {
        let estimate = rng.range(0.001, 3.14) as f32;
        let step = rng.range(0.005, 0.8) as f32;
        let error = match rng.below(4) {
            0 => Some(step * rng.between(1, 6) as f32),
            1 => None,
            2 => Some(rng.range(0.0, 5.0) as f32),
            _ => Some(rng.range(0.0, 0.5) as f32),
        };
        sheet.put(sweep(estimate, error, step, rng.pick(&[1, 3, 20, 256, 1_024])));
    }
    for bits in 0..40u32 {
        let step = f32::from_bits(0.1f32.to_bits() + bits);
        sheet.put(sweep(PI - 0.35, Some(0.3), step, 1_024));
        sheet.put(sweep(0.3, Some(step * 3.0), step, 1_024));
    }
}

/// One thing about a completing changed.
fn changed_candidates(given: GivenCandidate, lent: &Lent) -> Vec<GivenCandidate> {
    let length = lent.frame.places.len() as u32;
    let passes = lent.frame.triples.len() as u32 / 3;
    let stars = lent.table.stars.len() as u32 / 3;
    let mut list = vec![given, GivenCandidate { mark: !given.mark, ..given }];
    for pass in [passes - 1, passes, u32::MAX] {
        list.push(GivenCandidate { pass, ..given });
    }
    for places in [
        [0, 1, 2, 3],
        [length - 4, length - 3, length - 2, length - 1],
        [length - 3, length - 2, length - 1, length],
        [0, 1, 1, 2],
        [0, 0, 1, 2],
        [0, 1, 2, 2],
        [1, 0, 2, 3],
        [3, 2, 1, 0],
        [0, 1, 2, u32::MAX],
        [0, 2, 1, 3],
        [0, 1, 3, 2],
    ] {
        list.push(GivenCandidate { places, ..given });
    }
    for scale in [0.0, -0.0, 1e-45, -1.0, 16.0, up(16.0), f32::NAN, f32::INFINITY, 0.25, 3.7] {
        for mark in [false, true] {
            list.push(GivenCandidate { scale, mark, ..given });
        }
    }
    for star in [0, stars - 1, stars, u32::MAX, 0x5555_5556] {
        for at in [0, 3] {
            let mut changed = given;
            changed.stars[at] = star;
            list.push(changed);
        }
    }
    list.push(GivenCandidate { field: f32::NAN, ..given });
    list.push(GivenCandidate { pass: passes, stars: [stars; 4], ..given });
    list
}

/// Completings with each number at its limits, over valid and damaged lendings.
pub fn completings(sheet: &mut Sheet, cases: &[(Case, Taken)]) {
    for (case, _) in cases
        .iter()
        .filter(|(case, _)| case.given.places.len() >= 5 && case.given.stars.len() >= 4 && case.given.packed.len() < 3000)
        .step_by(7)
        .take(10)
    {
        let lent = &case.lent;
        sheet.case(&format!("completing, {}", case.kind));
        sheet.put(Record::Table(lent.table.clone()));
        sheet.put(Record::Frame(lent.frame.clone()));
        let given = GivenCandidate { pass: 0, places: [0, 1, 2, 3], stars: [0, 1, 2, 3], field: 1.0, mark: true, scale: 0.01 };
        for given in changed_candidates(given, lent) {
            sheet.put(Record::Complete(given));
        }
        refused_lendings(sheet, lent, given);
    }
}

/// Lendings that completing's other questions refuse, and settings that it never asks about.
fn refused_lendings(sheet: &mut Sheet, lent: &Lent, given: GivenCandidate) {
    let mut frame = lent.frame.clone();
    frame.coords.push(1.0);
    sheet.put(Record::Frame(frame.clone()));
    sheet.put(Record::Complete(given));
    frame.coords.pop();
    frame.coords[0] = f32::NAN;
    sheet.put(Record::Frame(frame.clone()));
    sheet.put(Record::Complete(given));
    frame.coords[0] = 1.0;
    frame.places[0] = frame.places[1];
    sheet.put(Record::Frame(frame));
    sheet.put(Record::Complete(given));
    let mut frame = lent.frame.clone();
    frame.triples[1] = up(16.0);
    sheet.put(Record::Frame(frame));
    sheet.put(Record::Complete(GivenCandidate { pass: 9_999, ..given }));
    sheet.put(Record::Frame(lent.frame.clone()));
    let mut table = Table { slots: 77, words: Vec::new(), packed: Vec::new(), stars: lent.table.stars.clone() };
    sheet.put(Record::Table(table.clone()));
    sheet.put(Record::Complete(given));
    table.stars.pop();
    sheet.put(Record::Table(table.clone()));
    sheet.put(Record::Complete(GivenCandidate { pass: 9_999, ..given }));
    table.stars = lent.table.stars.clone();
    for value in [1.0, -1.0, up(1.0), -up(1.0), f32::NAN, f32::INFINITY] {
        table.stars[11] = value;
        sheet.put(Record::Table(table.clone()));
        sheet.put(Record::Complete(given));
    }
}
