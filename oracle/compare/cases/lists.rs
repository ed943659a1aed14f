//! The stored lists of search runs: undivided, divided, and on exact limits. All lines come from the oracle's record.

use model::replay::Record;
use model::search::{questions, FRESH};
use model::table::Table;

use crate::compare::{allowance, completed, given};
use crate::exact;
use crate::given::{self, KINDS};
use crate::oracle::{passes, Case, Machine, Taken};
use crate::questions::put_change;
use crate::rng::Rng;
use crate::sheet::Sheet;
use tetra3::solver::record::{Candidate, Given};

/// Puts what a case lends, and a fresh state.
fn lend(sheet: &mut Sheet, case: &Case) {
    sheet.lend(&case.lent);
    sheet.put(Record::Fresh);
}

/// Is a case small enough to store?
fn storable(case: &Case, taken: &Taken, candidates: usize) -> bool {
    questions(&case.lent, &FRESH) == 0 && taken.record.reads <= 40_000 && taken.record.candidates.len() <= candidates
}

/// The first storable cases of each kind from a seed on.
pub fn stored(first: u64, each: usize, candidates: usize) -> Vec<(Case, Taken)> {
    let mut list = Vec::new();
    for kind in 0..KINDS.len() as u64 {
        let seeds = (first..).filter(|seed| seed % KINDS.len() as u64 == kind);
        let cases = seeds.map(given::case).map(|case| {
            let taken = case.run();
            (case, taken)
        });
        list.extend(cases.filter(|(case, taken)| storable(case, taken, candidates)).take(each));
    }
    list
}

/// The whole run in one go, calls after its end, and some of its candidates completed.
pub fn undivided(sheet: &mut Sheet, cases: &[(Case, Taken)]) {
    for (at, (case, taken)) in cases.iter().enumerate() {
        sheet.case(&format!("undivided, {}", case.kind));
        lend(sheet, case);
        sheet.check(Record::Open, "open passed\n");
        let mut machine = Machine { taken, n: 0 };
        let lines = machine.run(u64::MAX);
        sheet.check(Record::Run(u64::MAX), &lines);
        for more in [0, 1] {
            let (line, _) = machine.call(more);
            sheet.check(Record::Call(more), &line);
        }
        let mut rng = Rng::new(at as u64);
        for found in taken.record.candidates.iter().filter(|_| rng.once_in(6)).take(4) {
            sheet.check(Record::Complete(given(found)), &completed(found));
        }
    }
}

/// Lends something that one of the questions 1 to 7 refuses, calls, and lends the case again as it was.
fn refused_call(sheet: &mut Sheet, case: &Case, machine: &Machine, allowance: u64, number: u32) {
    let mut bad = case.lent.clone();
    match number {
        1 => bad.frame.coords.push(0.0),
        2 => bad.frame.coords[0] = f32::NAN,
        3 => bad.frame.places.push(bad.frame.places[0]),
        4 => bad.settings.checking_stars = 65,
        5 => bad.frame.triples[0] = 0.0,
        6 => bad.table = Table { slots: 1, ..Table::default() },
        _ => bad.table = Table { stars: vec![0.0], ..Table::default() },
    }
    put_change(sheet, &case.lent, &bad);
    sheet.check(Record::Call(allowance), &machine.refused(number));
    put_change(sheet, &bad, &case.lent);
}

/// Random allowances, 0 and refused calls between them, then the rest by a fixed allowance.
pub fn divided(sheet: &mut Sheet, cases: &[(Case, Taken)]) {
    for (at, (case, taken)) in cases.iter().enumerate() {
        sheet.case(&format!("divided, {}", case.kind));
        lend(sheet, case);
        let mut rng = Rng::new(at as u64 + 7777);
        let mut machine = Machine { taken, n: 0 };
        for _ in 0..rng.between(8, 40) {
            let wanted = allowance(&mut rng, taken.record.reads).min(taken.record.reads / 3 + 1);
            if rng.once_in(4) && case.given.places.len() > 1 {
                let most = if case.given.packed.len() < 1_500 { 7 } else { 5 };
                let number = rng.between(1, most) as u32;
                refused_call(sheet, case, &machine, wanted, number);
            }
            let (line, _) = machine.call(wanted);
            sheet.check(Record::Call(wanted), &line);
        }
        let rest = (taken.record.reads - machine.n) / rng.between(1, 30) + 1;
        let lines = machine.run(rest);
        sheet.check(Record::Run(rest), &lines);
    }
}

/// One read a call from the first to the last, over short runs.
pub fn single_reads(sheet: &mut Sheet, cases: &[(Case, Taken)]) {
    for (case, taken) in cases.iter().filter(|(_, taken)| (1..=150).contains(&taken.record.reads)).take(24) {
        sheet.case(&format!("one read a call, {}", case.kind));
        lend(sheet, case);
        let mut machine = Machine { taken, n: 0 };
        let (line, _) = machine.call(0);
        sheet.check(Record::Call(0), &line);
        let lines = machine.run(1);
        sheet.check(Record::Run(1), &lines);
    }
}

/// Cases whose limits stand on worked-out values: at most so many of each kind.
pub fn exact_limits(sheet: &mut Sheet, each: usize) {
    let mut counts = std::collections::BTreeMap::new();
    for seed in 40_000..41_000 {
        for case in exact::cases(seed) {
            let taken = case.run();
            let small = storable(&case, &taken, 60) && case.lent.table.packed.len() < 4000;
            let count: &mut usize = counts.entry(case.kind).or_default();
            if !small || *count >= each {
                continue;
            }
            *count += 1;
            sheet.case(&format!("{}, seed {seed}", case.kind));
            lend(sheet, &case);
            let lines = Machine { taken: &taken, n: 0 }.run(u64::MAX);
            sheet.check(Record::Run(u64::MAX), &lines);
            for found in taken.record.candidates.iter().take(1) {
                sheet.check(Record::Complete(given(found)), &completed(found));
            }
        }
        if counts.len() == 7 && counts.values().all(|count| *count >= each) {
            return;
        }
    }
}

/// Frames of 256 spots and 64 checking stars over a table of thousands of slots, under a cap.
pub fn large(sheet: &mut Sheet) {
    for seed in 0..3 {
        let case = Case::new("large", given::large(&mut Rng::new(seed + 31)));
        let taken = case.run();
        assert!(questions(&case.lent, &FRESH) == 0 && taken.record.reads < 2_000_000, "a large case within the limits");
        sheet.case(&format!("large, {} slots, {} reads", case.given.slots, taken.record.reads));
        lend(sheet, &case);
        sheet.check(Record::Open, "open passed\n");
        let mut machine = Machine { taken: &taken, n: 0 };
        for allowance in [0, 1, 1_000, 20_000] {
            let (line, _) = machine.call(allowance);
            sheet.check(Record::Call(allowance), &line);
        }
        let lines = machine.run(100_000);
        sheet.check(Record::Run(100_000), &lines);
    }
}

/// A call without reads and a refused one both leave a fresh state fresh: it starts anew on whatever is lent next.
pub fn stays_fresh(sheet: &mut Sheet, cases: &[(Case, Taken)]) {
    for (case, _) in cases.iter().filter(|(case, taken)| taken.record.reads > 9 && case.lent.table.packed.len() < 3000).step_by(8) {
        sheet.case(&format!("a fresh state stays fresh, {}", case.kind));
        lend(sheet, case);
        let mut bare = case.lent.settings;
        bare.pattern_count = 0;
        sheet.put(Record::Call(0));
        sheet.put(Record::Settings(bare));
        sheet.put(Record::Call(0));
        sheet.put(Record::Settings(case.lent.settings));
        sheet.put(Record::Fresh);
        let mut invalid = case.lent.table.clone();
        invalid.stars.clear();
        sheet.put(Record::Table(invalid));
        sheet.put(Record::Call(u64::MAX));
        sheet.put(Record::Settings(bare));
        sheet.put(Record::Call(0));
    }
}

/// Exactly 256 passes, and 254, from the source's own sweep.
pub fn most_passes(sheet: &mut Sheet) {
    let mut base = given::case(7).given;
    base.focal_length = given::focal(0.5, base.width);
    base.height = base.width;
    base.checking_stars = 5;
    base.fov_max_error = Some(1.0);
    for wanted in [254, 256] {
        let errors = (0..4_000).map(|at| 0.0002 + 0.000_001 * at as f32);
        let counted = errors.map(|table_error| Given { table_error, ..base.clone() });
        let given = counted.into_iter().find(|given| passes(given).len() == wanted).expect("a step for so many passes");
        let case = Case::new("most passes", given);
        let taken = case.run();
        sheet.case(&format!("{wanted} passes"));
        lend(sheet, &case);
        let mut machine = Machine { taken: &taken, n: 0 };
        let lines = machine.run(taken.record.reads / 9);
        sheet.check(Record::Run(taken.record.reads / 9), &lines);
    }
}

/// Spots on a square, turned by any angle: their distances from the mean are equal, or so near that rounding decides.
fn square(rng: &mut Rng, width: u32) -> Vec<[f32; 2]> {
    let unit = f64::from(width);
    let (r, turn) = (rng.pick(&[0.1, 0.25, 0.4]) * unit, rng.pick(&[0.0, 0.25, 0.5, 0.1, 0.7]) * rng.pick(&[1.0, std::f64::consts::PI]));
    let corner = |quarter: f64| {
        let angle = turn + quarter * std::f64::consts::FRAC_PI_2;
        [(r * angle.cos()) as f32, (r * angle.sin()) as f32]
    };
    let mut spots = vec![corner(0.0), corner(1.0), corner(2.0), corner(3.0), [0.0, -0.0]];
    let (a, b) = ((0.3 * unit) as f32, (rng.pick(&[0.0, 0.125, 0.3]) * unit) as f32);
    spots.extend([[a, b], [-a, b]]);
    rng.shuffle(&mut spots);
    spots
}

/// A case with spots on a square, under a table that gives candidates for any four.
fn tied(seed: u64) -> Case {
    let mut rng = Rng::new(seed + 900);
    let mut given = given::dense_case(seed % 500);
    given.spots = square(&mut rng, given.width);
    given.places = (0..7).collect();
    given.verification_stars = u32::MAX;
    given.checking_stars = 7;
    given.match_radius = rng.pick(&[0.0, 4.0, 1e6]);
    given::loosen(&mut rng, &mut given);
    Case::new("ties in image order", given)
}

/// The order by distances whose squares are added from right to left.
fn other_order(four: [[f32; 3]; 4]) -> [usize; 4] {
    model::complete::order(four.map(|[x, y, z]| [z, y, x]))
}

/// Completing keeps ties in their order, and adds from left to right where that decides.
pub fn ties(sheet: &mut Sheet) {
    let (mut plain, mut near) = (0, 0);
    for seed in 0..3_000 {
        let case = tied(seed);
        let taken = case.run();
        let decides = |found: &&Candidate| other_order(found.image) != [0, 1, 2, 3];
        let decided = taken.record.candidates.iter().filter(decides).take(3).collect::<Vec<_>>();
        let list: Vec<_> = if plain < 16 { taken.record.candidates.iter().step_by(3).take(8).collect() } else { decided };
        let wanted = if plain < 16 { &mut plain } else { &mut near };
        if list.is_empty() || *wanted >= 16 {
            continue;
        }
        *wanted += 1;
        sheet.case(case.kind);
        lend(sheet, &case);
        for found in list {
            sheet.check(Record::Complete(given(found)), &completed(found));
        }
    }
}
