//! Oracle and model beside each other, on one case.

use model::complete::{complete, GivenCandidate};
use model::replay::{answer_line, complete_line, Inputs, Record};
use model::run::{undivided, Machine as ModelMachine};
use model::search::{questions, FRESH};
use model::sweep::sweep;
use model::table::{entry, open, slot_read};
use tetra3::solver::record;

use crate::oracle::{candidate, Case, Machine, Taken};
use crate::rng::Rng;

/// What a comparison found.
pub enum Found {
    Outside,
    Same(Taken),
    Different(String),
}

/// Compares candidates, patterns, reads and status of the undivided run, then divided calls.
pub fn compare(case: &Case, seed: u64) -> Found {
    let refusal = questions(&case.lent, &FRESH);
    if refusal != 0 {
        return Found::Outside;
    }
    if open(&case.lent.table) != 0 {
        return Found::Outside;
    }
    let taken = case.run();
    let first = undivided_differs(case, &taken)
        .or_else(|| divided_differs(case, &taken, seed))
        .or_else(|| completing_differs(case, &taken))
        .or_else(|| sweep_differs(case))
        .or_else(|| slots_differ(case));
    match first {
        Some(text) => Found::Different(text),
        None => Found::Same(taken),
    }
}

/// The first difference of the undivided runs.
fn undivided_differs(case: &Case, taken: &Taken) -> Option<String> {
    let run = undivided(&case.lent);
    let mut found = taken.record.candidates.iter();
    for (at, read) in run.reads.iter().enumerate() {
        let Some(ours) = read.candidate else { continue };
        let Some(theirs) = found.next() else {
            return Some(format!("the model has one more: {ours:?} at read {}", at + 1));
        };
        let same = ours == candidate(theirs) && theirs.reads == at as u64 + 1 && theirs.patterns == read.patterns;
        if !same {
            return Some(format!("oracle {theirs:?}, model {ours:?} at read {} of pattern {}", at + 1, read.patterns));
        }
    }
    if let Some(theirs) = found.next() {
        return Some(format!("the oracle has one more: {theirs:?}"));
    }
    let patterns = run.reads.last().map_or(0, |read| read.patterns);
    let ours = (run.reads.len() as u64, patterns, run.status);
    let theirs = (taken.record.reads, taken.record.starts.len() as u64, taken.status);
    (ours != theirs).then(|| format!("oracle {theirs:?}, model {ours:?}"))
}

/// The first difference of divided calls: the oracle's record under document 01's machine, the model's call,
/// and the model's own machine on its list of reads.
fn divided_differs(case: &Case, taken: &Taken, seed: u64) -> Option<String> {
    let run = undivided(&case.lent);
    let mut machine = ModelMachine { run: &run, n: 0 };
    let mut theirs = Machine { taken, n: 0 };
    let mut inputs = Inputs { lent: case.lent.clone(), state: FRESH };
    let mut rng = Rng::new(seed ^ 0xD1F1);
    for _ in 0..60 {
        let allowance = allowance(&mut rng, taken.record.reads);
        let mut ours = String::new();
        inputs.take(&Record::Call(allowance), &mut ours);
        let answer = machine.call(allowance, 0);
        let third = answer_line(&answer, machine.patterns(), machine.n as u64);
        let (line, more) = theirs.call(allowance);
        if line != ours || line != third {
            return Some(format!("allowance {allowance}: oracle {line}, call {ours}, machine {third}"));
        }
        if !more {
            break;
        }
    }
    None
}

/// An allowance: 0, 1, a few, a share of all reads, or as many as there are.
pub fn allowance(rng: &mut Rng, reads: u64) -> u64 {
    match rng.below(8) {
        0 => 0,
        1 => 1,
        2 | 3 => rng.below(20),
        4 | 5 => rng.below(reads / 8 + 2),
        6 => rng.below(reads / 2 + 2),
        _ => rng.pick(&[reads, reads + 1, u64::MAX]),
    }
}

/// What completing is given of a recorded candidate.
pub fn given(found: &record::Candidate) -> GivenCandidate {
    let places = found.places.map(|place| place as u32);
    GivenCandidate { pass: found.pass as u32, places, stars: found.stars, field: found.field, mark: found.mark, scale: found.scale }
}

/// The line of completing a recorded candidate; a scale outside document 01's limits is refused with 14.
pub fn completed(found: &record::Candidate) -> String {
    if !(found.scale > 0.0 && found.scale <= 16.0) {
        return complete_line(Err(14));
    }
    let ([a, b, c, d], [e, f, g, h]) = (found.image, found.catalogue);
    complete_line(Ok([a, b, c, d, e, f, g, h]))
}

/// The first candidate whose vectors differ.
fn completing_differs(case: &Case, taken: &Taken) -> Option<String> {
    for found in &taken.record.candidates {
        let ours = complete_line(complete(&case.lent.frame, &case.lent.table, &given(found)));
        let theirs = completed(found);
        if ours != theirs {
            return Some(format!("completing {found:?}: oracle {theirs}, model {ours}"));
        }
    }
    None
}

/// The step by the source's formula for the host.
pub fn step(case: &Case) -> f32 {
    let given = &case.given;
    let aspect = given.height as f32 / given.width.max(1) as f32;
    let diagonal = (1.0 + aspect * aspect).sqrt().max(1.42);
    let estimate = f64::from(case.lent.frame.triples[0]);
    let half = ((estimate / 2.0).tan() * f64::from(diagonal)).atan();
    let relative = f64::from(given.table_error) / (half * half / 3.0).max(1e-12);
    ((relative * estimate) as f32).max(0.001_f32.to_radians())
}

/// Do the recorded fields differ from the model's sweep of the same step?
fn sweep_differs(case: &Case) -> Option<String> {
    let fields: Vec<f32> = case.lent.frame.triples.iter().copied().step_by(3).collect();
    let ours = sweep(fields[0], case.given.fov_max_error, step(case), fields.len());
    (ours.as_ref() != Ok(&fields)).then(|| format!("sweep: oracle {fields:?}, model {ours:?}"))
}

/// The first slot that the source and the model read differently.
fn slots_differ(case: &Case) -> Option<String> {
    let given = &case.given;
    let catalogue = record::catalogue(given.slots, &given.occupancy, given.packed.clone());
    for slot in 0..given.slots {
        let theirs = record::slot(&catalogue, slot);
        let ours = slot_read(&case.lent.table, slot as u64).expect("a valid table").map(|bytes| {
            let held = entry(bytes);
            (held.stars, held.edge.to_bits(), held.mark)
        });
        if ours != theirs {
            return Some(format!("slot {slot}: oracle {theirs:?}, model {ours:?}"));
        }
    }
    None
}
