//! Refused lendings, completing, sweep and slot reads of the port beside the oracle's.

use cases::compare::step;
use cases::oracle::{Case, Taken};
use lend::{said, Lending};
use model::table::entry;
use star_search::{sweep, Candidate, Completed, Refusal, Slot, State};
use tetra3::solver::record;

/// Do the first search call and the opening check refuse with these numbers, or not where they are 0?
pub fn refusal_differs(case: &Case, search: u32, table: u32) -> Option<String> {
    let lending = Lending::new(&case.lent);
    let opened = lending.table().open().map_or_else(Refusal::number, |_| 0);
    let mut state = State::fresh();
    let reply = lending.table().search(&lending.frame(), &lending.settings(), &mut state, 0);
    let number = reply.map_or_else(Refusal::number, |_| 0);
    ((opened, number) != (table, search)).then(|| format!("refused {table} and {search}, port {opened} and {:?}", said(reply)))
}

/// The bits of four directions.
fn bits(four: [[f32; 3]; 4]) -> [[u32; 3]; 4] {
    four.map(|direction| direction.map(f32::to_bits))
}

/// The first candidate that is completed to other vectors; a scale outside document 01's limits is refused with 14.
pub fn completing_differs(case: &Case, taken: &Taken) -> Option<String> {
    let lending = Lending::new(&case.lent);
    let (table, frame) = (lending.table(), lending.frame());
    for found in &taken.record.candidates {
        let reply = Candidate {
            slot: found.slot as u64,
            pass: found.pass as u32,
            places: found.places.map(|place| place as u32),
            stars: found.stars,
            field: found.field,
            rebuild: found.mark,
        };
        let ours = table.complete(&frame, &reply, found.scale);
        let same = match ours {
            Ok(Completed { image, stars }) => bits(image) == bits(found.image) && bits(stars) == bits(found.catalogue),
            Err(refusal) => refusal == Refusal::Candidate && !(found.scale > 0.0 && found.scale <= 16.0),
        };
        if !same {
            return Some(format!("completing {found:?}: port {ours:?}"));
        }
    }
    None
}

/// The fields that the oracle swept, beside the port's of the same step; then one place too few.
pub fn sweep_differs(case: &Case) -> Option<String> {
    let fields: Vec<f32> = case.lent.frame.triples.iter().copied().step_by(3).collect();
    let (estimate, error, step) = (fields[0], case.given.fov_max_error, step(case));
    let mut out = vec![9.0; fields.len() + 3];
    let whole = sweep(estimate, error, step, &mut out).map(|values| values.len());
    let same = whole == Ok(fields.len()) && out.starts_with(&fields) && out.ends_with(&[9.0; 3]);
    let mut short = vec![9.0; fields.len() - 1];
    let refused = sweep(estimate, error, step, &mut short).map(|values| values.len());
    let kept = refused == Err(Refusal::Room) && short.iter().all(|value| *value == 9.0);
    (!same || !kept).then(|| format!("sweep: oracle {fields:?}, port {whole:?} {out:?}, too few {refused:?} {short:?}"))
}

/// The first slot that the source and the port read differently.
pub fn slots_differ(case: &Case) -> Option<String> {
    let given = &case.given;
    let lending = Lending::new(&case.lent);
    let table = lending.table();
    let catalogue = record::catalogue(given.slots, &given.occupancy, given.packed.clone());
    for slot in 0..given.slots {
        let theirs = record::slot(&catalogue, slot);
        let part = table.entry(slot as u64);
        let ours = match table.slot(slot as u64) {
            Ok(Slot::Filled) => part.try_into().ok().map(entry).map(|held| (held.stars, held.edge.to_bits(), held.mark)),
            Ok(Slot::Empty) if part.is_empty() => None,
            reply => return Some(format!("slot {slot}: oracle {theirs:?}, port {reply:?} {part:?}")),
        };
        if ours != theirs {
            return Some(format!("slot {slot}: oracle {theirs:?}, port {ours:?}"));
        }
    }
    let past = table.slot(given.slots as u64);
    (past != Err(Refusal::Slot)).then(|| format!("past the last slot: {past:?}"))
}
