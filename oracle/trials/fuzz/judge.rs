//! What the model answers to the same lending, as the C interface has it.

use model::complete::{complete, GivenCandidate};
use model::frame::{questions_1_to_3, Frame};
use model::search::{call, questions, Answer, Lent, Phase, Position, State as ModelState, Status, FRESH};
use model::sweep::sweep;
use model::table::{slot_read, Table};

use crate::hostile::Lending;
use crate::raw;

/// The lending as the model has it, with the options that are given; none where a tag is neither 0 nor 1.
pub struct Judge {
    lent: Lent,
    tagged: bool,
}

/// An option of a tag and a value.
fn option<T>(tag: u32, value: T) -> Option<T> {
    (tag == 1).then_some(value)
}

/// A state of the model as the header lays it out; fields that a phase doesn't use are 0.
fn laid(state: &ModelState) -> raw::State {
    let counts = raw::State { patterns: state.patterns, reads: state.reads, ..raw::State::default() };
    match state.phase {
        Phase::Fresh => counts,
        Phase::At(at) => raw::State { phase: 1, pass: at.pass, four: at.four, key: at.key, probe: at.probe, ..counts },
        Phase::Ended(status) => raw::State { phase: 2, status: status as u32, ..counts },
    }
}

/// The state that a header's state says; none where its phase or status is no number of the header's.
fn said(state: &raw::State) -> Option<ModelState> {
    let phase = match (state.phase, state.status) {
        (0, _) => Phase::Fresh,
        (1, _) => Phase::At(Position { pass: state.pass, four: state.four, key: state.key, probe: state.probe }),
        (2, 0) => Phase::Ended(Status::TooFew),
        (2, 1) => Phase::Ended(Status::NoMatch),
        (2, 2) => Phase::Ended(Status::Timeout),
        _ => return None,
    };
    Some(ModelState { phase, patterns: state.patterns, reads: state.reads })
}

/// Is this a state as a call makes it, fields that its phase doesn't use 0?
pub fn made_by_a_call(state: &raw::State) -> bool {
    said(state).is_some_and(|given| laid(&given) == *state)
}

impl Judge {
    /// Lends the same to the model.
    pub fn new(lending: &Lending) -> Judge {
        let settings = &lending.settings;
        let given = model::frame::Settings {
            bins: settings.bins,
            checking_stars: settings.checking,
            table_error: settings.error,
            match_radius: settings.radius,
            match_max_error: option(settings.matching_given, settings.matching),
            fov_max_error_rad: option(settings.fov_given, settings.fov),
            cap: option(settings.cap_given, settings.cap),
            pattern_count: settings.patterns,
        };
        let frame = Frame { coords: lending.coords.clone(), places: lending.order.clone(), triples: lending.passes.clone() };
        let (words, packed, stars) = (lending.words.clone(), lending.packed.clone(), lending.stars.clone());
        let table = Table { slots: lending.slots, words, packed, stars };
        let tags = [settings.matching_given, settings.fov_given, settings.cap_given];
        Judge { lent: Lent { table, frame, settings: given }, tagged: tags.iter().all(|tag| *tag < 2) }
    }

    /// The opening check's number.
    pub fn open(&self) -> u32 {
        model::table::open(&self.lent.table)
    }

    /// The answer of a search call.
    pub fn search(&self, state: &raw::State, allowance: u64) -> raw::Answer {
        let refused = |number| raw::Answer { answer: 3, number, state: *state, ..raw::Answer::default() };
        let first = questions_1_to_3(&self.lent.frame);
        if first != 0 || !self.tagged {
            return refused(if first != 0 { first } else { 4 });
        }
        let Some(given) = said(state) else {
            let before = questions(&self.lent, &FRESH);
            return refused(if before != 0 { before } else { 8 });
        };
        let (answer, after) = call(&self.lent, given, allowance);
        let reply = raw::Answer { state: laid(&after), ..raw::Answer::default() };
        match answer {
            Answer::Refused(number) => refused(number),
            Answer::Used if allowance == 0 => raw::Answer { answer: 1, state: *state, ..reply },
            Answer::Used => raw::Answer { answer: 1, ..reply },
            Answer::Ended(status) => raw::Answer { answer: 2, number: status as u32, ..reply },
            Answer::Candidate(found) => {
                let (slot, pass, place, star) = (found.slot, found.pass, found.places, found.stars);
                let (field, rebuild) = (found.field, u32::from(found.mark));
                raw::Answer { candidate: raw::Candidate { slot, pass, place, star, field, rebuild, reserved: 0 }, ..reply }
            }
        }
    }

    /// The answer of a slot read, and the entry's bytes.
    pub fn slot(&self, slot: u64) -> (raw::Slot, Vec<u8>) {
        match slot_read(&self.lent.table, slot) {
            Ok(Some(bytes)) => (raw::Slot { answer: 0, number: 0 }, bytes.to_vec()),
            Ok(None) => (raw::Slot { answer: 1, number: 0 }, Vec::new()),
            Err(number) => (raw::Slot { answer: 2, number }, Vec::new()),
        }
    }

    /// The answer of completing.
    pub fn complete(&self, candidate: &raw::Candidate, scale: f32) -> raw::Completed {
        let raw::Candidate { pass, place, star, field, rebuild, .. } = *candidate;
        let reply = GivenCandidate { pass, places: place, stars: star, field, mark: rebuild != 0, scale };
        match complete(&self.lent.frame, &self.lent.table, &reply) {
            Ok([a, b, c, d, e, f, g, h]) => raw::Completed { answer: 0, number: 0, image: [a, b, c, d], star: [e, f, g, h] },
            Err(number) => raw::Completed { answer: 1, number, ..raw::Completed::default() },
        }
    }
}

/// The values of a sweep, or its refusal.
pub fn swept(estimate: f32, error_given: u32, error: f32, step: f32, room: usize) -> Result<Vec<f32>, u32> {
    if error_given > 1 {
        return Err(12);
    }
    sweep(estimate, option(error_given, error), step, room)
}
