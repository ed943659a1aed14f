//! What the model lends, in the binding's types; and what the port says, in the model's. The trials and the measuring of the search use it.

use model::search::{self, Lent, Phase};
use model::{frame as lent_frame, table as lent_table};
use star_search::{Answer, Candidate, Frame, Pass, Refusal, Settings, State, Status, Table};

/// A case's lendings, its passes laid out for the binding.
pub struct Lending<'a> {
    lent: &'a Lent,
    passes: Vec<Pass>,
}

impl<'a> Lending<'a> {
    /// Lays out what a model lends.
    pub fn new(lent: &'a Lent) -> Lending<'a> {
        Lending { lent, passes: passes(&lent.frame) }
    }

    /// The table.
    pub fn table(&self) -> Table<'_> {
        table(&self.lent.table)
    }

    /// The frame.
    pub fn frame(&self) -> Frame<'_> {
        frame(&self.lent.frame, &self.passes)
    }

    /// The settings.
    pub fn settings(&self) -> Settings {
        settings(&self.lent.settings)
    }
}

/// The passes of a frame, laid out for the binding.
pub fn passes(frame: &lent_frame::Frame) -> Vec<Pass> {
    let pass = |[field, scale, cosine]: &[f32; 3]| Pass { field: *field, scale: *scale, cosine: *cosine };
    frame.triples.as_chunks().0.iter().map(pass).collect()
}

/// A table of the model's.
pub fn table(table: &lent_table::Table) -> Table<'_> {
    Table { slots: table.slots, words: &table.words, packed: &table.packed, stars: table.stars.as_chunks().0 }
}

/// A frame of the model's, with its passes as they were laid out.
pub fn frame<'a>(frame: &'a lent_frame::Frame, passes: &'a [Pass]) -> Frame<'a> {
    Frame { centroids: frame.coords.as_chunks().0, order: &frame.places, passes }
}

/// Settings of the model's.
pub fn settings(settings: &lent_frame::Settings) -> Settings {
    Settings {
        bins: settings.bins,
        checking: settings.checking_stars,
        error: settings.table_error,
        radius: settings.match_radius,
        matching: settings.match_max_error,
        fov: settings.fov_max_error_rad,
        cap: settings.cap,
        patterns: settings.pattern_count,
    }
}

/// The port's candidate as the model has it.
pub fn candidate(found: Candidate) -> search::Candidate {
    let Candidate { slot, pass, places, stars, field, rebuild } = found;
    search::Candidate { pass, places, slot, stars, field, mark: rebuild }
}

/// The port's answer as the model has it.
pub fn said(reply: Result<Answer, Refusal>) -> search::Answer {
    match reply {
        Ok(Answer::Candidate(found)) => search::Answer::Candidate(candidate(found)),
        Ok(Answer::Used) => search::Answer::Used,
        Ok(Answer::Ended(status)) => search::Answer::Ended(ended(status)),
        Err(refusal) => search::Answer::Refused(refusal.number()),
    }
}

/// The port's status as the model has it.
pub fn ended(status: Status) -> search::Status {
    match status {
        Status::TooFew => search::Status::TooFew,
        Status::NoMatch => search::Status::NoMatch,
        Status::Timeout => search::Status::Timeout,
    }
}

/// The model's state as the header lays it out; fields that a phase doesn't use are 0.
pub fn state(state: &search::State) -> State {
    let mut words = [0u32; 10];
    match state.phase {
        Phase::Fresh => {}
        Phase::At(at) => {
            (words[0], words[2]) = (1, at.pass);
            words[3..7].copy_from_slice(&at.four);
            (words[7], words[8]) = (at.key, at.probe);
        }
        Phase::Ended(status) => (words[0], words[1]) = (2, status as u32),
    }
    let mut bytes = [0; State::BYTES];
    for (at, word) in words.into_iter().enumerate() {
        bytes[4 * at..4 * at + 4].copy_from_slice(&word.to_le_bytes());
    }
    bytes[40..48].copy_from_slice(&state.patterns.to_le_bytes());
    bytes[48..].copy_from_slice(&state.reads.to_le_bytes());
    State::from_bytes(&bytes)
}
