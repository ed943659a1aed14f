//! The oracle's side of a case: what it is given, what is lent to the port, and the lines its record demands.

use model::frame::{Frame, Settings};
use model::replay::answer_line;
use model::search::{Answer, Candidate, Lent, Status};
use model::table::Table;
use tetra3::solver::record::{self, Given, Pass, Record};
use tetra3::SolveStatus;

use crate::tables::blocks;

/// One case: what the oracle is given, and the same as lent to the port.
#[derive(Clone)]
pub struct Case {
    pub kind: &'static str,
    pub given: Given,
    pub lent: Lent,
}

/// Every pass of a sweep, whatever the cap: the search itself runs over a table without slots.
pub fn passes(given: &Given) -> Vec<Pass> {
    let bare = Given { slots: 0, occupancy: Vec::new(), packed: Vec::new(), cap: None, ..given.clone() };
    record::run(&bare).0.passes
}

impl Case {
    /// Works out what the port is lent: the same data, and the passes as the oracle has them.
    pub fn new(kind: &'static str, given: Given) -> Case {
        let passes = passes(&given);
        let lent = Lent {
            table: Table {
                slots: given.slots as u64,
                words: blocks(given.slots, &given.occupancy),
                packed: given.packed.clone(),
                stars: given.stars.as_flattened().to_vec(),
            },
            frame: Frame {
                coords: given.spots.as_flattened().to_vec(),
                places: given.places.iter().map(|place| *place as u32).collect(),
                triples: passes.iter().flat_map(|pass| [pass.field, pass.scale, pass.cosine]).collect(),
            },
            settings: Settings {
                bins: given.bins,
                checking_stars: given.checking_stars,
                table_error: given.table_error,
                match_radius: given.match_radius,
                match_max_error: given.match_max_error,
                fov_max_error_rad: given.fov_max_error,
                cap: given.cap,
                pattern_count: u64::from(given.pattern_count),
            },
        };
        Case { kind, given, lent }
    }

    /// Runs the oracle.
    pub fn run(&self) -> Taken {
        let (record, status) = record::run(&self.given);
        let status = match status {
            SolveStatus::TooFew => Status::TooFew,
            SolveStatus::NoMatch => Status::NoMatch,
            SolveStatus::Timeout => Status::Timeout,
            SolveStatus::InvalidConfig => unreachable!("the search validates nothing"),
        };
        Taken { record, status }
    }
}

/// What the oracle's run left: its record and its status.
pub struct Taken {
    pub record: Record,
    pub status: Status,
}

/// The oracle's candidate in the port's form.
pub fn candidate(found: &record::Candidate) -> Candidate {
    Candidate {
        pass: found.pass as u32,
        places: found.places.map(|place| place as u32),
        slot: found.slot as u64,
        stars: found.stars,
        field: found.field,
        mark: found.mark,
    }
}

impl Taken {
    /// The combinations tried in the first n reads.
    pub fn patterns(&self, n: u64) -> u64 {
        self.record.starts.partition_point(|start| *start < n) as u64
    }
}

/// Document 01's machine of calls, on the reads that the oracle recorded.
pub struct Machine<'a> {
    pub taken: &'a Taken,
    pub n: u64,
}

impl Machine<'_> {
    /// The answer to one call that the questions let through.
    pub fn answer(&mut self, allowance: u64) -> Answer {
        let record = &self.taken.record;
        let before = record.candidates.partition_point(|found| found.reads <= self.n);
        let end = self.n.saturating_add(allowance).min(record.reads);
        match record.candidates.get(before) {
            Some(found) if found.reads <= end => {
                self.n = found.reads;
                Answer::Candidate(candidate(found))
            }
            _ => {
                self.n = end;
                if end < record.reads {
                    Answer::Used
                } else {
                    Answer::Ended(self.taken.status)
                }
            }
        }
    }

    /// The line of one call that the questions let through, and whether it leaves more to ask for.
    pub fn call(&mut self, allowance: u64) -> (String, bool) {
        let answer = self.answer(allowance);
        let more = matches!(answer, Answer::Candidate(_) | Answer::Used);
        (answer_line(&answer, self.taken.patterns(self.n), self.n), more)
    }

    /// The lines of calls with one allowance until one answers ended.
    pub fn run(&mut self, allowance: u64) -> String {
        let mut lines = String::new();
        loop {
            let (line, more) = self.call(allowance);
            lines += &line;
            if !more {
                return lines;
            }
        }
    }

    /// The line of a call that the questions refuse.
    pub fn refused(&self, number: u32) -> String {
        answer_line(&Answer::Refused(number), self.taken.patterns(self.n), self.n)
    }
}
