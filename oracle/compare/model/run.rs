//! The undivided run as a list of reads, and the machine of calls on it.

use crate::combinations::fours;
use crate::search::{bare, capped, passes, probed, tested, Answer, Candidate, Combination, Kept, Lent, Status};
use crate::table::{self, Slot};

/// One read of the run: the combinations tried up to it, and the candidate that it gives.
#[derive(Clone, Copy, PartialEq, Debug)]
pub struct Read {
    pub patterns: u64,
    pub candidate: Option<Candidate>,
}

/// The whole run, all its reads in order and the status that ends it.
#[derive(Clone, PartialEq, Debug)]
pub struct Run {
    pub reads: Vec<Read>,
    pub status: Status,
}

/// The undivided run of data, settings and a table that questions 1 to 7 and the opening check let through.
pub fn undivided(lent: &Lent) -> Run {
    let mut run = Run { reads: Vec::new(), status: Status::NoMatch };
    let mut patterns = 0;
    for number in 0..passes(lent) {
        if capped(&lent.settings, patterns) {
            run.status = Status::Timeout;
            return run;
        }
        let kept = Kept::new(lent, number);
        run.status = if kept.places.len() < 4 { Status::TooFew } else { Status::NoMatch };
        if run.status == Status::TooFew || bare(lent) {
            continue;
        }
        for four in fours(kept.places.len()).iter() {
            if capped(&lent.settings, patterns) {
                run.status = Status::Timeout;
                return run;
            }
            patterns += 1;
            combination_reads(lent, &kept, *four, patterns, &mut run.reads);
        }
    }
    run
}

/// The reads of one combination: its keys in order, each along its chain.
fn combination_reads(lent: &Lent, kept: &Kept, four: [u32; 4], patterns: u64, reads: &mut Vec<Read>) {
    let combination = Combination::new(lent, kept, four);
    for key in &combination.keys {
        for probe in 0..lent.table.slots {
            let slot = probed(lent, *key, probe as u32);
            let candidate = match table::read(&lent.table, slot) {
                Slot::Filled(bytes) => tested(lent, kept, &combination, *key, slot, table::entry(bytes)),
                Slot::Empty => {
                    reads.push(Read { patterns, candidate: None });
                    break;
                }
                Slot::Outside => unreachable!("the opening check passed"),
            };
            reads.push(Read { patterns, candidate });
        }
    }
}

/// A machine on the run: it holds n, the reads taken.
pub struct Machine<'a> {
    pub run: &'a Run,
    pub n: usize,
}

impl Machine<'_> {
    /// One call, or its refusal's number where the questions refuse it.
    pub fn call(&mut self, allowance: u64, refusal: u32) -> Answer {
        if refusal != 0 {
            return Answer::Refused(refusal);
        }
        let mut taken = 0;
        while self.n < self.run.reads.len() && taken < allowance {
            taken += 1;
            self.n += 1;
            if let Some(candidate) = self.run.reads[self.n - 1].candidate {
                return Answer::Candidate(candidate);
            }
        }
        if self.n == self.run.reads.len() {
            Answer::Ended(self.run.status)
        } else {
            Answer::Used
        }
    }

    /// The combinations tried in the reads taken.
    pub fn patterns(&self) -> u64 {
        if self.n == 0 {
            0
        } else {
            self.run.reads[self.n - 1].patterns
        }
    }
}
