//! The two sides of a timing: the port through the binding, and the Rust without its recording lines.

use std::rc::Rc;

use cases::oracle::Case;
use model::search::Lent;
use star_search::{Answer, Frame, Pass, Settings, State, Table};
use tetra3::solver::record::{self, Given};
use tetra3_plain::solver::ready::Ready;
use tetra3_plain::solver::record::Given as PlainGiven;

/// One frame over one table, ready for both sides. Frames of one table share it.
pub struct Work {
    table: Rc<model::table::Table>,
    lent: Lent,
    passes: Vec<Pass>,
    ready: Ready,
}

/// What a run of the port counted.
#[derive(Clone, Copy, Debug, Default, PartialEq)]
pub struct Counts {
    pub combinations: u64,
    pub reads: u64,
    pub candidates: u64,
    pub calls: u64,
}

/// The same for the Rust without its recording lines, whose types are its own.
fn plain(given: &Given) -> PlainGiven {
    PlainGiven {
        slots: given.slots,
        occupancy: given.occupancy.clone(),
        packed: given.packed.clone(),
        stars: given.stars.clone(),
        bins: given.bins,
        table_error: given.table_error,
        pattern_count: given.pattern_count,
        verification_stars: given.verification_stars,
        focal_length: given.focal_length,
        width: given.width,
        height: given.height,
        spots: given.spots.clone(),
        places: given.places.clone(),
        match_radius: given.match_radius,
        match_max_error: given.match_max_error,
        fov_max_error: given.fov_max_error,
        cap: given.cap,
        checking_stars: given.checking_stars,
    }
}

impl Work {
    /// Makes a frame ready.
    pub fn new(given: Given) -> Work {
        let ready = Ready::new(&plain(&given));
        let mut lent = Case::new("speed", given).lent;
        let table = Rc::new(std::mem::take(&mut lent.table));
        Work { table, passes: lend::passes(&lent.frame), lent, ready }
    }

    /// Makes another frame over the same table ready.
    pub fn beside(&self, given: Given) -> Work {
        let ready = self.ready.beside(&plain(&given));
        let mut lent = Case::new("speed", given).lent;
        lent.table = model::table::Table::default();
        Work { table: self.table.clone(), passes: lend::passes(&lent.frame), lent, ready }
    }

    /// The Rust, to its end or its first candidate.
    pub fn rust(&self, first: bool) {
        assert!(self.ready.run(first), "the callback accepts nothing");
    }

    /// The port, in calls of so many reads, to its end or its first candidate.
    pub fn port(&self, allowance: u64, first: bool) -> Counts {
        let (table, frame, settings) = self.lent();
        let (mut state, mut counts) = (State::fresh(), Counts::default());
        loop {
            let reply = table.search(&frame, &settings, &mut state, allowance).expect("a valid lending");
            counts.calls += 1;
            let found = matches!(reply, Answer::Candidate(_));
            counts.candidates += u64::from(found);
            if found && first || matches!(reply, Answer::Ended(_)) {
                return Counts { combinations: state.patterns(), reads: state.reads(), ..counts };
            }
        }
    }

    /// What the port is lent.
    fn lent(&self) -> (Table<'_>, Frame<'_>, Settings) {
        (lend::table(&self.table), lend::frame(&self.lent.frame, &self.passes), lend::settings(&self.lent.settings))
    }

    /// Stops unless the oracle's own record of the frame, under a cap, has the counts that the port has: both sides do the same work.
    pub fn check(&self, given: &Given, cap: Option<u64>) {
        let (table, frame, settings) = self.lent();
        table.open().expect("a valid table");
        let (settings, mut state) = (Settings { cap, ..settings }, State::fresh());
        let found = table.candidates(&frame, &settings, &mut state, u64::MAX).count();
        let (record, _) = record::run(&Given { cap, ..given.clone() });
        let (ours, theirs) =
            ((state.patterns(), state.reads(), found), (record.starts.len() as u64, record.reads, record.candidates.len()));
        assert!(ours == theirs, "port {ours:?}, oracle {theirs:?}");
    }

    /// The words and the packed section of the table, to read them plainly.
    pub fn memory(&self) -> (&[u64], &[u8], u64) {
        let table = &self.table;
        (&table.words, &table.packed, table.slots)
    }
}
