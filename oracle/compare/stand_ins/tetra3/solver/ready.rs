//! Our own addition: a search made ready once and run many times, for timing. The oracle doesn't use it.

use std::cell::Cell;
use std::rc::Rc;

use super::clock::Instant;
use super::pattern_search::PatternSearch;
use super::record::{configuration, database, Given};
use super::solve::StarVectors;
use super::{SolveConfig, SolverDatabase};
use crate::Centroid;

thread_local! {
    static FIRST: Cell<bool> = const { Cell::new(false) };
}

/// Does the run end at its first candidate?
pub(super) fn stop() -> bool {
    FIRST.get()
}

/// Database, configuration and spots of a search.
pub struct Ready {
    database: Rc<SolverDatabase>,
    configuration: SolveConfig,
    spots: Vec<Centroid>,
    places: Vec<usize>,
}

impl Ready {
    /// Makes all that a run is given.
    pub fn new(given: &Given) -> Ready {
        Ready::over(Rc::new(database(given)), given)
    }

    /// The same database under another frame.
    pub fn beside(&self, given: &Given) -> Ready {
        Ready::over(self.database.clone(), given)
    }

    /// A frame over a database.
    fn over(database: Rc<SolverDatabase>, given: &Given) -> Ready {
        let spots = given.spots.iter().map(|spot| Centroid { x: spot[0], y: spot[1], mass: None, cov: None }).collect();
        Ready { database, configuration: configuration(given), spots, places: given.places.clone() }
    }

    /// Runs the search with a callback that answers none, to its end or to its first candidate; whether it ended without a solution.
    pub fn run(&self, first: bool) -> bool {
        FIRST.set(first);
        let vectors = StarVectors::with_observer_velocity(&self.database.star_vectors, None);
        let mut search = PatternSearch::new(&self.database, &self.spots, &self.places, &self.configuration, vectors, Instant::now());
        search.run(&mut |_| None).is_err()
    }
}
