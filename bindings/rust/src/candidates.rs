//! The candidates of a search, one call each.

use crate::{Answer, Candidate, Frame, Refusal, Settings, State, Status, Table};

/// The candidates from a state on, within an allowance of table reads. Made by [`Table::candidates`].
///
/// Each item is one search call, allowed what is left of the allowance. The list is over when the allowance is used, when no read is left, or after
/// a refusal, which is an item itself. The lent state moves along: with it, a later call or another list goes on where this one stopped.
#[derive(Debug)]
pub struct Candidates<'s> {
    table: &'s Table<'s>,
    frame: &'s Frame<'s>,
    settings: &'s Settings,
    state: &'s mut State,
    left: u64,
    over: bool,
    ended: Option<Status>,
}

impl<'s> Candidates<'s> {
    /// A list that has made no call yet.
    pub(crate) fn new(
        table: &'s Table<'s>,
        frame: &'s Frame<'s>,
        settings: &'s Settings,
        state: &'s mut State,
        allowance: u64,
    ) -> Candidates<'s> {
        Candidates { table, frame, settings, state, left: allowance, over: false, ended: None }
    }

    /// How the search ended, once a call has said so: none as long as a read is left, right after a candidate on the last read, and after a
    /// refusal.
    pub fn ended(&self) -> Option<Status> {
        self.ended
    }

    /// The reads that are left of the allowance.
    pub fn left(&self) -> u64 {
        self.left
    }
}

impl Iterator for Candidates<'_> {
    type Item = Result<Candidate, Refusal>;

    fn next(&mut self) -> Option<Result<Candidate, Refusal>> {
        if self.over {
            return None;
        }
        let before = self.state.reads();
        let reply = self.table.search(self.frame, self.settings, self.state, self.left);
        self.left -= self.state.reads() - before;
        self.over = !matches!(reply, Ok(Answer::Candidate(_)));
        match reply {
            Ok(Answer::Candidate(candidate)) => Some(Ok(candidate)),
            Ok(Answer::Used) => None,
            Ok(Answer::Ended(status)) => {
                self.ended = Some(status);
                None
            }
            Err(refusal) => Some(Err(refusal)),
        }
    }
}

impl std::iter::FusedIterator for Candidates<'_> {}
