//! The questions that refuse a call.

use std::fmt;

/// The question that a call was refused by. The first no wins; a refused call changes nothing.
#[derive(Clone, Copy, Debug, PartialEq, Eq, Hash, PartialOrd, Ord)]
#[repr(u32)]
pub enum Refusal {
    /// 1: there are at most 256 centroids.
    Centroids = 1,
    /// 2: each coordinate is finite and of magnitude at most 32,768.
    Coordinates = 2,
    /// 3: each index of the brightness list is below the number of centroids, and none is there twice.
    Order = 3,
    /// 4: the settings lie in their limits.
    Settings = 4,
    /// 5: there are 1 to 256 passes, each in its limits.
    Passes = 5,
    /// 6: there are at most 2^24 slots, and exactly 8 words for each begun block of 448.
    Words = 6,
    /// 7: there are at most 2^20 stars.
    Stars = 7,
    /// 8: the state is fresh, ended, or at a read that exists in this frame and table.
    State = 8,
    /// 9: the entry read lies inside the packed section and its stars are valid.
    Entry = 9,
    /// 10: ranks, bits past the last slot and the section's length agree.
    Blocks = 10,
    /// 11: the slot is below the slot count.
    Slot = 11,
    /// 12: estimate, step and error of a sweep lie in their limits.
    Sweep = 12,
    /// 13: the fields of the sweep fit the lent slice.
    Room = 13,
    /// 14: the candidate's pass and places exist, and the scale lies in its limits.
    Candidate = 14,
}

use Refusal::*;

impl Refusal {
    /// Every refusal with the question that it answers no to, in the order of their numbers.
    const ALL: [(Refusal, &'static str); 14] = [
        (Centroids, "are there at most 256 centroids?"),
        (Coordinates, "is each coordinate finite and of magnitude at most 32,768?"),
        (Order, "is each index of the brightness list below the number of centroids, and none there twice?"),
        (Settings, "are bins 1 to 4,096, checking stars 0 to 64, error 0 to 1, radius finite and not negative, options finite, and tolerance times bins at most 1.25?"),
        (Passes, "are there 1 to 256 passes, each with field above 0 and below pi, scale above 0 and at most 16, cosine from -1 to 1?"),
        (Words, "are there at most 2^24 slots and exactly 8 words for each begun block of 448?"),
        (Stars, "are there at most 2^20 stars?"),
        (State, "is the state fresh, ended, or at a read that exists in this frame and table, its counts in their limits?"),
        (Entry, "does the entry lie inside the packed section, its stars inside the star array, each component finite and at most 1?"),
        (Blocks, "is every rank the ones before its block, every bit past the last slot clear, the section 22 bytes for each one?"),
        (Slot, "is the slot below the slot count?"),
        (Sweep, "is the estimate above 0 and below pi, the step finite and above 0, the error finite or absent?"),
        (Room, "does the list of fields fit the lent slice?"),
        (Candidate, "does the pass exist, do the four places rise below the list's length, is the scale above 0 and at most 16?"),
    ];

    /// The question's number, 1 to 14.
    pub fn number(self) -> u32 {
        self as u32
    }

    /// The question itself.
    pub fn question(self) -> &'static str {
        Refusal::ALL[self as usize - 1].1
    }

    /// The refusal of a number that the archive gave.
    pub(crate) fn of(number: u32) -> Refusal {
        match Refusal::ALL.get((number as usize).wrapping_sub(1)) {
            Some((refusal, _)) => *refusal,
            None => unreachable!("the archive refused with {number}, which the header doesn't have"),
        }
    }
}

impl fmt::Display for Refusal {
    fn fmt(&self, f: &mut fmt::Formatter) -> fmt::Result {
        write!(f, "refused by question {}: {}", self.number(), self.question())
    }
}

impl std::error::Error for Refusal {}
