//! The lost-in-space pattern search of a star camera: from the spots of an image to candidate matches with the stars of a table.
//!
//! The search is a proved library behind a C interface (include/star_search.h in this repository, which says what each value means and
//! what refuses a call). This package wraps it in ordinary Rust types. It needs nothing but that library, allocates nothing and keeps
//! nothing between calls; any number in any field has its answer, and no call panics or runs on.
//!
//! A host holds [`version`] against [`VERSION`] before its first call, and opens a [`Table`] once. For each image it lends a [`Frame`] with
//! [`Settings`], starts from [`State::fresh`], and asks for candidates with an allowance of table reads, as often as it likes: however the
//! reads are divided into calls, the candidates, their order and the counts are the same. Each candidate it completes into four image
//! vectors beside four star vectors, for its own solver.
//!
//! ```
//! use star_search::{Frame, Pass, Settings, State, Status, Table};
//!
//! // One pattern of four stars in the first of two slots: the block's rank and occupancy, then the packed entry.
//! let stars = [[0.0, 0.0, 1.0], [0.06, 0.0, 0.998], [0.0, 0.08, 0.997], [0.05, 0.07, 0.996]];
//! let words = [0, 0b01, 0, 0, 0, 0, 0, 0];
//! let mut packed = [0u8; 22];
//! for star in 0..4u8 {
//!     packed[4 * star as usize] = star;
//! }
//! let table = Table { slots: 2, words: &words, packed: &packed, stars: &stars }.open()?;
//!
//! // Four spots, brightest first, and one pass of 0.2 rad over 1,000 pixels.
//! let frame = Frame {
//!     centroids: &[[0.0, 0.0], [300.0, 0.0], [0.0, 400.0], [250.0, 350.0]],
//!     order: &[0, 1, 2, 3],
//!     passes: &[Pass { field: 0.2, scale: 0.0002, cosine: 1.0 }],
//! };
//! let settings = Settings { bins: 1, checking: 8, error: 1.0, radius: 0.01, matching: Some(1.25), fov: None, cap: None, patterns: 1 };
//!
//! let mut state = State::fresh();
//! let mut candidates = table.candidates(&frame, &settings, &mut state, 1_000);
//! for candidate in &mut candidates {
//!     let candidate = candidate?;
//!     assert_eq!(candidate.stars, [0, 1, 2, 3]);
//!     let completed = table.complete(&frame, &candidate, 0.0002)?;
//!     assert_eq!(completed.stars, stars);
//! }
//! assert_eq!(candidates.ended(), Some(Status::NoMatch));
//! assert_eq!((state.patterns(), state.reads()), (1, 9));
//! # Ok::<(), star_search::Refusal>(())
//! ```
//!
//! Two things are left to the caller: a call needs up to 64 KiB of stack, far below what Rust gives a thread that isn't made smaller, and
//! the floating-point control register must be as Rust programs have it.

#![deny(unsafe_code)]
#![warn(missing_docs)]

mod candidates;
#[allow(unsafe_code, missing_docs)]
mod raw;
mod refusal;
mod state;
#[cfg(test)]
mod tests;

pub use candidates::Candidates;
pub use refusal::Refusal;
pub use state::State;

/// The version of the C interface that this package is written for, the header's STAR_SEARCH_VERSION: raised whenever a struct, a function
/// or any answer changes.
pub const VERSION: u32 = 1;

/// The version that the linked archive has. Where it isn't [`VERSION`], package and archive don't belong together, and nothing else here is
/// promised.
///
/// ```
/// assert_eq!(star_search::version(), star_search::VERSION);
/// ```
pub fn version() -> u32 {
    raw::version()
}

/// A table of patterns, as lent.
#[derive(Clone, Copy, Debug)]
pub struct Table<'a> {
    /// The number of slots.
    pub slots: u64,
    /// 8 words for each begun block of 448 slots: the filled slots before the block, then 7 words of occupancy, lowest bit first.
    pub words: &'a [u64],
    /// 22 bytes for each filled slot, in slot order: four star indices (u32), largest edge in radians (f32), mark (u16), little-endian.
    pub packed: &'a [u8],
    /// The direction of each star.
    pub stars: &'a [[f32; 3]],
}

/// A table that passed the opening check: a list of calls from a fresh state that are all lent the same frame and settings is never refused
/// by the questions 6 to 9.
#[derive(Clone, Copy, Debug)]
pub struct OpenTable<'a>(Table<'a>);

/// What is lent for an image.
#[derive(Clone, Copy, Debug)]
pub struct Frame<'a> {
    /// x and y of each spot, in pixels from the image's centre.
    pub centroids: &'a [[f32; 2]],
    /// The brightness list: indices of centroids, brightest first. It may be shorter than the centroids.
    pub order: &'a [u32],
    /// The passes, in the order in which they are searched.
    pub passes: &'a [Pass],
}

/// One pass over the frame.
#[repr(C)]
#[derive(Clone, Copy, Debug, PartialEq)]
pub struct Pass {
    /// The field of view in radians.
    pub field: f32,
    /// The pixel scale: pixels times this are tangents.
    pub scale: f32,
    /// The cosine of the separation below which the fainter of two spots is left out.
    pub cosine: f32,
}

/// The settings of a search; lend the same to each call on a frame.
#[derive(Clone, Copy, Debug, PartialEq)]
pub struct Settings {
    /// `pattern_bins` of the table, 1 to 4,096.
    pub bins: u32,
    /// `pattern_checking_stars`: how many kept spots are combined, 0 to 64.
    pub checking: u32,
    /// `pattern_max_error` of the table, 0 to 1.
    pub error: f32,
    /// `match_radius`, as a part of the field of view; it decides the rebuild mark alone.
    pub radius: f32,
    /// `match_max_error`: the host's own tolerance on edge ratios.
    pub matching: Option<f32>,
    /// `fov_max_error_rad`: how far an entry's field of view may differ from the pass's, in radians.
    pub fov: Option<f32>,
    /// `max_patterns_checked`: the most combinations that a run may try.
    pub cap: Option<u64>,
    /// The number of patterns in the table; 0 makes every pass end without a read.
    pub patterns: u64,
}

/// What a search call answers.
#[derive(Clone, Copy, Debug, PartialEq)]
pub enum Answer {
    /// The last read gave a candidate; go on with the same state.
    Candidate(Candidate),
    /// The allowance is used and a read is left; go on with the same state.
    Used,
    /// No read is left.
    Ended(Status),
}

/// How a search ended.
#[derive(Clone, Copy, Debug, PartialEq, Eq, Hash)]
pub enum Status {
    /// The last pass kept fewer than 4 spots; earlier passes may have been read.
    TooFew,
    /// The last pass kept 4 or more, and no read is left; a table with no slots or a pattern count of 0 has none.
    NoMatch,
    /// The cap on combinations was reached with a pass or a combination still to come.
    Timeout,
}

/// Four spots of the image that may be four stars of the table.
#[derive(Clone, Copy, Debug, PartialEq)]
pub struct Candidate {
    /// The slot that gave it.
    pub slot: u64,
    /// The pass, from 0.
    pub pass: u32,
    /// The four spots, as rising places in the brightness list (not indices of centroids).
    pub places: [u32; 4],
    /// The four stars, in the entry's order.
    pub stars: [u32; 4],
    /// The measured field of view, in radians.
    pub field: f32,
    /// The measured field differs so much from the pass's that completing takes the scale it is given.
    pub rebuild: bool,
}

/// A candidate's vectors, for the host's own solver.
#[derive(Clone, Copy, Debug, PartialEq)]
pub struct Completed {
    /// Four unit vectors of the image, in matched order: `image[i]` belongs to `stars[i]`.
    pub image: [[f32; 3]; 4],
    /// The four star vectors, in the entry's order.
    pub stars: [[f32; 3]; 4],
}

/// What a slot holds.
#[derive(Clone, Copy, Debug, PartialEq, Eq)]
pub enum Slot {
    /// An entry.
    Filled,
    /// Nothing.
    Empty,
}

impl<'a> Table<'a> {
    /// The opening check: questions 6, 7, 10, then 9 over all filled slots. Once for each table.
    pub fn open(self) -> Result<OpenTable<'a>, Refusal> {
        match raw::open(self.lent()) {
            0 => Ok(OpenTable(self)),
            number => Err(Refusal::of(number)),
        }
    }

    /// One search call: at most `allowance` table reads from `state` on. It stops right after a read that gives a candidate.
    ///
    /// A refused call leaves the state as it was, and so does a call with allowance 0 unless it is ended. A table that was never
    /// opened may be searched too; then question 9 is asked at each filled slot that is read.
    pub fn search(&self, frame: &Frame, settings: &Settings, state: &mut State, allowance: u64) -> Result<Answer, Refusal> {
        let reply = raw::search(frame.lent(), settings.lent(), self.lent(), state.0, allowance);
        state.0 = reply.state;
        match reply.answer {
            0 => Ok(Answer::Candidate(Candidate::of(&reply.candidate))),
            1 => Ok(Answer::Used),
            2 => Ok(Answer::Ended(Status::of(reply.number))),
            _ => Err(Refusal::of(reply.number)),
        }
    }

    /// The candidates from `state` on, within an allowance of table reads for all of them together.
    pub fn candidates<'s>(&'s self, frame: &'s Frame<'s>, settings: &'s Settings, state: &'s mut State, allowance: u64) -> Candidates<'s> {
        Candidates::new(self, frame, settings, state, allowance)
    }

    /// What a slot of the table holds. Questions 6, 11, then 9 for the section only.
    pub fn slot(&self, slot: u64) -> Result<Slot, Refusal> {
        let reply = raw::slot(self.lent(), slot);
        match reply.answer {
            0 => Ok(Slot::Filled),
            1 => Ok(Slot::Empty),
            _ => Err(Refusal::of(reply.number)),
        }
    }

    /// The entry's own 22 bytes of the packed section; empty unless [`Table::slot`] says filled.
    pub fn entry(&self, slot: u64) -> &'a [u8] {
        let part = raw::entry(self.lent(), slot);
        &self.packed[part.offset as usize..(part.offset + part.length) as usize]
    }

    /// Completes a candidate. `scale` is the pixel scale for the candidate's measured field: it is used only where `rebuild` is set, and
    /// question 14 asks it always (lend the pass's own scale where it isn't set). Slot and field of the candidate are not looked at.
    pub fn complete(&self, frame: &Frame, candidate: &Candidate, scale: f32) -> Result<Completed, Refusal> {
        let reply = raw::complete(frame.lent(), self.stars.as_flattened(), candidate.lent(), scale);
        match reply.answer {
            0 => Ok(Completed { image: reply.image, stars: reply.star }),
            _ => Err(Refusal::of(reply.number)),
        }
    }

    /// The table as the C interface takes it.
    fn lent(&self) -> raw::Table<'a> {
        raw::Table { slots: self.slots, words: self.words, packed: self.packed, stars: self.stars.as_flattened() }
    }
}

impl<'a> std::ops::Deref for OpenTable<'a> {
    type Target = Table<'a>;

    fn deref(&self) -> &Table<'a> {
        &self.0
    }
}

impl<'a> Frame<'a> {
    /// The frame as the C interface takes it.
    fn lent(&self) -> raw::Frame<'a> {
        raw::Frame { centroids: self.centroids.as_flattened(), order: self.order, passes: raw::floats(self.passes) }
    }
}

impl Settings {
    /// The settings as the C interface takes them.
    fn lent(&self) -> raw::Settings {
        raw::Settings {
            bins: self.bins,
            checking: self.checking,
            error: self.error,
            radius: self.radius,
            matching_given: u32::from(self.matching.is_some()),
            matching: self.matching.unwrap_or(0.0),
            fov_given: u32::from(self.fov.is_some()),
            fov: self.fov.unwrap_or(0.0),
            cap_given: u32::from(self.cap.is_some()),
            reserved: 0,
            cap: self.cap.unwrap_or(0),
            patterns: self.patterns,
        }
    }
}

impl Status {
    /// The status of a number that the archive gave.
    fn of(number: u32) -> Status {
        match number {
            0 => Status::TooFew,
            1 => Status::NoMatch,
            2 => Status::Timeout,
            _ => unreachable!("the archive ended with {number}, which the header doesn't have"),
        }
    }
}

impl Candidate {
    /// The candidate that the C interface gave.
    fn of(reply: &raw::Candidate) -> Candidate {
        Candidate { slot: reply.slot, pass: reply.pass, places: reply.place, stars: reply.star, field: reply.field, rebuild: reply.rebuild != 0 }
    }

    /// The candidate as the C interface takes it.
    fn lent(&self) -> raw::Candidate {
        let rebuild = u32::from(self.rebuild);
        raw::Candidate { slot: self.slot, pass: self.pass, place: self.places, star: self.stars, field: self.field, rebuild, reserved: 0 }
    }
}

/// The fields of view to try around an estimate, all in radians: the estimate, then estimate + offset and, if above 0,
/// estimate - offset, for offsets a step apart up to the error. The list ends where estimate + offset reaches the f32 pi, or where offset +
/// step, rounded, is no larger than offset; it is the estimate alone without an error or with one not above 0. The values are written from the
/// start of `out`, and handed back.
///
/// A refused call (questions 12 and 13) leaves `out` as it was.
///
/// ```
/// let mut out = [0.0; 8];
/// assert_eq!(star_search::sweep(1.0, Some(0.5), 0.25, &mut out).unwrap(), [1.0, 1.25, 0.75, 1.5, 0.5]);
/// ```
pub fn sweep(estimate: f32, error: Option<f32>, step: f32, out: &mut [f32]) -> Result<&mut [f32], Refusal> {
    let reply = raw::sweep(estimate, u32::from(error.is_some()), error.unwrap_or(0.0), step, out);
    match reply.answer {
        0 => Ok(&mut out[..reply.count as usize]),
        _ => Err(Refusal::of(reply.number)),
    }
}
