//! The search call: states, answers, the read test and the step from one read to the next.

use crate::combinations::{after, fours, Four};
use crate::float::pi;
use crate::frame::{self, Frame, Pass, Settings};
use crate::pattern::{self, Direction, Key};
use crate::table::{self, Entry, Slot, Table};

/// All that is lent to a search call.
#[derive(Clone, Default, PartialEq, Debug)]
pub struct Lent {
    pub table: Table,
    pub frame: Frame,
    pub settings: Settings,
}

/// How a run ends.
#[derive(Clone, Copy, PartialEq, Debug)]
pub enum Status {
    TooFew,
    NoMatch,
    Timeout,
}

/// The next read: pass, four positions in its kept list, key number, probe number.
#[derive(Clone, Copy, PartialEq, Debug)]
pub struct Position {
    pub pass: u32,
    pub four: Four,
    pub key: u32,
    pub probe: u32,
}

/// Where a search stands.
#[derive(Clone, Copy, PartialEq, Debug)]
pub enum Phase {
    Fresh,
    Ended(Status),
    At(Position),
}

/// A saved state: where it stands, combinations tried, reads made.
#[derive(Clone, Copy, PartialEq, Debug)]
pub struct State {
    pub phase: Phase,
    pub patterns: u64,
    pub reads: u64,
}

/// The state every search starts from.
pub const FRESH: State = State { phase: Phase::Fresh, patterns: 0, reads: 0 };

/// A candidate; its combination as places in the brightness list, its field the measured one.
#[derive(Clone, Copy, PartialEq, Debug)]
pub struct Candidate {
    pub pass: u32,
    pub places: [u32; 4],
    pub slot: u64,
    pub stars: [u32; 4],
    pub field: f32,
    pub mark: bool,
}

/// What a call answers.
#[derive(Clone, Copy, PartialEq, Debug)]
pub enum Answer {
    Candidate(Candidate),
    Used,
    Ended(Status),
    Refused(u32),
}

/// One pass with its kept list worked out.
pub struct Kept {
    pub number: u32,
    pub pass: Pass,
    pub places: Vec<u32>,
}

impl Kept {
    /// Thins the spots of one pass.
    pub fn new(lent: &Lent, number: u32) -> Kept {
        let pass = frame::pass(&lent.frame, number as usize);
        let places = frame::kept(&lent.frame, &lent.settings, pass);
        Kept { number, pass, places }
    }
}

/// One combination with its edges, ratios and keys worked out.
pub struct Combination {
    pub four: Four,
    pub places: [u32; 4],
    pub edge: f32,
    pub ratios: [f32; 5],
    pub keys: Vec<Key>,
}

impl Combination {
    /// Works out the four spots at these positions of a kept list.
    pub fn new(lent: &Lent, kept: &Kept, four: Four) -> Combination {
        let places = four.map(|position| kept.places[position as usize]);
        let vectors: [Direction; 4] = places.map(|place| frame::spot(&lent.frame, place, kept.pass.scale));
        let edges = pattern::edges(vectors);
        let ratios = pattern::ratios(edges);
        let keys = pattern::keys(ratios, frame::tolerance(&lent.settings), lent.settings.bins);
        Combination { four, places, edge: edges[5], ratios, keys }
    }
}

/// The slot that a probe of a key reads.
pub fn probed(lent: &Lent, key: Key, probe: u32) -> u64 {
    let slots = lent.table.slots;
    let home = pattern::home(pattern::hash(key, lent.settings.bins), slots);
    (home + u64::from(probe) * u64::from(probe)) % slots
}

/// The candidate that a filled slot with a valid entry gives, if it gives one.
pub fn tested(lent: &Lent, kept: &Kept, combination: &Combination, key: Key, slot: u64, entry: Entry) -> Option<Candidate> {
    if entry.mark != pattern::mark(pattern::hash(key, lent.settings.bins)) {
        return None;
    }
    let field = kept.pass.field;
    if let Some(error) = lent.settings.fov_max_error_rad {
        let stored = entry.edge / combination.edge * field;
        if (stored - field).abs() > error {
            return None;
        }
    }
    let edges = pattern::edges(entry.stars.map(|star| table::star(&lent.table, star)));
    if !inside(pattern::ratios(edges), combination.ratios, frame::tolerance(&lent.settings)) {
        return None;
    }
    let measured = edges[5] / combination.edge * field;
    if !(measured.is_finite() && measured > 0.0 && measured < pi()) {
        return None;
    }
    let mark = (measured / field - 1.0).abs() > 0.25 * lent.settings.match_radius;
    let (pass, places) = (kept.number, combination.places);
    Some(Candidate { pass, places, slot, stars: entry.stars, field: measured, mark })
}

/// Does every ratio of the stars lie strictly inside the tolerance around the image's?
fn inside(stars: [f32; 5], image: [f32; 5], tolerance: f32) -> bool {
    (0..5).all(|i| stars[i] > image[i] - tolerance && stars[i] < image[i] + tolerance)
}

/// Is the cap already reached?
pub fn capped(settings: &Settings, patterns: u64) -> bool {
    settings.cap.is_some_and(|cap| patterns >= cap)
}

/// Has the table nothing to read?
pub fn bare(lent: &Lent) -> bool {
    lent.table.slots == 0 || lent.settings.pattern_count == 0
}

/// The number of passes lent.
pub fn passes(lent: &Lent) -> u32 {
    (lent.frame.triples.len() / 3) as u32
}

/// The phase at the first read of the first pass from `pass` on that has one, after a pass with this status.
fn entering(lent: &Lent, pass: u32, before: Status, patterns: u64) -> Phase {
    let mut status = before;
    for number in pass..passes(lent) {
        if capped(&lent.settings, patterns) {
            return Phase::Ended(Status::Timeout);
        }
        if Kept::new(lent, number).places.len() < 4 {
            status = Status::TooFew;
        } else if bare(lent) {
            status = Status::NoMatch;
        } else {
            return Phase::At(Position { pass: number, four: [0, 1, 2, 3], key: 0, probe: 0 });
        }
    }
    Phase::Ended(status)
}

/// The phase after a read at a position: next probe, next key, next combination, next pass.
fn next(lent: &Lent, at: Position, kept: &Kept, keys: usize, empty: bool, patterns: u64) -> Phase {
    if !empty && u64::from(at.probe) + 1 < lent.table.slots {
        return Phase::At(Position { probe: at.probe + 1, ..at });
    }
    if at.key as usize + 1 < keys {
        return Phase::At(Position { key: at.key + 1, probe: 0, ..at });
    }
    match after(kept.places.len(), at.four) {
        Some(_) if capped(&lent.settings, patterns) => Phase::Ended(Status::Timeout),
        Some(four) => Phase::At(Position { four, key: 0, probe: 0, ..at }),
        None => entering(lent, at.pass + 1, Status::NoMatch, patterns),
    }
}

/// The first no of questions 1 to 8, or 0.
pub fn questions(lent: &Lent, state: &State) -> u32 {
    let first = frame::questions_1_to_3(&lent.frame);
    if first != 0 {
        first
    } else if !frame::question_4(&lent.settings) {
        4
    } else if !frame::question_5(&lent.frame) {
        5
    } else if !table::question_6(&lent.table) {
        6
    } else if !table::question_7(&lent.table) {
        7
    } else if !question_8(lent, state) {
        8
    } else {
        0
    }
}

/// Question 8: is the state fresh, ended, or at numbers that exist here, its counts within their limits?
fn question_8(lent: &Lent, state: &State) -> bool {
    let counts = state.patterns <= 162_656_256 && state.reads <= 1 << 62;
    match state.phase {
        Phase::Fresh => state.patterns == 0 && state.reads == 0,
        Phase::Ended(_) => counts,
        Phase::At(at) => counts && exists(lent, at),
    }
}

/// Do pass, combination, key and probe exist here?
fn exists(lent: &Lent, at: Position) -> bool {
    if bare(lent) || at.pass >= passes(lent) {
        return false;
    }
    let kept = Kept::new(lent, at.pass);
    let [a, b, c, d] = at.four;
    let rising = a < b && b < c && c < d && (d as usize) < kept.places.len();
    rising && (at.key as usize) < Combination::new(lent, &kept, at.four).keys.len() && u64::from(at.probe) < lent.table.slots
}

/// One search call: the answer and the state that it leaves.
pub fn call(lent: &Lent, received: State, allowance: u64) -> (Answer, State) {
    let refusal = questions(lent, &received);
    if refusal != 0 {
        return (Answer::Refused(refusal), received);
    }
    let mut state = received;
    if state.phase == Phase::Fresh {
        state.phase = entering(lent, 0, Status::NoMatch, 0);
    }
    if let Phase::Ended(status) = state.phase {
        return (Answer::Ended(status), state);
    }
    if allowance == 0 {
        return (Answer::Used, received);
    }
    match read_on(lent, state, allowance) {
        Some(done) => done,
        None => (Answer::Refused(9), received),
    }
}

/// Reads from a state at its next read until the call stops; none where question 9 refuses.
fn read_on(lent: &Lent, start: State, allowance: u64) -> Option<(Answer, State)> {
    let mut state = start;
    let mut taken = 0;
    let mut work: Option<(Kept, Combination)> = None;
    loop {
        let at = match state.phase {
            Phase::At(at) => at,
            Phase::Ended(status) => return Some((Answer::Ended(status), state)),
            Phase::Fresh => unreachable!("a fresh state is entered first"),
        };
        if taken == allowance {
            return Some((Answer::Used, state));
        }
        let (kept, combination) = worked(lent, work, at);
        let key = combination.keys[at.key as usize];
        let slot = probed(lent, key, at.probe);
        let held = table::read(&lent.table, slot);
        if !table::valid(&lent.table, &held) {
            return None;
        }
        taken += 1;
        state.reads += 1;
        if at.key == 0 && at.probe == 0 {
            state.patterns += 1;
        }
        state.phase = next(lent, at, &kept, combination.keys.len(), held == Slot::Empty, state.patterns);
        if let Slot::Filled(bytes) = held {
            if let Some(candidate) = tested(lent, &kept, &combination, key, slot, table::entry(bytes)) {
                return Some((Answer::Candidate(candidate), state));
            }
        }
        work = Some((kept, combination));
    }
}

/// The pass and combination of a position, taken over where they are already worked out.
fn worked(lent: &Lent, before: Option<(Kept, Combination)>, at: Position) -> (Kept, Combination) {
    match before {
        Some((kept, combination)) if kept.number == at.pass && combination.four == at.four => (kept, combination),
        Some((kept, _)) if kept.number == at.pass => {
            let combination = Combination::new(lent, &kept, at.four);
            (kept, combination)
        }
        _ => {
            let kept = Kept::new(lent, at.pass);
            let combination = Combination::new(lent, &kept, at.four);
            (kept, combination)
        }
    }
}

/// The number of combinations of a pass, for callers that choose caps.
pub fn combinations_of(lent: &Lent, pass: u32) -> u64 {
    fours(Kept::new(lent, pass).places.len()).len() as u64
}
