//! The replay stream: writing records, and answering them with the model.

use crate::complete::{complete, GivenCandidate};
use crate::frame::{Frame, Settings};
use crate::search::{call, Answer, Lent, Phase, Position, State, Status, FRESH};
use crate::sweep::sweep;
use crate::table::{open, slot_read, Table};

/// One record of a stream.
#[derive(Clone, PartialEq, Debug)]
pub enum Record {
    Table(Table),
    Frame(Frame),
    Settings(Settings),
    Fresh,
    State(State),
    Call(u64),
    Run(u64),
    Open,
    Slot(u64),
    Sweep { estimate: f32, error: Option<f32>, step: f32, room: u32 },
    Complete(GivenCandidate),
}

/// A payload in the making.
#[derive(Default)]
struct Payload(Vec<u8>);

impl Payload {
    /// Adds a u32.
    fn word(&mut self, value: u32) {
        self.0.extend(value.to_le_bytes());
    }
    /// Adds a u64.
    fn long(&mut self, value: u64) {
        self.0.extend(value.to_le_bytes());
    }
    /// Adds an f32 as its bits.
    fn float(&mut self, value: f32) {
        self.word(value.to_bits());
    }
    /// Adds whether a value is present, and the value.
    fn option(&mut self, value: Option<f32>) {
        self.word(u32::from(value.is_some()));
        self.float(value.unwrap_or(0.0));
    }
}

/// The number of a status in a stream.
fn status_number(status: Status) -> u32 {
    match status {
        Status::TooFew => 0,
        Status::NoMatch => 1,
        Status::Timeout => 2,
    }
}

/// The payload of a table.
fn table_payload(out: &mut Payload, table: &Table) {
    out.word(table.slots as u32);
    out.word(table.words.len() as u32);
    out.word(table.packed.len() as u32);
    out.word(table.stars.len() as u32);
    table.words.iter().for_each(|word| out.long(*word));
    out.0.extend(&table.packed);
    out.0.resize(out.0.len().next_multiple_of(4), 0);
    table.stars.iter().for_each(|part| out.float(*part));
}

/// The payload of a frame.
fn frame_payload(out: &mut Payload, frame: &Frame) {
    out.word(frame.coords.len() as u32);
    out.word(frame.places.len() as u32);
    out.word(frame.triples.len() as u32);
    frame.coords.iter().for_each(|part| out.float(*part));
    frame.places.iter().for_each(|place| out.word(*place));
    frame.triples.iter().for_each(|part| out.float(*part));
}

/// The payload of settings.
fn settings_payload(out: &mut Payload, settings: &Settings) {
    out.word(settings.bins);
    out.word(settings.checking_stars);
    out.float(settings.table_error);
    out.float(settings.match_radius);
    out.option(settings.match_max_error);
    out.option(settings.fov_max_error_rad);
    out.word(u32::from(settings.cap.is_some()));
    out.long(settings.cap.unwrap_or(0));
    out.long(settings.pattern_count);
}

/// The payload of a state.
fn state_payload(out: &mut Payload, state: &State) {
    let nowhere = Position { pass: 0, four: [0; 4], key: 0, probe: 0 };
    let (phase, status, at) = match state.phase {
        Phase::Fresh => (0, 0, nowhere),
        Phase::Ended(status) => (1, status_number(status), nowhere),
        Phase::At(at) => (2, 0, at),
    };
    for word in [phase, status, at.pass, at.four[0], at.four[1], at.four[2], at.four[3], at.key, at.probe] {
        out.word(word);
    }
    out.long(state.patterns);
    out.long(state.reads);
}

/// The payload of a completing.
fn complete_payload(out: &mut Payload, given: &GivenCandidate) {
    out.word(given.pass);
    given.places.iter().for_each(|place| out.word(*place));
    given.stars.iter().for_each(|star| out.word(*star));
    out.float(given.field);
    out.word(u32::from(given.mark));
    out.float(given.scale);
}

/// Adds one record to a stream.
pub fn write(stream: &mut Vec<u8>, record: &Record) {
    let mut out = Payload::default();
    let kind = match record {
        Record::Table(table) => (table_payload(&mut out, table), 1).1,
        Record::Frame(frame) => (frame_payload(&mut out, frame), 2).1,
        Record::Settings(settings) => (settings_payload(&mut out, settings), 3).1,
        Record::Fresh => 4,
        Record::State(state) => (state_payload(&mut out, state), 5).1,
        Record::Call(allowance) => (out.long(*allowance), 6).1,
        Record::Run(allowance) => (out.long(*allowance), 7).1,
        Record::Open => 8,
        Record::Slot(slot) => (out.long(*slot), 9).1,
        Record::Sweep { estimate, error, step, room } => {
            out.float(*estimate);
            out.option(*error);
            out.float(*step);
            out.word(*room);
            10
        }
        Record::Complete(given) => (complete_payload(&mut out, given), 11).1,
    };
    stream.extend(u32::to_le_bytes(kind));
    stream.extend((out.0.len() as u32).to_le_bytes());
    stream.extend(out.0);
}

/// A reader of payload words; every read past the end is an error.
struct Words<'a>(&'a [u8]);

impl Words<'_> {
    /// So many bytes.
    fn bytes(&mut self, count: usize) -> Option<Vec<u8>> {
        let (first, rest) = self.0.split_at_checked(count)?;
        self.0 = rest;
        Some(first.to_vec())
    }
    /// A u32.
    fn word(&mut self) -> Option<u32> {
        let (first, rest) = self.0.split_first_chunk::<4>()?;
        self.0 = rest;
        Some(u32::from_le_bytes(*first))
    }
    /// A u64.
    fn long(&mut self) -> Option<u64> {
        Some(u64::from(self.word()?) | u64::from(self.word()?) << 32)
    }
    /// An f32 from its bits.
    fn float(&mut self) -> Option<f32> {
        self.word().map(f32::from_bits)
    }
    /// A value that may be absent.
    fn option(&mut self) -> Option<Option<f32>> {
        let (present, value) = (self.word()?, self.float()?);
        Some((present != 0).then_some(value))
    }
    /// Four u32.
    fn four(&mut self) -> Option<[u32; 4]> {
        Some([self.word()?, self.word()?, self.word()?, self.word()?])
    }
    /// So many f32.
    fn floats(&mut self, count: u32) -> Option<Vec<f32>> {
        (0..count).map(|_| self.float()).collect()
    }
}

/// Takes one record's payload apart; none where it is cut short or of an unknown kind.
fn read(kind: u32, payload: &[u8]) -> Option<Record> {
    let mut from = Words(payload);
    let record = match kind {
        1 => Record::Table(read_table(&mut from)?),
        2 => Record::Frame(read_frame(&mut from)?),
        3 => Record::Settings(read_settings(&mut from)?),
        4 => Record::Fresh,
        5 => Record::State(read_state(&mut from)?),
        6 => Record::Call(from.long()?),
        7 => Record::Run(from.long()?),
        8 => Record::Open,
        9 => Record::Slot(from.long()?),
        10 => Record::Sweep { estimate: from.float()?, error: from.option()?, step: from.float()?, room: from.word()? },
        11 => Record::Complete(GivenCandidate {
            pass: from.word()?,
            places: from.four()?,
            stars: from.four()?,
            field: from.float()?,
            mark: from.word()? != 0,
            scale: from.float()?,
        }),
        _ => return None,
    };
    Some(record)
}

/// Reads a table's payload.
fn read_table(from: &mut Words) -> Option<Table> {
    let [slots, words, bytes, floats] = from.four()?;
    let words = (0..words).map(|_| from.long()).collect::<Option<Vec<u64>>>()?;
    let mut packed = from.bytes(bytes.next_multiple_of(4) as usize)?;
    packed.truncate(bytes as usize);
    Some(Table { slots: u64::from(slots), words, packed, stars: from.floats(floats)? })
}

/// Reads a frame's payload.
fn read_frame(from: &mut Words) -> Option<Frame> {
    let [coords, places, triples] = [from.word()?, from.word()?, from.word()?];
    let coords = from.floats(coords)?;
    let places = (0..places).map(|_| from.word()).collect::<Option<Vec<u32>>>()?;
    Some(Frame { coords, places, triples: from.floats(triples)? })
}

/// Reads a settings' payload.
fn read_settings(from: &mut Words) -> Option<Settings> {
    let (bins, checking_stars) = (from.word()?, from.word()?);
    let (table_error, match_radius) = (from.float()?, from.float()?);
    let (match_max_error, fov_max_error_rad) = (from.option()?, from.option()?);
    let (present, cap) = (from.word()?, from.long()?);
    let cap = (present != 0).then_some(cap);
    Some(Settings { bins, checking_stars, table_error, match_radius, match_max_error, fov_max_error_rad, cap, pattern_count: from.long()? })
}

/// Reads a state's payload; none for a phase or status that the format doesn't name.
fn read_state(from: &mut Words) -> Option<State> {
    let (phase, status) = (from.word()?, from.word()?);
    let at = Position { pass: from.word()?, four: from.four()?, key: from.word()?, probe: from.word()? };
    let phase = match (phase, status) {
        (0, _) => Phase::Fresh,
        (1, 0) => Phase::Ended(Status::TooFew),
        (1, 1) => Phase::Ended(Status::NoMatch),
        (1, 2) => Phase::Ended(Status::Timeout),
        (2, _) => Phase::At(at),
        _ => return None,
    };
    Some(State { phase, patterns: from.long()?, reads: from.long()? })
}

/// What the records so far have set.
pub struct Inputs {
    pub lent: Lent,
    pub state: State,
}

impl Default for Inputs {
    /// Nothing lent, the state fresh.
    fn default() -> Self {
        Inputs { lent: Lent::default(), state: FRESH }
    }
}

impl Inputs {
    /// Takes one record and adds the lines it writes.
    pub fn take(&mut self, record: &Record, lines: &mut String) {
        match record {
            Record::Table(table) => self.lent.table = table.clone(),
            Record::Frame(frame) => self.lent.frame = frame.clone(),
            Record::Settings(settings) => self.lent.settings = *settings,
            Record::Fresh => self.state = FRESH,
            Record::State(state) => self.state = *state,
            Record::Call(allowance) => {
                self.call(*allowance, lines);
            }
            Record::Run(allowance) => while self.call(*allowance, lines) {},
            Record::Open => *lines += &open_line(open(&self.lent.table)),
            Record::Slot(slot) => *lines += &slot_line(slot_read(&self.lent.table, *slot)),
            Record::Sweep { estimate, error, step, room } => *lines += &sweep_line(sweep(*estimate, *error, *step, *room as usize)),
            Record::Complete(given) => *lines += &complete_line(complete(&self.lent.frame, &self.lent.table, given)),
        }
    }

    /// One call and its line; does the answer leave more to ask for?
    fn call(&mut self, allowance: u64, lines: &mut String) -> bool {
        let (answer, state) = call(&self.lent, self.state, allowance);
        self.state = state;
        *lines += &answer_line(&answer, state.patterns, state.reads);
        matches!(answer, Answer::Candidate(_) | Answer::Used)
    }
}

/// The line of a call's answer.
pub fn answer_line(answer: &Answer, patterns: u64, reads: u64) -> String {
    let start = match answer {
        Answer::Candidate(found) => {
            let [p, s] = [found.places, found.stars].map(|four| format!("{} {} {} {}", four[0], four[1], four[2], four[3]));
            let field = found.field.to_bits();
            format!("candidate {} {p} slot {} stars {s} field {field:08x} mark {}", found.pass, found.slot, u32::from(found.mark))
        }
        Answer::Used => String::from("used"),
        Answer::Ended(Status::TooFew) => String::from("ended toofew"),
        Answer::Ended(Status::NoMatch) => String::from("ended nomatch"),
        Answer::Ended(Status::Timeout) => String::from("ended timeout"),
        Answer::Refused(number) => format!("refused {number}"),
    };
    format!("{start} patterns {patterns} reads {reads}\n")
}

/// The line of an opening check; 0 where it passed.
pub fn open_line(number: u32) -> String {
    if number == 0 {
        String::from("open passed\n")
    } else {
        format!("refused {number}\n")
    }
}

/// The line of a slot read.
pub fn slot_line(answer: Result<Option<[u8; 22]>, u32>) -> String {
    match answer {
        Ok(None) => String::from("empty\n"),
        Ok(Some(bytes)) => format!("filled {}\n", bytes.map(|byte| format!("{byte:02x}")).concat()),
        Err(number) => format!("refused {number}\n"),
    }
}

/// The line of a sweep.
pub fn sweep_line(answer: Result<Vec<f32>, u32>) -> String {
    match answer {
        Ok(values) => {
            let words: Vec<String> = values.iter().map(|value| format!(" {:08x}", value.to_bits())).collect();
            format!("sweep {}{}\n", values.len(), words.concat())
        }
        Err(number) => format!("refused {number}\n"),
    }
}

/// The line of a completing.
pub fn complete_line(answer: Result<[[f32; 3]; 8], u32>) -> String {
    match answer {
        Ok(vectors) => {
            let words: Vec<String> = vectors.as_flattened().iter().map(|part| format!(" {:08x}", part.to_bits())).collect();
            format!("complete{}\n", words.concat())
        }
        Err(number) => format!("refused {number}\n"),
    }
}

/// The longest arrays that the program has room for: words, bytes, star floats, coordinates, places, triples.
const ROOM: [usize; 6] = [2_560, 1_500_000, 200_000, 640, 320, 900];

/// Has the program room for this record?
pub fn fits(record: &Record) -> bool {
    match record {
        Record::Table(t) => t.words.len() <= ROOM[0] && t.packed.len() <= ROOM[1] && t.stars.len() <= ROOM[2],
        Record::Frame(f) => f.coords.len() <= ROOM[3] && f.places.len() <= ROOM[4] && f.triples.len() <= ROOM[5],
        Record::Sweep { room, .. } => *room <= 1_024,
        _ => true,
    }
}

/// Splits the first record off a stream; none where it is cut short, unknown or beyond the room.
pub fn split(stream: &[u8]) -> Option<(Record, &[u8])> {
    let mut head = Words(stream);
    let (kind, length) = (head.word()?, head.word()?);
    let (payload, rest) = head.0.split_at_checked(length as usize)?;
    let record = read(kind, payload)?;
    fits(&record).then_some((record, rest))
}
