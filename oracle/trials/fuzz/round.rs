//! The calls on one lending, and what is asked of every answer.

use std::collections::BTreeSet;
use std::fmt;

use cases::rng::Rng;

use crate::guard::Arena;
use crate::hostile::{self, Lending};
use crate::judge::{made_by_a_call, swept, Judge};
use crate::raw::{self, Answer, Candidate, Completed, State};

/// Where each slice is lent from; the room is what the questions let through, and some more.
pub struct Arenas {
    coords: Arena<f32>,
    order: Arena<u32>,
    passes: Arena<f32>,
    words: Arena<u64>,
    packed: Arena<u8>,
    stars: Arena<f32>,
    fields: Arena<f32>,
}

impl Arenas {
    /// All of them, beside forbidden pages or on the heap.
    pub fn new(pages: bool) -> Arenas {
        Arenas {
            coords: Arena::new(1024, pages, false),
            order: Arena::new(1024, pages, false),
            passes: Arena::new(1024, pages, false),
            words: Arena::new(300_000, pages, false),
            packed: Arena::new(4_000_000, pages, false),
            stars: Arena::new((3 << 20) + 64, pages, false),
            fields: Arena::new(1024, pages, true),
        }
    }
}

/// How many calls of each function were made, by answer; how many the model answered too; how many were wrong.
#[derive(Default)]
pub struct Tally {
    search: [u64; 4],
    refused: [u64; 15],
    open: [u64; 2],
    slot: [u64; 3],
    sweep: [u64; 2],
    complete: [u64; 2],
    judged: u64,
    /// The lengths that were lent: centroids, brightness list, passes, words, section, stars, fields of a sweep.
    lengths: [BTreeSet<usize>; 7],
    pub wrong: u64,
}

impl Tally {
    /// All calls; a slot read is two, star_slot and star_entry.
    pub fn calls(&self) -> u64 {
        let sum = |list: &[u64]| list.iter().sum::<u64>();
        sum(&self.search) + sum(&self.open) + 2 * sum(&self.slot) + sum(&self.sweep) + sum(&self.complete)
    }
}

impl fmt::Display for Tally {
    fn fmt(&self, f: &mut fmt::Formatter) -> fmt::Result {
        writeln!(f, "{} calls, of which {} answered by the model too, {} wrong", self.calls(), self.judged, self.wrong)?;
        writeln!(f, "  star_search: candidate, used, ended, refused {:?}; refused by 0 to 14 {:?}", self.search, self.refused)?;
        writeln!(f, "  star_open: passed, refused {:?}", self.open)?;
        writeln!(f, "  star_slot and star_entry: filled, empty, refused {:?}", self.slot)?;
        writeln!(f, "  star_sweep: done, refused {:?}", self.sweep)?;
        writeln!(f, "  star_complete: done, refused {:?}", self.complete)?;
        write!(f, "  different lengths of centroids, order, passes, words, packed, stars, out:")?;
        self.lengths.iter().try_for_each(|seen| write!(f, " {} up to {}", seen.len(), seen.last().unwrap_or(&0)))
    }
}

/// The last slot with an occupancy bit, whose entry ends the section of a valid table.
fn last_filled(words: &[u64]) -> u64 {
    let bits = words.iter().enumerate().filter(|(at, word)| at % 8 != 0 && **word != 0);
    bits.last().map_or(0, |(at, word)| at as u64 / 8 * 448 + (at as u64 % 8 - 1) * 64 + u64::from(word.ilog2()))
}

/// One lending in work.
pub struct Round<'a> {
    pub lending: &'a Lending,
    pub rng: Rng,
    pub tally: &'a mut Tally,
    pub number: u64,
}

impl Round<'_> {
    /// Counts and says what is wrong.
    fn check(&mut self, good: bool, text: impl FnOnce() -> String) {
        if !good {
            self.tally.wrong += 1;
            println!("lending {}: {}", self.number, text());
        }
    }

    /// Lends everything and makes its calls.
    pub fn run(mut self, arenas: &mut Arenas) {
        let lending = self.lending;
        let (words, packed, stars) = (lending.words.len(), lending.packed.len(), lending.stars.len());
        let lengths = [lending.coords.len(), lending.order.len(), lending.passes.len(), words, packed, stars];
        for (seen, length) in self.tally.lengths.iter_mut().zip(lengths) {
            seen.insert(length);
        }
        let ends: [bool; 7] = std::array::from_fn(|_| self.rng.once_in(2));
        let frame = raw::Frame {
            centroids: arenas.coords.lend(&lending.coords, ends[0]),
            order: arenas.order.lend(&lending.order, ends[1]),
            passes: arenas.passes.lend(&lending.passes, ends[2]),
        };
        let table = raw::Table {
            slots: lending.slots,
            words: arenas.words.lend(&lending.words, ends[3]),
            packed: arenas.packed.lend(&lending.packed, ends[4]),
            stars: arenas.stars.lend(&lending.stars, ends[5]),
        };
        let judge = (self.rng.once_in(6) && lending.words.len() < 500).then(|| Judge::new(lending));
        self.open(table, judge.as_ref());
        let found = self.searches(frame, table, judge.as_ref());
        (0..3).for_each(|_| self.slot(table, judge.as_ref()));
        (0..2).for_each(|_| self.complete(frame, table, &found, judge.as_ref()));
        (0..3).for_each(|_| self.sweep(&mut arenas.fields, ends[6]));
    }

    /// The opening check.
    fn open(&mut self, table: raw::Table, judge: Option<&Judge>) {
        let number = raw::open(table);
        self.tally.open[usize::from(number != 0)] += 1;
        self.check([0, 6, 7, 9, 10].contains(&number), || format!("open {number}"));
        if let Some(judge) = judge {
            self.tally.judged += 1;
            let wanted = judge.open();
            self.check(number == wanted, || format!("open {number}, model {wanted}"));
        }
    }

    /// Search calls from hostile states, some of them handed on; the last candidate.
    fn searches(&mut self, frame: raw::Frame, table: raw::Table, judge: Option<&Judge>) -> Candidate {
        let (mut last, mut found) = (State::default(), Candidate::default());
        for _ in 0..self.rng.between(6, 18) {
            let state = hostile::state(&mut self.rng, &last);
            let allowance = self.rng.pick(&[0, 1, 2, 7, 60, 60, 400, 3_000]);
            let reply = raw::search(frame, self.lending.settings, table, state, allowance);
            self.answer(&reply, &state, allowance, frame, table);
            if let Some(judge) = judge {
                self.tally.judged += 1;
                let wanted = judge.search(&state, allowance);
                self.check(reply == wanted, || format!("state {state:?}, allowance {allowance}: {reply:?}, model {wanted:?}"));
            }
            if reply.answer == 0 {
                found = reply.candidate;
            }
            last = reply.state;
        }
        found
    }

    /// What every answer of a search call keeps to.
    fn answer(&mut self, reply: &Answer, state: &State, allowance: u64, frame: raw::Frame, table: raw::Table) {
        let Answer { answer, number, candidate, state: after } = *reply;
        self.tally.search[answer.min(3) as usize] += 1;
        let reads = after.reads.wrapping_sub(state.reads);
        let plain = candidate == Candidate::default();
        let made = made_by_a_call(&after) && reads <= allowance;
        let good = match answer {
            0 => number == 0 && made && self.candidate(&candidate, frame, table) && reads > 0,
            1 if allowance == 0 => number == 0 && plain && after == *state && after.phase < 2,
            1 => number == 0 && made && plain && reads == allowance && after.phase == 1,
            2 => number < 3 && made && plain && after.phase == 2 && after.status == number,
            3 => {
                self.tally.refused[number.min(14) as usize] += 1;
                (1..=9).contains(&number) && plain && after == *state
            }
            _ => false,
        };
        self.check(good, || format!("state {state:?}, allowance {allowance}: {reply:?}"));
    }

    /// Does a candidate name what was lent?
    fn candidate(&self, found: &Candidate, frame: raw::Frame, table: raw::Table) -> bool {
        let [a, b, c, d] = found.place;
        let places = a < b && b < c && c < d && (d as usize) < frame.order.len();
        let stars = found.star.iter().all(|star| (*star as usize) < table.stars.len() / 3);
        let field = found.field > 0.0 && found.field < std::f32::consts::PI;
        let pass = (found.pass as usize) < frame.passes.len() / 3;
        places && stars && field && pass && found.slot < table.slots && found.rebuild < 2 && found.reserved == 0
    }

    /// A slot read: what the slot holds, and its part of the section.
    fn slot(&mut self, table: raw::Table, judge: Option<&Judge>) {
        let any = hostile::whole(&mut self.rng);
        let slot = match self.rng.below(4) {
            0 => any,
            1 => last_filled(table.words).min(table.slots),
            _ => self.rng.below(table.slots.max(1)),
        };
        let (held, part) = (raw::slot(table, slot), raw::entry(table, slot));
        self.tally.slot[held.answer.min(2) as usize] += 1;
        let inside = part.offset.checked_add(part.length).is_some_and(|end| end <= table.packed.len() as u64);
        let good = match held.answer {
            0 => held.number == 0 && part.length == 22,
            1 => held.number == 0 && (part.offset, part.length) == (0, 0),
            _ => [6, 9, 11].contains(&held.number) && (part.offset, part.length) == (0, 0),
        };
        self.check(good && inside, || format!("slot {slot}: {held:?} {part:?}"));
        if let (Some(judge), true) = (judge, inside) {
            self.tally.judged += 2;
            let (wanted, bytes) = judge.slot(slot);
            let ours = &table.packed[part.offset as usize..(part.offset + part.length) as usize];
            self.check(held == wanted && ours == bytes, || format!("slot {slot}: {held:?} {ours:?}, model {wanted:?} {bytes:?}"));
        }
    }

    /// Completing a candidate.
    fn complete(&mut self, frame: raw::Frame, table: raw::Table, found: &Candidate, judge: Option<&Judge>) {
        let candidate = hostile::candidate(&mut self.rng, found);
        let scale = if self.rng.once_in(2) { 0.001 } else { hostile::float(&mut self.rng) };
        let reply = raw::complete(frame, table.stars, candidate, scale);
        self.tally.complete[reply.answer.min(1) as usize] += 1;
        let nothing = Completed { answer: 1, number: reply.number, ..Completed::default() };
        let good = match reply.answer {
            0 => reply.number == 0 && reply.image.as_flattened().iter().all(|part| part.abs() <= 1.000_001),
            _ => [1, 2, 3, 5, 7, 9, 14].contains(&reply.number) && reply == nothing,
        };
        self.check(good, || format!("completing {candidate:?} {scale}: {reply:?}"));
        if let Some(judge) = judge {
            self.tally.judged += 1;
            let wanted = judge.complete(&candidate, scale);
            let bits = |reply: &Completed| [reply.image, reply.star].map(|four| four.map(|v| v.map(f32::to_bits)));
            let same = (reply.answer, reply.number, bits(&reply)) == (wanted.answer, wanted.number, bits(&wanted));
            self.check(same, || format!("completing {candidate:?} {scale}: {reply:?}, model {wanted:?}"));
        }
    }

    /// A sweep into a slice of any length: its values as the model has them, nothing after them, nothing where refused.
    fn sweep(&mut self, fields: &mut Arena<f32>, high: bool) {
        let rng = &mut self.rng;
        let plain = rng.once_in(2);
        let mut value = |low: f64, most: f64| if plain || rng.once_in(2) { rng.range(low, most) as f32 } else { hostile::float(rng) };
        let (estimate, error, step) = (value(0.0, 3.2), value(-0.1, 2.0), value(0.0, 0.2));
        let given = self.rng.pick(&[0, 1, 1, 1, 2, u32::MAX]);
        let room = self.rng.below(1025) as usize;
        let before = vec![9.0; if self.rng.once_in(3) { room % 9 } else { room }];
        self.tally.lengths[6].insert(before.len());
        let out = fields.lend_to_write(&before, high);
        let reply = raw::sweep(estimate, given, error, step, out);
        self.tally.sweep[reply.answer.min(1) as usize] += 1;
        self.tally.judged += 1;
        let wanted = swept(estimate, given, error, step, before.len());
        let (ours, values) = match &wanted {
            Ok(values) => (raw::Swept { answer: 0, number: 0, count: values.len() as u64 }, values.as_slice()),
            Err(number) => (raw::Swept { answer: 1, number: *number, count: 0 }, [].as_slice()),
        };
        let good = reply == ours && out.starts_with(values) && out[values.len()..].iter().all(|value| *value == 9.0);
        let text = || format!("sweep {estimate} {given} {error} {step} into {}: {reply:?} {out:?}, model {wanted:?}", before.len());
        let text = (!good).then(text);
        self.check(good, || text.unwrap_or_default());
    }
}
