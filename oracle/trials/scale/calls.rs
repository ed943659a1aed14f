//! The port's calls beside the oracle's record: in one go, divided with refused calls between, and as the binding's list.

use cases::compare::allowance;
use cases::oracle::{self, Case, Machine, Taken};
use cases::rng::Rng;
use lend::{candidate, ended, said, state, Lending};
use model::search::{self, Answer, Lent};
use star_search::{Frame, Refusal, Settings, State, Table};

/// How much was compared.
#[derive(Clone, Copy, Default)]
pub struct Tally {
    pub calls: u64,
    pub refused: u64,
    pub reads: u64,
    pub candidates: u64,
    pub states: u64,
}

impl Tally {
    /// Adds another's numbers.
    pub fn add(&mut self, more: &Tally) {
        self.calls += more.calls;
        self.refused += more.refused;
        self.reads += more.reads;
        self.candidates += more.candidates;
        self.states += more.states;
    }
}

/// How an answer and a state of the port differ from those of document 01's machine of calls.
fn answer_differs(machine: &Machine, wanted: Answer, reply: Answer, state: &State) -> Option<String> {
    let counts = (machine.taken.patterns(machine.n), machine.n);
    let same = wanted == reply && counts == (state.patterns(), state.reads());
    (!same).then(|| format!("oracle {wanted:?} {counts:?}, port {reply:?} {state:?}"))
}

/// The whole run with the highest allowance, then two calls after its end.
pub fn whole_differs(case: &Case, taken: &Taken, tally: &mut Tally) -> Option<String> {
    let lending = Lending::new(&case.lent);
    let (table, frame, settings) = (lending.table(), lending.frame(), lending.settings());
    let (mut machine, mut state) = (Machine { taken, n: 0 }, State::fresh());
    loop {
        let reply = said(table.search(&frame, &settings, &mut state, u64::MAX));
        let wanted = machine.answer(u64::MAX);
        tally.calls += 1;
        tally.candidates += u64::from(matches!(reply, Answer::Candidate(_)));
        if let Some(text) = answer_differs(&machine, wanted, reply, &state) {
            return Some(text);
        }
        if let Answer::Ended(_) = reply {
            break;
        }
    }
    tally.reads += state.reads();
    let last = state.clone();
    for more in [0, 1] {
        let reply = said(table.search(&frame, &settings, &mut state, more));
        let text = answer_differs(&machine, Answer::Ended(taken.status), reply, &state);
        if text.is_some() || state != last {
            return Some(format!("after the end: {text:?} {state:?}"));
        }
    }
    None
}

/// Random allowances from the start to the end at most 60 times, refused calls between them; the model says each state.
pub fn divided_differs(case: &Case, taken: &Taken, seed: u64, tally: &mut Tally) -> Option<String> {
    let lending = Lending::new(&case.lent);
    let (table, frame, settings) = (lending.table(), lending.frame(), lending.settings());
    let (mut machine, mut here, mut beside) = (Machine { taken, n: 0 }, State::fresh(), search::FRESH);
    let mut rng = Rng::new(seed ^ 0x5CA1E);
    for _ in 0..60 {
        let allowance = allowance(&mut rng, taken.record.reads);
        if rng.once_in(3) {
            tally.refused += 1;
            let text = refused_differs(&table, &frame, &settings, &here, rng.between(1, 8), allowance);
            if text.is_some() {
                return text;
            }
        }
        if rng.once_in(6) && case.lent.table.slots < 10_000 {
            tally.refused += 1;
            let text = invalid_differs(&case.lent, beside, allowance);
            if text.is_some() {
                return text;
            }
        }
        let reply = said(table.search(&frame, &settings, &mut here, allowance));
        let wanted = machine.answer(allowance);
        let (answer, after) = search::call(&case.lent, beside, allowance);
        beside = after;
        (tally.calls, tally.states) = (tally.calls + 1, tally.states + 1);
        let text = answer_differs(&machine, wanted, reply, &here);
        if text.is_some() || answer != reply || state(&beside) != here {
            return Some(format!("allowance {allowance}: {text:?}, model {answer:?} {beside:?}, port {reply:?} {here:?}"));
        }
        if let Answer::Ended(_) = reply {
            break;
        }
    }
    None
}

/// A call lent something that one of the questions 1 to 8 refuses: the number, and the state as received.
fn refused_differs(table: &Table, frame: &Frame, settings: &Settings, state: &State, number: u64, allowance: u64) -> Option<String> {
    static STARS: std::sync::LazyLock<Vec<[f32; 3]>> = std::sync::LazyLock::new(|| vec![[0.0; 3]; (1 << 20) + 1]);
    let (mut table, mut frame, mut settings, mut bytes) = (*table, *frame, *settings, state.to_bytes());
    match number {
        1 => frame.centroids = &[[0.0; 2]; 257],
        2 => frame.centroids = &[[0.0, f32::NAN]],
        3 => frame.order = &[0, 0],
        4 => settings.checking = 65,
        5 => frame.passes = &[],
        6 => table.slots += 448,
        7 => table.stars = &STARS,
        _ => bytes[40..48].fill(0xFF),
    }
    let mut given = State::from_bytes(&bytes);
    let reply = table.search(&frame, &settings, &mut given, allowance);
    let same = reply.map_err(Refusal::number) == Err(number as u32) && given.to_bytes() == bytes;
    (!same).then(|| format!("refused by {number}: {reply:?} {given:?}"))
}

/// A call on the table without its stars, which question 9 refuses at the first filled slot; the model says whether there is one.
fn invalid_differs(lent: &Lent, from: search::State, allowance: u64) -> Option<String> {
    let mut bare = lent.clone();
    bare.table.stars.clear();
    let lending = Lending::new(&bare);
    let mut here = state(&from);
    let reply = said(lending.table().search(&lending.frame(), &lending.settings(), &mut here, allowance));
    let (answer, after) = search::call(&bare, from, allowance);
    let same = reply == answer && here == state(&after);
    (!same).then(|| format!("without stars: model {answer:?} {after:?}, port {reply:?} {here:?}"))
}

/// The binding's lists of candidates, a share of the reads each, joined.
pub fn listed_differs(case: &Case, taken: &Taken, seed: u64, tally: &mut Tally) -> Option<String> {
    let lending = Lending::new(&case.lent);
    let (table, frame, settings) = (lending.table(), lending.frame(), lending.settings());
    let share = taken.record.reads / Rng::new(seed).between(1, 9) + 1;
    let mut found = taken.record.candidates.iter();
    let mut here = State::fresh();
    loop {
        let mut list = table.candidates(&frame, &settings, &mut here, share);
        for reply in &mut list {
            tally.calls += 1;
            let wanted = found.next().map(oracle::candidate);
            let reply = reply.map(candidate);
            if reply.ok() != wanted || wanted.is_none() {
                return Some(format!("lists of {share} reads: oracle {wanted:?}, port {reply:?}"));
            }
        }
        let (status, left) = (list.ended().map(ended), list.left());
        if status.is_none() && left != 0 {
            return Some(format!("a list of {share} reads stops with {left} left"));
        }
        if status.is_some() {
            let same = status == Some(taken.status) && found.next().is_none() && here.reads() == taken.record.reads;
            return (!same).then(|| format!("lists of {share} reads: end {status:?} {here:?}"));
        }
    }
}
