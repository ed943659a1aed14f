//! Tests over a table small enough to work out by hand.
//!
//! One bin and the widest tolerance give each combination six keys, with hashes 0 to 5. In two slots, the first filled and the second
//! empty, a key with an even hash reads both and one with an odd hash the second alone: 9 reads a combination, and the entry's mark 0 agrees with
//! the first key's only.

use crate::{sweep, version, Answer, Candidate, Completed, Frame, Pass, Refusal, Settings, Slot, State, Status, Table, VERSION};

const STARS: [[f32; 3]; 4] = [[0.0, 0.0, 1.0], [0.06, 0.0, 0.998], [0.0, 0.08, 0.997], [0.05, 0.07, 0.996]];
const WORDS: [u64; 8] = [0, 1, 0, 0, 0, 0, 0, 0];
const PACKED: [u8; 22] = [0, 0, 0, 0, 1, 0, 0, 0, 2, 0, 0, 0, 3, 0, 0, 0, 0, 0, 128, 63, 0, 0];
const SPOTS: [[f32; 2]; 5] = [[0.0, 0.0], [300.0, 0.0], [0.0, 400.0], [250.0, 350.0], [-100.0, 120.0]];
const PASS: Pass = Pass { field: 0.2, scale: 0.0002, cosine: 1.0 };
const FRAME: Frame = Frame { centroids: &SPOTS, order: &[4, 0, 1, 2, 3], passes: &[PASS] };
const SETTINGS: Settings =
    Settings { bins: 1, checking: 8, error: 1.0, radius: 0.01, matching: Some(1.25), fov: None, cap: None, patterns: 1 };

/// The small table.
fn table() -> Table<'static> {
    Table { slots: 2, words: &WORDS, packed: &PACKED, stars: &STARS }
}

/// Every answer of calls with one allowance, up to the end or a refusal.
fn run(frame: &Frame, settings: &Settings, allowance: u64) -> (Vec<Candidate>, Result<Status, Refusal>, State) {
    let (mut list, mut state) = (Vec::new(), State::fresh());
    loop {
        match table().search(frame, settings, &mut state, allowance) {
            Ok(Answer::Candidate(candidate)) => list.push(candidate),
            Ok(Answer::Used) => {}
            Ok(Answer::Ended(status)) => return (list, Ok(status), state),
            Err(refusal) => return (list, Err(refusal), state),
        }
    }
}

#[test]
fn the_archive_has_this_version() {
    assert_eq!(version(), VERSION);
}

#[test]
fn the_header_has_this_version() {
    let path = concat!(env!("CARGO_MANIFEST_DIR"), "/../../include/star_search.h");
    let header = std::fs::read_to_string(path).expect("the header beside this package");
    let mut numbers = header.lines().filter_map(|line| line.strip_prefix("#define STAR_SEARCH_VERSION "));
    assert_eq!((numbers.next(), numbers.next()), (Some(format!("{VERSION}u").as_str()), None));
}

#[test]
fn counts_by_hand() {
    let (list, status, state) = run(&FRAME, &SETTINGS, u64::MAX);
    assert_eq!((list.len(), status, state.patterns(), state.reads()), (5, Ok(Status::NoMatch), 5, 45));
    let places: Vec<[u32; 4]> = list.iter().map(|candidate| candidate.places).collect();
    assert_eq!(places, [[0, 1, 2, 3], [0, 1, 2, 4], [0, 1, 3, 4], [0, 2, 3, 4], [1, 2, 3, 4]]);
    assert!(list.iter().all(|candidate| (candidate.slot, candidate.pass, candidate.stars) == (0, 0, [0, 1, 2, 3])));
}

#[test]
fn divided_alike() {
    let whole = run(&FRAME, &SETTINGS, u64::MAX);
    for allowance in 1..50 {
        assert_eq!(run(&FRAME, &SETTINGS, allowance), whole);
    }
}

#[test]
fn statuses() {
    let three = Frame { order: &[0, 1, 2], ..FRAME };
    assert_eq!(run(&three, &SETTINGS, 9).1, Ok(Status::TooFew));
    let capped = Settings { cap: Some(2), ..SETTINGS };
    let (list, status, state) = run(&FRAME, &capped, 9);
    assert_eq!((list.len(), status, state.patterns(), state.reads()), (2, Ok(Status::Timeout), 2, 18));
    let none = Settings { patterns: 0, ..SETTINGS };
    assert_eq!(run(&FRAME, &none, 9).1, Ok(Status::NoMatch));
}

#[test]
fn options_are_distinguished() {
    // without the host's tolerance e is 1, and the keys are the same six; with a field error of 0 the stored edge decides
    let absent = Settings { matching: None, ..SETTINGS };
    assert_eq!(run(&FRAME, &absent, u64::MAX).2.reads(), 45);
    let strict = Settings { fov: Some(0.0), ..SETTINGS };
    assert_eq!(run(&FRAME, &strict, u64::MAX).0.len(), 0);
    let negative = Settings { matching: Some(-1.0), ..SETTINGS };
    assert_eq!(run(&FRAME, &negative, u64::MAX).2.reads(), 45);
}

#[test]
fn a_list_within_an_allowance() {
    let open = table().open().expect("a valid table");
    let whole = run(&FRAME, &SETTINGS, u64::MAX).0;
    let mut state = State::fresh();
    let mut list = open.candidates(&FRAME, &SETTINGS, &mut state, 20);
    let first: Vec<_> = list.by_ref().collect::<Result<_, _>>().expect("no refusal");
    assert_eq!((list.ended(), list.left(), list.next()), (None, 0, None));
    assert_eq!((&first[..], state.reads()), (&whole[..3], 20));
    let mut list = open.candidates(&FRAME, &SETTINGS, &mut state, 1_000);
    let rest: Vec<_> = list.by_ref().collect::<Result<_, _>>().expect("no refusal");
    assert_eq!((list.ended(), list.left()), (Some(Status::NoMatch), 1_000 - 25));
    assert_eq!(&rest[..], &whole[3..]);
}

#[test]
fn a_refusal_in_a_list_is_an_item() {
    let short = Table { packed: &PACKED[..21], ..table() };
    let mut state = State::fresh();
    let mut list = short.candidates(&FRAME, &SETTINGS, &mut state, 5);
    assert_eq!((list.next(), list.next(), list.ended()), (Some(Err(Refusal::Entry)), None, None));
    assert_eq!(state, State::fresh());
}

/// The refusal of a fresh search.
fn refused(frame: &Frame, settings: &Settings, table: &Table) -> Refusal {
    let mut state = State::fresh();
    let reply = table.search(frame, settings, &mut state, 3).expect_err("a refusal");
    assert_eq!(state, State::fresh(), "a refused call leaves the state");
    reply
}

#[test]
fn refusals_of_a_search() {
    let valid = table();
    let many = [[1.0, 2.0]; 257];
    assert_eq!(refused(&Frame { centroids: &many, ..FRAME }, &SETTINGS, &valid), Refusal::Centroids);
    assert_eq!(refused(&Frame { centroids: &[[f32::NAN, 0.0]], ..FRAME }, &SETTINGS, &valid), Refusal::Coordinates);
    assert_eq!(refused(&Frame { order: &[0, 1, 0], ..FRAME }, &SETTINGS, &valid), Refusal::Order);
    assert_eq!(refused(&FRAME, &Settings { checking: 65, ..SETTINGS }, &valid), Refusal::Settings);
    assert_eq!(refused(&FRAME, &Settings { fov: Some(f32::INFINITY), ..SETTINGS }, &valid), Refusal::Settings);
    assert_eq!(refused(&Frame { passes: &[], ..FRAME }, &SETTINGS, &valid), Refusal::Passes);
    assert_eq!(refused(&FRAME, &SETTINGS, &Table { slots: 449, ..valid }), Refusal::Words);
    let stars = vec![[0.0; 3]; (1 << 20) + 1];
    assert_eq!(refused(&FRAME, &SETTINGS, &Table { stars: &stars, ..valid }), Refusal::Stars);
    assert_eq!(refused(&FRAME, &SETTINGS, &Table { stars: &STARS[..3], ..valid }), Refusal::Entry);
    assert_eq!(Refusal::Entry.number(), 9);
    assert!(Refusal::Entry.to_string().starts_with("refused by question 9: does the entry lie"));
}

#[test]
fn opening() {
    assert!(table().open().is_ok());
    let refusal = |table: Table| table.open().expect_err("a refusal");
    assert_eq!(refusal(Table { words: &WORDS[..7], ..table() }), Refusal::Words);
    assert_eq!(refusal(Table { packed: &PACKED[..21], ..table() }), Refusal::Blocks);
    assert_eq!(refusal(Table { stars: &STARS[..3], ..table() }), Refusal::Entry);
    let nothing = Table { slots: 0, words: &[], packed: &[], stars: &[] };
    assert!(nothing.open().is_ok());
}

#[test]
fn nothing_lent() {
    let empty = Frame { centroids: &[], order: &[], passes: &[] };
    let nothing = Table { slots: 0, words: &[], packed: &[], stars: &[] };
    assert_eq!(refused(&empty, &SETTINGS, &nothing), Refusal::Passes);
    assert_eq!(sweep(1.0, None, 0.5, &mut []), Err(Refusal::Room));
    assert_eq!(nothing.slot(0), Err(Refusal::Slot));
    assert!(nothing.entry(0).is_empty());
}

#[test]
fn slots() {
    let table = table();
    assert_eq!([table.slot(0), table.slot(1), table.slot(2)], [Ok(Slot::Filled), Ok(Slot::Empty), Err(Refusal::Slot)]);
    assert!(std::ptr::eq(table.entry(0), &PACKED[..]), "the section's own bytes, not a copy");
    assert!(table.entry(1).is_empty() && table.entry(2).is_empty());
    assert_eq!(Table { packed: &PACKED[..21], ..table }.slot(0), Err(Refusal::Entry));
}

#[test]
fn stored_states_go_on() {
    let whole = run(&FRAME, &SETTINGS, u64::MAX);
    let (mut list, mut state) = (Vec::new(), State::fresh());
    let status = loop {
        let stored = state.to_bytes();
        state = State::from_bytes(&stored);
        assert_eq!(state.to_bytes(), stored);
        match table().search(&FRAME, &SETTINGS, &mut state, 2) {
            Ok(Answer::Candidate(candidate)) => list.push(candidate),
            Ok(Answer::Used) => {}
            reply => break reply,
        }
    };
    assert_eq!((list, status), (whole.0, Ok(Answer::Ended(Status::NoMatch))));
    assert_eq!(state, whole.2);
}

#[test]
fn spoilt_states_are_refused() {
    for at in [0, 4, 8, 12, 28, 32, 40, 48] {
        let mut state = State::fresh();
        table().search(&FRAME, &SETTINGS, &mut state, 3).expect("a candidate");
        let mut bytes = state.to_bytes();
        bytes[at..at + 4].fill(0xFF);
        bytes[at + 4..at + 8].fill(0xFF);
        let mut spoilt = State::from_bytes(&bytes);
        assert_eq!(table().search(&FRAME, &SETTINGS, &mut spoilt, 3), Err(Refusal::State), "bytes from {at}");
        assert_eq!(spoilt.to_bytes(), bytes, "a refused state comes back as it was");
    }
}

#[test]
fn allowance_zero_changes_nothing() {
    let mut bytes = [0; State::BYTES];
    bytes[4..40].fill(0x5A); // a fresh state uses none of these
    let mut state = State::from_bytes(&bytes);
    assert_eq!(table().search(&FRAME, &SETTINGS, &mut state, 0), Ok(Answer::Used));
    assert_eq!(state.to_bytes(), bytes, "as received");
    let (three, mut ended) = (Frame { order: &[0, 1, 2], ..FRAME }, state.clone());
    assert_eq!(table().search(&three, &SETTINGS, &mut ended, 0), Ok(Answer::Ended(Status::TooFew)), "no read is left");
    assert_eq!(ended.to_bytes()[8..], [0; 48], "an ended state is made anew");
    let mut plain = State::fresh();
    let reply = table().search(&FRAME, &SETTINGS, &mut plain, 1);
    assert_eq!((table().search(&FRAME, &SETTINGS, &mut state, 1), state), (reply, plain), "so is one after a read");
}

#[test]
fn completing() {
    let found = run(&FRAME, &SETTINGS, u64::MAX).0[4];
    assert!(found.rebuild);
    let reply = table().complete(&FRAME, &found, 0.0002).expect("completed");
    assert_eq!(reply.stars, STARS);
    let unit = |v: &[f32; 3]| (v.iter().map(|part| part * part).sum::<f32>() - 1.0).abs() < 1e-6;
    assert!(reply.image.iter().all(unit));
    let other = table().complete(&FRAME, &found, 0.0004).expect("completed");
    assert_ne!(other.image, reply.image, "the scale given counts where the mark is set");
    let plain = Candidate { rebuild: false, ..found };
    let by_pass: Completed = table().complete(&FRAME, &plain, 0.0004).expect("completed");
    assert_eq!(by_pass.image, reply.image, "and the pass's own where it isn't");
    let refusal = |candidate: Candidate, scale: f32| table().complete(&FRAME, &candidate, scale).expect_err("a refusal");
    assert_eq!(refusal(found, 0.0), Refusal::Candidate);
    assert_eq!(refusal(Candidate { pass: 1, ..found }, 0.1), Refusal::Candidate);
    assert_eq!(refusal(Candidate { places: [0, 1, 2, 5], ..found }, 0.1), Refusal::Candidate);
    assert_eq!(refusal(Candidate { stars: [0, 1, 2, 4], ..found }, 0.1), Refusal::Entry);
}

#[test]
fn sweeps() {
    let mut out = [9.0; 4];
    assert_eq!(sweep(0.25, Some(0.25), 0.25, &mut out).expect("a sweep"), [0.25, 0.5]);
    assert_eq!(out, [0.25, 0.5, 9.0, 9.0], "nothing after the values");
    assert_eq!(sweep(1.0, Some(0.5), 0.25, &mut out), Err(Refusal::Room));
    assert_eq!(sweep(f32::NAN, None, 0.25, &mut out), Err(Refusal::Sweep));
    assert_eq!(out, [0.25, 0.5, 9.0, 9.0], "a refused sweep writes nothing");
    assert_eq!(sweep(1.0, None, 0.25, &mut out).expect("a sweep"), [1.0]);
}

#[test]
fn shared_by_threads() {
    let whole = run(&FRAME, &SETTINGS, u64::MAX);
    std::thread::scope(|scope| {
        let jobs: Vec<_> = (1..5).map(|allowance| scope.spawn(move || run(&FRAME, &SETTINGS, allowance))).collect();
        jobs.into_iter().for_each(|job| assert_eq!(job.join().expect("no panic"), whole));
    });
}
