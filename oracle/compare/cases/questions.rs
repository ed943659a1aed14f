//! Each question's last passing and first failing value, by the model.

use model::frame::{Frame, Settings};
use model::replay::Record;
use model::search::{Lent, Phase, Position, State, Status};

use crate::given::largest_error;
use crate::rng::{down, up};
use crate::sheet::Sheet;

/// The f32 nearest pi.
const PI: f32 = std::f32::consts::PI;

/// One changed value: its name and the change.
type Change = (&'static str, Box<dyn Fn(&mut Lent)>);

/// A change of the frame.
fn frame(name: &'static str, change: impl Fn(&mut Frame) + 'static) -> Change {
    (name, Box::new(move |lent| change(&mut lent.frame)))
}

/// A change of the settings.
fn settings(name: &'static str, change: impl Fn(&mut Settings) + 'static) -> Change {
    (name, Box::new(move |lent| change(&mut lent.settings)))
}

/// Questions 1 to 3.
fn centroids() -> Vec<Change> {
    let mut list = Vec::new();
    for length in [1usize, 7, 511, 512, 513, 514, 516, 639, 640] {
        list.push(frame("length of the centroid slice", move |f| f.coords.resize(length, 3.0)));
    }
    for value in [32_768.0, -32_768.0, up(32_768.0), -up(32_768.0), f32::NAN, f32::INFINITY, f32::NEG_INFINITY, f32::MAX, -0.0, 1e-45] {
        list.push(frame("a coordinate", move |f| f.coords[0] = value));
        list.push(frame("the last coordinate", move |f| *f.coords.last_mut().expect("coordinates") = value));
    }
    for over in [0u32, 1, u32::MAX / 2] {
        list.push(frame("an index at the count or beyond", move |f| f.places[2] = (f.coords.len() / 2) as u32 + over));
    }
    list.push(frame("the last index that exists", |f| f.places = vec![f.coords.len() as u32 / 2 - 1]));
    list.push(frame("an index twice", |f| f.places[1] = f.places[0]));
    list.push(frame("the last index twice", |f| f.places.push(f.places[0])));
    list.push(frame("an index of all ones", |f| f.places[0] = u32::MAX));
    list.push(frame("no places", |f| f.places.clear()));
    list.push(frame("no centroids but places", |f| f.coords.clear()));
    list.push(frame("nothing but passes", |f| {
        f.coords.clear();
        f.places.clear();
    }));
    list
}

/// Question 4, apart from the product.
fn plain_settings() -> Vec<Change> {
    let mut list = Vec::new();
    for bins in [0, 1, 2, 4_095, 4_096, 4_097, u32::MAX] {
        list.push(settings("bins", move |s| {
            s.bins = bins;
            (s.table_error, s.match_max_error) = (0.0001, None);
        }));
    }
    for stars in [0, 3, 4, 63, 64, 65, u32::MAX] {
        list.push(settings("checking stars", move |s| s.checking_stars = stars));
    }
    for error in [0.0, -0.0, -1e-45, 1e-45, 1.0, up(1.0), 2.0, f32::NAN, f32::INFINITY, f32::NEG_INFINITY] {
        list.push(settings("table error", move |s| (s.bins, s.table_error, s.match_max_error) = (1, error, None)));
    }
    for radius in [0.0, -0.0, -1e-45, f32::MAX, f32::INFINITY, f32::NAN, f32::NEG_INFINITY] {
        list.push(settings("match radius", move |s| s.match_radius = radius));
    }
    for value in [f32::NAN, f32::INFINITY, f32::NEG_INFINITY, f32::MAX, f32::MIN, -0.0] {
        list.push(settings("user's error", move |s| s.match_max_error = Some(value)));
        list.push(settings("field error", move |s| s.fov_max_error_rad = Some(value)));
    }
    list.push(settings("pattern count 0", |s| s.pattern_count = 0));
    list.push(settings("pattern count at its highest", |s| s.pattern_count = u64::MAX));
    list
}

/// Question 4's product of tolerance and bins, for many bins.
fn products() -> Vec<Change> {
    let mut list = Vec::new();
    for bins in [1u32, 2, 3, 5, 7, 10, 25, 49, 50, 250, 1000, 3001, 4096] {
        let most = largest_error(bins);
        for error in [most, up(most)] {
            list.push(settings("user's error times bins", move |s| {
                (s.bins, s.table_error, s.match_max_error) = (bins, 0.0, Some(error));
            }));
            list.push(settings("table's error times bins", move |s| {
                (s.bins, s.table_error, s.match_max_error) = (bins, error, None);
            }));
        }
        list.push(settings("a user's error above every ceiling", move |s| {
            (s.bins, s.table_error, s.match_max_error) = (bins, 0.0, Some(100.0));
        }));
    }
    list
}

/// Question 5.
fn triples() -> Vec<Change> {
    let mut list = Vec::new();
    for length in [0usize, 1, 2, 3, 4, 5, 6, 765, 767, 768, 769, 770, 771, 900] {
        list.push(frame("length of the pass slice", move |f| {
            let three = [f.triples[0], f.triples[1], f.triples[2]];
            f.triples = three.into_iter().cycle().take(length).collect();
        }));
    }
    let fields = [0.0, -0.0, 1e-45, -1.0, down(PI), PI, up(PI), f32::NAN, f32::INFINITY];
    let scales = [0.0, -0.0, 1e-45, -0.5, 16.0, up(16.0), f32::NAN, f32::INFINITY];
    let cosines = [1.0, -1.0, up(1.0), -up(1.0), 0.0, f32::NAN, f32::NEG_INFINITY];
    for (at, values) in [&fields[..], &scales[..], &cosines[..]].into_iter().enumerate() {
        for value in values.to_vec() {
            list.push(frame("a value of the first pass", move |f| f.triples[at] = value));
            list.push(frame("a value of the last pass", move |f| {
                let length = f.triples.len();
                f.triples[length - 3 + at] = value;
            }));
        }
    }
    list
}

/// Questions 6 and 7.
fn tables() -> Vec<Change> {
    let mut list: Vec<Change> = Vec::new();
    for slots in [0u64, 1, 447, 448, 449, 896, 897, 1 << 24, (1 << 24) + 1, u64::from(u32::MAX)] {
        list.push(("slots against words", Box::new(move |lent| lent.table.slots = slots)));
    }
    for words in [0usize, 1, 7, 8, 9, 15, 16, 17, 24] {
        list.push(("words against slots", Box::new(move |lent| lent.table.words.resize(words, 0))));
    }
    for floats in 0..4usize {
        list.push((
            "length of the star slice",
            Box::new(move |lent| {
                let length = lent.table.stars.len() - floats;
                lent.table.stars.truncate(length);
            }),
        ));
    }
    list.push((
        "no slots and no words",
        Box::new(|lent| {
            lent.table.slots = 0;
            lent.table.words.clear();
        }),
    ));
    list
}

/// Two questions answered no at once: the first wins.
fn pairs(singles: &[Change], lent: &Lent) -> Vec<Lent> {
    let mut list = Vec::new();
    for step in [3usize, 11, 29] {
        for at in (0..singles.len()).step_by(7) {
            let mut both = lent.clone();
            singles[(at + step * 5) % singles.len()].1(&mut both);
            if !both.frame.coords.is_empty() && both.frame.places.len() > 2 && both.frame.triples.len() > 3 {
                singles[at].1(&mut both);
            }
            list.push(both);
        }
    }
    list
}

/// Puts only what differs between two lendings.
pub fn put_change(sheet: &mut Sheet, before: &Lent, after: &Lent) {
    if before.table != after.table {
        sheet.put(Record::Table(after.table.clone()));
    }
    if before.frame != after.frame {
        sheet.put(Record::Frame(after.frame.clone()));
    }
    if before.settings != after.settings {
        sheet.put(Record::Settings(after.settings));
    }
}

/// One changed lending: a call of three reads from a fresh state, one without reads, then back.
fn ask(sheet: &mut Sheet, name: &str, lent: &Lent, changed: &Lent) {
    sheet.case(name);
    put_change(sheet, lent, changed);
    sheet.put(Record::Fresh);
    sheet.put(Record::Call(3));
    sheet.put(Record::Call(0));
    sheet.put(Record::Open);
    put_change(sheet, changed, lent);
}

/// Bad states together with lendings that an earlier question refuses, and ended states with them.
fn states_too(sheet: &mut Sheet, singles: &[Change], lent: &Lent) {
    let nowhere = Position { pass: 9, four: [3, 2, 1, 0], key: 0, probe: 0 };
    let states = [
        State { phase: Phase::Fresh, patterns: 1, reads: 5 },
        State { phase: Phase::At(nowhere), patterns: 2, reads: 6 },
        State { phase: Phase::Ended(Status::NoMatch), patterns: 3, reads: 7 },
    ];
    for (at, (name, change)) in singles.iter().enumerate().step_by(3) {
        sheet.case(&format!("a saved state and {name}"));
        let mut changed = lent.clone();
        change(&mut changed);
        put_change(sheet, lent, &changed);
        sheet.put(Record::State(states[at % 3]));
        sheet.put(Record::Call(2));
        sheet.put(Record::State(states[(at + 1) % 3]));
        sheet.put(Record::Call(0));
        put_change(sheet, &changed, lent);
    }
}

/// Every change over one small lending of two passes.
pub fn questions(sheet: &mut Sheet, lent: &Lent) {
    sheet.case("a plain lending for the questions");
    let mut lent = lent.clone();
    let first = [lent.frame.triples[0], lent.frame.triples[1], lent.frame.triples[2]];
    lent.frame.triples = [first, [first[0] * 0.9, first[1] * 0.9, first[2]]].as_flattened().to_vec();
    let lent = &lent;
    sheet.lend(lent);
    let mut singles = centroids();
    singles.extend(plain_settings());
    singles.extend(products());
    singles.extend(triples());
    singles.extend(tables());
    for (name, change) in &singles {
        let mut changed = lent.clone();
        change(&mut changed);
        ask(sheet, name, lent, &changed);
    }
    for changed in pairs(&singles, lent) {
        ask(sheet, "two changed values", lent, &changed);
    }
    states_too(sheet, &singles, lent);
}
