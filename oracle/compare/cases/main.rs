//! `cases compare FIRST COUNT`: oracle and model beside each other on so many seeds.
//! `cases huge`: the same on tables up to the most slots that question 6 lets through.
//! `cases arc`: how far the arc of document 01 stands from the platform's arcsine.
//! `cases story FOLDER`: the frames that the program `find` tells of, as its source, as a stream, and what it must say.
//! `cases lists APART JOINED`: the lists, each by itself in one folder and all of them joined in another.

use std::collections::BTreeMap;

use cases::compare::{self, Found};
use cases::oracle::Case;
use cases::rng::Rng;
use cases::sheet::Sheet;
use cases::{exact, given, hostile, lists, others, questions, story};
use model::replay::Record;

/// Compares a range of seeds and prints what was found for each kind.
fn compare_seeds(first: u64, count: u64) -> bool {
    let mut totals: BTreeMap<&str, [u64; 6]> = BTreeMap::new();
    for seed in first..first + count {
        let mut list = exact::cases(seed);
        list.push(given::case(seed));
        for case in &list {
            let row = totals.entry(case.kind).or_default();
            match compare::compare(case, seed) {
                Found::Outside => row[1] += 1,
                Found::Same(taken) => {
                    row[0] += 1;
                    row[3] += taken.record.reads;
                    row[4] += taken.record.candidates.len() as u64;
                    row[5] += taken.record.candidates.iter().filter(|found| !(found.scale > 0.0 && found.scale <= 16.0)).count() as u64;
                }
                Found::Different(text) => {
                    row[2] += 1;
                    println!("seed {seed} ({}): {text}", case.kind);
                }
            }
        }
    }
    println!("kind | same | outside the limits | different | reads | candidates | scales outside 14");
    for (kind, row) in &totals {
        let words: Vec<String> = row.iter().map(u64::to_string).collect();
        println!("{kind} | {}", words.join(" | "));
    }
    totals.values().all(|row| row[2] == 0)
}

/// Every list by its name, in the order in which they are joined.
fn all_lists() -> Vec<(&'static str, Sheet)> {
    let cases = lists::stored(10_000, 9, 60);
    let more = lists::stored(20_000, 5, 40);
    let small: Vec<&Case> =
        more.iter().map(|(case, _)| case).filter(|case| (10..60).contains(&case.given.slots) && case.given.places.len() >= 6).collect();
    let mut sheets = Vec::new();
    let mut add = |name, make: &dyn Fn(&mut Sheet)| {
        let mut sheet = Sheet::default();
        make(&mut sheet);
        sheets.push((name, sheet));
    };
    add("undivided", &|sheet| lists::undivided(sheet, &cases));
    add("divided", &|sheet| {
        lists::divided(sheet, &more);
        lists::single_reads(sheet, &cases);
        lists::stays_fresh(sheet, &cases);
    });
    add("limits", &|sheet| {
        lists::exact_limits(sheet, 24);
        lists::ties(sheet);
    });
    add("large", &|sheet| {
        lists::large(sheet);
        lists::most_passes(sheet);
    });
    add("questions", &|sheet| questions::questions(sheet, &small[0].lent));
    add("states", &|sheet| {
        for (at, (case, _)) in more.iter().enumerate().filter(|(_, (case, _))| case.given.slots > 0) {
            hostile::states(sheet, case.kind, &case.lent, at as u64, 12, 12);
        }
        small.iter().take(3).for_each(|case| hostile::limits(sheet, case.kind, &case.lent));
        hostile::capped(sheet, &small[0].lent);
        hostile::nowhere(sheet, &small[0].lent);
    });
    add("tables", &|sheet| {
        others::damaged_tables(sheet, &more);
        others::slots(sheet, &cases);
    });
    add("sweeps", &others::sweeps);
    add("completings", &|sheet| others::completings(sheet, &more));
    sheets
}

/// Streams that end in a record of an unknown kind, a cut head and a cut payload, each behind one good record.
fn broken() -> Vec<(&'static str, Sheet)> {
    let ends: [(&str, &[u32]); 3] = [("broken_kind", &[12, 0]), ("broken_head", &[6]), ("broken_payload", &[6, 8, 1])];
    let make = |(name, words): (&'static str, &[u32])| {
        let mut sheet = Sheet::default();
        sheet.put(Record::Sweep { estimate: 1.0, error: None, step: 0.5, room: 1 });
        words.iter().for_each(|word| sheet.stream.extend(word.to_le_bytes()));
        sheet.expected += "stream 1\n";
        (name, sheet)
    };
    ends.map(make).into()
}

/// Writes each list by itself, and all of them joined, the broken ones apart.
fn write_lists(apart: &str, joined: &str) -> bool {
    let mut all = Sheet::default();
    for (name, sheet) in all_lists() {
        say(name, &sheet);
        write(apart, name, &sheet);
        all.join(name, &sheet);
    }
    say("all", &all);
    write(joined, "all", &all);
    std::fs::write(format!("{joined}/all.index"), all.index()).expect("a folder to write to");
    broken().iter().for_each(|(name, sheet)| write(joined, name, sheet));
    true
}

/// Prints how large a list is.
fn say(name: &str, sheet: &Sheet) {
    let (lines, bytes) = (sheet.expected.lines().count(), sheet.expected.len());
    println!("{name}: {} cases, {} bytes, {lines} lines, {bytes} bytes", sheet.count(), sheet.stream.len());
}

/// Writes one list: its stream and its expected lines.
fn write(folder: &str, name: &str, sheet: &Sheet) {
    std::fs::write(format!("{folder}/{name}.stream"), &sheet.stream).expect("a folder to write to");
    std::fs::write(format!("{folder}/{name}.expected"), &sheet.expected).expect("a folder to write to");
}

/// Compares tables that are too large for the stored lists.
fn compare_huge() -> bool {
    let mut good = true;
    for (seed, slots) in [(1, 1 << 24), (2, (1 << 24) - 1), (3, (1 << 20) + 7), (4, 478_001)] {
        let case = Case::new("huge", given::huge(&mut Rng::new(seed), slots, 240_000));
        match compare::compare(&case, seed) {
            Found::Same(taken) => {
                println!("{slots} slots: the same, {} reads, {} candidates", taken.record.reads, taken.record.candidates.len())
            }
            Found::Outside => good = false,
            Found::Different(text) => {
                println!("{slots} slots: {text}");
                good = false;
            }
        }
    }
    good
}

/// Measures the arc over every f32 from 0 to 1.
fn measure_arc() -> bool {
    let (mut worst, mut differ, mut low) = (0, 0u64, 0u64);
    for bits in 0..=1.0f32.to_bits() {
        let h = f32::from_bits(bits);
        let apart = model::float::arc(h).to_bits().abs_diff(h.asin().to_bits());
        worst = worst.max(apart);
        differ += u64::from(apart > 0);
        low += u64::from(apart > 0 && h < 0.000_244_140_625);
    }
    println!("{differ} of {} differ, by at most {worst} places; {low} of them below 2^-12", 1.0f32.to_bits() + 1);
    true
}

/// Writes what the program `find` has of the oracle's: its bundled data, what it must say, and the same as a stream.
fn write_story(folder: &str) -> bool {
    let story = story::Story::find();
    story.check();
    print!("seed {}\n{}", story.seed, story.expected());
    let put = |name: &str, bytes: &[u8]| std::fs::write(format!("{folder}/{name}"), bytes).expect("a folder to write to");
    put("bundled.rt", story.bundled().as_bytes());
    put("stdout", story.expected().as_bytes());
    put("story.stream", &story.stream());
    true
}

/// Does what the first word asks for.
fn main() {
    let words: Vec<String> = std::env::args().skip(1).collect();
    let number = |at: usize| words[at].parse::<u64>().expect("a number");
    let good = match words.first().map(String::as_str) {
        Some("compare") => compare_seeds(number(1), number(2)),
        Some("huge") => compare_huge(),
        Some("arc") => measure_arc(),
        Some("story") => write_story(&words[1]),
        Some("lists") => write_lists(&words[1], &words[2]),
        _ => false,
    };
    std::process::exit(i32::from(!good));
}
