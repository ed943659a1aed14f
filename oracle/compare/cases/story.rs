//! The two frames that the program `find` tells of: a table by the source's own generator over a patch of made sky, frame A
//! whose first four kept spots give a candidate on the third key, and frame B with glint, which is left with three spots.

use model::frame::Settings;
use model::replay::{self, Record};
use model::search::{probed, Combination, Kept, Lent, Status};
use model::table::{self, Slot};
use tetra3::solver::record::{self, Given};
use tetra3::{GenerateDatabaseConfig, Star as SourceStar};

use crate::given::{focal, generator, set_generated};
use crate::oracle::{Case, Taken};
use crate::rng::Rng;
use crate::sky::{Attitude, Star};

/// The camera's field of view in degrees, and its width in pixels.
const FIELD: f64 = 12.0;
const WIDTH: u32 = 1024;
/// The table's error: 1 in 100, so 25 bins.
const ERROR: f32 = 0.01;
/// Stars for each field that the source spaces its patterns by: a separation of about a seventh of the field.
const DENSITY: u32 = 40;

/// The table, and a frame of it without spots.
fn sky(rng: &mut Rng) -> Given {
    let middle = (rng.range(0.0, std::f64::consts::TAU), rng.range(-0.5, 0.5));
    let star = |id: i64, rng: &mut Rng| SourceStar {
        id,
        ra_rad: (middle.0 + rng.range(-0.12, 0.12)) as f32,
        dec_rad: (middle.1 + rng.range(-0.12, 0.12)) as f32,
        mag: rng.range(0.0, 6.0) as f32,
    };
    let stars = (0..24).map(|id| star(id, rng)).collect();
    let config =
        GenerateDatabaseConfig { lattice_field_oversampling: 4, patterns_per_lattice_field: 12, ..generator(FIELD, ERROR, DENSITY) };
    let mut given = Given {
        table_error: ERROR,
        verification_stars: DENSITY,
        focal_length: focal(FIELD.to_radians(), WIDTH),
        width: WIDTH,
        height: WIDTH,
        match_radius: 0.01,
        checking_stars: 8,
        ..Given::default()
    };
    set_generated(&mut given, stars, &config);
    given
}

/// Puts the spots into a random order; the brightness list says which is the brightest, the next, and so on.
fn shuffled(rng: &mut Rng, given: &mut Given) {
    let bright = given.spots.clone();
    let mut order: Vec<usize> = (0..bright.len()).collect();
    rng.shuffle(&mut order);
    given.places = (0..bright.len()).map(|place| order.iter().position(|from| *from == place).expect("a permutation")).collect();
    given.spots = order.iter().map(|from| bright[*from]).collect();
}

/// Frame A: the stars in view, brightest first, a third of a pixel of noise.
fn frame_a(rng: &mut Rng, sky: &Given, attitude: &Attitude) -> Given {
    let mut given = sky.clone();
    let half = f64::from(WIDTH) / 2.0;
    for star in &sky.stars {
        let Some([x, y]) = attitude.project(*star, given.focal_length) else { continue };
        if x.abs() <= half && y.abs() <= half {
            given.spots.push([(x + rng.range(-0.3, 0.3)) as f32, (y + rng.range(-0.3, 0.3)) as f32]);
        }
    }
    shuffled(rng, &mut given);
    given
}

/// Frame B: the same camera with glint, a streak of bright spots close together, and the two brightest stars beside it.
fn frame_b(rng: &mut Rng, sky: &Given, attitude: &Attitude) -> Given {
    let mut given = sky.clone();
    let (x, y) = (rng.range(-100.0, 100.0), rng.range(-100.0, 100.0));
    for at in 0..11 {
        let along = f64::from(at) * 4.0;
        given.spots.push([(x + along + rng.range(-1.0, 1.0)) as f32, (y + along * 0.5 + rng.range(-1.0, 1.0)) as f32]);
    }
    let half = f64::from(WIDTH) / 2.0;
    let seen = |star: &Star| attitude.project(*star, sky.focal_length).filter(|[x, y]| x.abs() <= half && y.abs() <= half);
    for [x, y] in sky.stars.iter().filter_map(seen).take(2) {
        given.spots.push([x as f32, y as f32]);
    }
    shuffled(rng, &mut given);
    given
}

/// A read of a combination: its key and probe from 0, and the slot read.
#[derive(Clone, Copy)]
struct Place {
    key: u32,
    probe: u32,
    slot: u64,
}

/// The reads of a combination in order.
fn reads(lent: &Lent, combination: &Combination) -> Vec<Place> {
    let mut list = Vec::new();
    for (number, key) in combination.keys.iter().enumerate() {
        for probe in 0..lent.table.slots as u32 {
            let slot = probed(lent, *key, probe);
            list.push(Place { key: number as u32, probe, slot });
            if table::read(&lent.table, slot) == Slot::Empty {
                break;
            }
        }
    }
    list
}

/// Where the oracle's first candidate was found: its combination and its read there, as the model lists them.
fn first_found(case: &Case, taken: &Taken) -> Option<(Combination, Place)> {
    let found = taken.record.candidates.first()?;
    let kept = Kept::new(&case.lent, found.pass as u32);
    let four = model::combinations::fours(kept.places.len())[found.patterns as usize - 1];
    let combination = Combination::new(&case.lent, &kept, four);
    let start = taken.record.starts[found.patterns as usize - 1];
    let place = reads(&case.lent, &combination)[(found.reads - start) as usize - 1];
    assert!(place.slot == found.slot as u64, "oracle and model differ on the slot of the first candidate");
    Some((combination, place))
}

/// A count and its noun.
fn count(n: u64, noun: &str) -> String {
    let many = if noun.ends_with("ss") { "es" } else { "s" };
    format!("{n} {noun}{}", if n == 1 { "" } else { many })
}

/// Numbers with a space before each.
fn row<T: ToString>(numbers: &[T]) -> String {
    numbers.iter().map(|n| format!(" {}", n.to_string())).collect()
}

/// What `find` says of a candidate: the read that it came from by the model, all else by the oracle's record.
fn report_candidate(found: &record::Candidate, combination: &Combination, place: Place) -> String {
    let (key, keys, probe, slot) = (place.key + 1, combination.keys.len(), place.probe, place.slot);
    let (kept, places, stars) = (row(&combination.four), row(&found.places), row(&found.stars));
    let (field, degrees) = (f64::from(found.field), f64::from(found.field).to_degrees());
    let rebuild = if found.mark { "rebuild" } else { "no rebuild" };
    let (patterns, reads) = (count(found.patterns, "combination"), count(found.reads, "read"));
    format!("  combination {}: kept{kept}; key {key} of {keys}, probe {probe}, slot {slot}\n", found.patterns)
        + &format!("  candidate: places{places}, stars{stars}; field {field:.4} rad ({degrees:.1} degrees), {rebuild}\n")
        + &format!("  found after {patterns}, {reads}\n")
}

/// What `find` says of one search.
fn reported(name: &str, case: &Case, taken: &Taken) -> String {
    let (lent, run) = (&case.lent, &taken.record);
    let kept = Kept::new(lent, 0).places;
    let (spots, passes) = (count(lent.frame.places.len() as u64, "spot"), count(run.passes.len() as u64, "pass"));
    let mut text = format!("{name}: {spots}, {passes}\n  pass 1: {} kept after thinning: places{}\n", kept.len(), row(&kept));
    if let Some((combination, place)) = first_found(case, taken) {
        text += &report_candidate(&run.candidates[0], &combination, place);
    }
    let status = match taken.status {
        Status::TooFew => "TooFew (fewer than 4 kept)",
        Status::NoMatch => "NoMatch (no candidate confirmed)",
        Status::Timeout => "Timeout (cap on combinations reached)",
    };
    let (patterns, reads) = (count(taken.patterns(run.reads), "combination"), count(run.reads, "read"));
    text += &format!("  searched to the end: {status}; {patterns}, {reads}\n");
    text + &format!("  {} in all\n", count(run.candidates.len() as u64, "candidate"))
}

/// What `find` says of the table.
fn report_table(lent: &Lent) -> String {
    assert!(table::open(&lent.table) == 0, "the source's own table passes the opening check");
    let (slots, entries, stars) = (lent.table.slots, lent.table.packed.len() as u64 / 22, lent.table.stars.len() as u64 / 3);
    format!("table: {}, {}, {}; opening check passed\n", count(slots, "slot"), count(entries, "pattern"), count(stars, "star"))
}

/// How the program's source starts.
const HEAD: &str = "\
// The bundled table and frames, made by `cases story` (oracle/README.md): a table by the source's own generator over a patch of made
// sky, frame A of its stars, and frame B with glint.
use search_feed::SearchConfig;
use settings::tolerance::Tolerance;

";

/// The settings as the program's source has them.
fn settings(s: &Settings) -> String {
    let head = "// The settings of both frames. No option is given.\npub const CONFIG: SearchConfig = SearchConfig {\n";
    let fields = [
        format!("bins: {}", s.bins),
        format!("checking: {}", s.checking_stars),
        format!("error: {}", literal(&s.table_error)),
        format!("radius: {}", literal(&s.match_radius)),
        String::from("matching: Tolerance::Absent"),
        String::from("fov: Tolerance::Absent"),
        String::from("cap: None"),
        format!("patterns: {}", s.pattern_count),
    ];
    let fields = fields.map(|field| format!("    {field},\n")).concat();
    format!("{head}{fields}}};\n")
}

/// The story: two frames in one table, with what the oracle made of them.
pub struct Story {
    pub seed: u64,
    a: (Case, Taken),
    b: (Case, Taken),
}

/// Is frame A the mission's: the first candidate on the third key of the first four, not on its home slot, a field within a hundredth
/// of the camera's, and places that aren't the positions in the kept list?
fn as_reported(a: &Case, taken: &Taken) -> bool {
    let Some((combination, place)) = first_found(a, taken) else { return false };
    let found = &taken.record.candidates[0];
    let near = (f64::from(found.field).to_degrees() / FIELD - 1.0).abs() < 0.01;
    found.patterns == 1 && place.key == 2 && place.probe > 0 && near && combination.places != combination.four
}

/// The story of a seed, if it has one: of a sky with eleven spots in view and seven kept, a frame A of 200 by their noise, and frame B, three kept
/// and TooFew.
fn story(seed: u64) -> Option<Story> {
    let rng = &mut Rng::new(seed);
    let sky = sky(rng);
    let middle = sky.stars[rng.below(6) as usize];
    let attitude = Attitude::towards(rng, middle);
    for _ in 0..200 {
        let a = Case::new("frame A", frame_a(rng, &sky, &attitude));
        if a.given.spots.len() != 11 || Kept::new(&a.lent, 0).places.len() != 7 {
            return None;
        }
        let taken = a.run();
        if as_reported(&a, &taken) {
            let b = Case::new("frame B", frame_b(rng, &sky, &attitude));
            let dark = b.run();
            let three = Kept::new(&b.lent, 0).places.len() == 3 && dark.status == Status::TooFew;
            return three.then(|| Story { seed, a: (a, taken), b: (b, dark) });
        }
    }
    None
}

/// An array of the program's source, in the layout of its formatter: on one line where it fits in a hundred columns, else in filled lines where no value
/// is longer than ten characters, else one value to a line.
fn array<T: ToString>(comment: &str, name: &str, kind: &str, values: &[T]) -> String {
    let words: Vec<String> = values.iter().map(T::to_string).collect();
    let head = format!("// {comment}\npub const {name}: [{kind}; {}] = [", words.len());
    let short = words.join(", ");
    if head.len() - comment.len() + short.len() <= 100 {
        return format!("{head}{short}];\n\n");
    }
    if words.iter().any(|word| word.len() > 10) {
        let lines: String = words.iter().map(|word| format!("    {word},\n")).collect();
        return format!("{head}\n{lines}];\n\n");
    }
    let mut lines = vec![String::from("   ")];
    for word in &words {
        if lines[lines.len() - 1].len() + word.len() + 2 > 100 {
            lines.push(String::from("   "));
        }
        let last = lines.len() - 1;
        lines[last] += &format!(" {word},");
    }
    format!("{head}\n{}\n];\n\n", lines.join("\n"))
}

/// Packed entries as the program's source has them: a byte string, an entry to a line.
fn entries(comment: &str, name: &str, bytes: &[u8]) -> String {
    let line = |entry: &[u8]| format!("\\\n    {}", entry.iter().map(|byte| format!("\\x{byte:02x}")).collect::<String>());
    let lines: String = bytes.chunks(22).map(line).collect();
    format!("// {comment}\npub const {name}: [u8; {}] = *b\"{lines}\";\n\n", bytes.len())
}

/// A float as the program's source has it.
fn literal(value: &f32) -> String {
    let text = format!("{value:?}");
    if text.contains('e') && !text.contains('.') {
        text.replace('e', ".0e")
    } else {
        text
    }
}

/// Floats as the program's source has them.
fn literals(values: &[f32]) -> Vec<String> {
    values.iter().map(literal).collect()
}

impl Story {
    /// The first seed that tells it.
    pub fn find() -> Story {
        (0..).find_map(story).expect("a seed")
    }

    /// What `find` says without arguments.
    pub fn expected(&self) -> String {
        report_table(&self.a.0.lent) + &reported("frame A", &self.a.0, &self.a.1) + &reported("frame B", &self.b.0, &self.b.1)
    }

    /// The table and the frames as the program's source.
    pub fn bundled(&self) -> String {
        let (a, b) = (&self.a.0.lent, &self.b.0.lent);
        let (t, f) = (&a.table, &a.frame);
        [
            HEAD.to_string(),
            format!("// The slot count of the table.\npub const SLOTS: u64 = {};\n\n", t.slots),
            array("The blocks of the table, a rank and seven words of occupancy each.", "WORDS", "u64", &t.words),
            entries("The packed entries of the table, one to a line.", "PACKED", &t.packed),
            array("The stars of the table, three components each.", "STARS", "f32", &literals(&t.stars)),
            array("The one pass: field of view in radians, pixel scale, cosine of the separation.", "PASSES", "f32", &literals(&f.triples)),
            array("The spots of frame A, x and y each.", "SPOTS_A", "f32", &literals(&f.coords)),
            array("The brightness list of frame A.", "ORDER_A", "u32", &f.places),
            array("The spots of frame B.", "SPOTS_B", "f32", &literals(&b.frame.coords)),
            array("The brightness list of frame B.", "ORDER_B", "u32", &b.frame.places),
            settings(&a.settings),
        ]
        .concat()
    }

    /// The same as a replay stream.
    pub fn stream(&self) -> Vec<u8> {
        let (a, b) = (&self.a.0.lent, &self.b.0.lent);
        let records = [
            Record::Table(a.table.clone()),
            Record::Open,
            Record::Settings(a.settings),
            Record::Frame(a.frame.clone()),
            Record::Run(u64::MAX),
            Record::Frame(b.frame.clone()),
            Record::Fresh,
            Record::Run(u64::MAX),
        ];
        let mut stream = Vec::new();
        records.iter().for_each(|record| replay::write(&mut stream, record));
        stream
    }

    /// Checks that the model, fed with the stream, says what the oracle's record says of the two runs.
    pub fn check(&self) {
        for (case, taken) in [&self.a, &self.b] {
            let mut lines = String::new();
            let mut inputs = replay::Inputs { lent: case.lent.clone(), state: model::search::FRESH };
            inputs.take(&Record::Run(u64::MAX), &mut lines);
            let oracle = crate::oracle::Machine { taken, n: 0 }.run(u64::MAX);
            assert!(lines == oracle, "oracle and model differ: oracle {oracle}, model {lines}");
        }
    }
}
