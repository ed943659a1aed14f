//! Lendings, settings, states and candidates that no host would lend.

use cases::rng::Rng;
use model::search::Lent;

use crate::raw::{Candidate, Settings, State};

/// All that is lent, before it is placed.
#[derive(Clone, Default)]
pub struct Lending {
    pub coords: Vec<f32>,
    pub order: Vec<u32>,
    pub passes: Vec<f32>,
    pub slots: u64,
    pub words: Vec<u64>,
    pub packed: Vec<u8>,
    pub stars: Vec<f32>,
    pub settings: Settings,
}

/// A float at a limit of some question, beside one, no number at all, or any bits.
pub fn float(rng: &mut Rng) -> f32 {
    let limits = [0.0f32, 1.0, 1.25, 16.0, 32_768.0, std::f32::consts::PI, 0.000_244_140_625, 0.5, f32::MIN_POSITIVE, f32::MAX];
    let limit = rng.pick(&limits).to_bits();
    let sign = (rng.below(2) as u32) << 31;
    match rng.below(8) {
        0 => f32::from_bits(rng.next() as u32),
        1 => rng.pick(&[f32::NAN, f32::INFINITY, f32::NEG_INFINITY, -0.0, 1e-45, -1e-45]),
        2 => f32::from_bits(0x7F80_0001 | rng.next() as u32),
        3 => rng.range(-1.0, 1.0) as f32,
        4 => f32::from_bits(limit ^ sign),
        5 => f32::from_bits((limit + 1) ^ sign),
        6 => f32::from_bits(limit.saturating_sub(1) ^ sign),
        _ => rng.range(-40_000.0, 40_000.0) as f32,
    }
}

/// A whole number near 0, near a limit, or any.
pub fn whole(rng: &mut Rng) -> u64 {
    let limits = [64u64, 256, 448, 512, 768, 4_096, 1 << 20, 3 << 20, 1 << 24, 162_656_256, 1 << 31, 1 << 32, 1 << 62, 1 << 63, u64::MAX];
    match rng.below(5) {
        0 => rng.below(8),
        1 => rng.next(),
        2 => rng.next() >> rng.below(64),
        _ => rng.pick(&limits).wrapping_add(rng.below(3)).wrapping_sub(1),
    }
}

/// Settings of a valid lending.
fn settings(lent: &Lent) -> Settings {
    let given = &lent.settings;
    Settings {
        bins: given.bins,
        checking: given.checking_stars,
        error: given.table_error,
        radius: given.match_radius,
        matching_given: u32::from(given.match_max_error.is_some()),
        matching: given.match_max_error.unwrap_or(f32::NAN),
        fov_given: u32::from(given.fov_max_error_rad.is_some()),
        fov: given.fov_max_error_rad.unwrap_or(f32::NAN),
        cap_given: u32::from(given.cap.is_some()),
        reserved: u32::MAX,
        cap: given.cap.unwrap_or(7),
        patterns: given.pattern_count,
    }
}

impl Lending {
    /// A valid lending.
    pub fn of(lent: &Lent) -> Lending {
        Lending {
            coords: lent.frame.coords.clone(),
            order: lent.frame.places.clone(),
            passes: lent.frame.triples.clone(),
            slots: lent.table.slots,
            words: lent.table.words.clone(),
            packed: lent.table.packed.clone(),
            stars: lent.table.stars.clone(),
            settings: settings(lent),
        }
    }

    /// Spoils one thing about it.
    pub fn spoil(&mut self, rng: &mut Rng) {
        match rng.below(16) {
            0 => stretch(rng, &mut self.coords, 520, |rng, _| rng.range(-500.0, 500.0) as f32, float),
            1 => stretch(rng, &mut self.order, 270, |_, at| at as u32, |rng| whole(rng) as u32),
            2 => stretch(rng, &mut self.passes, 780, |_, at| [0.5, 0.001, 0.9999][at % 3], float),
            3 => poke(rng, &mut self.coords, float),
            4 => poke(rng, &mut self.order, |rng| whole(rng) as u32),
            5 => poke(rng, &mut self.passes, float),
            6 => poke(rng, &mut self.words, whole),
            7 => poke(rng, &mut self.packed, |rng| rng.next() as u8),
            8 => poke(rng, &mut self.stars, float),
            9 => self.spoil_lengths(rng),
            10 => self.spoil_slots(rng),
            11..=13 => self.nearly(rng),
            _ => spoil_settings(rng, &mut self.settings),
        }
    }

    /// Other lengths of the table's slices.
    fn spoil_lengths(&mut self, rng: &mut Rng) {
        match rng.below(3) {
            0 => stretch(rng, &mut self.words, 64, |_, _| 0, whole),
            1 => stretch(rng, &mut self.packed, 9_000, |_, _| 0, |rng| rng.next() as u8),
            _ => stretch(rng, &mut self.stars, 4_000, |rng, _| rng.range(-1.0, 1.0) as f32, float),
        }
    }

    /// A table that is off by one: a rank, the section's end, the star slice's end, or star indices at its end.
    fn nearly(&mut self, rng: &mut Rng) {
        let (blocks, entries, stars) = (self.words.len() / 8, self.packed.len() / 22, (self.stars.len() / 3) as u32);
        match rng.below(5) {
            0 if blocks > 0 => {
                let rank = &mut self.words[8 * rng.below(blocks as u64) as usize];
                *rank = rank.wrapping_add(rng.pick(&[1, 2, u64::MAX]));
            }
            1 => self.packed.truncate(self.packed.len().saturating_sub(rng.between(1, 23) as usize)),
            2 => self.stars.truncate(self.stars.len().saturating_sub(rng.between(1, 6) as usize)),
            3 if entries > 0 => {
                let at = 22 * rng.below(entries as u64) as usize + 4 * rng.below(4) as usize;
                let star = stars.wrapping_add(rng.below(3) as u32).wrapping_sub(1);
                self.packed[at..at + 4].copy_from_slice(&star.to_le_bytes());
            }
            _ => {
                let star = stars.wrapping_add(rng.below(2) as u32).wrapping_sub(1).to_le_bytes();
                self.packed.chunks_exact_mut(22).for_each(|entry| entry[..4].copy_from_slice(&star));
            }
        }
    }

    /// Another number of slots, now and then with as many words as it asks for.
    fn spoil_slots(&mut self, rng: &mut Rng) {
        self.slots = if rng.once_in(2) { whole(rng) } else { self.slots.wrapping_add(rng.below(5)).wrapping_sub(2) };
        if rng.once_in(2) && self.slots <= 30_000 {
            let words = 8 * self.slots.div_ceil(448) as usize;
            self.words.resize_with(words, || rng.next());
        }
    }

    /// As many slots, words, bytes and stars as the questions let through, or one more.
    pub fn enlarge(&mut self, rng: &mut Rng) {
        self.slots = rng.pick(&[1 << 24, (1 << 24) - 447, (1 << 24) + 1, 10_000_000]);
        let words = 8 * self.slots.div_ceil(448) as usize + usize::from(rng.once_in(6));
        self.words = (0..words).map(|at| if at % 8 == 0 { rng.below(60_000) } else { rng.next() & rng.next() }).collect();
        self.packed.resize_with(rng.below(4_000_000) as usize, || rng.next() as u8);
        let stars = (3 << 20) + rng.pick(&[0, 0, 0, 1, 3]) - 3 * rng.below(2) as usize;
        self.stars.resize(stars, 0.5);
    }
}

/// Another length; new elements are all plain or all as made.
fn stretch<T>(rng: &mut Rng, list: &mut Vec<T>, most: u64, plain: fn(&mut Rng, usize) -> T, make: fn(&mut Rng) -> T) {
    let length = if rng.once_in(3) { list.len() as u64 + rng.below(4) } else { rng.below(most) } as usize;
    let valid = rng.once_in(2);
    list.truncate(length);
    for at in list.len()..length {
        list.push(if valid { plain(rng, at) } else { make(rng) });
    }
}

/// One element as made, or now and then all.
fn poke<T>(rng: &mut Rng, list: &mut [T], make: fn(&mut Rng) -> T) {
    if list.is_empty() {
        return;
    }
    if rng.once_in(10) {
        list.iter_mut().for_each(|value| *value = make(rng));
    } else {
        let at = rng.below(list.len() as u64) as usize;
        list[at] = make(rng);
    }
}

/// One of the settings changed.
fn spoil_settings(rng: &mut Rng, settings: &mut Settings) {
    match rng.below(12) {
        0 => settings.bins = rng.pick(&[0, 1, 2, 4_096, 4_097, u32::MAX]),
        1 => settings.checking = rng.pick(&[0, 1, 4, 64, 65, u32::MAX]),
        2 => settings.error = float(rng),
        3 => settings.radius = float(rng),
        4 => settings.matching_given = rng.pick(&[0, 1, 2, 256, u32::MAX]),
        5 => settings.matching = float(rng),
        6 => settings.fov_given = rng.pick(&[0, 1, 2, 256, u32::MAX]),
        7 => settings.fov = float(rng),
        8 => settings.cap_given = rng.pick(&[0, 1, 2, 256, u32::MAX]),
        9 => settings.cap = whole(rng),
        10 => settings.patterns = whole(rng),
        _ => settings.reserved = rng.next() as u32,
    }
}

/// A state, now and then with other numbers in the fields that its phase doesn't use.
pub fn state(rng: &mut Rng, last: &State) -> State {
    let mut state = any_state(rng, last);
    if rng.once_in(3) {
        fill_unused(rng, &mut state);
    }
    state
}

/// Any numbers in the fields that a state's phase doesn't use.
fn fill_unused(rng: &mut Rng, state: &mut State) {
    let [status, pass, a, b, c, d, key, probe, reserved] = std::array::from_fn(|_| whole(rng) as u32);
    if state.phase != 1 {
        (state.pass, state.four, state.key, state.probe) = (pass, [a, b, c, d], key, probe);
    }
    if state.phase != 2 {
        state.status = status;
    }
    state.reserved = reserved;
}

/// A state: fresh, the last one that came back, that with one field changed, a small one, or any bits.
fn any_state(rng: &mut Rng, last: &State) -> State {
    let mut state = *last;
    match rng.below(8) {
        0 | 1 => return State::default(),
        2..=4 => return state,
        5 => {
            let mut four = [0, 1, 2, 3].map(|at| at + rng.below(3) as u32 * 4);
            four.sort_unstable();
            let (pass, key, probe) = (rng.below(3) as u32, rng.below(4) as u32, rng.below(9) as u32);
            return State { phase: 1, pass, four, key, probe, patterns: rng.below(9), reads: rng.below(99), ..State::default() };
        }
        6 => {
            let words: [u32; 10] = std::array::from_fn(|_| whole(rng) as u32);
            let [_, status, pass, a, b, c, d, key, probe, reserved] = words;
            let phase = rng.below(5) as u32;
            return State { phase, status, pass, four: [a, b, c, d], key, probe, reserved, patterns: whole(rng), reads: whole(rng) };
        }
        _ => {}
    }
    let word = whole(rng) as u32;
    match rng.below(10) {
        0 => state.phase = word,
        1 => state.status = word,
        2 => state.pass = word,
        3 => state.four[rng.below(4) as usize] = word,
        4 => state.key = word,
        5 => state.probe = word,
        6 => state.reserved = word,
        7 => state.patterns = whole(rng),
        8 => state.reads = whole(rng),
        _ => state.four.reverse(),
    }
    state
}

/// A candidate: the last one that came back, that with one field changed, a small one, or any bits.
pub fn candidate(rng: &mut Rng, last: &Candidate) -> Candidate {
    let mut reply = *last;
    let word = whole(rng) as u32;
    match rng.below(9) {
        0..=2 => {}
        3 => reply = Candidate { place: [0, 1, 2, 3], star: [0, 1, 2, rng.below(5) as u32], rebuild: word, ..Candidate::default() },
        4 => reply.pass = word,
        5 => reply.place[rng.below(4) as usize] = word,
        6 => reply.star[rng.below(4) as usize] = word,
        7 => (reply.rebuild, reply.reserved) = (word, word),
        _ => {
            let mut any = || whole(rng) as u32;
            reply = Candidate {
                slot: 9,
                pass: any() % 3,
                place: [any(), any(), any(), any()],
                star: [any(), any(), any(), any()],
                field: f32::NAN,
                rebuild: 1,
                reserved: 1,
            };
        }
    }
    reply
}
