//! The proved catalogue beside a plain reading of document 01 on valid and damaged tables, and the opening check's speed beside a plain pass over
//! the same memory: see ../run.

#[allow(dead_code)]
#[path = "../../compare/cases/rng.rs"]
mod rng;

use std::collections::BTreeMap;
use std::hint::black_box;
use std::time::Instant;

use rng::Rng;

/// An entry's numbers.
#[repr(C)]
struct RawEntry {
    star: [u32; 4],
    edge: f32,
    mark: u32,
}

/// A slot read's answer (0 filled, 1 empty, 2 refused) with the refusing question's number.
#[repr(C)]
struct Slot {
    answer: u32,
    number: u32,
}

/// The part of the section that a slot read hands back.
#[repr(C)]
struct Part {
    offset: u64,
    length: u64,
}

// The catalogue as a host has it.
#[link(name = "star_search", kind = "static")]
extern "C" {
    fn star_open(slots: u64, w: *const u64, wn: usize, p: *const u8, pn: usize, s: *const f32, sn: usize) -> u32;
    fn star_slot(slots: u64, w: *const u64, wn: usize, p: *const u8, pn: usize, slot: u64) -> Slot;
    fn star_entry(slots: u64, w: *const u64, wn: usize, p: *const u8, pn: usize, slot: u64) -> Part;
}

// An entry's numbers, exported for measuring.
#[link(name = "bench_exports", kind = "static")]
extern "C" {
    fn catalog_entry(slots: u64, w: *const u64, wn: usize, p: *const u8, pn: usize, slot: u64) -> RawEntry;
}

/// What a slot holds where it is no entry's place: nothing, or a refusal's number above this.
const EMPTY: u64 = 1 << 62;
const REFUSED: u64 = 1 << 63;

/// A table as it is lent.
struct Table {
    slots: u64,
    words: Vec<u64>,
    packed: Vec<u8>,
    stars: Vec<f32>,
}

impl Table {
    /// A valid table, about half full.
    fn valid(r: &mut Rng, slots: u64, n_stars: u64) -> Self {
        let blocks = ((slots + 447) / 448) as usize;
        let mut words = vec![0u64; blocks * 8];
        let mut packed = Vec::new();
        for s in 0..slots as usize {
            if r.below(2) == 0 {
                words[s / 448 * 8 + 1 + s % 448 / 64] |= 1 << (s % 64);
                for _ in 0..4 {
                    packed.extend_from_slice(&(r.below(n_stars) as u32).to_le_bytes());
                }
                packed.extend_from_slice(&(r.next() as u32).to_le_bytes());
                packed.extend_from_slice(&(r.next() as u16).to_le_bytes());
            }
        }
        let mut ones = 0u64;
        for b in 0..blocks {
            words[b * 8] = ones;
            ones += (1..8).map(|k| words[b * 8 + k].count_ones() as u64).sum::<u64>();
        }
        let stars = (0..n_stars * 3).map(|_| (r.below(2001) as f32 - 1000.0) / 1000.0).collect();
        Table { slots, words, packed, stars }
    }

    /// One kind of damage out of twelve, or none.
    fn damage(&mut self, r: &mut Rng) {
        let odd = [f32::NAN, f32::INFINITY, f32::NEG_INFINITY, -1.0000001, 1.0000001, -0.0, 1.0, -1.0];
        match r.below(18) {
            0 if !self.words.is_empty() => {
                let i = r.below(self.words.len() as u64) as usize;
                self.words[i] ^= 1 << r.below(64);
            }
            1 if !self.words.is_empty() => {
                let b = r.below(self.words.len() as u64 / 8) as usize;
                self.words[b * 8] = u64::MAX - r.below(3);
            }
            2 => {
                self.packed.pop();
            }
            3 => self.packed.extend_from_slice(&[0; 22]),
            4 => {
                self.stars.pop();
            }
            5 | 6 => {
                let i = r.below(self.stars.len() as u64) as usize;
                self.stars[i] = odd[r.below(8) as usize];
            }
            7 if !self.packed.is_empty() => {
                let i = r.below(self.packed.len() as u64) as usize;
                self.packed[i] = r.next() as u8;
            }
            8 => self.slots += 448,
            9 => self.slots += 1,
            10 => self.words.push(0),
            11 => self.slots = (1 << 24) + 1,
            12 if !self.packed.is_empty() => {
                // an index equal to the star count
                let at = r.below(self.packed.len() as u64 / 22) as usize * 22 + r.below(4) as usize * 4;
                let n = (self.stars.len() / 3) as u32;
                self.packed[at..at + 4].copy_from_slice(&n.to_le_bytes());
            }
            _ => {}
        }
    }

    /// Is a slot filled? This and what follows, up to `open`, is document 01, read plainly.
    fn bit(&self, s: usize) -> bool {
        self.words[s / 448 * 8 + 1 + s % 448 / 64] >> (s % 64) & 1 == 1
    }

    /// The place of a slot's entry: the rank of its block and the ones below it.
    fn place(&self, s: usize) -> u128 {
        let b = s / 448;
        self.words[b * 8] as u128 + (b * 448..s).filter(|&i| self.bit(i)).count() as u128
    }

    /// Question 6.
    fn fits(&self) -> bool {
        self.slots <= 1 << 24 && self.words.len() as u64 == (self.slots + 447) / 448 * 8
    }

    /// A slot read: the place of its entry, empty, or refused.
    fn find(&self, slot: u64) -> u64 {
        if !self.fits() {
            return REFUSED + 6;
        }
        if slot >= self.slots {
            return REFUSED + 11;
        }
        if !self.bit(slot as usize) {
            return EMPTY;
        }
        let p = self.place(slot as usize);
        if p * 22 + 22 > self.packed.len() as u128 {
            return REFUSED + 9;
        }
        p as u64
    }

    /// Is a star inside the array, and each component finite and at most 1?
    fn star_valid(&self, i: usize) -> bool {
        i < self.stars.len() / 3 && self.stars[i * 3..i * 3 + 3].iter().all(|x| x.is_finite() && x.abs() <= 1.0)
    }

    /// Are an entry's four stars valid?
    fn entry_valid(&self, e: &[u8]) -> bool {
        (0..4).all(|k| self.star_valid(u32::from_le_bytes(e[k * 4..k * 4 + 4].try_into().unwrap()) as usize))
    }

    /// The opening check.
    fn open(&self) -> u32 {
        if !self.fits() {
            return 6;
        }
        if self.stars.len() % 3 != 0 || self.stars.len() > 3 << 20 {
            return 7;
        }
        let blocks = (self.slots as usize + 447) / 448;
        let mut ones = 0u64;
        for b in 0..blocks {
            if self.words[b * 8] != ones {
                return 10;
            }
            ones += (b * 448..b * 448 + 448).filter(|&i| self.bit(i)).count() as u64;
        }
        if (self.slots as usize..blocks * 448).any(|i| self.bit(i)) || self.packed.len() as u64 != ones * 22 {
            return 10;
        }
        for s in 0..self.slots as usize {
            if self.bit(s) {
                let p = self.place(s) as usize;
                if p * 22 + 22 > self.packed.len() || !self.entry_valid(&self.packed[p * 22..p * 22 + 22]) {
                    return 9;
                }
            }
        }
        0
    }

    /// The proved opening check.
    fn proved_open(&self) -> u32 {
        let t = self;
        unsafe { star_open(t.slots, t.words.as_ptr(), t.words.len(), t.packed.as_ptr(), t.packed.len(), t.stars.as_ptr(), t.stars.len()) }
    }

    /// The proved slot read, as `find` has it.
    fn proved_find(&self, slot: u64) -> u64 {
        let t = self;
        let s = unsafe { star_slot(t.slots, t.words.as_ptr(), t.words.len(), t.packed.as_ptr(), t.packed.len(), slot) };
        match s.answer {
            0 => self.proved_part(slot).offset / 22,
            1 => EMPTY,
            _ => REFUSED + s.number as u64,
        }
    }

    /// The proved part of the section.
    fn proved_part(&self, slot: u64) -> Part {
        let t = self;
        unsafe { star_entry(t.slots, t.words.as_ptr(), t.words.len(), t.packed.as_ptr(), t.packed.len(), slot) }
    }

    /// The proved entry's numbers.
    fn proved_entry(&self, slot: u64) -> RawEntry {
        let t = self;
        unsafe { catalog_entry(t.slots, t.words.as_ptr(), t.words.len(), t.packed.as_ptr(), t.packed.len(), slot) }
    }

    /// The source's `get`, up to the entry's place.
    #[inline(never)]
    fn source_get(&self, idx: u64) -> u64 {
        assert!(idx < self.slots);
        let idx = idx as usize;
        let blk = &self.words[idx / 448 * 8..idx / 448 * 8 + 8];
        let s = idx % 448;
        let (w, b) = (s / 64, s % 64);
        if blk[1 + w] >> b & 1 == 0 {
            return EMPTY;
        }
        let below: u32 = blk[1..1 + w].iter().map(|x| x.count_ones()).sum();
        blk[0] + (below + (blk[1 + w] & ((1u64 << b) - 1)).count_ones()) as u64
    }

    /// The size of the memory that is lent.
    fn bytes(&self) -> usize {
        self.words.len() * 8 + self.packed.len() + self.stars.len() * 4
    }

    /// Every byte once, as 8-byte words: what reading the memory costs.
    fn plain_pass(&self) -> u64 {
        let words: u64 = self.words.iter().fold(0, |a, w| a ^ w);
        let packed = self.packed.chunks_exact(8).fold(0, |a, c| a ^ u64::from_le_bytes(c.try_into().unwrap()));
        let stars = self.stars.iter().fold(0, |a, x| a ^ x.to_bits());
        words ^ packed ^ stars as u64
    }
}

/// The best of several runs, in seconds.
fn best(mut f: impl FnMut() -> u64) -> f64 {
    (0..7)
        .map(|_| {
            let start = Instant::now();
            black_box(f());
            start.elapsed().as_secs_f64()
        })
        .fold(f64::INFINITY, f64::min)
}

/// Holds one slot read of the proved code to the plain reading's.
fn compare_slot(t: &Table, slot: u64) {
    let found = t.find(slot);
    assert_eq!(t.proved_find(slot), found, "slot {slot}");
    let (e, part) = (t.proved_entry(slot), t.proved_part(slot));
    if found >= EMPTY {
        assert_eq!((part.offset, part.length), (0, 0));
        assert_eq!((e.star, e.edge, e.mark), ([0; 4], 0.0, 0));
        return;
    }
    assert_eq!((part.offset, part.length), (found * 22, 22));
    let b = &t.packed[found as usize * 22..found as usize * 22 + 22];
    for k in 0..4 {
        assert_eq!(e.star[k], u32::from_le_bytes(b[k * 4..k * 4 + 4].try_into().unwrap()));
    }
    let x = f32::from_le_bytes(b[16..20].try_into().unwrap());
    assert!(x.to_bits() == e.edge.to_bits() || x.is_nan() && e.edge.is_nan());
    assert_eq!(e.mark, u16::from_le_bytes([b[20], b[21]]) as u32);
}

/// Compares opening checks and slot reads on tables of many sizes, each damaged or not.
fn compare(r: &mut Rng) {
    let mut answers = BTreeMap::new();
    let mut reads = 0u64;
    for round in 0..4000u64 {
        let slots = match round % 4 {
            0 => r.below(5),
            1 => 440 + r.below(20),
            2 => 890 + r.below(12),
            _ => r.below(3000),
        };
        let mut t = Table::valid(r, slots, 1 + round % 40);
        t.damage(r);
        let want = t.open();
        assert_eq!(t.proved_open(), want, "round {round}");
        *answers.entry(want).or_insert(0u64) += 1;
        for _ in 0..60 {
            let slot = if r.below(10) == 0 { r.next() } else { r.below(t.slots.min(4000) + 2) };
            compare_slot(&t, slot);
            reads += 1;
        }
    }
    println!("4000 tables agree (by answer: {answers:?}), {reads} slot reads agree");
}

/// Times slot reads over scattered slots beside the source's.
fn time_reads(t: &Table) {
    let n = 4_000_000u64;
    let slots = black_box(t.slots);
    let proved = best(|| (0..n).fold(0u64, |a, i| a.wrapping_add(t.proved_part((i * 2654435761) % slots).offset)));
    let source = best(|| (0..n).fold(0u64, |a, i| a.wrapping_add(t.source_get((i * 2654435761) % slots))));
    println!(
        "slot reads in {} slots: proved, with questions 6, 11 and 9, {:.1} ns; the source's {:.1} ns",
        slots,
        proved * 1e9 / n as f64,
        source * 1e9 / n as f64
    );
}

/// Makes the last star invalid and names it in no entry: the check must then look at the stars of each entry.
fn spoil_last_star(t: &mut Table) {
    let last = t.stars.len() - 3;
    t.stars[last] = 2.0;
    let named = (last as u32 / 3).to_le_bytes();
    for e in t.packed.chunks_exact_mut(22) {
        for k in 0..4 {
            if e[k * 4..k * 4 + 4] == named {
                e[k * 4] = 0;
            }
        }
    }
}

/// Times the opening check of a table beside a plain pass over the same memory.
fn time_opening(t: &Table, what: &str) {
    let bytes = t.bytes() as f64;
    assert_eq!(t.proved_open(), 0);
    let (check, pass) = (best(|| t.proved_open() as u64), best(|| t.plain_pass()));
    let speeds = [bytes / check / 1e9, bytes / pass / 1e9];
    println!(
        "2^24 slots, {} entries, {} stars{what}, {:.0} MB: opening {:.1} ms, {:.2} GB/s; plain pass {:.1} ms, {:.2} GB/s",
        t.packed.len() / 22,
        t.stars.len() / 3,
        bytes / 1e6,
        check * 1e3,
        speeds[0],
        pass * 1e3,
        speeds[1]
    );
}

/// Compares, then times openings and slot reads.
fn main() {
    let mut r = Rng::new(1);
    compare(&mut r);
    for n_stars in [9_000, 100_000, 1 << 20] {
        let t = Table::valid(&mut r, 1 << 24, n_stars);
        time_opening(&t, "");
        if n_stars == 9_000 {
            time_reads(&t);
            time_reads(&Table::valid(&mut r, 65_500, n_stars));
        }
    }
    let mut t = Table::valid(&mut r, 1 << 24, 1 << 20);
    spoil_last_star(&mut t);
    time_opening(&t, ", one unused star invalid");
}
