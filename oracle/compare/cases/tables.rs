//! Tables: occupancy words and packed entries, from patterns of four stars.

use crate::rng::Rng;
use crate::sky::Star;
use model::pattern;

/// An entry before it is packed.
#[derive(Clone, Copy)]
pub struct Entry {
    pub stars: [u32; 4],
    pub edge: f32,
    pub mark: u16,
}

/// One entry a slot, or none.
pub struct Slots(pub Vec<Option<Entry>>);

/// The entry of four stars, and the home slot it belongs to.
pub fn entry(stars: &[Star], four: [u32; 4], bins: u32, slots: u64) -> (Entry, u64) {
    let edges = pattern::edges(four.map(|star| stars[star as usize]));
    let hash = pattern::hash(pattern::image_key(pattern::ratios(edges), bins), bins);
    (Entry { stars: four, edge: edges[5], mark: pattern::mark(hash) }, pattern::home(hash, slots))
}

impl Slots {
    /// So many empty slots.
    pub fn empty(count: usize) -> Slots {
        Slots(vec![None; count])
    }

    /// Puts an entry into the first free slot of its probe sequence; false where there is none.
    pub fn insert(&mut self, entry: Entry, home: u64) -> bool {
        let count = self.0.len() as u64;
        for probe in 0..count {
            let slot = ((home + probe * probe) % count) as usize;
            if self.0[slot].is_none() {
                self.0[slot] = Some(entry);
                return true;
            }
        }
        false
    }

    /// Fills every free slot with a random one of these entries.
    pub fn fill(&mut self, rng: &mut Rng, from: &[Entry]) {
        for slot in self.0.iter_mut().filter(|slot| slot.is_none()) {
            *slot = Some(rng.pick(from));
        }
    }

    /// The number of entries.
    pub fn filled(&self) -> usize {
        self.0.iter().flatten().count()
    }

    /// Occupancy words of 64 slots each.
    pub fn occupancy(&self) -> Vec<u64> {
        let mut words = vec![0u64; self.0.len().div_ceil(64)];
        for (slot, _) in self.0.iter().enumerate().filter(|(_, held)| held.is_some()) {
            words[slot / 64] |= 1 << (slot % 64);
        }
        words
    }

    /// The packed section, 22 bytes an entry in slot order.
    pub fn packed(&self) -> Vec<u8> {
        let mut bytes = Vec::new();
        for entry in self.0.iter().flatten() {
            entry.stars.iter().for_each(|star| bytes.extend(star.to_le_bytes()));
            bytes.extend(entry.edge.to_bits().to_le_bytes());
            bytes.extend(entry.mark.to_le_bytes());
        }
        bytes
    }
}

/// Blocks of 8 words, a rank and 7 words of occupancy, from occupancy words alone.
pub fn blocks(slots: usize, occupancy: &[u64]) -> Vec<u64> {
    let mut words = Vec::new();
    let mut rank = 0;
    for block in 0..slots.div_ceil(448) {
        words.push(rank);
        for at in block * 7..block * 7 + 7 {
            let word = occupancy.get(at).copied().unwrap_or(0);
            rank += u64::from(word.count_ones());
            words.push(word);
        }
    }
    words
}
