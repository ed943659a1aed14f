//! The lent table: slot read, opening check, and questions 6, 7, 9, 10 and 11.

/// What a host lends once: slots, block words, packed entries and star vectors.
#[derive(Clone, Default, PartialEq, Debug)]
pub struct Table {
    pub slots: u64,
    pub words: Vec<u64>,
    pub packed: Vec<u8>,
    pub stars: Vec<f32>,
}

/// What one slot of the table holds.
#[derive(Clone, Copy, PartialEq, Debug)]
pub enum Slot {
    Empty,
    Filled([u8; 22]),
    Outside,
}

/// An entry's own 22 bytes, taken apart.
#[derive(Clone, Copy, Debug)]
pub struct Entry {
    pub stars: [u32; 4],
    pub edge: f32,
    pub mark: u16,
}

/// Four star indices, largest edge and mark, little-endian.
pub fn entry(bytes: [u8; 22]) -> Entry {
    let word = |at: usize| u32::from_le_bytes([bytes[at], bytes[at + 1], bytes[at + 2], bytes[at + 3]]);
    Entry { stars: [word(0), word(4), word(8), word(12)], edge: f32::from_bits(word(16)), mark: u16::from_le_bytes([bytes[20], bytes[21]]) }
}

/// Is the slot's occupancy bit set?
pub fn filled(table: &Table, slot: u64) -> bool {
    let (block, within) = (slot / 448, slot % 448);
    let word = table.words[(block * 8 + 1 + within / 64) as usize];
    word >> (within % 64) & 1 == 1
}

/// The block's rank plus the ones below the slot in its block, without wrapping.
pub fn place(table: &Table, slot: u64) -> u128 {
    let block = slot / 448;
    let below = (block * 448..slot).filter(|earlier| filled(table, *earlier)).count();
    u128::from(table.words[(block * 8) as usize]) + below as u128
}

/// Reads one slot of a table that questions 6 and 11 let through.
pub fn read(table: &Table, slot: u64) -> Slot {
    if !filled(table, slot) {
        return Slot::Empty;
    }
    let start = place(table, slot) * 22;
    if start + 22 > table.packed.len() as u128 {
        return Slot::Outside;
    }
    let start = start as usize;
    let mut bytes = [0; 22];
    bytes.copy_from_slice(&table.packed[start..start + 22]);
    Slot::Filled(bytes)
}

/// Question 6: slots and words.
pub fn question_6(table: &Table) -> bool {
    table.slots <= 1 << 24 && table.words.len() as u64 == 8 * table.slots.div_ceil(448)
}

/// Question 7: the star slice.
pub fn question_7(table: &Table) -> bool {
    table.stars.len() % 3 == 0 && table.stars.len() <= 3 << 20
}

/// Question 9 for one star: inside the slice, each component finite and of magnitude at most 1.
pub fn star_valid(table: &Table, star: u32) -> bool {
    let start = star as usize * 3;
    if start + 3 > table.stars.len() {
        return false;
    }
    table.stars[start..start + 3].iter().all(|part| part.is_finite() && part.abs() <= 1.0)
}

/// The vector of a valid star.
pub fn star(table: &Table, star: u32) -> [f32; 3] {
    let start = star as usize * 3;
    [table.stars[start], table.stars[start + 1], table.stars[start + 2]]
}

/// Question 10: ranks, bits past the last slot, length of the packed section.
pub fn question_10(table: &Table) -> bool {
    let blocks = table.words.len() as u64 / 8;
    let mut before = 0;
    for block in 0..blocks {
        if table.words[(block * 8) as usize] != before {
            return false;
        }
        for slot in block * 448..(block + 1) * 448 {
            if filled(table, slot) {
                if slot >= table.slots {
                    return false;
                }
                before += 1;
            }
        }
    }
    table.packed.len() as u64 == 22 * before
}

/// Question 9 over one filled slot: the entry inside the section and its stars valid.
pub fn valid(table: &Table, slot: &Slot) -> bool {
    match slot {
        Slot::Empty => true,
        Slot::Outside => false,
        Slot::Filled(bytes) => entry(*bytes).stars.iter().all(|index| star_valid(table, *index)),
    }
}

/// The opening check: 6, 7, 10, then 9 over all filled slots. 0 where it passes.
pub fn open(table: &Table) -> u32 {
    if !question_6(table) {
        return 6;
    }
    if !question_7(table) {
        return 7;
    }
    if !question_10(table) {
        return 10;
    }
    let all = (0..table.slots).all(|slot| valid(table, &read(table, slot)));
    if all {
        0
    } else {
        9
    }
}

/// The slot read: 6, 11, then 9 for the section only.
pub fn slot_read(table: &Table, slot: u64) -> Result<Option<[u8; 22]>, u32> {
    if !question_6(table) {
        return Err(6);
    }
    if slot >= table.slots {
        return Err(11);
    }
    match read(table, slot) {
        Slot::Empty => Ok(None),
        Slot::Filled(bytes) => Ok(Some(bytes)),
        Slot::Outside => Err(9),
    }
}
