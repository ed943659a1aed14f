//! The C interface as include/star_search.h has it, and the only `unsafe` code of the package.
//!
//! Each function here is safe: it lends slices, which are sound pointers with their lengths, to a function of the archive that has an
//! answer for any values in them. A caller owes only what the package's own page says: room on the stack, and the control register.

use crate::Pass;

/// StarState.
#[repr(C)]
#[derive(Clone, Copy, Debug, Default, PartialEq)]
pub struct State {
    pub phase: u32,
    pub status: u32,
    pub pass: u32,
    pub four: [u32; 4],
    pub key: u32,
    pub probe: u32,
    pub reserved: u32,
    pub patterns: u64,
    pub reads: u64,
}

/// StarSettings.
#[repr(C)]
#[derive(Clone, Copy, Debug, Default, PartialEq)]
pub struct Settings {
    pub bins: u32,
    pub checking: u32,
    pub error: f32,
    pub radius: f32,
    pub matching_given: u32,
    pub matching: f32,
    pub fov_given: u32,
    pub fov: f32,
    pub cap_given: u32,
    pub reserved: u32,
    pub cap: u64,
    pub patterns: u64,
}

/// StarCandidate.
#[repr(C)]
#[derive(Clone, Copy, Debug, Default, PartialEq)]
pub struct Candidate {
    pub slot: u64,
    pub pass: u32,
    pub place: [u32; 4],
    pub star: [u32; 4],
    pub field: f32,
    pub rebuild: u32,
    pub reserved: u32,
}

/// StarAnswer.
#[repr(C)]
#[derive(Clone, Copy, Debug, Default, PartialEq)]
pub struct Answer {
    pub answer: u32,
    pub number: u32,
    pub candidate: Candidate,
    pub state: State,
}

/// StarSlot.
#[repr(C)]
#[derive(Clone, Copy, Debug, Default, PartialEq)]
pub struct Slot {
    pub answer: u32,
    pub number: u32,
}

/// StarPart.
#[repr(C)]
#[derive(Clone, Copy, Debug, Default, PartialEq)]
pub struct Part {
    pub offset: u64,
    pub length: u64,
}

/// StarSwept.
#[repr(C)]
#[derive(Clone, Copy, Debug, Default, PartialEq)]
pub struct Swept {
    pub answer: u32,
    pub number: u32,
    pub count: u64,
}

/// StarCompleted; a StarVector is three floats.
#[repr(C)]
#[derive(Clone, Copy, Debug, Default, PartialEq)]
pub struct Completed {
    pub answer: u32,
    pub number: u32,
    pub image: [[f32; 3]; 4],
    pub star: [[f32; 3]; 4],
}

// The layout that the header holds the archive to.
const _: () = {
    assert!(size_of::<usize>() == 8 && size_of::<State>() == 56 && size_of::<Settings>() == 56 && size_of::<Candidate>() == 56);
    assert!(size_of::<Answer>() == 120 && size_of::<Slot>() == 8 && size_of::<Part>() == 16);
    assert!(size_of::<Swept>() == 16 && size_of::<Completed>() == 104);
    assert!(std::mem::offset_of!(State, patterns) == 40 && std::mem::offset_of!(Settings, cap) == 40);
    assert!(std::mem::offset_of!(Candidate, field) == 44 && std::mem::offset_of!(Answer, state) == 64);
    assert!(size_of::<Pass>() == 12 && align_of::<Pass>() == 4);
};

/// The functions of the archive, under the header's names.
mod c {
    use super::{Answer, Candidate, Completed, Part, Settings, Slot, State, Swept};

    extern "C" {
        pub fn star_search_version() -> u32;
        pub fn star_open(
            slots: u64,
            words: *const u64,
            words_length: usize,
            packed: *const u8,
            packed_length: usize,
            stars: *const f32,
            stars_length: usize,
        ) -> u32;
        pub fn star_search(
            centroids: *const f32,
            centroids_length: usize,
            order: *const u32,
            order_length: usize,
            settings: Settings,
            passes: *const f32,
            passes_length: usize,
            slots: u64,
            words: *const u64,
            words_length: usize,
            packed: *const u8,
            packed_length: usize,
            stars: *const f32,
            stars_length: usize,
            state: State,
            allowance: u64,
        ) -> Answer;
        pub fn star_slot(slots: u64, words: *const u64, words_length: usize, packed: *const u8, packed_length: usize, slot: u64) -> Slot;
        pub fn star_entry(slots: u64, words: *const u64, words_length: usize, packed: *const u8, packed_length: usize, slot: u64) -> Part;
        pub fn star_sweep(estimate: f32, error_given: u32, error: f32, step: f32, out: *mut f32, out_length: usize) -> Swept;
        pub fn star_complete(
            centroids: *const f32,
            centroids_length: usize,
            order: *const u32,
            order_length: usize,
            passes: *const f32,
            passes_length: usize,
            stars: *const f32,
            stars_length: usize,
            candidate: Candidate,
            scale: f32,
        ) -> Completed;
    }
}

/// The table as four lent slices, any lengths.
#[derive(Clone, Copy)]
pub struct Table<'a> {
    pub slots: u64,
    pub words: &'a [u64],
    pub packed: &'a [u8],
    pub stars: &'a [f32],
}

/// The frame as three lent slices, any lengths.
#[derive(Clone, Copy)]
pub struct Frame<'a> {
    pub centroids: &'a [f32],
    pub order: &'a [u32],
    pub passes: &'a [f32],
}

/// The pointer to lend for a slice. An empty slice may point at no object, and the header asks for one: then it is `spare`.
fn lent<T>(slice: &[T], spare: &'static T) -> *const T {
    if slice.is_empty() {
        spare
    } else {
        slice.as_ptr()
    }
}

/// Passes as the floats that they are lent as.
pub fn floats(passes: &[Pass]) -> &[f32] {
    // SAFETY: a Pass is three f32 in order without padding (repr(C); size and alignment are held above), so the slice's memory is
    // three times as many initialised f32, borrowed for as long.
    unsafe { std::slice::from_raw_parts(passes.as_ptr().cast(), passes.len() * 3) }
}

/// star_search_version.
pub fn version() -> u32 {
    // SAFETY: the function takes nothing, and reads and writes no memory but its own.
    unsafe { c::star_search_version() }
}

/// star_open.
pub fn open(table: Table) -> u32 {
    let Table { slots, words, packed, stars } = table;
    // SAFETY: each pointer is aligned, not null and readable for its length, unwritten while borrowed; the function writes nothing.
    unsafe { c::star_open(slots, lent(words, &0), words.len(), lent(packed, &0), packed.len(), lent(stars, &0.0), stars.len()) }
}

/// star_search.
pub fn search(frame: Frame, settings: Settings, table: Table, state: State, allowance: u64) -> Answer {
    let (Frame { centroids, order, passes }, Table { slots, words, packed, stars }) = (frame, table);
    // SAFETY: each pointer is aligned, not null and readable for its length, unwritten while borrowed; the function writes nothing.
    unsafe {
        c::star_search(
            lent(centroids, &0.0),
            centroids.len(),
            lent(order, &0),
            order.len(),
            settings,
            lent(passes, &0.0),
            passes.len(),
            slots,
            lent(words, &0),
            words.len(),
            lent(packed, &0),
            packed.len(),
            lent(stars, &0.0),
            stars.len(),
            state,
            allowance,
        )
    }
}

/// star_slot.
pub fn slot(table: Table, slot: u64) -> Slot {
    let Table { slots, words, packed, .. } = table;
    // SAFETY: each pointer is aligned, not null and readable for its length, unwritten while borrowed; the function writes nothing.
    unsafe { c::star_slot(slots, lent(words, &0), words.len(), lent(packed, &0), packed.len(), slot) }
}

/// star_entry.
pub fn entry(table: Table, slot: u64) -> Part {
    let Table { slots, words, packed, .. } = table;
    // SAFETY: each pointer is aligned, not null and readable for its length, unwritten while borrowed; the function writes nothing.
    unsafe { c::star_entry(slots, lent(words, &0), words.len(), lent(packed, &0), packed.len(), slot) }
}

/// star_sweep.
pub fn sweep(estimate: f32, error_given: u32, error: f32, step: f32, out: &mut [f32]) -> Swept {
    let mut spare = 0.0;
    let length = out.len();
    let pointer = if out.is_empty() { &mut spare } else { out.as_mut_ptr() };
    // SAFETY: the pointer is aligned, not null and writable for the length, and `out` is borrowed by nobody else.
    unsafe { c::star_sweep(estimate, error_given, error, step, pointer, length) }
}

/// star_complete.
pub fn complete(frame: Frame, stars: &[f32], candidate: Candidate, scale: f32) -> Completed {
    let Frame { centroids, order, passes } = frame;
    // SAFETY: each pointer is aligned, not null and readable for its length, unwritten while borrowed; the function writes nothing.
    unsafe {
        c::star_complete(
            lent(centroids, &0.0),
            centroids.len(),
            lent(order, &0),
            order.len(),
            lent(passes, &0.0),
            passes.len(),
            lent(stars, &0.0),
            stars.len(),
            candidate,
            scale,
        )
    }
}
