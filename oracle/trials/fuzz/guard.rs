//! Memory to lend from: between two pages that may not be touched and itself read-only, or exactly as long on the heap.

use std::ffi::{c_char, c_int, c_long, c_void};

/// What is taken of the C library.
mod c {
    use super::{c_char, c_int, c_long, c_void};

    pub const NONE: c_int = 0;
    pub const READ: c_int = 1;
    pub const WRITE: c_int = 2;
    pub const SHARED: c_int = 1;
    pub const PRIVATE: c_int = 2;
    pub const FIXED: c_int = 16;
    pub const ANONYMOUS: c_int = 32;

    extern "C" {
        pub fn memfd_create(name: *const c_char, flags: u32) -> c_int;
        pub fn ftruncate(file: c_int, length: c_long) -> c_int;
        pub fn mmap(address: *mut c_void, length: usize, protection: c_int, flags: c_int, file: c_int, offset: c_long) -> *mut c_void;
    }
}

/// The size of a page.
const PAGE: usize = 4096;

/// Where slices of one kind are lent from.
pub struct Arena<T> {
    /// The view to write through, and the view to lend: the same memory twice.
    views: Option<(*mut T, *mut T)>,
    /// Room in elements; a whole number of pages.
    room: usize,
    heap: Vec<T>,
}

/// One mapping, or the end of the program.
fn map(address: *mut c_void, length: usize, protection: c_int, flags: c_int, file: c_int) -> *mut u8 {
    // SAFETY: without FIXED a new mapping touches no memory in use; with FIXED the caller names a part of its own reservation.
    let mapped = unsafe { c::mmap(address, length, protection, flags, file, 0) };
    assert!(mapped as isize != -1, "no memory to map");
    mapped.cast()
}

/// Two views of so many bytes: one to write through, one to lend, between two pages that may not be touched.
fn views(bytes: usize, protection: c_int) -> (*mut u8, *mut u8) {
    // SAFETY: a file without a name, as long as is asked for.
    let file = unsafe {
        let file = c::memfd_create(c"lent".as_ptr(), 0);
        assert!(file >= 0 && c::ftruncate(file, bytes as c_long) == 0, "no memory to lend");
        file
    };
    let write = map(std::ptr::null_mut(), bytes, c::READ | c::WRITE, c::SHARED, file);
    let reserved = map(std::ptr::null_mut(), bytes + 2 * PAGE, c::NONE, c::PRIVATE | c::ANONYMOUS, -1);
    let inside = reserved.wrapping_add(PAGE);
    (write, map(inside.cast(), bytes, protection, c::SHARED | c::FIXED, file))
}

impl<T: Copy + Default> Arena<T> {
    /// Room for at least `most` elements; on the heap where `pages` is false. Only a writable one may lend to write.
    pub fn new(most: usize, pages: bool, writable: bool) -> Arena<T> {
        let bytes = (most * size_of::<T>()).next_multiple_of(PAGE);
        let protection = if writable { c::READ | c::WRITE } else { c::READ };
        let views = pages.then(|| views(bytes, protection)).map(|(write, lend)| (write.cast(), lend.cast()));
        Arena { views, room: bytes / size_of::<T>(), heap: Vec::new() }
    }

    /// Puts values at one end of the room: the highest one ends, or the lowest one begins, where a forbidden page is.
    fn put(&mut self, values: &[T], high: bool) -> *mut T {
        assert!(values.len() <= self.room, "too long for the room");
        let Some((write, lend)) = self.views else {
            self.heap = Vec::with_capacity(values.len());
            self.heap.extend_from_slice(values);
            return self.heap.as_mut_ptr();
        };
        let at = if high { self.room - values.len() } else { 0 };
        // SAFETY: `at` and the length stay inside the view, and no lent slice is in use while the arena is borrowed to change.
        unsafe {
            std::ptr::copy_nonoverlapping(values.as_ptr(), write.add(at), values.len());
            lend.add(at)
        }
    }

    /// Lends a copy of values, to read.
    pub fn lend(&mut self, values: &[T], high: bool) -> &[T] {
        let at = self.put(values, high);
        // SAFETY: initialised just now, aligned, and unchanged as long as the arena is borrowed.
        unsafe { std::slice::from_raw_parts(at, values.len()) }
    }

    /// Lends a copy of values, to write.
    pub fn lend_to_write(&mut self, values: &[T], high: bool) -> &mut [T] {
        let at = self.put(values, high);
        // SAFETY: as above; the arena is borrowed to change, so there is no other slice.
        unsafe { std::slice::from_raw_parts_mut(at, values.len()) }
    }
}
