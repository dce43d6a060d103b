//! The functions of the C interface, as `bindings/c/pagzimul.h` declares them.

/// What an answer's code says.
pub const FULL: u8 = 0;
pub const DONE: u8 = 1;
pub const NO_SLOT: u8 = 2;
pub const NOTHING: u8 = 3;
pub const NO_PLACE: u8 = 4;

/// An answer: a code and a number, which is 0 where nothing is said.
#[repr(C)]
pub struct Told {
    pub code: u8,
    pub val: u64,
}

// What is asked of the caller is said in the header, once for all functions: the words are lent for the call alone, and
// all but the first three are made on words that are a heap with the same count and slots.
unsafe extern "C" {
    pub fn pagzimul_fits(words: *const u64, count: usize, slots: u64) -> bool;
    pub fn pagzimul_start(words: *mut u64, count: usize, slots: u64) -> bool;
    pub fn pagzimul_is_sound(words: *mut u64, count: usize, slots: u64) -> bool;
    // The calls. calls: begin (scripts/print-calls)
    pub fn pagzimul_new(words: *mut u64, count: usize, slots: u64, s: u64, r: u64, n: u64) -> Told;
    pub fn pagzimul_get(words: *mut u64, count: usize, slots: u64, t: u64, s: u64, i: u64) -> Told;
    pub fn pagzimul_set(words: *mut u64, count: usize, slots: u64, s: u64, i: u64, t: u64) -> Told;
    pub fn pagzimul_read(words: *mut u64, count: usize, slots: u64, s: u64, i: u64) -> Told;
    pub fn pagzimul_write(
        words: *mut u64,
        count: usize,
        slots: u64,
        s: u64,
        i: u64,
        x: u64,
    ) -> Told;
    pub fn pagzimul_copy(words: *mut u64, count: usize, slots: u64, t: u64, s: u64) -> Told;
    pub fn pagzimul_clear(words: *mut u64, count: usize, slots: u64, t: u64) -> Told;
    pub fn pagzimul_same(words: *mut u64, count: usize, slots: u64, s: u64, t: u64) -> Told;
    pub fn pagzimul_sizes(words: *mut u64, count: usize, slots: u64, s: u64) -> Told;
    pub fn pagzimul_collect(words: *mut u64, count: usize, slots: u64) -> Told;
    // calls: end
}
