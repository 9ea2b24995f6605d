//! The library's C interface, and each call over slices.

#[repr(C)]
struct Line {
    numbers: [u32; 6],
}

#[repr(C)]
struct Two {
    refusal: u32,
    beside: u32,
}

#[repr(C)]
struct Paired {
    refusal: u8,
    ephemeris: [f64; 26],
}

#[repr(C)]
struct Found {
    number: u8,
    start: usize,
    after: usize,
}

#[link(name = "navic_c", kind = "static")]
extern "C" {
    fn navic_read(
        symbols: *const u8,
        symbols_len: usize,
        word: *mut u8,
        word_len: usize,
        numbers: *mut i64,
        numbers_len: usize,
    ) -> Line;
    fn navic_write(numbers: *const i64, numbers_len: usize, symbols: *mut u8, symbols_len: usize) -> Two;
    fn navic_pair(first: *const i64, first_len: usize, second: *const i64, second_len: usize) -> Paired;
    fn navic_is_idle_pattern(numbers: *const i64, numbers_len: usize) -> bool;
    fn navic_find(recording: *const u8, recording_len: usize, from: usize) -> Found;
    fn navic_began_at(towc: u32) -> Two;
    fn navic_count_in(second: u32) -> Two;
    fn navic_nearest(coded: *const u8, coded_len: usize, word: *mut u8, word_len: usize) -> Two;
}

// Every call is total, and keeps to the lengths that it is given; a slice's pointer is never null, and
// two slices of which one is `&mut` don't overlap. So each of the calls below is sound.

/// Refusal, corrected, polarity, subframe, TOWC, message ID.
pub fn read(symbols: &[u8], word: &mut [u8], numbers: &mut [i64]) -> [u32; 6] {
    let (word_len, numbers_len) = (word.len(), numbers.len());
    let line = unsafe {
        navic_read(
            symbols.as_ptr(),
            symbols.len(),
            word.as_mut_ptr(),
            word_len,
            numbers.as_mut_ptr(),
            numbers_len,
        )
    };
    line.numbers
}

/// Refusal and first bit.
pub fn write(numbers: &[i64], symbols: &mut [u8]) -> (u32, u32) {
    let symbols_len = symbols.len();
    let two = unsafe { navic_write(numbers.as_ptr(), numbers.len(), symbols.as_mut_ptr(), symbols_len) };
    (two.refusal, two.beside)
}

/// Refusal and the 26 numbers.
pub fn pair(first: &[i64], second: &[i64]) -> (u32, [f64; 26]) {
    let paired = unsafe { navic_pair(first.as_ptr(), first.len(), second.as_ptr(), second.len()) };
    (u32::from(paired.refusal), paired.ephemeris)
}

pub fn is_idle_pattern(numbers: &[i64]) -> bool {
    unsafe { navic_is_idle_pattern(numbers.as_ptr(), numbers.len()) }
}

/// Number, start, and the place where the walk then stands.
pub fn find(recording: &[u8], from: usize) -> (u32, usize, usize) {
    let found = unsafe { navic_find(recording.as_ptr(), recording.len(), from) };
    (u32::from(found.number), found.start, found.after)
}

/// Refusal and second.
pub fn began_at(towc: u32) -> (u32, u32) {
    let two = unsafe { navic_began_at(towc) };
    (two.refusal, two.beside)
}

/// Refusal and count.
pub fn count_in(second: u32) -> (u32, u32) {
    let two = unsafe { navic_count_in(second) };
    (two.refusal, two.beside)
}

/// Refusal and corrected count.
pub fn nearest(coded: &[u8], word: &mut [u8]) -> (u32, u32) {
    let word_len = word.len();
    let two = unsafe { navic_nearest(coded.as_ptr(), coded.len(), word.as_mut_ptr(), word_len) };
    (two.refusal, two.beside)
}
