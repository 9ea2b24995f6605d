//! The calls of the C library as they are, in numbers, pointers and lengths. `include/navic.h` describes each.
//!
//! Every call accepts every input and ends. A pointer must not be null, must be good for its length, and a buffer
//! that a call writes must not overlap another argument.

/// The symbols of a subframe.
pub const SYMBOLS: usize = 600;
/// The bytes that hold bits 1 to 286 of a word.
pub const WORD_BYTES: usize = 36;
/// The numbers of a record.
pub const NUMBERS: usize = 42;
/// The most symbols that a recording may have.
pub const RECORDING: usize = 65536;
/// The coded symbols of a subframe, without its sync.
pub const CODED: usize = 584;
/// The bits of a word, without the six zeros at its end.
pub const WORD_BITS: usize = 286;

/// What [`navic_read`] gives.
#[repr(C)]
#[derive(Clone, Copy, Debug, PartialEq, Eq)]
pub struct Line {
    /// 0 where done, else the refusal: 1, 2, 3, 4, 10, 5, 6 or 7.
    pub refusal: u32,
    /// How many coded symbols differ from the word taken; with 0, 5, 6 and 7.
    pub corrected: u32,
    /// 1 where the subframe came turned over; with 0, 5, 6 and 7.
    pub polarity: u32,
    /// 1 to 4; 0 unless done.
    pub subframe: u32,
    /// 1 to 50400; 0 unless done.
    pub towc: u32,
    /// The message ID of subframes 3 and 4; 0 for subframes 1 and 2 and unless done.
    pub message_id: u32,
}

/// What [`navic_write`] gives.
#[repr(C)]
#[derive(Clone, Copy, Debug, PartialEq, Eq)]
pub struct Written {
    /// 0 where done, else the refusal: 2, 1, 9, 7 or 8.
    pub refusal: u32,
    /// With 8, the first bit of the lowest field that doesn't hold its number, or 293; else 0.
    pub first_bit: u32,
}

/// One ephemeris, from subframes 1 and 2, in engineering units; no angle is converted.
#[repr(C)]
#[derive(Clone, Copy, Debug, PartialEq)]
pub struct Ephemeris {
    /// Week number.
    pub wn: f64,
    /// Clock bias, s.
    pub af0: f64,
    /// Clock drift, s/s.
    pub af1: f64,
    /// Clock drift rate, s/s^2.
    pub af2: f64,
    /// Accuracy index.
    pub ura: f64,
    /// Time of clock, s.
    pub toc: f64,
    /// Group delay, s.
    pub tgd: f64,
    /// Mean motion difference, semi-circles/s.
    pub delta_n: f64,
    /// Issue of data.
    pub iodec: f64,
    /// The L5 flag, 0 or 1.
    pub l5_flag: f64,
    /// The S flag, 0 or 1.
    pub s_flag: f64,
    /// Argument of latitude, cosine, rad.
    pub cuc: f64,
    /// Argument of latitude, sine, rad.
    pub cus: f64,
    /// Inclination, cosine, rad.
    pub cic: f64,
    /// Inclination, sine, rad.
    pub cis: f64,
    /// Orbit radius, cosine, m.
    pub crc: f64,
    /// Orbit radius, sine, m.
    pub crs: f64,
    /// Rate of inclination, semi-circles/s.
    pub idot: f64,
    /// Mean anomaly, semi-circles.
    pub m0: f64,
    /// Time of ephemeris, s.
    pub toe: f64,
    /// Eccentricity.
    pub e: f64,
    /// Root of the semi-major axis, m^(1/2).
    pub root_a: f64,
    /// Longitude of the ascending node, semi-circles.
    pub omega0: f64,
    /// Argument of perigee, semi-circles.
    pub omega: f64,
    /// Rate of right ascension, semi-circles/s.
    pub omega_dot: f64,
    /// Inclination, semi-circles.
    pub i0: f64,
}

/// What [`navic_pair`] gives.
#[repr(C)]
#[derive(Clone, Copy, Debug, PartialEq)]
pub struct Paired {
    /// 0 where done, else 11.
    pub refusal: u8,
    /// +0 throughout beside 11.
    pub ephemeris: Ephemeris,
}

/// What [`navic_find`] gives.
#[repr(C)]
#[derive(Clone, Copy, Debug, PartialEq, Eq)]
pub struct Found {
    /// 0 where a window was found, else 4 or 1.
    pub number: u8,
    /// Where the window starts; with 4 the recording's length, with 1 it is 0.
    pub start: usize,
    /// Where the walk stands then: the window's end; with 4 the recording's length, with 1 it is 0.
    pub after: usize,
}

/// What [`navic_began_at`] gives.
#[repr(C)]
#[derive(Clone, Copy, Debug, PartialEq, Eq)]
pub struct Began {
    /// 0 where done, else 7.
    pub refusal: u32,
    /// The second of the week; 0 beside 7.
    pub second: u32,
}

/// What [`navic_count_in`] gives.
#[repr(C)]
#[derive(Clone, Copy, Debug, PartialEq, Eq)]
pub struct Counted {
    /// 0 where done, else 7.
    pub refusal: u32,
    /// The count of twelve-second steps; 0 beside 7.
    pub towc: u32,
}

/// What [`navic_nearest`] gives.
#[repr(C)]
#[derive(Clone, Copy, Debug, PartialEq, Eq)]
pub struct NearestWord {
    /// 0 where done, else 1, 2 or 3.
    pub refusal: u32,
    /// How many symbols differ from the word taken; 0 beside a refusal.
    pub corrected: u32,
}

const _: () = {
    use std::mem::{align_of, size_of};
    assert!(size_of::<Line>() == 24);
    assert!(size_of::<Written>() == 8);
    assert!(size_of::<Ephemeris>() == 26 * 8);
    assert!(size_of::<Paired>() == size_of::<Ephemeris>() + align_of::<Ephemeris>());
    assert!(size_of::<Found>() == 3 * size_of::<usize>());
    assert!(size_of::<Began>() == 8);
    assert!(size_of::<Counted>() == 8);
    assert!(size_of::<NearestWord>() == 8);
};

extern "C" {
    /// Reads one subframe: 600 symbols to a record of 42 numbers and the 36 bytes of its word. Refused, it writes nothing.
    pub fn navic_read(
        symbols: *const u8,
        symbols_len: usize,
        word: *mut u8,
        word_len: usize,
        numbers: *mut i64,
        numbers_len: usize,
    ) -> Line;

    /// Writes a record of 42 numbers as 600 upright symbols. Refused, it writes nothing.
    pub fn navic_write(numbers: *const i64, numbers_len: usize, symbols: *mut u8, symbols_len: usize) -> Written;

    /// Pairs a record of subframe 1 with one of subframe 2.
    pub fn navic_pair(first: *const i64, first_len: usize, second: *const i64, second_len: usize) -> Paired;

    /// Whether a record of subframe 1 or 2 is the idle pattern, which passes for data.
    pub fn navic_is_idle_pattern(numbers: *const i64, numbers_len: usize) -> bool;

    /// Finds the first window of 600 symbols with a sync at or after a place.
    pub fn navic_find(recording: *const u8, recording_len: usize, from: usize) -> Found;

    /// The second of the week at which the subframe with this TOWC began.
    pub fn navic_began_at(towc: u32) -> Began;

    /// The TOWC of the subframe in which this second of the week lies.
    pub fn navic_count_in(second: u32) -> Counted;

    /// The decoder alone: 584 coded symbols to the 286 bits of the nearest word, a byte each.
    pub fn navic_nearest(coded: *const u8, coded_len: usize, word: *mut u8, word_len: usize) -> NearestWord;
}
