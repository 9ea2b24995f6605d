//! Reader and writer of the navigation subframes of NavIC (IRNSS) on L5, by the ICD for SPS, version 1.0, June 2014: safe calls
//! over the verified static library `navic_c`.
//!
//! - [`read`] takes the 600 symbols of a subframe to a [`Record`], [`write()`] the other way.
//! - [`pair`] makes one [`Ephemeris`] of subframes 1 and 2; mind [`is_idle_pattern`].
//! - [`Windows`] and [`find`] look for subframes in a recording.
//! - [`Towc`], [`SecondOfWeek`] and [`Week`] are the three quantities of time.
//! - [`nearest`] is the decoder alone.
//! - [`sys`] has the C library's calls as they are.
//!
//! Each call accepts every input, ends, and refuses by a number that the error's `number` gives; the numbers are those of
//! `include/navic.h`. Refusal 2, too little room, can't come here.
//!
//! ```
//! use navic::{read, Record, SecondOfWeek};
//!
//! // four symbols wrong, and all turned over
//! let text = std::fs::read("../../samples/noisy.txt").unwrap();
//! let symbols: Vec<u8> = text.iter().filter(|c| **c != b'\n').map(|c| c - b'0').collect();
//!
//! let reading = read(&symbols).unwrap();
//! assert_eq!(reading.quality.corrected, 4);
//! assert!(reading.quality.turned_over);
//! let Record::Null(null) = reading.record else { panic!("a null message") };
//! assert_eq!(null.head.towc.began_at(), Ok(SecondOfWeek(126252)));
//! ```
#![deny(unsafe_code)]
#![warn(missing_docs)]

mod calls;
mod decoder;
mod pairing;
mod record;
mod recording;
mod subframe;
pub mod sys;
mod time;

#[cfg(test)]
mod tests;

pub use decoder::{nearest, Nearest, NearestRefusal};
pub use pairing::{is_idle_pattern, pair, NoPair};
pub use record::{Almanac, EarthIono, Head, IonoGrid, Null, Pair, Record, Slot, Subframe1, Subframe2, TimeOffsets, Unread};
pub use record::{DATA_BYTES, GRID_PLACES};
pub use recording::{find, FindRefusal, Window, Windows};
pub use subframe::{read, write, Quality, ReadRefusal, Reading, WriteRefusal};
pub use sys::Ephemeris;
pub use time::{OutsideWeek, SecondOfWeek, Towc, Week};
