//! Pairing subframes 1 and 2.

use crate::calls;
use crate::record::Record;
use crate::sys::Ephemeris;
use std::fmt;

/// Refusal 11: not subframe 1 then subframe 2, or toc differs from toe, or either alone has a fault of 7 or 8.
#[derive(Clone, Copy, Debug, PartialEq, Eq, Hash)]
pub struct NoPair;

impl NoPair {
    /// The refusal's number, 11.
    pub fn number(self) -> u8 {
        11
    }
}

impl fmt::Display for NoPair {
    fn fmt(&self, f: &mut fmt::Formatter) -> fmt::Result {
        f.write_str("refusal 11: no pair of subframes 1 and 2")
    }
}

impl std::error::Error for NoPair {}

/// Pairs a record of subframe 1 with one of subframe 2: one ephemeris, each of its numbers exactly the raw number times the
/// table's scale.
///
/// Idle subframes pair too: see [`is_idle_pattern`].
///
/// ```
/// use navic::{pair, Head, NoPair, Record, Subframe1, Subframe2, Towc};
///
/// let head = Head { towc: Towc(1), ..Head::default() };
/// let first = Record::Subframe1(Subframe1 { head, toc: 450, af0: -1, ..Subframe1::default() });
/// let second = Record::Subframe2(Subframe2 { head, toe: 450, ..Subframe2::default() });
///
/// let ephemeris = pair(&first, &second).unwrap();
/// assert_eq!(ephemeris.toc, 7200.0);
/// assert_eq!(ephemeris.af0, -1.0 / 2147483648.0);
/// assert_eq!(pair(&second, &first), Err(NoPair));
/// ```
pub fn pair(first: &Record, second: &Record) -> Result<Ephemeris, NoPair> {
    let paired = calls::pair(&first.numbers(), &second.numbers());
    if paired.refusal == 0 {
        Ok(paired.ephemeris)
    } else {
        Err(NoPair)
    }
}

/// Whether a record of subframe 1 or 2 is the idle pattern: alert set, and alternating bits from 0 up to bit 262, in subframe 1
/// from bit 41 and in subframe 2 from bit 31. False for every other record.
///
/// # Hazard
///
/// An idle subframe 1 or 2, unlike an idle message, comes with a valid check. [`read`](crate::read) gives it as an ordinary
/// record, with toc or toe 5555 hex, so an idle subframe 1 and an idle subframe 2 [`pair`](crate::pair) into an ephemeris that no satellite
/// meant. Leave out records for which this is true:
///
/// ```
/// use navic::{is_idle_pattern, pair, Ephemeris, Record};
///
/// fn ephemeris_of(first: &Record, second: &Record) -> Option<Ephemeris> {
///     if is_idle_pattern(first) || is_idle_pattern(second) {
///         return None;
///     }
///     pair(first, second).ok()
/// }
/// # use navic::{Head, Subframe1, Subframe2, Towc};
/// # let head = Head { towc: Towc(1), ..Head::default() };
/// # let (first, second) = (Subframe1 { head, ..Default::default() }, Subframe2 { head, ..Default::default() });
/// # assert!(ephemeris_of(&first.into(), &second.into()).is_some());
/// ```
pub fn is_idle_pattern(record: &Record) -> bool {
    calls::is_idle_pattern(&record.numbers())
}
