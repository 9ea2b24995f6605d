//! The three quantities of time. Each is a type of its own, so that one is never taken for another.

use crate::calls;
use std::fmt;

/// The count of twelve-second steps that a subframe carries, 1 to 50,400. It names the next subframe: this one began at
/// [`began_at`](Towc::began_at). A `Towc` holds any number; calls that can't take it refuse it.
#[derive(Clone, Copy, Debug, Default, PartialEq, Eq, PartialOrd, Ord, Hash)]
pub struct Towc(pub u32);

/// A second of the week, from 0.
#[derive(Clone, Copy, Debug, Default, PartialEq, Eq, PartialOrd, Ord, Hash)]
pub struct SecondOfWeek(pub u32);

/// A week number, as sent: ten bits, 0 to 1023. A `Week` holds any number; the writer refuses what doesn't fit.
#[derive(Clone, Copy, Debug, Default, PartialEq, Eq, PartialOrd, Ord, Hash)]
pub struct Week(pub u32);

impl Towc {
    /// When the subframe with this count began: second (count - 1) * 12 of the week.
    ///
    /// ```
    /// use navic::{OutsideWeek, SecondOfWeek, Towc};
    /// assert_eq!(Towc(1).began_at(), Ok(SecondOfWeek(0)));
    /// assert_eq!(Towc(24843).began_at(), Ok(SecondOfWeek(298104)));
    /// assert_eq!(Towc(50400).began_at(), Ok(SecondOfWeek(604788)));
    /// assert_eq!(Towc(50401).began_at(), Err(OutsideWeek));
    /// ```
    ///
    /// A week number or a second of the week is no count:
    ///
    /// ```compile_fail
    /// navic::Week(5).began_at();
    /// ```
    pub fn began_at(self) -> Result<SecondOfWeek, OutsideWeek> {
        let answer = calls::began_at(self.0);
        if answer.refusal == 0 {
            Ok(SecondOfWeek(answer.second))
        } else {
            Err(OutsideWeek)
        }
    }
}

impl SecondOfWeek {
    /// The count of the subframe in which this second lies: second / 12 + 1.
    ///
    /// ```
    /// use navic::{OutsideWeek, SecondOfWeek, Towc};
    /// assert_eq!(SecondOfWeek(23).count(), Ok(Towc(2)));
    /// assert_eq!(SecondOfWeek(604800).count(), Err(OutsideWeek));
    /// ```
    pub fn count(self) -> Result<Towc, OutsideWeek> {
        let answer = calls::count_in(self.0);
        if answer.refusal == 0 {
            Ok(Towc(answer.towc))
        } else {
            Err(OutsideWeek)
        }
    }
}

/// Refusal 7 of the time calls: a count outside 1 to 50,400.
#[derive(Clone, Copy, Debug, PartialEq, Eq, Hash)]
pub struct OutsideWeek;

impl OutsideWeek {
    /// The refusal's number, 7.
    pub fn number(self) -> u8 {
        7
    }
}

impl fmt::Display for OutsideWeek {
    fn fmt(&self, f: &mut fmt::Formatter) -> fmt::Result {
        f.write_str("refusal 7: the count is outside 1 to 50400")
    }
}

impl std::error::Error for OutsideWeek {}
