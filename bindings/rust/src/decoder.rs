//! The decoder alone.

use crate::calls;
use crate::sys::WORD_BITS;
use std::fmt;

/// The word nearest to some coded symbols.
#[derive(Clone, Copy, Debug, PartialEq, Eq, Hash)]
pub struct Nearest {
    /// Bits 1 to 286, a byte each; the six zeros at the word's end are left out.
    pub bits: [u8; WORD_BITS],
    /// How many symbols differ from the word's coded form.
    pub corrected: u32,
}

/// Why symbols were not decoded. The first that holds, in the order 1, 3.
#[derive(Clone, Copy, Debug, PartialEq, Eq, Hash)]
pub enum NearestRefusal {
    /// 1: not 584 symbols.
    Length,
    /// 3: a symbol above 1.
    Symbol,
}

impl NearestRefusal {
    /// The refusal's number.
    pub fn number(self) -> u8 {
        match self {
            NearestRefusal::Length => 1,
            NearestRefusal::Symbol => 3,
        }
    }
}

impl fmt::Display for NearestRefusal {
    fn fmt(&self, f: &mut fmt::Formatter) -> fmt::Result {
        f.write_str(match self {
            NearestRefusal::Length => "refusal 1: not 584 coded symbols",
            NearestRefusal::Symbol => "refusal 3: a symbol above 1",
        })
    }
}

impl std::error::Error for NearestRefusal {}

/// The nearest word to 584 coded symbols, in the order of the code: the sync taken off and the interleaver undone. Among equals:
/// going back from bit 286, the one with 0 where they first part.
///
/// ```
/// use navic::nearest;
///
/// // the code of a one and zeros begins 11 10 11 11 00 01 11; one symbol is altered
/// let mut coded = [0; 584];
/// coded[..14].copy_from_slice(&[1, 1, 1, 0, 1, 1, 1, 1, 0, 0, 0, 1, 1, 1]);
/// coded[300] = 1;
/// let word = nearest(&coded).unwrap();
/// assert_eq!(word.corrected, 1);
/// assert_eq!(word.bits[0], 1);
/// assert!(word.bits[1..].iter().all(|bit| *bit == 0));
/// ```
pub fn nearest(coded: &[u8]) -> Result<Nearest, NearestRefusal> {
    let mut bits = [0; WORD_BITS];
    let answer = calls::nearest(coded, &mut bits);
    match answer.refusal {
        0 => Ok(Nearest { bits, corrected: answer.corrected }),
        1 => Err(NearestRefusal::Length),
        3 => Err(NearestRefusal::Symbol),
        other => unreachable!("navic_nearest gave {other}"),
    }
}
