//! Reading and writing a subframe.

use crate::calls;
use crate::record::Record;
use crate::sys::{Line, NUMBERS, SYMBOLS, WORD_BYTES};
use std::fmt;

/// How well a subframe came.
#[derive(Clone, Copy, Debug, PartialEq, Eq, Hash)]
pub struct Quality {
    /// How many of the 584 coded symbols differ from the word that was taken. The sync symbols aren't in it.
    pub corrected: u32,
    /// Whether all symbols came inverted.
    pub turned_over: bool,
}

/// A subframe that was read.
#[derive(Clone, Copy, Debug, PartialEq, Eq, Hash)]
pub struct Reading {
    /// The record.
    pub record: Record,
    /// Corrected count and polarity.
    pub quality: Quality,
    /// Bits 1 to 286 of the word, the check among them, most significant first; the two lowest bits of the last byte are 0.
    pub word: [u8; WORD_BYTES],
}

/// Why a subframe was not read. The first that holds, in the order 1, 3, 4, 10, then 5 or 6, then 7.
#[derive(Clone, Copy, Debug, PartialEq, Eq, Hash)]
pub enum ReadRefusal {
    /// 1: not 600 symbols.
    Length,
    /// 3: a symbol above 1.
    Symbol,
    /// 4: no sync.
    NoSync,
    /// 10: no word ends in six zeros. It is proved that this never comes.
    NoWord,
    /// 5: an idle subframe, whose check a satellite spoils on purpose. It is no error.
    Idle(Quality),
    /// 6: the check disagrees, and it is not idle.
    BadCheck(Quality),
    /// 7: TOWC outside 1 to 50,400.
    Time(Quality),
}

impl ReadRefusal {
    /// The refusal's number.
    pub fn number(self) -> u8 {
        match self {
            ReadRefusal::Length => 1,
            ReadRefusal::Symbol => 3,
            ReadRefusal::NoSync => 4,
            ReadRefusal::Idle(_) => 5,
            ReadRefusal::BadCheck(_) => 6,
            ReadRefusal::Time(_) => 7,
            ReadRefusal::NoWord => 10,
        }
    }

    /// Corrected count and polarity, which stand beside 5, 6 and 7.
    pub fn quality(self) -> Option<Quality> {
        match self {
            ReadRefusal::Idle(quality) | ReadRefusal::BadCheck(quality) | ReadRefusal::Time(quality) => Some(quality),
            ReadRefusal::Length | ReadRefusal::Symbol | ReadRefusal::NoSync | ReadRefusal::NoWord => None,
        }
    }

    fn of(line: Line, quality: Quality) -> ReadRefusal {
        match line.refusal {
            1 => ReadRefusal::Length,
            3 => ReadRefusal::Symbol,
            4 => ReadRefusal::NoSync,
            5 => ReadRefusal::Idle(quality),
            6 => ReadRefusal::BadCheck(quality),
            7 => ReadRefusal::Time(quality),
            10 => ReadRefusal::NoWord,
            other => unreachable!("navic_read gave {other}"),
        }
    }
}

impl fmt::Display for ReadRefusal {
    fn fmt(&self, f: &mut fmt::Formatter) -> fmt::Result {
        let why = match self {
            ReadRefusal::Length => "not 600 symbols",
            ReadRefusal::Symbol => "a symbol above 1",
            ReadRefusal::NoSync => "no sync",
            ReadRefusal::Idle(_) => "an idle subframe",
            ReadRefusal::BadCheck(_) => "the check disagrees",
            ReadRefusal::Time(_) => "TOWC outside 1 to 50400",
            ReadRefusal::NoWord => "no word ends in six zeros",
        };
        write!(f, "refusal {}: {why}", self.number())
    }
}

impl std::error::Error for ReadRefusal {}

/// Reads one subframe: 600 symbols of value 0 or 1, in order of arrival, upright or turned over.
///
/// The word taken is the nearest to what came. Up to four altered coded symbols, any four, and up to two altered sync symbols
/// always give the record that was sent and the exact number of altered coded symbols.
///
/// ```
/// use navic::{read, write, Head, Quality, ReadRefusal, Record, Subframe2, Towc};
///
/// let head = Head { towc: Towc(10522), ..Head::default() };
/// let record = Record::Subframe2(Subframe2 { head, toe: 450, i0: -7, ..Subframe2::default() });
/// let mut symbols = write(&record).unwrap();
/// symbols[200] ^= 1;
/// symbols[400] ^= 1;
///
/// let reading = read(&symbols).unwrap();
/// assert_eq!(reading.record, record);
/// assert_eq!(reading.quality, Quality { corrected: 2, turned_over: false });
///
/// assert_eq!(read(&symbols[1..]), Err(ReadRefusal::Length));
/// assert_eq!(read(&[0; 600]), Err(ReadRefusal::NoSync));
/// ```
pub fn read(symbols: &[u8]) -> Result<Reading, ReadRefusal> {
    let mut word = [0; WORD_BYTES];
    let mut numbers = [0; NUMBERS];
    let line = calls::read(symbols, &mut word, &mut numbers);
    let quality = Quality { corrected: line.corrected, turned_over: line.polarity == 1 };
    if line.refusal == 0 {
        Ok(Reading { record: Record::of_numbers(&numbers), quality, word })
    } else {
        Err(ReadRefusal::of(line, quality))
    }
}

/// Why a record was not written. The first that holds, in the order 9, 7, 8.
#[derive(Clone, Copy, Debug, PartialEq, Eq, Hash)]
pub enum WriteRefusal {
    /// 9: an unread message with the ID of another case (0, 5, 7, 9, 11 or 26) or one above 63.
    Id,
    /// 7: TOWC outside 1 to 50,400.
    Time,
    /// 8: a number outside its field, or an unused bit of the data not 0.
    Field {
        /// The first bit of the lowest field that doesn't hold its number; 293 where only an unused bit is wrong.
        first_bit: u32,
    },
}

impl WriteRefusal {
    /// The refusal's number.
    pub fn number(self) -> u8 {
        match self {
            WriteRefusal::Time => 7,
            WriteRefusal::Field { .. } => 8,
            WriteRefusal::Id => 9,
        }
    }
}

impl fmt::Display for WriteRefusal {
    fn fmt(&self, f: &mut fmt::Formatter) -> fmt::Result {
        match self {
            WriteRefusal::Time => f.write_str("refusal 7: TOWC outside 1 to 50400"),
            WriteRefusal::Field { first_bit: UNUSED } => f.write_str("refusal 8: an unused bit is not 0"),
            WriteRefusal::Field { first_bit } => write!(f, "refusal 8: the field at bit {first_bit} does not hold its number"),
            WriteRefusal::Id => f.write_str("refusal 9: an unread message with the ID of another case or above 63"),
        }
    }
}

impl std::error::Error for WriteRefusal {}

/// What stands for a first bit where only an unused bit is wrong.
const UNUSED: u32 = 293;

/// Writes a record as 600 upright symbols. What was written is read back equal.
///
/// ```
/// use navic::{read, write, Head, Null, Record, Slot, Towc, WriteRefusal};
///
/// let head = Head { tlm: 139, towc: Towc(1), ..Head::default() };
/// let mut null = Null { head, slot: Slot::Subframe4, data: [0x55; 28], prn: 3 };
/// null.data[27] = 0x50; // the low four bits are unused
/// let symbols = write(&Record::Null(null)).unwrap();
/// assert_eq!(read(&symbols).unwrap().record, Record::Null(null));
///
/// null.prn = 64; // six bits, 257 to 262
/// assert_eq!(write(&Record::Null(null)), Err(WriteRefusal::Field { first_bit: 257 }));
/// null.head.towc = Towc(0);
/// assert_eq!(write(&Record::Null(null)), Err(WriteRefusal::Time));
/// ```
pub fn write(record: &Record) -> Result<[u8; SYMBOLS], WriteRefusal> {
    // An unread record with the ID of another case has the numbers of that case, so the library can't tell it.
    if let Record::Unread(unread) = record {
        if matches!(unread.id, 0 | 5 | 7 | 9 | 11 | 26 | 64..) {
            return Err(WriteRefusal::Id);
        }
    }
    let mut symbols = [0; SYMBOLS];
    let written = calls::write(&record.numbers(), &mut symbols);
    match written.refusal {
        // The unused bits are not among the numbers either; 293 comes after every field.
        0 if record.data().is_some_and(|data| data[data.len() - 1] & 0x0F != 0) => Err(WriteRefusal::Field { first_bit: UNUSED }),
        0 => Ok(symbols),
        7 => Err(WriteRefusal::Time),
        8 => Err(WriteRefusal::Field { first_bit: written.first_bit }),
        other => unreachable!("navic_write gave {other}"),
    }
}
