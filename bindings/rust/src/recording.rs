//! The walk over a recording.

use crate::calls;
use crate::sys::{RECORDING, SYMBOLS};
use std::fmt;
use std::iter::FusedIterator;

/// A window of 600 symbols with a sync at its start, as a part of the caller's recording.
#[derive(Clone, Copy, Debug, PartialEq, Eq)]
pub struct Window<'a> {
    /// Where it starts in the recording.
    pub start: usize,
    /// Its symbols.
    pub symbols: &'a [u8; SYMBOLS],
}

impl Window<'_> {
    /// Where it ends in the recording, and where the walk goes on.
    pub fn end(&self) -> usize {
        self.start + SYMBOLS
    }
}

/// Why no window was found.
#[derive(Clone, Copy, Debug, PartialEq, Eq, Hash)]
pub enum FindRefusal {
    /// 1: a recording above 65,536 symbols.
    TooLong,
    /// 4: none left.
    NoneLeft,
}

impl FindRefusal {
    /// The refusal's number.
    pub fn number(self) -> u8 {
        match self {
            FindRefusal::TooLong => 1,
            FindRefusal::NoneLeft => 4,
        }
    }
}

impl fmt::Display for FindRefusal {
    fn fmt(&self, f: &mut fmt::Formatter) -> fmt::Result {
        f.write_str(match self {
            FindRefusal::TooLong => "refusal 1: a recording above 65536 symbols",
            FindRefusal::NoneLeft => "refusal 4: no window left",
        })
    }
}

impl std::error::Error for FindRefusal {}

/// Finds the first window at or after `from`: 600 symbols remain and the first 16 are a sync, upright or turned over, with at
/// most two of them altered. The other symbols are left to the reader. A start beyond the end is a start at the end.
///
/// ```
/// use navic::{find, FindRefusal};
///
/// let mut recording = vec![0; 700];
/// recording[30..46].copy_from_slice(&[1, 1, 1, 0, 1, 0, 1, 1, 1, 0, 0, 1, 0, 0, 0, 0]); // EB90 hex
/// let window = find(&recording, 0).unwrap();
/// assert_eq!((window.start, window.end()), (30, 630));
/// assert_eq!(find(&recording, window.end()), Err(FindRefusal::NoneLeft));
/// ```
pub fn find(recording: &[u8], from: usize) -> Result<Window<'_>, FindRefusal> {
    let found = calls::find(recording, from);
    match found.number {
        0 => {
            let symbols = &recording[found.start..found.after];
            Ok(Window { start: found.start, symbols: symbols.try_into().expect("a window has 600 symbols") })
        }
        1 => Err(FindRefusal::TooLong),
        4 => Err(FindRefusal::NoneLeft),
        other => unreachable!("navic_find gave {other}"),
    }
}

/// The windows of a recording one behind the other, borrowed from it.
///
/// ```
/// use navic::{read, write, Head, Null, Record, Towc, Windows};
///
/// let mut recording = vec![0; 7];
/// for towc in [100, 101] {
///     let head = Head { towc: Towc(towc), ..Head::default() };
///     recording.extend(write(&Record::Null(Null { head, ..Null::default() })).unwrap());
///     recording.extend([0; 5]);
/// }
/// let mut counts = Vec::new();
/// for window in Windows::new(&recording).unwrap() {
///     let reading = read(window.symbols).unwrap();
///     counts.push((window.start, reading.record.head().towc));
/// }
/// assert_eq!(counts, [(7, Towc(100)), (612, Towc(101))]);
/// ```
#[derive(Clone, Debug)]
pub struct Windows<'a> {
    recording: &'a [u8],
    place: usize,
}

impl<'a> Windows<'a> {
    /// Starts at the recording's start. A recording above 65,536 symbols is refused, [`FindRefusal::TooLong`].
    pub fn new(recording: &'a [u8]) -> Result<Windows<'a>, FindRefusal> {
        if recording.len() > RECORDING {
            return Err(FindRefusal::TooLong);
        }
        Ok(Windows { recording, place: 0 })
    }

    /// Where the walk stands: at the end of the window last given, or at the recording's end once none is left.
    pub fn place(&self) -> usize {
        self.place
    }
}

impl<'a> Iterator for Windows<'a> {
    type Item = Window<'a>;

    fn next(&mut self) -> Option<Window<'a>> {
        match find(self.recording, self.place) {
            Ok(window) => {
                self.place = window.end();
                Some(window)
            }
            Err(_) => {
                self.place = self.recording.len();
                None
            }
        }
    }
}

impl FusedIterator for Windows<'_> {}
