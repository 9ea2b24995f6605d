//! One call through both sides: what the library answers and leaves in the lent buffers, against what the
//! plain side says. Each gives the plain side's answer, or the first difference.

use compare::chance::Chance;
use compare::numbers::{self, Numbers, COUNT};
use compare::{flat, library, plain};
use std::fmt::{Debug, Write};

/// A difference between the two sides, with all that the call was given.
#[derive(Debug)]
pub struct Difference {
    pub what: String,
    pub inputs: Vec<(&'static str, String)>,
    pub library: String,
    pub plain: String,
}

pub type Outcome<T> = Result<T, Box<Difference>>;

/// The calls that are compared.
#[derive(Clone, Copy, PartialEq, Eq)]
pub enum Call {
    Read,
    Write,
    Pair,
    Idle,
    Find,
    Nearest,
}

pub const CALLS: [(Call, &str); 6] = [
    (Call::Read, "read"),
    (Call::Write, "write"),
    (Call::Pair, "pair"),
    (Call::Idle, "is_idle_pattern"),
    (Call::Find, "find"),
    (Call::Nearest, "nearest"),
];

/// How often each call gave each number, 0 to 11 (for `is_idle_pattern` 0 is no and 1 is yes).
#[derive(Clone, Copy, Default)]
pub struct Tally {
    pub cases: u64,
    pub given: [[u64; 12]; CALLS.len()],
    /// Readings that were also compared with the slow search.
    pub slow: u64,
    /// The most corrected symbols of a done reading.
    pub most: u32,
    /// The message IDs of done readings in subframes 3 and 4, a bit each.
    pub messages: [u64; 2],
}

impl Tally {
    pub fn count(&self, call: Call) -> u64 {
        self.given[call as usize].iter().sum()
    }

    pub fn add(&mut self, other: &Tally) {
        self.cases += other.cases;
        self.slow += other.slow;
        self.most = self.most.max(other.most);
        self.messages.iter_mut().zip(other.messages).for_each(|(to, from)| *to |= from);
        for (to, from) in self.given.iter_mut().flatten().zip(other.given.iter().flatten()) {
            *to += from;
        }
    }
}

/// What one case works with: its numbers by chance, and its kind's tally.
pub struct Work<'a> {
    pub chance: Chance,
    pub tally: &'a mut Tally,
}

fn hex(bytes: &[u8]) -> String {
    bytes.iter().fold(String::new(), |mut text, byte| {
        let _ = write!(text, "{byte:02x}");
        text
    })
}

fn hexes(numbers: &[i64]) -> String {
    let each: Vec<String> = numbers.iter().map(|number| format!("{number:x}")).collect();
    format!("[{}] (two's complement of 64 bits)", each.join(" "))
}

fn same<T: PartialEq>(
    what: &str,
    (library, plain): (T, T),
    show: impl Fn(&T) -> String,
    inputs: impl FnOnce() -> Vec<(&'static str, String)>,
) -> Outcome<()> {
    if library == plain {
        return Ok(());
    }
    let (library, plain) = (show(&library), show(&plain));
    Err(Box::new(Difference { what: what.to_string(), inputs: inputs(), library, plain }))
}

fn debug<T: Debug>(it: &T) -> String {
    format!("{it:?}")
}

/// A lent buffer, filled by chance, with some more room before and behind it that no call may touch (or
/// none at all, so that a tool that watches the heap sees the first byte too far).
pub struct Lent<T> {
    whole: Vec<T>,
    before: Vec<T>,
    start: usize,
    len: usize,
}

impl<T: Copy> Lent<T> {
    fn new(chance: &mut Chance, len: usize, fill: impl Fn(u64) -> T) -> Lent<T> {
        let around = if chance.bit() == 0 { 0 } else { 16 };
        let mut whole = Vec::with_capacity(len + 2 * around);
        whole.extend((0..len + 2 * around).map(|_| fill(chance.draw())));
        Lent { before: whole.clone(), whole, start: around, len }
    }

    fn slice(&mut self) -> &mut [T] {
        &mut self.whole[self.start..self.start + self.len]
    }

    /// What it held before, with this at its start.
    fn expected(&self, put: &[T]) -> Vec<T> {
        let mut expected = self.before.clone();
        expected[self.start..self.start + put.len()].copy_from_slice(put);
        expected
    }
}

/// One in so many readings is also made with the slow search.
const SLOW: usize = 64;

impl Work<'_> {
    fn given(&mut self, call: Call, number: u32) {
        self.tally.given[call as usize][number.min(11) as usize] += 1;
    }

    /// Reads with just enough lent, or a little more.
    pub fn read(&mut self, symbols: &[u8]) -> Outcome<(plain::Reading, Numbers)> {
        let (word, numbers) = (36 + self.chance.below(3), COUNT + self.chance.below(3));
        self.read_into(symbols, word, numbers)
    }

    /// Reads into lent buffers of these lengths. What was read is written again, and asked whether it is
    /// the idle pattern.
    pub fn read_into(
        &mut self,
        symbols: &[u8],
        word_len: usize,
        numbers_len: usize,
    ) -> Outcome<(plain::Reading, Numbers)> {
        // A copy of just this length on the heap.
        let lent_symbols: Box<[u8]> = symbols.into();
        let mut word = Lent::new(&mut self.chance, word_len, |drawn| drawn as u8);
        let mut numbers = Lent::new(&mut self.chance, numbers_len, |drawn| drawn as i64);
        let line = library::read(&lent_symbols, word.slice(), numbers.slice());

        // Too few numbers lent is refused as too few bytes are.
        let room_len = if numbers_len < COUNT { 0 } else { word_len };
        let mut room = word.before[word.start..word.start + room_len].to_vec();
        let reading = plain::read_by(flat::nearest, symbols, &mut room);
        if self.chance.once_in(SLOW) {
            self.slow_too(symbols, room_len, &reading)?;
        }
        let (head, record) = match &reading.record {
            Some(record) => {
                let head = [record.subframe() as u32, record.head().towc as u32, record.message_id() as u32];
                (head, numbers::numbers_of(record, &reading.beside))
            }
            None => ([0; 3], [0; COUNT]),
        };
        let polarity = u32::from(reading.turned_over);
        let expected = [reading.refusal, reading.corrected, polarity, head[0], head[1], head[2]];
        let inputs = || {
            vec![
                ("symbols", hex(symbols)),
                ("word lent", format!("{word_len} bytes")),
                ("numbers lent", format!("{numbers_len}")),
            ]
        };
        same("the line of read", (line, expected), debug, inputs)?;
        let done = reading.refusal == 0;
        let (put_bytes, put_numbers) = if done { (&room[..36], &record[..]) } else { (&[][..], &[][..]) };
        let (word_after, numbers_after) = (word.expected(put_bytes), numbers.expected(put_numbers));
        same("the word of read, and around it", (&word.whole, &word_after), |it| hex(it), inputs)?;
        same("the numbers of read, and around them", (&numbers.whole, &numbers_after), |it| hexes(it), inputs)?;
        same("the symbols lent to read, after it", (&*lent_symbols, symbols), |it| hex(it), inputs)?;
        self.given(Call::Read, reading.refusal);
        if done {
            self.tally.most = self.tally.most.max(reading.corrected);
            if head[0] >= 3 {
                self.tally.messages[head[0] as usize - 3] |= 1 << head[2];
            }
            self.write_into(&record, 600)?;
            self.idle(&record)?;
        }
        Ok((reading, record))
    }

    /// The two searches of the plain side give the same reading.
    fn slow_too(&mut self, symbols: &[u8], room_len: usize, reading: &plain::Reading) -> Outcome<()> {
        let mut room = vec![0; room_len];
        let slow = plain::read(symbols, &mut room);
        let inputs = || vec![("symbols", hex(symbols))];
        same("the plain side's own two searches (flat, slow)", (reading, &slow), debug, inputs)?;
        self.tally.slow += 1;
        Ok(())
    }

    /// Writes numbers into a lent buffer; the symbols, if they are done.
    pub fn write_into(&mut self, given: &[i64], room_len: usize) -> Outcome<Option<[u8; 600]>> {
        let lent_numbers: Box<[i64]> = given.into();
        let mut symbols = Lent::new(&mut self.chance, room_len, |drawn| drawn as u8);
        let answer = library::write(&lent_numbers, symbols.slice());

        let inputs = || vec![("numbers", hexes(given)), ("symbols lent", format!("{room_len}"))];
        let expected = numbers::written(given, room_len);
        // Where a typed record holds these numbers, the plain writer says the same as the rule on numbers.
        if let (true, Some((record, beside))) = (given.len() == COUNT, numbers::typed(given)) {
            let by_record = plain::write(&record, &beside, &mut vec![0; room_len]);
            same("the plain side's own rule and writer", (expected, by_record), debug, inputs)?;
        }
        same("the answer of write", (answer, expected), debug, inputs)?;
        let put = if expected.0 == 0 { numbers::symbols(given) } else { None };
        same("whether the plain side writes", (expected.0 == 0, put.is_some()), debug, inputs)?;
        let after = symbols.expected(put.as_ref().map_or(&[], |it| &it[..]));
        same("the symbols of write, and around them", (&symbols.whole, &after), |it| hex(it), inputs)?;
        same("the numbers lent to write, after it", (&*lent_numbers, given), |it| hexes(it), inputs)?;
        self.given(Call::Write, expected.0);
        Ok(put)
    }

    /// Pairs two lists.
    pub fn pair(&mut self, first: &[i64], second: &[i64]) -> Outcome<u32> {
        let (lent_first, lent_second): (Box<[i64]>, Box<[i64]>) = (first.into(), second.into());
        let bits = |(refusal, ephemeris): (u32, [f64; 26])| (refusal, ephemeris.map(f64::to_bits));
        let answer = bits(library::pair(&lent_first, &lent_second));
        let expected = bits(numbers::paired(first, second));
        let inputs = || vec![("first", hexes(first)), ("second", hexes(second))];
        same("the answer of pair", (answer, expected), |it| format!("{} {:x?}", it.0, it.1), inputs)?;
        self.given(Call::Pair, expected.0);
        Ok(expected.0)
    }

    /// Asks whether numbers are the idle pattern.
    pub fn idle(&mut self, given: &[i64]) -> Outcome<bool> {
        let lent: Box<[i64]> = given.into();
        let (answer, expected) = (library::is_idle_pattern(&lent), numbers::idle(given));
        let inputs = || vec![("numbers", hexes(given))];
        same("the answer of is_idle_pattern", (answer, expected), debug, inputs)?;
        self.given(Call::Idle, u32::from(expected));
        Ok(expected)
    }

    /// Looks for a window.
    pub fn find(&mut self, recording: &[u8], from: usize) -> Outcome<(u32, usize, usize)> {
        let answer = library::find(recording, from);
        let (number, start, end, after) = plain::find(recording, from);
        let inputs = || vec![("recording", hex(recording)), ("from", format!("{from}"))];
        same("the plain side's own end and place", (end, after), debug, inputs)?;
        same("the answer of find", (answer, (number, start, after)), debug, inputs)?;
        self.given(Call::Find, number);
        Ok((number, start, after))
    }

    /// The decoder alone.
    pub fn nearest(&mut self, coded: &[u8], room_len: usize) -> Outcome<()> {
        let lent_coded: Box<[u8]> = coded.into();
        let mut word = Lent::new(&mut self.chance, room_len, |drawn| drawn as u8);
        let answer = library::nearest(&lent_coded, word.slice());

        let inputs = || vec![("coded", hex(coded)), ("word lent", format!("{room_len} bytes"))];
        let refusal = match (coded.len(), room_len, coded.iter().any(|&symbol| symbol > 1)) {
            (584, 286.., false) => 0,
            (584, 286.., true) => 3,
            (584, _, _) => 2,
            (_, _, _) => 1,
        };
        let found = if refusal == 0 { flat::nearest(coded) } else { None };
        if refusal == 0 && self.chance.once_in(SLOW) {
            let slow = plain::nearest(coded);
            same("the plain side's own two searches (flat, slow)", (&found, &slow), debug, inputs)?;
            self.tally.slow += 1;
        }
        let corrected = found.as_ref().map_or(0, |it| it.differing);
        same("the answer of nearest", (answer, (refusal, corrected)), debug, inputs)?;
        let after = word.expected(found.as_ref().map_or(&[], |it| &it.bits[..286]));
        same("the word of nearest, and around it", (&word.whole, &after), |it| hex(it), inputs)?;
        same("the symbols lent to nearest, after it", (&*lent_coded, coded), |it| hex(it), inputs)?;
        self.given(Call::Nearest, refusal);
        Ok(())
    }

    /// Something that has to be so by document 01, whatever the two sides say.
    pub fn must(
        &self,
        holds: bool,
        what: &str,
        inputs: impl FnOnce() -> Vec<(&'static str, String)>,
    ) -> Outcome<()> {
        same(what, (holds, true), debug, inputs)
    }
}

/// Symbols and numbers as they are printed.
pub fn shown(symbols: &[u8], numbers: &[i64]) -> Vec<(&'static str, String)> {
    vec![("symbols", hex(symbols)), ("numbers", hexes(numbers))]
}
