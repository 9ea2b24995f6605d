//! The kinds of cases. Each case draws all it needs from its own numbers by chance.

use crate::sides::{shown, Outcome, Work};
use compare::chance::Chance;
use compare::numbers::{self, Numbers, COUNT, ID_AT, MESSAGE_AT, TOWC_AT};
use compare::plain::{self, Case, Row, Word, BODY_BITS, CASES, SYNC_SYMBOLS};

type Symbols = [u8; 600];

/// A kind of case: its name, how often it comes, and what it does.
pub struct Kind {
    pub name: &'static str,
    pub weight: usize,
    pub run: fn(&mut Work) -> Outcome<()>,
}

pub const KINDS: [Kind; 18] = [
    Kind { name: "records", weight: 200, run: records },
    Kind { name: "damaged", weight: 250, run: damaged },
    Kind { name: "bursts", weight: 60, run: bursts },
    Kind { name: "ties", weight: 60, run: ties },
    Kind { name: "above-1", weight: 30, run: above_one },
    Kind { name: "lengths", weight: 30, run: lengths },
    Kind { name: "spoiled", weight: 40, run: spoiled },
    Kind { name: "idle-words", weight: 70, run: idle_words },
    Kind { name: "towc", weight: 30, run: towc },
    Kind { name: "any-word", weight: 70, run: any_word },
    Kind { name: "noise", weight: 50, run: noise },
    Kind { name: "outside", weight: 100, run: outside },
    Kind { name: "pairs", weight: 40, run: pairs },
    Kind { name: "pairs-outside", weight: 20, run: pairs_outside },
    Kind { name: "idle-pattern", weight: 20, run: idle_pattern },
    Kind { name: "idle-outside", weight: 10, run: idle_outside },
    Kind { name: "nearest", weight: 60, run: nearest },
    Kind { name: "recordings", weight: 5, run: recordings },
];

/// The kind of a case, by its weight.
pub fn kind_of(chance: &mut Chance) -> usize {
    let all = KINDS.iter().map(|kind| kind.weight).sum();
    let mut left = chance.below(all);
    for (index, kind) in KINDS.iter().enumerate() {
        if left < kind.weight {
            return index;
        }
        left -= kind.weight;
    }
    0
}

// ---- records by chance

/// The two's complement bits of a number of a row turned into the number.
fn from_pattern(row: &Row, pattern: u64) -> i64 {
    let pattern = (pattern & ((1u64 << row.width) - 1)) as i64;
    let negative = row.signed && pattern >> (row.width - 1) == 1;
    if negative {
        pattern - (1i64 << row.width)
    } else {
        pattern
    }
}

/// A number that its field holds.
fn inside(chance: &mut Chance, row: &Row, edges: bool) -> i64 {
    let (least, most) = numbers::bounds(row);
    let (least, most) = if row.name == "towc" { (1, 50_400) } else { (least, most) };
    let edge = [0, 1, -1, least, least + 1, most, most - 1, (most - least) / 3 + least];
    let number = if edges { chance.of(&edge) } else { from_pattern(row, chance.draw()) };
    if least <= number && number <= most {
        number
    } else {
        chance.between(least, most)
    }
}

/// A record of a case, every number within its field.
fn record_of(chance: &mut Chance, case: Case) -> Numbers {
    let mut record = [0; COUNT];
    // All at edges, none, or some.
    let edges = chance.below(3);
    for (number, row) in record.iter_mut().zip(numbers::rows(case)) {
        let edge = edges == 0 || (edges == 1 && chance.bit() == 0);
        *number = inside(chance, row, edge);
    }
    record[ID_AT] = match case {
        Case::Subframe1 => 0,
        Case::Subframe2 => 1,
        _ => 2 + i64::from(chance.bit()),
    };
    match case {
        Case::Subframe1 | Case::Subframe2 => {}
        Case::Null => record[MESSAGE_AT] = 0,
        Case::Type5 => record[MESSAGE_AT] = 5,
        Case::Type7 => record[MESSAGE_AT] = 7,
        Case::Type9 => record[MESSAGE_AT] = 9,
        Case::Type11 => record[MESSAGE_AT] = 11,
        Case::Type26 => record[MESSAGE_AT] = 26,
        Case::Unread => loop {
            record[MESSAGE_AT] = chance.between(1, 63);
            if ![5, 7, 9, 11, 26].contains(&record[MESSAGE_AT]) {
                break;
            }
        },
    }
    record
}

fn record(chance: &mut Chance) -> Numbers {
    let case = chance.of(&CASES);
    record_of(chance, case)
}

/// A number that no field of this width holds: just outside, far outside, or right again once its high
/// bits are cut off, as a narrower type would.
fn outside_of(chance: &mut Chance, row: &Row) -> i64 {
    let (least, most) = numbers::bounds(row);
    let inside = inside(chance, row, false);
    loop {
        let number = match chance.below(12) {
            0 | 1 => most.saturating_add(1),
            2 | 3 => least.saturating_sub(1),
            4 => i64::MAX,
            5 => i64::MIN,
            6 => i64::from(chance.of(&[i32::MIN, i32::MAX])),
            7 => inside.wrapping_add(1i64 << chance.of(&[8, 16, 31, 32, 33, 48, 62, 63])),
            8 => inside.wrapping_sub(1i64 << chance.of(&[8, 16, 31, 32, 33, 48, 62, 63])),
            9 => inside.wrapping_add(1i64 << chance.below(64)),
            10 => !inside,
            _ => chance.draw() as i64,
        };
        if number < least || most < number {
            return number;
        }
    }
}

/// Some numbers of a record put outside their fields, or a number behind the layout's rows set.
fn put_outside(chance: &mut Chance, record: &mut Numbers) {
    let case = numbers::case_of(record[ID_AT], record[MESSAGE_AT]);
    let rows = numbers::rows(case);
    for _ in 0..1 + chance.below(3) {
        match chance.below(8) {
            0 => record[TOWC_AT] = bad_towc(chance),
            1 => record[ID_AT] = chance.of(&[-1, 4, 5, i64::MAX, i64::MIN, 1 << 32, (1 << 32) + 2, 256, 258]),
            2 => record[MESSAGE_AT] = chance.of(&[64, 65, -1, 255, 256, 261, 1 << 32, (1 << 32) + 5, i64::MIN, i64::MAX]),
            3 if rows.len() < COUNT => {
                let any = rows.len() + chance.below(COUNT - rows.len());
                let place = chance.of(&[rows.len(), COUNT - 1, any]);
                record[place] = chance.of(&[1, -1, i64::MIN, i64::MAX, 1 << 32]);
            }
            _ => {
                let place = chance.below(rows.len());
                record[place] = outside_of(chance, &rows[place]);
            }
        }
    }
}

fn bad_towc(chance: &mut Chance) -> i64 {
    match chance.below(6) {
        0 => 0,
        1 => 50_401,
        2 => chance.of(&[131_071, 131_072, -1, i64::MIN, i64::MAX]),
        3 => (1 << 32) + chance.between(1, 50_400),
        4 => chance.between(50_401, 131_071),
        _ => chance.between(1, 50_400) - (1 << 17),
    }
}

/// A list that is not 42 long, as a rule.
fn other_length(chance: &mut Chance, record: &Numbers) -> Vec<i64> {
    let length = match chance.below(4) {
        0 => 0,
        1 => 41,
        2 => 43,
        _ => chance.below(100),
    };
    let mut list = record.to_vec();
    list.resize(length, 0);
    list
}

// ---- words and symbols

/// A word with the right check of its first 262 bits.
fn with_check(mut word: Word) -> Word {
    let check = plain::check(&word[..BODY_BITS]);
    for k in 0..24 {
        word[BODY_BITS + k] = ((check >> (23 - k)) & 1) as u8;
    }
    word[286..].fill(0);
    word
}

/// A word of a record by chance.
fn word_of(numbers: &Numbers) -> Option<Word> {
    let (record, beside) = numbers::typed(numbers)?;
    Some(plain::word_of(&record, &beside))
}

/// Puts a number's lowest bits at places counted from 1.
fn put(word: &mut Word, first: usize, width: usize, number: u64) {
    for k in 0..width {
        word[first - 1 + k] = ((number >> (width - 1 - k)) & 1) as u8;
    }
}

/// 262 bits by chance, as a rule with a TOWC that is taken.
fn random_word(chance: &mut Chance) -> Word {
    let mut word = [0; 292];
    word[..BODY_BITS].copy_from_slice(&chance.bits(BODY_BITS));
    if !chance.once_in(4) {
        let towc = chance.between(1, 50_400) as u64;
        put(&mut word, 9, 17, towc);
    }
    word
}

/// What was done to a subframe's symbols.
#[derive(Clone, Copy, Default)]
struct Damage {
    coded: usize,
    sync: usize,
    turned: bool,
}

/// Flips coded symbols in different places.
fn flip(chance: &mut Chance, symbols: &mut Symbols, count: usize) {
    for place in chance.different(count, 584) {
        symbols[SYNC_SYMBOLS + place] ^= 1;
    }
}

/// Flips sync symbols and turns all over, by chance.
fn sync_and_turn(chance: &mut Chance, symbols: &mut Symbols) -> (usize, bool) {
    let sync = match chance.below(8) {
        0 => 1,
        1 => 2,
        2 => chance.below(6),
        3 => chance.of(&[3, 4, 5, 11, 12, 13, 14, 15, 16]),
        _ => 0,
    };
    for place in chance.different(sync, SYNC_SYMBOLS) {
        symbols[place] ^= 1;
    }
    let turned = chance.bit() == 1;
    if turned {
        symbols.iter_mut().for_each(|symbol| *symbol ^= 1);
    }
    (sync, turned)
}

fn damage(chance: &mut Chance, symbols: &mut Symbols, most: usize) -> Damage {
    let coded = chance.below(most + 1);
    flip(chance, symbols, coded);
    let (sync, turned) = sync_and_turn(chance, symbols);
    Damage { coded, sync, turned }
}

/// The symbols that the plain side writes for a record without a fault.
fn symbols_of(work: &mut Work, record: &Numbers) -> Outcome<Symbols> {
    let written = work.write_into(record, 600)?;
    work.must(written.is_some(), "a record without a fault is written", || shown(&[], record))?;
    Ok(written.unwrap_or([0; 600]))
}

// ---- the kinds

/// A record is written and read back.
fn records(work: &mut Work) -> Outcome<()> {
    let record = record(&mut work.chance);
    let room = 600 + work.chance.below(3);
    let written = work.write_into(&record, room)?;
    work.must(written.is_some(), "a record without a fault is written", || shown(&[], &record))?;
    let Some(symbols) = written else { return Ok(()) };
    let (reading, read) = work.read(&symbols)?;
    let plainly = reading.refusal == 0 && reading.corrected == 0 && !reading.turned_over;
    work.must(plainly && read == record, "what is written is read back", || shown(&symbols, &record))
}

/// Up to 60 errors anywhere, errors in the sync, turned over or not.
fn damaged(work: &mut Work) -> Outcome<()> {
    let record = record(&mut work.chance);
    let mut symbols = symbols_of(work, &record)?;
    let most = work.chance.of(&[4, 12, 60]);
    let done = damage(&mut work.chance, &mut symbols, most);
    read_damaged(work, &record, &symbols, done)
}

/// Reads it; where the damage is small the record has to come back.
fn read_damaged(work: &mut Work, record: &Numbers, symbols: &Symbols, done: Damage) -> Outcome<()> {
    let (reading, read) = work.read(symbols)?;
    if done.coded <= 4 && done.sync <= 2 {
        let right = reading.refusal == 0
            && reading.corrected as usize == done.coded
            && reading.turned_over == done.turned
            && read == *record;
        return work.must(right, "up to four errors are corrected", || shown(symbols, record));
    }
    Ok(())
}

/// Bursts, in the order on the air or in the order of coding.
fn bursts(work: &mut Work) -> Outcome<()> {
    let record = record(&mut work.chance);
    let mut symbols = symbols_of(work, &record)?;
    let chance = &mut work.chance;
    for _ in 0..1 + chance.below(3) {
        let (length, in_air, all) = (1 + chance.below(40), chance.bit() == 0, chance.bit() == 0);
        let start = chance.below(584);
        for place in start..(start + length).min(584) {
            let place = if in_air { place } else { plain::travels_at(place) };
            symbols[SYNC_SYMBOLS + place] ^= if all { 1 } else { chance.bit() };
        }
    }
    sync_and_turn(chance, &mut symbols);
    work.read(&symbols)?;
    Ok(())
}

/// Halfway between two words that differ in ten coded symbols, in one place or more, perhaps with errors.
fn ties(work: &mut Work) -> Outcome<()> {
    let chance = &mut work.chance;
    let numbers = record(chance);
    let mut word = word_of(&numbers).unwrap_or([0; 292]);
    if chance.bit() == 0 {
        word = with_check(random_word(chance));
    }
    let mut symbols = plain::symbols_of(&word);
    for _ in 0..1 + chance.below(3) {
        let mut other = word;
        let place = chance.below(286);
        other[place] ^= 1;
        if chance.once_in(4) {
            other[chance.below(286)] ^= 1;
        }
        halfway(chance, &mut symbols, &plain::symbols_of(&word), &plain::symbols_of(&other));
    }
    if chance.once_in(4) {
        let count = chance.below(8);
        flip(chance, &mut symbols, count);
    }
    sync_and_turn(chance, &mut symbols);
    work.read(&symbols)?;
    Ok(())
}

/// Flips half of the places where two words' symbols differ.
fn halfway(chance: &mut Chance, symbols: &mut [u8], one: &[u8], other: &[u8]) {
    let places: Vec<usize> = (0..one.len()).filter(|&i| one[i] != other[i]).collect();
    for k in chance.different(places.len() / 2, places.len()) {
        symbols[places[k]] ^= 1;
    }
}

/// Symbols above 1, also beside other faults.
fn above_one(work: &mut Work) -> Outcome<()> {
    let record = record(&mut work.chance);
    let mut symbols = symbols_of(work, &record)?;
    damage(&mut work.chance, &mut symbols, 8);
    let chance = &mut work.chance;
    for _ in 0..1 + chance.below(3) {
        let place = match chance.below(4) {
            0 => chance.below(16),
            1 => chance.of(&[0, 15, 16, 599]),
            _ => chance.below(600),
        };
        let any = chance.between(2, 255) as u8;
        symbols[place] = chance.of(&[2, 3, 48, 49, 128, 129, 254, 255, any]);
    }
    let (word, numbers) = (chance.of(&[35, 36, 36, 40]), chance.of(&[41, 42, 42, 50]));
    let length = chance.of(&[599, 600, 600, 600, 600, 600, 600, 600]);
    work.read_into(&symbols[..length], word, numbers)?;
    Ok(())
}

/// Wrong lengths, too little lent.
fn lengths(work: &mut Work) -> Outcome<()> {
    let record = record(&mut work.chance);
    let symbols = symbols_of(work, &record)?;
    let chance = &mut work.chance;
    let length = match chance.below(6) {
        0 => chance.of(&[0, 1, 15, 16, 598, 599, 601, 602, 1200]),
        1 => chance.below(1300),
        _ => 600,
    };
    let mut list: Vec<u8> = symbols.to_vec();
    list.resize(length, 0);
    let word = [0, 35, 36, 37, chance.below(36), 36 + chance.below(100)];
    let numbers = [0, 41, 42, 43, chance.below(42), 42 + chance.below(100)];
    let (word, numbers) = (chance.of(&word), chance.of(&numbers));
    work.read_into(&list, word, numbers)?;
    let room = work.chance.of(&[0, 1, 599, 600, 601, 1000]);
    work.write_into(&record, room)?;
    Ok(())
}

/// Words whose check disagrees.
fn spoiled(work: &mut Work) -> Outcome<()> {
    let numbers = record(&mut work.chance);
    let Some(mut word) = word_of(&numbers) else { return Ok(()) };
    spoil(&mut work.chance, &mut word);
    let mut symbols = plain::symbols_of(&word);
    let done = damage(&mut work.chance, &mut symbols, 12);
    let (reading, _) = work.read(&symbols)?;
    if done.coded <= 4 && done.sync <= 2 {
        let right = [5, 6].contains(&reading.refusal) && reading.corrected as usize == done.coded;
        return work.must(right, "a spoiled check is refused", || shown(&symbols, &numbers));
    }
    Ok(())
}

/// One bit of the check wrong, some, or all.
fn spoil(chance: &mut Chance, word: &mut Word) {
    match chance.below(3) {
        0 => word[BODY_BITS + chance.below(24)] ^= 1,
        1 => word[BODY_BITS..286].iter_mut().for_each(|bit| *bit ^= 1),
        _ => {
            let count = 1 + chance.below(24);
            for place in chance.different(count, 24) {
                word[BODY_BITS + place] ^= 1;
            }
        }
    }
}

/// Idle words of all four subframes, and such as are nearly idle; check spoiled or not.
fn idle_words(work: &mut Work) -> Outcome<()> {
    let chance = &mut work.chance;
    let mut word = random_word(chance);
    let id = chance.of(&[0, 1, 2, 2, 2, 3, 3, 3]);
    put(&mut word, 28, 2, id);
    put(&mut word, 26, 1, u64::from(chance.once_in(3) || (id < 2 && chance.bit() == 0)));
    if chance.bit() == 0 {
        put(&mut word, 31, 6, chance.of(&[0, 0, 5, 7, 9, 11, 14, 18, 26, 63]));
    }
    let (first, last) = match id {
        0 => (41, 262),
        1 => (31, 262),
        _ => (37, 256),
    };
    let begins = u8::from(chance.once_in(10));
    for place in first..=last {
        word[place - 1] = ((place - first) % 2) as u8 ^ begins;
    }
    if chance.once_in(4) {
        // One bit is not the pattern's; or one outside of it, which doesn't matter.
        let places = [first, last, first - 1, (last + 1).min(262), first + chance.below(last - first)];
        word[chance.of(&places) - 1] ^= 1;
    }
    word = with_check(word);
    let is_spoiled = !chance.once_in(4);
    if is_spoiled {
        spoil(chance, &mut word);
    }
    let mut symbols = plain::symbols_of(&word);
    let most = chance.of(&[0, 4, 20]);
    damage(chance, &mut symbols, most);
    work.read(&symbols)?;
    Ok(())
}

/// A right check, and a TOWC of 0 or above 50,400.
fn towc(work: &mut Work) -> Outcome<()> {
    let chance = &mut work.chance;
    let mut word = random_word(chance);
    let near = chance.between(49_400, 51_400) as u64;
    let count = chance.of(&[0, 1, 50_400, 50_401, 131_071, near]);
    put(&mut word, 9, 17, count);
    let word = with_check(word);
    let mut symbols = plain::symbols_of(&word);
    let done = damage(chance, &mut symbols, 4);
    let (reading, _) = work.read(&symbols)?;
    if done.sync <= 2 {
        let right = if (1..=50_400).contains(&count) { 0 } else { 7 };
        let right = reading.refusal == right && reading.corrected as usize == done.coded;
        return work.must(right, "TOWC outside 1 to 50,400 is refused", || shown(&symbols, &[count as i64]));
    }
    Ok(())
}

/// Any 262 bits with the right check, of every subframe and message ID.
fn any_word(work: &mut Work) -> Outcome<()> {
    let chance = &mut work.chance;
    let mut symbols = plain::symbols_of(&with_check(random_word(chance)));
    let most = chance.of(&[0, 0, 10, 40]);
    damage(chance, &mut symbols, most);
    work.read(&symbols)?;
    Ok(())
}

/// 600 symbols by chance, with or without a sync.
fn noise(work: &mut Work) -> Outcome<()> {
    let chance = &mut work.chance;
    let mut symbols: Symbols = [0; 600];
    symbols.copy_from_slice(&chance.bits(600));
    match chance.below(8) {
        0 => symbols[16..].fill(chance.bit()),
        1 => symbols.fill(chance.bit()),
        _ => {}
    }
    if !chance.once_in(4) {
        symbols[..16].copy_from_slice(&plain::SYNC);
        let flips = chance.below(6);
        for place in chance.different(flips, 16) {
            symbols[place] ^= 1;
        }
        if chance.bit() == 1 {
            symbols[..16].iter_mut().for_each(|symbol| *symbol ^= 1);
        }
    }
    work.read(&symbols)?;
    Ok(())
}

/// Numbers outside their fields, and lists that are no record, to the writer.
fn outside(work: &mut Work) -> Outcome<()> {
    let chance = &mut work.chance;
    let mut record = record(chance);
    put_outside(chance, &mut record);
    if chance.once_in(50) {
        record.iter_mut().for_each(|number| *number = chance.draw() as i64);
    }
    let list = if chance.once_in(12) { other_length(chance, &record) } else { record.to_vec() };
    let room = if chance.once_in(12) { chance.below(600) } else { 600 + chance.below(3) };
    let written = work.write_into(&list, room)?;
    work.must(written.is_none() || list.len() == COUNT, "another length is refused", || shown(&[], &list))
}

/// Subframes 1 and 2 of one time, and others that don't pair.
fn pairs(work: &mut Work) -> Outcome<()> {
    let chance = &mut work.chance;
    let (mut first, mut second) = (record_of(chance, Case::Subframe1), record_of(chance, Case::Subframe2));
    if chance.once_in(10) {
        (first, second) = (pattern(chance, 0), pattern(chance, 1));
    }
    const TOC: usize = 11;
    const TOE: usize = 7;
    second[TOE] = first[TOC];
    let variant = chance.below(12);
    match variant {
        0 => second[TOE] = chance.between(0, 65_535),
        1 => second[TOE] = (first[TOC] ^ (1 << chance.below(16))) & 65_535,
        2 => (first, second) = (second, first),
        3 => first = record(chance),
        4 => second = record(chance),
        5 => second = first,
        6 => first = second,
        _ => {}
    }
    let refusal = work.pair(&first, &second)?;
    work.must(variant < 7 || refusal == 0, "a sound pair pairs", || shown(&[], &[first, second].concat()))
}

/// The same with numbers outside their fields, TOWC outside 1 to 50,400, or lists that are no record.
fn pairs_outside(work: &mut Work) -> Outcome<()> {
    let chance = &mut work.chance;
    let (mut first, mut second) = (record_of(chance, Case::Subframe1), record_of(chance, Case::Subframe2));
    second[7] = first[11];
    let (mut list1, mut list2) = (first.to_vec(), second.to_vec());
    for _ in 0..1 + chance.below(2) {
        let which = chance.bit() == 0;
        let (record, list) = if which { (&mut first, &mut list1) } else { (&mut second, &mut list2) };
        match chance.below(8) {
            0 => *list = other_length(chance, record),
            1 => {
                record[TOWC_AT] = chance.of(&[0, 50_401, 131_071]);
                *list = record.to_vec();
            }
            2 => {
                // toc and toe the same, both outside.
                let number = chance.of(&[65_536, -1, 1 << 32, i64::MIN, 65_536 + first[11]]);
                first[11] = number;
                second[7] = number;
                (list1, list2) = (first.to_vec(), second.to_vec());
            }
            _ => {
                put_outside(chance, record);
                *list = record.to_vec();
            }
        }
    }
    work.pair(&list1, &list2)?;
    Ok(())
}

/// The idle pattern of subframe 1 or 2 as numbers.
fn pattern(chance: &mut Chance, id: i64) -> Numbers {
    let (case, from) = if id == 0 { (Case::Subframe1, 41) } else { (Case::Subframe2, 31) };
    let mut record = record_of(chance, case);
    record[2] = 1;
    for (number, row) in record.iter_mut().zip(numbers::rows(case)) {
        if row.first >= from {
            let places = row.first..=row.last();
            *number = from_pattern(row, places.fold(0, |sum, place| sum * 2 + ((place - from) % 2) as u64));
        }
    }
    record
}

/// The idle pattern of subframes 1 and 2, and records that are nearly it.
fn idle_pattern(work: &mut Work) -> Outcome<()> {
    let chance = &mut work.chance;
    let id = i64::from(chance.bit());
    let mut numbers = pattern(chance, id);
    let rows = numbers::rows(numbers::case_of(id, 0));
    let variant = chance.below(8);
    match variant {
        0 => numbers[2] = 0,
        1 => {
            let place = chance.below(rows.len());
            numbers[place] = inside(chance, &rows[place], true);
        }
        2 => {
            let place = 6 + chance.below(rows.len() - 6);
            let changed = numbers[place] ^ (1 << chance.below(rows[place].width - usize::from(rows[place].signed)));
            numbers[place] = changed;
        }
        3 => numbers[TOWC_AT] = chance.of(&[0, 50_401, 131_071]),
        4 => numbers = record(chance),
        _ => {}
    }
    numbers[ID_AT] = if variant == 4 { numbers[ID_AT] } else { id };
    let idle = work.idle(&numbers)?;
    work.must(variant < 5 || idle, "the idle pattern is told", || shown(&[], &numbers))
}

/// The same with a number outside its field or behind the layout's, or a list that is no record.
fn idle_outside(work: &mut Work) -> Outcome<()> {
    let chance = &mut work.chance;
    let id = i64::from(chance.bit());
    let mut numbers = pattern(chance, id);
    if chance.once_in(4) {
        let list = other_length(chance, &numbers);
        work.idle(&list)?;
        return Ok(());
    }
    put_outside(chance, &mut numbers);
    work.idle(&numbers)?;
    Ok(())
}

/// The decoder alone.
fn nearest(work: &mut Work) -> Outcome<()> {
    let chance = &mut work.chance;
    let word: Vec<u8> = [chance.bits(286), vec![0; 6]].concat();
    let mut coded = plain::encode(&word);
    match chance.below(4) {
        0 => coded = chance.bits(584),
        1 => {
            let count = chance.below(120);
            for place in chance.different(count, 584) {
                coded[place] ^= 1;
            }
        }
        2 => {
            let mut other = word.clone();
            for _ in 0..1 + chance.below(4) {
                other[chance.below(286)] ^= 1;
            }
            let (one, other) = (coded.clone(), plain::encode(&other));
            halfway(chance, &mut coded, &one, &other);
        }
        _ => {
            let other = plain::encode(&[chance.bits(286), vec![0; 6]].concat());
            let one = coded.clone();
            halfway(chance, &mut coded, &one, &other);
        }
    }
    let mut room = 286 + chance.below(3);
    if chance.once_in(8) {
        match chance.below(4) {
            0 => coded.resize(chance.of(&[0, 1, 583, 585, 600]), 0),
            1 => room = chance.below(286),
            2 => coded[chance.below(584)] = chance.of(&[2, 3, 128, 255]),
            _ => {
                coded[0] = 2;
                room = chance.of(&[285, 286]);
                coded.resize(chance.of(&[583, 584]), 0);
            }
        }
    }
    work.nearest(&coded, room)
}

/// A recording of noise with subframes planted in it, walked through, and looked into from any place.
fn recordings(work: &mut Work) -> Outcome<()> {
    let recording = recording(&mut work.chance);
    let mut place = 0;
    loop {
        let (number, start, after) = work.find(&recording, place)?;
        if number != 0 {
            break;
        }
        let window = start..start + 600;
        work.must(after == window.end, "the walk stands at the window's end", Vec::new)?;
        work.read(&recording[window])?;
        place = after;
    }
    for _ in 0..8 {
        let end = recording.len();
        let from = match work.chance.below(6) {
            0 => work.chance.of(&[end, end + 1, usize::MAX, usize::MAX - 600, 1 << 32, 1 << 63]),
            1 => end.saturating_sub(599 + work.chance.below(3)),
            _ => work.chance.below(end + 1),
        };
        let (number, start, _) = work.find(&recording, from)?;
        if number == 0 {
            work.read(&recording[start..start + 600])?;
        }
    }
    Ok(())
}

fn recording(chance: &mut Chance) -> Vec<u8> {
    let length = match chance.below(10) {
        0 => chance.of(&[0, 1, 16, 599, 600, 601, 1199, 1200, 65_535, 65_536, 65_537]),
        1..=5 => chance.below(6_000),
        6..=8 => chance.below(30_000),
        _ => chance.below(65_538),
    };
    let mut recording = match chance.below(4) {
        0 => vec![chance.bit(); length],
        _ => chance.bits(length),
    };
    for _ in 0..length / 900 {
        let numbers = record(chance);
        let Some(mut symbols) = numbers::symbols(&numbers) else { continue };
        damage(chance, &mut symbols, 10);
        if chance.once_in(10) {
            symbols[chance.below(600)] = chance.of(&[2, 255]);
        }
        plant(chance, &mut recording, &symbols);
    }
    // More sync patterns, that overlap each other and the subframes.
    for _ in 0..length / 1500 {
        let place = chance.below(length);
        for shift in [0, chance.below(16), 16 + chance.below(4)] {
            let turn = chance.bit();
            for (k, symbol) in plain::SYNC.iter().enumerate() {
                if let Some(to) = recording.get_mut(place + shift + k) {
                    *to = symbol ^ turn;
                }
            }
        }
    }
    // The last place where a window fits, and the one behind it.
    if length >= 600 && chance.bit() == 0 {
        let place = length - 600 + chance.below(2);
        for (k, symbol) in plain::SYNC.iter().enumerate() {
            recording[place + k] = *symbol;
        }
    }
    recording
}

/// Puts symbols somewhere, cut off at the end.
fn plant(chance: &mut Chance, recording: &mut [u8], symbols: &Symbols) {
    let place = chance.below(recording.len());
    for (to, from) in recording[place..].iter_mut().zip(symbols) {
        *to = *from;
    }
}
