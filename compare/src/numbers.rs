//! The record as 42 numbers, the form of the library's C interface, over the tables of `plain`: the layout,
//! the way from a typed record and back, and what the calls on numbers refuse. Written from that
//! interface's description and document 01, so that no expectation comes from the library.

use crate::plain::*;
use std::sync::OnceLock;

/// Count of a record's numbers.
pub const COUNT: usize = 42;
pub type Numbers = [i64; COUNT];

/// The places of three numbers of every record.
pub const TOWC_AT: usize = 1;
pub const ID_AT: usize = 4;
pub const MESSAGE_AT: usize = 6;

/// The case that subframe ID and message ID decide. Message records are those with subframe ID 2 and
/// above. Below 0 there is no layout; any will do, since the ID is at fault then and bits 1 to 27 are the same
/// in all.
pub fn case_of(id: i64, message_id: i64) -> Case {
    match id {
        ..=0 => Case::Subframe1,
        1 => Case::Subframe2,
        _ => Case::from_ids(id, message_id),
    }
}

/// The rows of a case's numbers, in order: every field of the word's bits 1 to 262 by its place.
pub fn rows(case: Case) -> &'static [Row] {
    static ROWS: OnceLock<Vec<Vec<Row>>> = OnceLock::new();
    let all = ROWS.get_or_init(|| CASES.into_iter().map(rows_by_place).collect());
    let index = CASES.iter().position(|&it| it == case).unwrap_or(0);
    &all[index]
}

fn rows_by_place(case: Case) -> Vec<Row> {
    let mut rows = case.rows();
    rows.push(SUBFRAME_ID);
    if !matches!(case, Case::Subframe1 | Case::Subframe2 | Case::Unread) {
        rows.push(MESSAGE_ID);
    }
    if case.uses_pairs() {
        rows.extend((0..PAIRS.len()).flat_map(|pair| [givei_row(pair), givd_row(pair)]));
    }
    if case.uses_data() {
        rows.extend((0..28).map(data_row));
    }
    rows.sort_by_key(|row| row.first);
    rows
}

/// The row of data byte k: 27 of 8 bits and one of 4.
fn data_row(k: usize) -> Row {
    let width = if k < 27 { 8 } else { 4 };
    Row { name: "data", first: DATA_FIRST + 8 * k, width, signed: false, scale: 0 }
}

/// The least and the greatest number of a field.
pub fn bounds(row: &Row) -> (i64, i64) {
    if row.signed {
        let half = 1i128 << (row.width - 1);
        ((-half) as i64, (half - 1) as i64)
    } else {
        (0, ((1i128 << row.width) - 1) as i64)
    }
}

fn holds(row: &Row, number: i64) -> bool {
    let (least, most) = bounds(row);
    least <= number && number <= most
}

/// The place of a row's number among those of its case.
fn at(case: Case, row: &Row) -> usize {
    rows(case).iter().position(|it| it.first == row.first).expect("a row of the case")
}

/// The 42 numbers of a record and what stands beside it.
pub fn numbers_of(record: &Record, beside: &Beside) -> Numbers {
    let case = record.case();
    let mut numbers = [0; COUNT];
    numbers[ID_AT] = record.subframe() as i64 - 1;
    if record.which().is_some() {
        numbers[MESSAGE_AT] = record.message_id() as i64;
    }
    for (row, number) in case.rows().iter().zip(record.numbers()) {
        numbers[at(case, row)] = number;
    }
    if case.uses_pairs() {
        for pair in 0..PAIRS.len() {
            numbers[at(case, &givei_row(pair))] = i64::from(beside.givei[pair]);
            numbers[at(case, &givd_row(pair))] = i64::from(beside.givd[pair]);
        }
    }
    if case.uses_data() {
        for k in 0..28 {
            let byte = beside.data[k];
            numbers[at(case, &data_row(k))] = i64::from(if k < 27 { byte } else { byte >> 4 });
        }
    }
    numbers
}

/// The typed record of numbers, and what stands beside it; nothing where no typed record can hold them.
pub fn typed(numbers: &[i64]) -> Option<(Record, Beside)> {
    let numbers: &Numbers = numbers.try_into().ok()?;
    let id = numbers[ID_AT];
    let case = case_of(id, numbers[MESSAGE_AT]);
    if !(0..=3).contains(&id) || numbers[rows(case).len()..].iter().any(|&it| it != 0) {
        return None;
    }
    let mut own = Vec::new();
    for row in case.rows() {
        let number = numbers[at(case, &row)];
        // An unsigned number of the typed record has no sign.
        if !row.signed && number < 0 {
            return None;
        }
        own.push(number);
    }
    let mut beside = Beside::zeros();
    if case.uses_pairs() {
        for pair in 0..PAIRS.len() {
            beside.givei[pair] = u8::try_from(numbers[at(case, &givei_row(pair))]).ok()?;
            beside.givd[pair] = u16::try_from(numbers[at(case, &givd_row(pair))]).ok()?;
        }
    }
    if case.uses_data() {
        for k in 0..28 {
            let byte = u8::try_from(numbers[at(case, &data_row(k))]).ok()?;
            beside.data[k] = if k < 27 { byte } else { byte.checked_mul(16)? };
        }
    }
    Some((Record::from_numbers(case, id as u64 + 1, &own)?, beside))
}

/// The writer's refusal 8 of 42 numbers: the first bit of the lowest field that doesn't hold its number,
/// 293 if all do and a number behind the layout's rows is not 0; 0 without such a fault.
pub fn fault(numbers: &Numbers) -> u32 {
    let rows = rows(case_of(numbers[ID_AT], numbers[MESSAGE_AT]));
    let outside = rows.iter().zip(numbers).find(|(row, &number)| !holds(row, number));
    match outside {
        Some((row, _)) => row.first as u32,
        None if numbers[rows.len()..].iter().any(|&it| it != 0) => 293,
        None => 0,
    }
}

fn towc_is_outside(numbers: &Numbers) -> bool {
    !(1..=50_400).contains(&numbers[TOWC_AT])
}

/// What the writer answers: refusal and first bit, in the order 2, 1, 9, 7, 8.
pub fn written(numbers: &[i64], room: usize) -> (u32, u32) {
    if room < SUBFRAME_SYMBOLS {
        return (2, 0);
    }
    let Ok(numbers) = <&Numbers>::try_from(numbers) else {
        return (1, 0);
    };
    if numbers[ID_AT] >= 2 && numbers[MESSAGE_AT] > 63 {
        return (9, 0);
    }
    if towc_is_outside(numbers) {
        return (7, 0);
    }
    match fault(numbers) {
        0 => (0, 0),
        first_bit => (8, first_bit),
    }
}

/// The 600 upright symbols of numbers that the writer doesn't refuse.
pub fn symbols(numbers: &[i64]) -> Option<[u8; SUBFRAME_SYMBOLS]> {
    let (record, beside) = typed(numbers)?;
    let mut symbols = [0; SUBFRAME_SYMBOLS];
    match write(&record, &beside, &mut symbols) {
        (0, 0) => Some(symbols),
        _ => None,
    }
}

/// The layout's numbers alone, 0 behind them: pairing counts nothing beside a record.
fn alone(numbers: &[i64]) -> Option<Numbers> {
    let mut own = *<&Numbers>::try_from(numbers).ok()?;
    let count = rows(case_of(own[ID_AT], own[MESSAGE_AT])).len();
    own[count..].fill(0);
    Some(own)
}

/// Pairing: 11 and +0 unless each list alone is a record without a fault of 7 or 8 and the two pair.
pub fn paired(first: &[i64], second: &[i64]) -> (u32, [f64; EPHEMERIS]) {
    let sound = |numbers: &[i64]| {
        let own = alone(numbers)?;
        let (record, _) = typed(&own)?;
        (!towc_is_outside(&own) && fault(&own) == 0).then_some(record)
    };
    match (sound(first), sound(second)) {
        (Some(one), Some(two)) => pair(&one, &two),
        _ => (11, [0.0; EPHEMERIS]),
    }
}

/// Whether numbers are the idle pattern of subframe 1 or 2. Those with a field outside its width are no record, so
/// they are not (docs/DECISIONS.md); TOWC doesn't matter as long as its field holds it. The documents leave
/// this open, and `plain::is_idle_pattern` by itself doesn't look at TLM, TOWC, AutoNav, bit 30 and the week.
pub fn idle(numbers: &[i64]) -> bool {
    let Some(own) = alone(numbers) else {
        return false;
    };
    match typed(&own) {
        Some((record, _)) => fault(&own) == 0 && is_idle_pattern(&record),
        None => false,
    }
}
