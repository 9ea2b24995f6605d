//! Runs the vectors of the base (vectors/README.md). The folder is in the environment variable VECTORS,
//! by default ../../shared/vectors.

mod json;

use compare::plain::*;
use json::Json;
use std::path::PathBuf;

/// What the lent bytes hold before a call, as in the vectors.
const LENT: u8 = 0xA5;

fn file(name: &str) -> String {
    let folder = std::env::var("VECTORS").unwrap_or_else(|_| "../../shared/vectors".to_string());
    let path = PathBuf::from(folder).join(name);
    std::fs::read_to_string(&path).unwrap_or_else(|error| panic!("{}: {error}", path.display()))
}

fn rows(name: &str) -> Vec<Json> {
    file(name).lines().map(Json::parse).collect()
}

fn digits(text: &str) -> Vec<u8> {
    text.bytes().map(|byte| byte - b'0').collect()
}

fn bytes_of_hex(hex: &str) -> Vec<u8> {
    let nibble = |byte: u8| (byte as char).to_digit(16).unwrap() as u8;
    hex.as_bytes().chunks(2).map(|two| nibble(two[0]) * 16 + nibble(two[1])).collect()
}

fn as_json(line: &[&str]) -> Vec<u64> {
    line.iter().map(|word| word.parse().unwrap()).collect()
}

/// A row's name in the vectors.
fn vector_name(row: &Row) -> &'static str {
    match row.name {
        "auto_nav" => "autonav",
        "spare" => "spare30",
        other => other,
    }
}

/// The number of a row in a vector's record. Nothing where the field's type can't hold it.
fn number_of(row: &Row, record: &Json) -> Result<i64, String> {
    let name = vector_name(row);
    let number = if name == "msgid" { record.get("msgid") } else { record.get("f").get(name) }.number();
    if row.signed {
        i64::try_from(number).map_err(|_| name.to_string())
    } else {
        u64::try_from(number).map(|it| it as i64).map_err(|_| name.to_string())
    }
}

/// The record of a vector, or the name of what no record can hold (DECISIONS).
fn record_of(vector: &Json) -> Result<(Record, Beside), String> {
    let case = Case::from_name(vector.get("case").text()).expect("a case");
    let rows = case.rows();
    let in_vector = vector.get("f").members().len() + usize::from(case == Case::Unread);
    assert_eq!(in_vector, rows.len(), "fields of {}", case.name());
    let mut numbers = Vec::new();
    for row in &rows {
        let number = number_of(row, vector)?;
        let is_flag = ["alert", "auto_nav", "spare", "l5flag", "sflag"].contains(&row.name);
        if is_flag && !(0..=1).contains(&number) {
            return Err(format!("flag {}", row.name));
        }
        numbers.push(number);
    }
    let subframe = vector.get("sub").number() as u64;
    let record = Record::from_numbers(case, subframe, &numbers);
    let record = record.ok_or_else(|| format!("subframe {subframe} of {}", case.name()))?;
    assert_eq!(record.numbers(), numbers);
    Ok((record, beside_of(vector)?))
}

fn beside_of(vector: &Json) -> Result<Beside, String> {
    let mut beside = Beside::zeros();
    beside.data.copy_from_slice(&bytes_of_hex(vector.get("bits").text()));
    for (i, pair) in vector.get("pairs").list().iter().enumerate() {
        beside.givei[i] = u8::try_from(pair.list()[0].number()).map_err(|_| "givei")?;
        beside.givd[i] = u16::try_from(pair.list()[1].number()).map_err(|_| "givd")?;
    }
    Ok(beside)
}

#[test]
fn read_rows() {
    let all = rows("read.jsonl");
    for (i, row) in all.iter().enumerate() {
        let symbols = digits(row.get("symbols").text());
        let mut room = vec![LENT; row.get("room").number() as usize];
        let reading = read(&symbols, &mut room);
        assert_eq!(room, bytes_of_hex(row.get("lent_after").text()), "row {i}: lent bytes");
        let expected = as_json(&row.get("line").text().split(' ').collect::<Vec<_>>());
        let got = [u64::from(reading.refusal), u64::from(reading.corrected), u64::from(reading.turned_over)];
        assert_eq!(got[..], expected[..3], "row {i}: line");
        match (row.get("record"), &reading.record) {
            (Json::Null, None) => {
                assert_eq!(expected[3..], [0, 0, 0], "row {i}");
                assert_eq!(reading.beside, Beside::zeros(), "row {i}");
            }
            (vector, Some(record)) => {
                let rest = [record.subframe(), record.head().towc, record.message_id()];
                assert_eq!(rest[..], expected[3..], "row {i}: line");
                let (want, beside) = record_of(vector).expect("a record that was read");
                assert_eq!((record, &reading.beside), (&want, &beside), "row {i}: record");
            }
            (vector, record) => panic!("row {i}: {vector:?} and {record:?}"),
        }
    }
    println!("{} read rows", all.len());
}

#[test]
fn write_rows() {
    let all = rows("write.jsonl");
    let (mut run, mut other_level, mut skipped) = (0, 0, Vec::new());
    for (i, row) in all.iter().enumerate() {
        if row.get("level").text() != "base" {
            other_level += 1;
            continue;
        }
        let (record, beside) = match record_of(row.get("record")) {
            Ok(made) => made,
            Err(why) => {
                skipped.push(why);
                continue;
            }
        };
        let mut room = vec![LENT; row.get("room").number() as usize];
        let (refusal, number) = write(&record, &beside, &mut room);
        let got = (i128::from(refusal), i128::from(number));
        assert_eq!(got, (row.get("refusal").number(), row.get("beside").number()), "row {i}");
        assert_eq!(room, bytes_of_hex(row.get("lent_after").text()), "row {i}: lent bytes");
        run += 1;
    }
    skipped.sort();
    println!("{run} write rows of level base, {other_level} of another level");
    println!("{} skipped, no record can hold them: {skipped:?}", skipped.len());
    assert!(run > 600 && skipped.len() < 100);
}

#[test]
fn walk_rows() {
    let all = rows("walk.jsonl");
    for (i, row) in all.iter().enumerate() {
        let recording = match row.get("recording") {
            Json::Text(text) => digits(text),
            zeros => vec![0; zeros.get("zeros").number() as usize],
        };
        let answer = find(&recording, row.get("start").number() as usize);
        let got = [i128::from(answer.0), answer.1 as i128, answer.2 as i128, answer.3 as i128];
        let want: Vec<i128> = row.get("answer").list().iter().map(Json::number).collect();
        assert_eq!(got[..], want[..], "row {i}");
    }
    println!("{} walk rows", all.len());
}

#[test]
fn pair_rows_of_the_vectors() {
    let all = rows("pair.jsonl");
    let (mut run, mut skipped) = (0, 0);
    for (i, row) in all.iter().enumerate() {
        if row.get("w201").bool() {
            continue;
        }
        let (Ok((first, _)), Ok((second, _))) = (record_of(row.get("first")), record_of(row.get("second")))
        else {
            skipped += 1;
            continue;
        };
        let (refusal, numbers) = pair(&first, &second);
        assert_eq!(i128::from(refusal), row.get("refusal").number(), "row {i}");
        let want = row.get("f64").members();
        assert_eq!(want.len(), EPHEMERIS);
        for (k, (name, bits)) in want.iter().enumerate() {
            assert_eq!(pair_rows()[k].name, name, "row {i}: order");
            let bits = u64::from_str_radix(bits.text(), 16).unwrap();
            assert_eq!(numbers[k].to_bits(), bits, "row {i}: {name}");
        }
        run += 1;
    }
    println!("{run} pair rows, {skipped} skipped, no record can hold them");
    assert_eq!(skipped, 0);
}

#[test]
fn time_rows() {
    let text = file("time.tsv");
    for line in text.lines() {
        let columns = as_json(&line.split('\t').take(3).collect::<Vec<_>>());
        let (refusal, second) = began(columns[0]);
        assert_eq!([u64::from(refusal), second], columns[1..3], "{line}");
        if refusal == 0 {
            for within in 0..12 {
                assert_eq!(count_of(second + within), (0, columns[0]));
            }
        }
    }
    println!("{} time rows", text.lines().count());
}

/// The program's input: `\n` is a line feed, `\xNN` another byte.
fn unescaped(text: &str) -> Vec<u8> {
    let bytes = text.as_bytes();
    let mut input = Vec::new();
    let mut at = 0;
    while at < bytes.len() {
        match &bytes[at..] {
            [b'\\', b'n', ..] => {
                input.push(b'\n');
                at += 2;
            }
            [b'\\', b'x', ..] => {
                input.extend(bytes_of_hex(&text[at + 2..at + 4]));
                at += 4;
            }
            rest => {
                input.push(rest[0]);
                at += 1;
            }
        }
    }
    input
}

#[test]
fn cases() {
    let text = file("cases.tsv");
    let mut failed = Vec::new();
    for row in text.lines() {
        let columns: Vec<&str> = row.split('\t').collect();
        let got = line(&unescaped(columns[2]));
        if got != columns[3] {
            failed.push(format!("{} {}: want {}, got {got}", columns[0], columns[1], columns[3]));
        }
    }
    println!("{} cases", text.lines().count());
    assert!(failed.is_empty(), "{} failed: {:?}", failed.len(), &failed[..failed.len().min(20)]);
}
