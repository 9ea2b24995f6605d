//! The record as 42 numbers: the layouts, there and back, and the writer's rule against the vectors. The
//! folder of the vectors is in the environment variable VECTORS, by default ../../shared/vectors.

mod json;

use compare::numbers::{self, Numbers, COUNT};
use compare::plain::*;
use json::Json;
use std::path::PathBuf;

/// Each layout's rows fill bits 1 to 262, one behind the other; the longest has 42.
#[test]
fn layouts() {
    let counts: Vec<usize> = CASES.iter().map(|&case| numbers::rows(case).len()).collect();
    assert_eq!(counts, [26, 15, 42, 22, 24, 24, 24, 36, 36]);
    for case in CASES {
        let mut next = 1;
        for row in numbers::rows(case) {
            assert_eq!(row.first, next, "{}", case.name());
            next = row.last() + 1;
        }
        assert_eq!(next, 263, "{}", case.name());
    }
    for id in 2..=3 {
        for message_id in 0..64 {
            let rows = numbers::rows(numbers::case_of(id, message_id));
            assert_eq!((rows[4].first, rows[6].first, rows[6].width), (28, 31, 6));
            assert_eq!(rows.last().map(|row| (row.first, row.width)), Some((257, 6)));
        }
    }
}

/// All at the least and at the greatest, and just outside: the first bit of that field.
#[test]
fn edges_of_every_field() {
    for case in CASES {
        let mut good: Numbers = [0; COUNT];
        for (number, row) in good.iter_mut().zip(numbers::rows(case)) {
            *number = numbers::bounds(row).0;
        }
        good[numbers::TOWC_AT] = 1;
        good[numbers::ID_AT] = [0, 1, 2][CASES.iter().position(|&it| it == case).unwrap().min(2)];
        good[numbers::MESSAGE_AT] = match case {
            Case::Subframe1 | Case::Subframe2 => good[numbers::MESSAGE_AT],
            Case::Unread => 63,
            Case::Null => 0,
            _ => case.name()[2..].parse().unwrap(),
        };
        assert_eq!(numbers::written(&good, 600), (0, 0));
        let (record, beside) = numbers::typed(&good).expect("a record");
        assert_eq!((record.case(), numbers::numbers_of(&record, &beside)), (case, good));
        for (i, row) in numbers::rows(case).iter().enumerate() {
            let (least, most) = numbers::bounds(row);
            let message = numbers::case_of(good[4], 0) == Case::Null;
            for outside in [most + 1, least.wrapping_sub(1), i64::MIN, i64::MAX] {
                let mut wrong = good;
                wrong[i] = outside;
                let want = match i {
                    1 => (7, 0),
                    6 if message && outside > 63 => (9, 0),
                    _ if least <= outside && outside <= most => (0, 0),
                    _ => (8, row.first as u32),
                };
                assert_eq!(numbers::written(&wrong, 600), want, "{} {} {outside}", case.name(), row.name);
            }
        }
        for i in numbers::rows(case).len()..COUNT {
            let mut wrong = good;
            wrong[i] = -1;
            assert_eq!(numbers::written(&wrong, 600), (8, 293));
            assert_eq!((numbers::written(&wrong, 599), numbers::written(&wrong[..41], 600)), ((2, 0), (1, 0)));
        }
    }
}

fn rows_of(name: &str) -> Vec<Json> {
    let folder = std::env::var("VECTORS").unwrap_or_else(|_| "../../shared/vectors".to_string());
    let path = PathBuf::from(folder).join(name);
    let text = std::fs::read_to_string(&path).unwrap_or_else(|error| panic!("{}: {error}", path.display()));
    text.lines().map(Json::parse).collect()
}

/// The numbers of a vector's record, or why no list of numbers says the same.
fn numbers_of_vector(vector: &Json) -> Result<Numbers, &'static str> {
    let case = Case::from_name(vector.get("case").text()).expect("a case");
    let id = vector.get("sub").number() as i64 - 1;
    let hex = vector.get("bits").text();
    let byte = |k: usize| i64::from_str_radix(&hex[2 * k..2 * k + 2], 16).expect("hex");
    let pairs = |pair: usize, which: usize| vector.get("pairs").list()[pair].list()[which].number();
    let message = !matches!(case, Case::Subframe1 | Case::Subframe2);
    if message && (0..2).contains(&id) {
        return Err("a message of subframe 1 or 2 is another record as numbers");
    }
    if !case.uses_data() && (0..28).any(|k| byte(k) != 0) || byte(27) % 16 != 0 {
        return Err("unused bits beside the record have no number");
    }
    if !case.uses_pairs() && (0..15).any(|pair| pairs(pair, 0) != 0 || pairs(pair, 1) != 0) {
        return Err("unused pairs beside the record have no number");
    }
    let (mut next_pair, mut next_byte) = (0, 0);
    let mut list: Numbers = [0; COUNT];
    for (to, row) in list.iter_mut().zip(numbers::rows(case)) {
        let number = match row.name {
            "subframe id" => i128::from(id),
            "message id" if case == Case::Null => 0,
            "message id" => case.name()[2..].parse().expect("a number"),
            "msgid" => vector.get("msgid").number(),
            "givei" => pairs(next_pair, 0),
            "givd" => {
                next_pair += 1;
                pairs(next_pair - 1, 1)
            }
            "data" => {
                next_byte += 1;
                i128::from(if next_byte < 28 { byte(next_byte - 1) } else { byte(27) / 16 })
            }
            "auto_nav" => vector.get("f").get("autonav").number(),
            "spare" => vector.get("f").get("spare30").number(),
            name => vector.get("f").get(name).number(),
        };
        *to = i64::try_from(number).map_err(|_| "a number of more than 63 bits")?;
    }
    if case == Case::Unread && [0, 5, 7, 9, 11, 26].contains(&list[numbers::MESSAGE_AT]) {
        return Err("the ID of a read case is that case as numbers");
    }
    Ok(list)
}

/// Rows that no typed record holds are among these: flags of 2, a subframe 5.
#[test]
fn write_rows() {
    let (mut compared, mut skipped) = (0, std::collections::BTreeMap::new());
    for row in rows_of("write.jsonl").iter().filter(|row| row.get("level").text() == "base") {
        match numbers_of_vector(row.get("record")) {
            Ok(list) => {
                let want = (row.get("refusal").number() as u32, row.get("beside").number() as u32);
                assert_eq!(numbers::written(&list, row.get("room").number() as usize), want, "{list:?}");
                compared += 1;
            }
            Err(why) => *skipped.entry(why).or_insert(0) += 1,
        }
    }
    println!("{compared} rows, skipped {skipped:?}");
    assert!(compared > 400);
}
