//! The values at the edges of document 01, the shape of the tables, ways there and back, and answers for
//! any input.

mod random;

use compare::plain::*;
use random::Random;

const EB90: &str = "1110101110010000";
const TURNED: &str = "0001010001101111";

#[test]
fn code_check_and_interleaver() {
    assert_eq!(encode(&[1, 0, 0, 0, 0, 0, 0]), [1, 1, 1, 0, 1, 1, 1, 1, 0, 0, 0, 1, 1, 1]);
    let only = |place: usize| {
        let mut body = [0; BODY_BITS];
        body[place - 1] = 1;
        check(&body)
    };
    assert_eq!(check(&[0; BODY_BITS]), 0);
    assert_eq!(only(262), 0x864CFB);
    assert_eq!(only(261), 0x8AD50D);
    let places: Vec<usize> = [0, 1, 7, 8, 583].into_iter().map(travels_at).collect();
    assert_eq!(places, [0, 73, 511, 1, 583]);
    let mut all: Vec<usize> = (0..CODED_SYMBOLS).map(travels_at).collect();
    all.sort();
    assert_eq!(all, (0..CODED_SYMBOLS).collect::<Vec<_>>());
}

#[test]
fn times() {
    assert_eq!((began(1), began(24843), began(50400)), ((0, 0), (0, 298104), (0, 604788)));
    for towc in [0, 50401, 131071, u64::MAX] {
        assert_eq!(began(towc), (7, 0));
    }
    assert_eq!((count_of(0), count_of(11), count_of(12)), ((0, 1), (0, 1), (0, 2)));
    assert_eq!((count_of(604_799), count_of(604_800), count_of(u64::MAX)), ((0, 50400), (7, 0), (7, 0)));
}

#[test]
fn lines() {
    let line_of = |sync: &str, rest: char| line(format!("{sync}{}", rest.to_string().repeat(584)).as_bytes());
    assert_eq!(line_of(EB90, '0'), "7 0 0 0 0 0");
    assert_eq!(line_of(TURNED, '1'), "7 0 1 0 0 0");
    assert_eq!(line("0".repeat(600).as_bytes()), "4 0 0 0 0 0");
    assert_eq!(line(b""), "1 0 0 0 0 0");
    assert_eq!(line("0".repeat(601).as_bytes()), "1 0 0 0 0 0");
    assert_eq!(line(format!("{}\r\n", "0".repeat(600)).as_bytes()), "1 0 0 0 0 0");
    assert_eq!(line(format!("{}\r\n", "0".repeat(599)).as_bytes()), "3 0 0 0 0 0");
}

#[test]
fn sync_of_every_distance() {
    for d in 0..=16 {
        let mut symbols = SYNC;
        symbols.iter_mut().rev().take(d).for_each(|symbol| *symbol ^= 1);
        let expected = if d <= 2 { Some(false) } else if d >= 14 { Some(true) } else { None };
        assert_eq!(sync(&symbols), expected, "{d}");
    }
    let mut bad = SYNC;
    bad[3] = 2;
    assert_eq!((sync(&bad), sync(&SYNC[..15])), (None, None));
}

/// The kind's own rows, the pairs of type 5 and the data bits fill the word's part exactly.
#[test]
fn tables_have_no_gap() {
    for case in CASES {
        let mut places: Vec<usize> = Vec::new();
        for row in case.rows() {
            places.extend(row.first..=row.last());
        }
        places.extend([28, 29]);
        if !matches!(case, Case::Subframe1 | Case::Subframe2 | Case::Unread) {
            places.extend(31..=36);
        }
        if matches!(case, Case::Null | Case::Unread) {
            places.extend(DATA_FIRST..DATA_FIRST + DATA_BITS);
        }
        if case == Case::Type5 {
            for (givei, givd) in PAIRS {
                places.extend(givei..givei + 4);
                places.extend(givd..givd + 9);
            }
        }
        places.sort();
        assert_eq!(places, (1..=BODY_BITS).collect::<Vec<_>>(), "{}", case.name());
        let firsts: Vec<usize> = case.rows().iter().map(|row| row.first).collect();
        assert!(firsts.windows(2).all(|two| two[0] < two[1]), "{}: order", case.name());
    }
    assert_eq!(pair_rows().len(), EPHEMERIS);
}

// Records by chance.

fn random_number(random: &mut Random, row: &Row) -> i64 {
    let pattern = match random.below(4) {
        0 => 0,
        1 => u64::MAX,
        2 => 1 << (row.width - 1),
        _ => random.draw(),
    } & ((1u64 << row.width) - 1);
    if row.signed && pattern >> (row.width - 1) == 1 {
        pattern as i64 - (1i64 << row.width)
    } else {
        pattern as i64
    }
}

fn random_record(random: &mut Random, case: Case) -> (Record, Beside) {
    let numbers = case.rows().into_iter().map(|row| match row.name {
        "towc" => 1 + random.below(50_400) as i64,
        "msgid" => [1, 14, 18, 63][random.below(4) as usize],
        _ => random_number(random, &row),
    });
    let numbers: Vec<i64> = numbers.collect();
    let subframe = match case {
        Case::Subframe1 => 1,
        Case::Subframe2 => 2,
        _ => 3 + random.below(2),
    };
    let mut beside = Beside::zeros();
    if case == Case::Type5 {
        beside.givei.iter_mut().for_each(|it| *it = random.below(16) as u8);
        beside.givd.iter_mut().for_each(|it| *it = random.below(512) as u16);
    }
    if matches!(case, Case::Null | Case::Unread) {
        beside.data.iter_mut().for_each(|it| *it = random.draw() as u8);
        beside.data[27] &= 0xF0;
    }
    let record = Record::from_numbers(case, subframe, &numbers).expect("a record");
    assert_eq!((record.case(), record.subframe(), record.numbers()), (case, subframe, numbers));
    (record, beside)
}

#[test]
fn there_and_back() {
    let mut random = Random::new(5);
    for round in 0..900 {
        let (record, beside) = random_record(&mut random, CASES[round % 9]);
        let mut symbols = [9; 601];
        assert_eq!(write(&record, &beside, &mut symbols), (0, 0));
        assert_eq!(symbols[600], 9);
        let turned_over = random.below(2) == 1;
        if turned_over {
            symbols[..600].iter_mut().for_each(|symbol| *symbol ^= 1);
        }
        // Errors far apart in the order of coding, so that each is corrected.
        let errors = random.below(12) as usize;
        for k in 0..errors {
            symbols[16 + travels_at(48 * k + random.below(8) as usize)] ^= 1;
        }
        let mut room = [7; 37];
        let reading = read(&symbols[..600], &mut room);
        let want = Reading { refusal: 0, corrected: errors as u32, turned_over, record: Some(record), beside };
        assert_eq!(reading, want);
        assert_eq!((room[35] & 3, room[36]), (0, 7));
    }
}

#[test]
fn refusal_8_names_the_lowest_field() {
    let mut random = Random::new(6);
    for case in CASES {
        let (record, beside) = random_record(&mut random, case);
        let numbers = record.numbers();
        let rows = case.rows();
        for (i, row) in rows.iter().enumerate() {
            if ["towc", "msgid"].contains(&row.name) || row.width == 1 {
                continue;
            }
            let top = if row.signed { 1i64 << (row.width - 1) } else { ((1u128 << row.width) as u64) as i64 };
            for outside in [top, if row.signed { -top - 1 } else { -1 }] {
                let mut wrong = numbers.clone();
                wrong[i] = outside;
                let record = Record::from_numbers(case, record.subframe(), &wrong).unwrap();
                assert_eq!(write(&record, &beside, &mut [0; 600]), (8, row.first as u32));
                wrong[0] = 256;
                let record = Record::from_numbers(case, record.subframe(), &wrong).unwrap();
                assert_eq!(write(&record, &beside, &mut [0; 600]), (8, 1));
            }
        }
    }
}

#[test]
fn refusal_8_beside_the_record() {
    let mut random = Random::new(7);
    for case in CASES {
        let (record, good) = random_record(&mut random, case);
        let mut low = good.clone();
        low.data[27] |= 1;
        assert_eq!(write(&record, &low, &mut [0; 600]), (8, 293));
        for i in 0..15 {
            let mut givei = good.clone();
            givei.givei[i] = 16;
            let mut givd = good.clone();
            givd.givd[i] = 512;
            let want = |place: usize| (8, if case == Case::Type5 { place as u32 } else { 293 });
            assert_eq!(write(&record, &givei, &mut [0; 600]), want(51 + 13 * i));
            assert_eq!(write(&record, &givd, &mut [0; 600]), want(55 + 13 * i));
        }
    }
}

#[test]
fn idle_subframes_1_and_2_pair_and_are_told() {
    let alternating = |case: Case, subframe: u64, first: usize| {
        let numbers: Vec<i64> = case.rows().iter().map(|row| idle_number(row, first)).collect();
        Record::from_numbers(case, subframe, &numbers).unwrap()
    };
    let one = alternating(Case::Subframe1, 1, 41);
    let two = alternating(Case::Subframe2, 2, 31);
    assert!(is_idle_pattern(&one) && is_idle_pattern(&two));
    assert_eq!(pair(&one, &two).0, 0);
    let Record::Subframe1(mut it) = one else { unreachable!() };
    assert_eq!(it.toc, 0x5555);
    it.head.towc = 0;
    it.wn = 5000;
    assert!(is_idle_pattern(&Record::Subframe1(it.clone())));
    it.spare261 ^= 1;
    assert!(!is_idle_pattern(&Record::Subframe1(it.clone())));
    it.spare261 ^= 1;
    it.head.alert = false;
    assert!(!is_idle_pattern(&Record::Subframe1(it)));
}

/// The number of a row in an idle record: the pattern from `first` on, before it small numbers.
fn idle_number(row: &Row, first: usize) -> i64 {
    if row.first < first {
        return 1;
    }
    let pattern = (row.first..=row.last()).fold(0, |sum, place| 2 * sum + ((place - first) % 2) as i64);
    if row.signed && (row.first - first) % 2 == 1 {
        pattern - (1i64 << row.width)
    } else {
        pattern
    }
}

#[test]
fn idle_messages_read_and_told() {
    let mut random = Random::new(8);
    for id in 0..64u64 {
        for subframe in 3..=4 {
            let mut word: Word = [0; WORD_BITS];
            word[24] = 1; // TOWC 1
            word[27] = 1;
            word[28] = (subframe - 3) as u8;
            for k in 0..6 {
                word[30 + k] = ((id >> (5 - k)) & 1) as u8;
            }
            for place in 37..=256 {
                word[place - 1] = ((place - 37) % 2) as u8;
            }
            for place in 257..=262 {
                word[place - 1] = random.below(2) as u8;
            }
            let good = check(&word[..262]);
            for (alert, spoiled) in [(0, 0), (0, 1), (1, 0), (1, 1)] {
                word[25] = alert;
                let good = if alert == 1 { check(&word[..262]) } else { good } ^ (spoiled * 0x800001);
                for k in 0..24 {
                    word[262 + k] = ((good >> (23 - k)) & 1) as u8;
                }
                let reading = read(&symbols_of(&word), &mut [0; 36]);
                let want = [[0, 5], [0, 6]][alert as usize][spoiled as usize];
                assert_eq!(reading.refusal, want);
                if let Some(record) = reading.record {
                    assert_eq!(record.message_id(), id);
                    assert!(!is_idle_pattern(&record));
                    assert_eq!(idle_row_fits(&record, &reading.beside), alert == 0);
                }
            }
        }
    }
}

#[test]
fn walks() {
    let mut random = Random::new(9);
    let mut recording = vec![0; 50];
    for case in [Case::Subframe1, Case::Type7] {
        let (record, beside) = random_record(&mut random, case);
        let mut symbols = [0; 600];
        write(&record, &beside, &mut symbols);
        recording.extend(symbols);
    }
    recording.extend([0; 30]);
    let end = recording.len();
    let answers = walk(&recording);
    assert_eq!(answers.last(), Some(&(4, end, end, end)));
    assert!(answers.windows(2).all(|two| two[0].3 <= two[1].1));
    assert_eq!(find(&recording, 50), (0, 50, 650, 650));
    assert_eq!(find(&recording, usize::MAX), (4, end, end, end));
    assert_eq!(find(&[0; 65_537], 0), (1, 0, 0, 0));
    assert_eq!(walk(&[0; 65_537]), [(1, 0, 0, 0)]);
}

#[test]
fn af0_at_its_edges() {
    let mut random = Random::new(11);
    let (first, beside) = random_record(&mut random, Case::Subframe1);
    let (second, _) = random_record(&mut random, Case::Subframe2);
    let (Record::Subframe1(mut one), Record::Subframe2(mut two)) = (first, second) else { unreachable!() };
    two.toe = one.toc;
    for (af0, seconds) in [(-2097152, -0.0009765625), (2097151, 2097151.0 / 2147483648.0), (-1, -1.0 / 2147483648.0)] {
        one.af0 = af0;
        let record = Record::Subframe1(one.clone());
        let mut symbols = [0; 600];
        write(&record, &beside, &mut symbols);
        let mut room = [0; 36];
        assert_eq!(read(&symbols, &mut room).record, Some(record.clone()));
        // Bits 41-62 are byte 5, byte 6 and the six highest bits of byte 7.
        let pattern = (u32::from(room[5]) << 14) | (u32::from(room[6]) << 6) | u32::from(room[7] >> 2);
        assert_eq!(pattern, (af0 as u32) & 0x3FFFFF);
        let (refusal, numbers) = pair(&record, &Record::Subframe2(two.clone()));
        assert_eq!((refusal, numbers[1]), (0, seconds));
    }
}

/// Any input at all gets an answer (run also without --release, where overflow stops a test).
#[test]
fn any_input() {
    let mut random = Random::new(10);
    for _ in 0..300 {
        let length = [0, 1, 15, 16, 599, 600, 601, 1300][random.below(8) as usize];
        let symbols: Vec<u8> = (0..length).map(|_| random.draw() as u8).collect();
        read(&symbols, &mut vec![0; random.below(40) as usize]);
        line(&symbols);
        walk(&symbols);
        encode(&symbols);
        check(&symbols);
        nearest(&symbols);
        find(&symbols, random.draw() as usize);
        began(random.draw());
        count_of(random.draw());
        let records: Vec<Record> = CASES.into_iter().map(|case| wild_record(&mut random, case)).collect();
        let mut beside = Beside::zeros();
        beside.data.iter_mut().for_each(|it| *it = random.draw() as u8);
        beside.givd.iter_mut().for_each(|it| *it = random.draw() as u16);
        for one in &records {
            write(one, &beside, &mut vec![0; 599 + random.below(3) as usize]);
            idle_row_fits(one, &beside);
            is_idle_pattern(one);
            for other in &records {
                pair(one, other);
            }
        }
    }
}

/// A record with numbers far outside their widths.
fn wild_record(random: &mut Random, case: Case) -> Record {
    let numbers = case.rows().into_iter().map(|row| {
        let wild = [random.draw() as i64, i64::MIN, i64::MAX, -1, 1][random.below(5) as usize];
        if row.width == 1 { wild & 1 } else { wild }
    });
    let numbers: Vec<i64> = numbers.collect();
    let subframe = match case {
        Case::Subframe1 => 1,
        Case::Subframe2 => 2,
        _ => 3,
    };
    Record::from_numbers(case, subframe, &numbers).unwrap()
}
