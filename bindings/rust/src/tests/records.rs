use super::*;
use crate::sys::{NUMBERS, SYMBOLS};

const HEAD: Head = Head { tlm: 139, towc: Towc(24843), alert: true, auto_nav: false, spare: 1 };

/// A record of each case, with numbers that differ from field to field, both signs and both slots among them.
fn one_of_each() -> [Record; 9] {
    let (head, slot) = (HEAD, Slot::Subframe4);
    let mut pairs = [Pair::default(); GRID_PLACES];
    for (k, pair) in pairs.iter_mut().enumerate() {
        *pair = Pair { givei: k as u8, givd: 511 - k as u16 };
    }
    let mut data: [u8; DATA_BYTES] = std::array::from_fn(|k| 200 - 7 * k as u8);
    data[DATA_BYTES - 1] = 0xB0;
    let time = TimeOffsets {
        head,
        slot: Slot::Subframe3,
        a0_utc: -32768,
        a1_utc: 4095,
        a2_utc: -64,
        leap_seconds: 18,
        t_utc: 65535,
        wn_utc: Week(1023),
        wn_leap: Week(7),
        day_leap: 15,
        leap_seconds_next: -128,
        a0: 32767,
        a1: -4096,
        a2: 63,
        t_gnss: 9,
        wn_gnss: Week(512),
        gnss_id: 5,
        spare: (1 << 63) - 1,
        prn: 63,
    };
    [
        Record::Subframe1(Subframe1 {
            head,
            wn: Week(999),
            af0: -2097152,
            af1: 32767,
            af2: -128,
            ura: 15,
            toc: 21845,
            tgd: 127,
            delta_n: -2,
            iodec: 255,
            reserved: 1000,
            l5_flag: true,
            s_flag: false,
            cuc: 16383,
            cus: -16384,
            cic: 5,
            cis: -6,
            crc: 7,
            crs: -8,
            idot: -8192,
            spare: 2,
        }),
        Record::Subframe2(Subframe2 {
            head,
            m0: i32::MIN,
            toe: 21845,
            e: u32::MAX,
            root_a: 1 << 31,
            omega0: i32::MAX,
            omega: -1,
            omega_dot: 2097151,
            i0: 12345,
            spare: 3,
        }),
        Record::IonoGrid(IonoGrid { head, slot, mask: 1023, region: 9, pairs, iodi: 7, spare: 255, prn: 1 }),
        Record::Almanac(Almanac {
            head,
            slot,
            wna: Week(1),
            e: 65535,
            toa: 2,
            i0: -8388608,
            omega_dot: 32767,
            root_a: 16777215,
            omega0: 3,
            omega: -4,
            m0: 8388607,
            af0: -1024,
            af1: 1023,
            prn_almanac: 63,
            isc: -128,
            spare: 33,
            prn: 5,
        }),
        Record::GpsTime(time),
        Record::EarthIono(EarthIono {
            head,
            slot,
            t_eop: 40000,
            pm_x: -1048576,
            pm_x_dot: 16383,
            pm_y: 1048575,
            pm_y_dot: -16384,
            d_ut1: -1073741824,
            d_ut1_dot: 262143,
            alpha0: 1,
            alpha1: -2,
            alpha2: 3,
            alpha3: -4,
            beta0: 127,
            beta1: -128,
            beta2: 6,
            beta3: -7,
            spare: 262143,
            prn: 8,
        }),
        Record::GnssTime(TimeOffsets { slot, spare: 0, ..time }),
        Record::Null(Null { head, slot, data, prn: 62 }),
        Record::Unread(Unread { head, slot: Slot::Subframe3, id: 18, data, prn: 7 }),
    ]
}

/// The bits of the word that was read, bit 1 first.
fn bits(reading: &Reading) -> Vec<u8> {
    (0..286).map(|i| reading.word[i / 8] >> (7 - i % 8) & 1).collect()
}

/// Where coded symbol i of the code stands among the 600.
fn place(i: usize) -> usize {
    16 + i % 8 * 73 + i / 8
}

#[test]
fn samples() {
    let noisy = read(&symbols_of(include_bytes!("../../../../samples/noisy.txt")));
    assert_eq!(line(&noisy), [0, 4, 1, 4, 10522, 0]);
    let idle = read(&symbols_of(include_bytes!("../../../../samples/idle.txt")));
    assert_eq!(idle, Err(ReadRefusal::Idle(Quality { corrected: 0, turned_over: true })));
}

#[test]
fn written_is_read_back_equal() {
    for (case, record) in one_of_each().iter().enumerate() {
        let symbols = write(record).unwrap();
        let reading = read(&symbols).unwrap();
        assert_eq!(&reading.record, record);
        assert_eq!(reading.quality, Quality { corrected: 0, turned_over: false });
        assert_eq!(reading.word[35] & 3, 0);
        assert_eq!(write(&reading.record), Ok(symbols));
        let line = line(&Ok(reading));
        assert_eq!(line[3..5], [[1, 2, 4, 4, 3, 4, 4, 4, 3][case], 24843]);
        assert_eq!(line[5], [0, 0, 5, 7, 9, 11, 26, 0, 18][case]);
    }
}

#[test]
fn four_altered_and_turned_over() {
    for record in one_of_each() {
        let mut symbols = write(&record).unwrap();
        for altered in [0, 15, 16, 99, 300, 599] {
            symbols[altered] ^= 1;
        }
        let upright = read(&symbols).unwrap();
        symbols.iter_mut().for_each(|symbol| *symbol ^= 1);
        let turned_over = read(&symbols).unwrap();
        assert_eq!(upright.quality, Quality { corrected: 4, turned_over: false });
        assert_eq!(turned_over.quality, Quality { corrected: 4, turned_over: true });
        assert_eq!((upright.record, turned_over.record), (record, record));
        assert_eq!(upright.word, turned_over.word);
    }
}

/// Sets each field of a kind to 1 and says which bit of the word must be 1 then, its last: so the fields are in the table's order.
macro_rules! last_bits {
    ($kind:expr, $into:expr; $($part:ident $([$k:literal])* $(.$inner:ident)* = $one:expr => $last:literal,)*) => {
        $({
            let (plain, mut changed) = ($kind, $kind);
            changed.$part $([$k])* $(.$inner)* = $one;
            let [before, after] = [plain, changed].map(|it| bits(&read(&write(&$into(it)).unwrap()).unwrap()));
            let differ: Vec<usize> = (1..=262).filter(|bit| before[bit - 1] != after[bit - 1]).collect();
            assert_eq!(differ, [$last], "{}", stringify!($part $([$k])* $(.$inner)*));
        })*
    };
}

#[test]
fn fields_stand_where_the_documents_say() {
    let head = Head { towc: Towc(2), ..Head::default() };
    let one = Subframe1 { head, ..Subframe1::default() };
    last_bits! {
        one, Record::Subframe1;
        head.tlm = 1 => 8, head.towc = Towc(3) => 25, head.alert = true => 26, head.auto_nav = true => 27,
        head.spare = 1 => 30, wn = Week(1) => 40, af0 = 1 => 62, af1 = 1 => 78, af2 = 1 => 86, ura = 1 => 90,
        toc = 1 => 106, tgd = 1 => 114, delta_n = 1 => 136, iodec = 1 => 144, reserved = 1 => 154,
        l5_flag = true => 155, s_flag = true => 156, cuc = 1 => 171, cus = 1 => 186, cic = 1 => 201, cis = 1 => 216,
        crc = 1 => 231, crs = 1 => 246, idot = 1 => 260, spare = 1 => 262,
    }
    let two = Subframe2 { head, ..Subframe2::default() };
    last_bits! {
        two, Record::Subframe2;
        head.tlm = 1 => 8, m0 = 1 => 62, toe = 1 => 78, e = 1 => 110, root_a = 1 => 142, omega0 = 1 => 174,
        omega = 1 => 206, omega_dot = 1 => 228, i0 = 1 => 260, spare = 1 => 262,
    }
    let grid = IonoGrid { head, ..IonoGrid::default() };
    last_bits! {
        grid, Record::IonoGrid;
        slot = Slot::Subframe4 => 29, mask = 1 => 46, region = 1 => 50, pairs[0].givei = 1 => 54,
        pairs[0].givd = 1 => 63, pairs[1].givei = 1 => 67, pairs[14].givei = 1 => 236, pairs[14].givd = 1 => 245,
        iodi = 1 => 248, spare = 1 => 256, prn = 1 => 262,
    }
    let almanac = Almanac { head, ..Almanac::default() };
    last_bits! {
        almanac, Record::Almanac;
        slot = Slot::Subframe4 => 29, wna = Week(1) => 46, e = 1 => 62, toa = 1 => 78, i0 = 1 => 102,
        omega_dot = 1 => 118, root_a = 1 => 142, omega0 = 1 => 166, omega = 1 => 190, m0 = 1 => 214, af0 = 1 => 225,
        af1 = 1 => 236, prn_almanac = 1 => 242, isc = 1 => 250, spare = 1 => 256, prn = 1 => 262,
    }
    for case in [Record::GpsTime, Record::GnssTime] {
        let time = TimeOffsets { head, ..TimeOffsets::default() };
        last_bits! {
            time, case;
            slot = Slot::Subframe4 => 29, a0_utc = 1 => 52, a1_utc = 1 => 65, a2_utc = 1 => 72,
            leap_seconds = 1 => 80, t_utc = 1 => 96, wn_utc = Week(1) => 106, wn_leap = Week(1) => 116,
            day_leap = 1 => 120, leap_seconds_next = 1 => 128, a0 = 1 => 144, a1 = 1 => 157, a2 = 1 => 164,
            t_gnss = 1 => 180, wn_gnss = Week(1) => 190, gnss_id = 1 => 193, spare = 1 => 256, prn = 1 => 262,
        }
    }
    let earth = EarthIono { head, ..EarthIono::default() };
    last_bits! {
        earth, Record::EarthIono;
        slot = Slot::Subframe4 => 29, t_eop = 1 => 52, pm_x = 1 => 73, pm_x_dot = 1 => 88, pm_y = 1 => 109,
        pm_y_dot = 1 => 124, d_ut1 = 1 => 155, d_ut1_dot = 1 => 174, alpha0 = 1 => 182, alpha1 = 1 => 190,
        alpha2 = 1 => 198, alpha3 = 1 => 206, beta0 = 1 => 214, beta1 = 1 => 222, beta2 = 1 => 230, beta3 = 1 => 238,
        spare = 1 => 256, prn = 1 => 262,
    }
    let null = Null { head, ..Null::default() };
    last_bits! {
        null, Record::Null;
        slot = Slot::Subframe4 => 29, data[0] = 0x80 => 37, data[0] = 1 => 44, data[1] = 0x80 => 45,
        data[26] = 1 => 252, data[27] = 0x80 => 253, data[27] = 0x10 => 256, prn = 1 => 262,
    }
    let unread = Unread { head, id: 14, ..Unread::default() };
    last_bits! {
        unread, Record::Unread;
        slot = Slot::Subframe4 => 29, id = 15 => 36, data[0] = 1 => 44, data[27] = 0x10 => 256, prn = 1 => 262,
    }
}

#[test]
fn reader_refuses() {
    let symbols = write(&one_of_each()[0]).unwrap();
    for length in [0, 1, 599] {
        assert_eq!(read(&symbols[..length]), Err(ReadRefusal::Length));
    }
    assert_eq!(read(&[0; 601]), Err(ReadRefusal::Length));
    assert_eq!(read(&[0; SYMBOLS]), Err(ReadRefusal::NoSync));
    for at in [0, 16, 599] {
        let mut bad = symbols;
        bad[at] = 2;
        assert_eq!(read(&bad), Err(ReadRefusal::Symbol));
    }
    let sync = |word: u16| (0..16).rev().map(move |bit| (word >> bit & 1) as u8);
    let upright: Vec<u8> = sync(0xEB90).chain([0; 584]).collect();
    assert_eq!(read(&upright), Err(ReadRefusal::Time(Quality { corrected: 0, turned_over: false })));
    let turned_over: Vec<u8> = sync(0x146F).chain([1; 584]).collect();
    assert_eq!(read(&turned_over), Err(ReadRefusal::Time(Quality { corrected: 0, turned_over: true })));
}

/// Adding the code of a single one gives another word, one of whose bits differs, with the old check.
#[test]
fn a_word_with_another_check() {
    for record in one_of_each() {
        let mut symbols = write(&record).unwrap();
        for (i, symbol) in [1, 1, 1, 0, 1, 1, 1, 1, 0, 0, 0, 1, 1, 1].into_iter().enumerate() {
            symbols[place(2 * 99 + i)] ^= symbol;
        }
        assert_eq!(read(&symbols), Err(ReadRefusal::BadCheck(Quality { corrected: 0, turned_over: false })));
    }
}

#[test]
fn writer_refuses_in_its_order() {
    let head = Head { towc: Towc(50400), ..Head::default() };
    let refused = |change: fn(&mut Unread)| {
        let mut unread = Unread { head, id: 63, ..Unread::default() };
        change(&mut unread);
        write(&Record::Unread(unread)).map(|_| ()).map_err(|refusal| (refusal.number(), refusal))
    };
    let field = |first_bit| Err((8, WriteRefusal::Field { first_bit }));
    assert_eq!(refused(|_| ()), Ok(()));
    for id in 0..200 {
        let unread = Unread { head, id, ..Unread::default() };
        let taken = [0, 5, 7, 9, 11, 26].contains(&id) || id > 63;
        assert_eq!(write(&Record::Unread(unread)).err(), taken.then_some(WriteRefusal::Id), "{id}");
    }
    let id = Err((9, WriteRefusal::Id));
    assert_eq!(refused(|it| it.id = u32::MAX), id);
    // 9 before 7 before 8, a field before 293
    assert_eq!(refused(|it| (it.id, it.head.towc, it.prn, it.data[27]) = (5, Towc(0), 64, 1)), id);
    assert_eq!(refused(|it| (it.head.towc, it.prn, it.data[27]) = (Towc(50401), 64, 1)), Err((7, WriteRefusal::Time)));
    assert_eq!(refused(|it| (it.head.tlm, it.prn, it.data[27]) = (256, 64, 1)), field(1));
    assert_eq!(refused(|it| (it.prn, it.data[27]) = (64, 1)), field(257));
    assert_eq!(refused(|it| it.data[27] = 0xF8), field(293));
    assert_eq!(refused(|it| it.data[27] = 0xF0), Ok(()));
    assert_eq!(refused(|it| it.head.spare = 2), field(30));
    let mut null = Null { head, ..Null::default() };
    null.data[27] = 0x0F;
    assert_eq!(write(&null.into()), Err(WriteRefusal::Field { first_bit: 293 }));
    let mut grid = IonoGrid { head, ..IonoGrid::default() };
    grid.pairs[14].givd = 512;
    assert_eq!(write(&grid.into()), Err(WriteRefusal::Field { first_bit: 237 }));
    for spare in [1 << 63, u64::MAX] {
        let time = TimeOffsets { head, spare, ..TimeOffsets::default() };
        assert_eq!(write(&Record::GpsTime(time)), Err(WriteRefusal::Field { first_bit: 194 }));
    }
    let first = Subframe1 { head, af0: 2097152, ..Subframe1::default() };
    assert_eq!(write(&first.into()), Err(WriteRefusal::Field { first_bit: 41 }));
}

/// The calls in plain numbers refuse what a record can't express.
#[test]
fn numbers_behind_the_last_row() {
    let mut numbers = one_of_each()[1].numbers();
    numbers[NUMBERS - 1] = 1;
    let mut symbols = [9; SYMBOLS];
    assert_eq!(calls::write(&numbers, &mut symbols), sys::Written { refusal: 8, first_bit: 293 });
    for subframe in [2, 3, 4, 255, i64::MAX] {
        (numbers[4], numbers[6]) = (subframe, 64);
        assert_eq!(calls::write(&numbers, &mut symbols), sys::Written { refusal: 9, first_bit: 0 }, "{subframe}");
    }
    for (subframe, id, first_bit) in
        [(4, 63, 28), (i64::MAX, -1, 28), (-1, 0, 28), (i64::MIN, 0, 28), (2, -1, 31), (3, i64::MIN, 31)]
    {
        (numbers[4], numbers[6]) = (subframe, id);
        assert_eq!(calls::write(&numbers, &mut symbols), sys::Written { refusal: 8, first_bit }, "{subframe}, {id}");
    }
    assert_eq!(calls::write(&numbers[1..], &mut symbols).refusal, 1);
    assert_eq!(calls::write(&numbers, &mut symbols[1..]).refusal, 2);
    assert_eq!(symbols, [9; SYMBOLS]);
}

/// The number of a field in a pattern that alternates from 0 at bit `from`.
fn alternating(from: u32, first: u32, width: u32) -> u32 {
    (first..first + width).fold(0, |number, bit| number << 1 | (bit - from) & 1)
}

fn alternating_signed(from: u32, first: u32, width: u32) -> i32 {
    (alternating(from, first, width) << (32 - width)) as i32 >> (32 - width)
}

fn idle_pattern() -> (Subframe1, Subframe2) {
    let head = Head { towc: Towc(7), alert: true, ..Head::default() };
    let (u, s) = (|first, width| alternating(41, first, width), |first, width| alternating_signed(41, first, width));
    let first = Subframe1 {
        head,
        wn: Week(77),
        af0: s(41, 22),
        af1: s(63, 16),
        af2: s(79, 8),
        ura: u(87, 4),
        toc: u(91, 16),
        tgd: s(107, 8),
        delta_n: s(115, 22),
        iodec: u(137, 8),
        reserved: u(145, 10),
        l5_flag: u(155, 1) == 1,
        s_flag: u(156, 1) == 1,
        cuc: s(157, 15),
        cus: s(172, 15),
        cic: s(187, 15),
        cis: s(202, 15),
        crc: s(217, 15),
        crs: s(232, 15),
        idot: s(247, 14),
        spare: u(261, 2),
    };
    let (u, s) = (|first, width| alternating(31, first, width), |first, width| alternating_signed(31, first, width));
    let second = Subframe2 {
        head,
        m0: s(31, 32),
        toe: u(63, 16),
        e: u(79, 32),
        root_a: u(111, 32),
        omega0: s(143, 32),
        omega: s(175, 32),
        omega_dot: s(207, 22),
        i0: s(229, 32),
        spare: u(261, 2),
    };
    (first, second)
}

#[test]
fn idle_patterns_pair_and_are_told() {
    let (first, second) = idle_pattern();
    assert_eq!((first.toc, second.toe), (0x5555, 0x5555));
    let paired = pair(&first.into(), &second.into()).unwrap();
    assert_eq!((paired.toc, paired.wn), (f64::from(0x55550), 77.0));
    assert!(is_idle_pattern(&first.into()) && is_idle_pattern(&second.into()));
    assert_eq!(read(&write(&first.into()).unwrap()).unwrap().record, first.into());
    let mut quiet = (first, second);
    (quiet.0.head.alert, quiet.1.head.alert) = (false, false);
    assert!(!is_idle_pattern(&quiet.0.into()) && !is_idle_pattern(&quiet.1.into()));
    let mut altered = (first, second);
    (altered.0.s_flag, altered.1.e) = (!first.s_flag, second.e ^ 1);
    assert!(!is_idle_pattern(&altered.0.into()) && !is_idle_pattern(&altered.1.into()));
    assert!(one_of_each().iter().all(|record| !is_idle_pattern(record)));
    let data = std::array::from_fn(|k| if k == 27 { 0x50 } else { 0x55 });
    let null = Null { head: first.head, slot: Slot::Subframe3, data, prn: 0x15 };
    assert!(!is_idle_pattern(&null.into()));
}

#[test]
fn pairs() {
    let [first, second, ..] = one_of_each();
    let paired = pair(&first, &second).unwrap();
    assert_eq!(paired.af0, -2097152.0 / 2f64.powi(31));
    assert_eq!(paired.e, f64::from(u32::MAX) / 2f64.powi(33));
    assert_eq!((paired.l5_flag, paired.s_flag), (1.0, 0.0));
    assert!(paired.s_flag.is_sign_positive());
    for a in one_of_each() {
        for b in one_of_each() {
            assert_eq!(pair(&a, &b).is_ok(), a == first && b == second);
        }
    }
    let Record::Subframe2(two) = second else { unreachable!() };
    assert_eq!(pair(&first, &Subframe2 { toe: two.toe + 1, ..two }.into()), Err(NoPair));
}

#[test]
fn pairs_only_numbers_within_their_fields() {
    let [first, second, ..] = one_of_each();
    let (Record::Subframe1(one), Record::Subframe2(two)) = (first, second) else { unreachable!() };
    for head in
        [Head { tlm: 256, ..HEAD }, Head { towc: Towc(0), ..HEAD }, Head { towc: Towc(50401), ..HEAD }, Head { spare: 2, ..HEAD }]
    {
        assert_eq!(pair(&Subframe1 { head, ..one }.into(), &second), Err(NoPair), "{head:?}");
        assert_eq!(pair(&first, &Subframe2 { head, ..two }.into()), Err(NoPair), "{head:?}");
    }
    assert_eq!(pair(&Subframe1 { reserved: 1024, ..one }.into(), &second), Err(NoPair));
    assert_eq!(pair(&Subframe1 { toc: 65536, ..one }.into(), &Subframe2 { toe: 65536, ..two }.into()), Err(NoPair));
    assert_eq!(pair(&first, &Subframe2 { spare: 4, ..two }.into()), Err(NoPair));
    let (one, mut two) = (first.numbers(), second.numbers());
    assert_eq!(calls::pair(&one, &two).refusal, 0);
    assert_eq!(calls::pair(&one[..41], &two).refusal, 11);
    // nothing behind a record's numbers is counted
    two[NUMBERS - 1] = 1;
    assert_eq!(calls::pair(&one, &two).refusal, 0);
    two[0] = 256;
    let paired = calls::pair(&one, &two);
    assert_eq!(paired.refusal, 11);
    assert_eq!([paired.ephemeris.wn, paired.ephemeris.af0, paired.ephemeris.i0].map(f64::to_bits), [0; 3]);
}

/// The decoder's word is the reader's, and its count.
#[test]
fn the_nearest_word() {
    for record in one_of_each() {
        let mut symbols = write(&record).unwrap();
        symbols[17] ^= 1;
        symbols[500] ^= 1;
        let reading = read(&symbols).unwrap();
        let coded: [u8; 584] = std::array::from_fn(|i| symbols[place(i)]);
        let word = nearest(&coded).unwrap();
        assert_eq!((word.corrected, reading.quality.corrected), (2, 2));
        assert_eq!(word.bits[..], bits(&reading)[..]);
    }
}

#[test]
fn decoder_refuses() {
    assert_eq!(nearest(&[0; 583]), Err(NearestRefusal::Length));
    assert_eq!(nearest(&[2; 585]), Err(NearestRefusal::Length));
    let mut coded = [0; 584];
    coded[583] = 2;
    assert_eq!(nearest(&coded), Err(NearestRefusal::Symbol));
    let mut word = [7; 285];
    assert_eq!(calls::nearest(&coded, &mut word), sys::NearestWord { refusal: 2, corrected: 0 });
    assert_eq!(word, [7; 285]);
}

#[test]
fn the_walk() {
    let frames = one_of_each().map(|record| write(&record).unwrap());
    // a stray symbol before each, and the last one cut short; 2 is no symbol, so it holds no sync
    let mut recording = Vec::new();
    for frame in &frames {
        recording.push(2);
        recording.extend(frame);
    }
    recording.pop();
    let mut walk = Windows::new(&recording).unwrap();
    for (i, frame) in frames[..8].iter().enumerate() {
        let window = walk.next().unwrap();
        assert_eq!((window.start, window.symbols), (i * 601 + 1, frame));
        assert!(std::ptr::eq(window.symbols.as_slice(), &recording[window.start..window.end()]));
        assert_eq!(walk.place(), window.end());
        assert_eq!(find(&recording, i * 601), Ok(window));
    }
    assert_eq!(walk.next(), None);
    assert_eq!(walk.place(), recording.len());
    assert_eq!(walk.next(), None);
    assert_eq!(find(&recording, usize::MAX), Err(FindRefusal::NoneLeft));
    assert_eq!(find(&[], 0), Err(FindRefusal::NoneLeft));
    assert_eq!(find(&vec![0; 65537], 0), Err(FindRefusal::TooLong));
    assert_eq!(Windows::new(&vec![0; 65537]).err(), Some(FindRefusal::TooLong));
    assert_eq!(Windows::new(&vec![0; 65536]).unwrap().count(), 0);
}

#[test]
fn the_time() {
    for towc in 1..=50400 {
        let second = Towc(towc).began_at().unwrap();
        assert_eq!(second, SecondOfWeek((towc - 1) * 12));
        assert_eq!(second.count(), Ok(Towc(towc)));
        assert_eq!(SecondOfWeek(second.0 + 11).count(), Ok(Towc(towc)));
    }
    for towc in [0, 50401, u32::MAX] {
        assert_eq!(Towc(towc).began_at(), Err(OutsideWeek));
    }
    assert_eq!(SecondOfWeek(604800).count(), Err(OutsideWeek));
    assert_eq!(SecondOfWeek(u32::MAX).count(), Err(OutsideWeek));
}
