//! Runs the outside vectors: through the typed calls where a record can hold the row, and through the calls in plain numbers
//! where the numbers can. The folder is in NAVIC_VECTORS, by default ../../../shared/vectors; where it isn't there, the tests
//! say so and pass.

use super::json::Json;
use super::*;
use crate::sys::{NUMBERS, SYMBOLS};
use std::io::Write;
use std::path::PathBuf;

/// What the lent bytes hold before a call, as in the vectors.
const LENT: u8 = 0xA5;

/// A line that is seen though the test passes.
fn say(line: &str) {
    let _ = std::io::stderr().write_all(format!("{line}\n").as_bytes());
}

fn file(name: &str) -> Option<String> {
    let named = std::env::var_os("NAVIC_VECTORS").map(PathBuf::from);
    let folder = match &named {
        Some(folder) => folder.clone(),
        None => PathBuf::from(env!("CARGO_MANIFEST_DIR")).join("../../../shared/vectors"),
    };
    if named.is_none() && !folder.is_dir() {
        say(&format!("{name} is skipped: no vectors at ../../../shared/vectors; name their folder in NAVIC_VECTORS"));
        return None;
    }
    let path = folder.join(name);
    Some(std::fs::read_to_string(&path).unwrap_or_else(|error| panic!("{}: {error}", path.display())))
}

fn rows(name: &str) -> Option<Vec<Json>> {
    file(name).map(|text| text.lines().map(Json::parse).collect())
}

fn bytes_of_hex(hex: &str) -> Vec<u8> {
    let nibble = |byte: u8| (byte as char).to_digit(16).unwrap() as u8;
    hex.as_bytes().chunks(2).map(|two| nibble(two[0]) * 16 + nibble(two[1])).collect()
}

/// A vector's record. Its fields by name, each as its type holds it, or the name of what it can't hold.
struct Vector<'a>(&'a Json);

impl Vector<'_> {
    fn case(&self) -> &str {
        self.0.get("case").text()
    }
    fn u<T: TryFrom<i128>>(&self, name: &str) -> Result<T, String> {
        T::try_from(self.0.get("f").get(name).number()).map_err(|_| name.to_string())
    }
    fn week(&self, name: &str) -> Result<Week, String> {
        self.u(name).map(Week)
    }
    fn flag(&self, name: &str) -> Result<bool, String> {
        match self.0.get("f").get(name).number() {
            0 => Ok(false),
            1 => Ok(true),
            _ => Err(format!("flag {name}")),
        }
    }
    fn head(&self) -> Result<Head, String> {
        let towc = Towc(self.u("towc")?);
        Ok(Head {
            tlm: self.u("tlm")?,
            towc,
            alert: self.flag("alert")?,
            auto_nav: self.flag("autonav")?,
            spare: self.u("spare30")?,
        })
    }
    fn slot(&self) -> Result<Slot, String> {
        match self.0.get("sub").number() {
            3 => Ok(Slot::Subframe3),
            4 => Ok(Slot::Subframe4),
            other => Err(format!("subframe {other}")),
        }
    }
    fn data(&self) -> [u8; DATA_BYTES] {
        bytes_of_hex(self.0.get("bits").text()).try_into().unwrap()
    }
    fn pairs(&self) -> Result<[Pair; GRID_PLACES], String> {
        let mut pairs = [Pair::default(); GRID_PLACES];
        assert_eq!(self.0.get("pairs").list().len(), GRID_PLACES);
        for (pair, numbers) in pairs.iter_mut().zip(self.0.get("pairs").list()) {
            let [givei, givd] = numbers.list() else { panic!("a pair") };
            pair.givei = givei.number().try_into().map_err(|_| "givei")?;
            pair.givd = givd.number().try_into().map_err(|_| "givd")?;
        }
        Ok(pairs)
    }

    /// Whether what the case doesn't use beside the record is 0; else no record can hold it.
    fn beside_used(&self) -> Result<(), String> {
        let bits = matches!(self.case(), "null" | "unread") || self.data() == [0; DATA_BYTES];
        let pairs = self.case() == "mt5" || self.pairs()? == [Pair::default(); GRID_PLACES];
        if bits && pairs {
            Ok(())
        } else {
            Err("beside it, unused".to_string())
        }
    }

    fn time_offsets(&self) -> Result<TimeOffsets, String> {
        Ok(TimeOffsets {
            head: self.head()?,
            slot: self.slot()?,
            a0_utc: self.u("a0utc")?,
            a1_utc: self.u("a1utc")?,
            a2_utc: self.u("a2utc")?,
            leap_seconds: self.u("dtls")?,
            t_utc: self.u("toutc")?,
            wn_utc: self.week("wnoutc")?,
            wn_leap: self.week("wnlsf")?,
            day_leap: self.u("dn")?,
            leap_seconds_next: self.u("dtlsf")?,
            a0: self.u("a0")?,
            a1: self.u("a1")?,
            a2: self.u("a2")?,
            t_gnss: self.u("tot")?,
            wn_gnss: self.week("wnot")?,
            gnss_id: self.u("gnssid")?,
            spare: self.u("spare194")?,
            prn: self.u("prn")?,
        })
    }

    /// The record; what the case doesn't use beside it is left out.
    fn record(&self) -> Result<Record, String> {
        Ok(match self.case() {
            "sf1" => Record::Subframe1(Subframe1 {
                head: self.head()?,
                wn: self.week("wn")?,
                af0: self.u("af0")?,
                af1: self.u("af1")?,
                af2: self.u("af2")?,
                ura: self.u("ura")?,
                toc: self.u("toc")?,
                tgd: self.u("tgd")?,
                delta_n: self.u("deltan")?,
                iodec: self.u("iodec")?,
                reserved: self.u("reserved145")?,
                l5_flag: self.flag("l5flag")?,
                s_flag: self.flag("sflag")?,
                cuc: self.u("cuc")?,
                cus: self.u("cus")?,
                cic: self.u("cic")?,
                cis: self.u("cis")?,
                crc: self.u("crc")?,
                crs: self.u("crs")?,
                idot: self.u("idot")?,
                spare: self.u("spare261")?,
            }),
            "sf2" => Record::Subframe2(Subframe2 {
                head: self.head()?,
                m0: self.u("m0")?,
                toe: self.u("toe")?,
                e: self.u("e")?,
                root_a: self.u("sqrta")?,
                omega0: self.u("omega0")?,
                omega: self.u("omega")?,
                omega_dot: self.u("omegadot")?,
                i0: self.u("i0")?,
                spare: self.u("spare261")?,
            }),
            "mt5" => Record::IonoGrid(IonoGrid {
                head: self.head()?,
                slot: self.slot()?,
                mask: self.u("mask")?,
                region: self.u("region")?,
                pairs: self.pairs()?,
                iodi: self.u("iodi")?,
                spare: self.u("spare249")?,
                prn: self.u("prn")?,
            }),
            "mt7" => Record::Almanac(Almanac {
                head: self.head()?,
                slot: self.slot()?,
                wna: self.week("wna")?,
                e: self.u("e")?,
                toa: self.u("toa")?,
                i0: self.u("i0")?,
                omega_dot: self.u("omegadot")?,
                root_a: self.u("sqrta")?,
                omega0: self.u("omega0")?,
                omega: self.u("omega")?,
                m0: self.u("m0")?,
                af0: self.u("af0")?,
                af1: self.u("af1")?,
                prn_almanac: self.u("prnal")?,
                isc: self.u("isc")?,
                spare: self.u("spare251")?,
                prn: self.u("prn")?,
            }),
            "mt9" => Record::GpsTime(self.time_offsets()?),
            "mt11" => Record::EarthIono(EarthIono {
                head: self.head()?,
                slot: self.slot()?,
                t_eop: self.u("teop")?,
                pm_x: self.u("pmx")?,
                pm_x_dot: self.u("pmxdot")?,
                pm_y: self.u("pmy")?,
                pm_y_dot: self.u("pmydot")?,
                d_ut1: self.u("dut1")?,
                d_ut1_dot: self.u("dut1dot")?,
                alpha0: self.u("alpha0")?,
                alpha1: self.u("alpha1")?,
                alpha2: self.u("alpha2")?,
                alpha3: self.u("alpha3")?,
                beta0: self.u("beta0")?,
                beta1: self.u("beta1")?,
                beta2: self.u("beta2")?,
                beta3: self.u("beta3")?,
                spare: self.u("spare239")?,
                prn: self.u("prn")?,
            }),
            "mt26" => Record::GnssTime(self.time_offsets()?),
            "null" => Record::Null(Null { head: self.head()?, slot: self.slot()?, data: self.data(), prn: self.u("prn")? }),
            "unread" => {
                let id = self.0.get("msgid").number().try_into().map_err(|_| "msgid")?;
                Record::Unread(Unread { head: self.head()?, slot: self.slot()?, id, data: self.data(), prn: self.u("prn")? })
            }
            other => panic!("case {other}"),
        })
    }

    /// The 42 numbers, without the typed record: the fields stand in the vectors in the table's order. Nothing where they can't
    /// say what the row says.
    fn numbers(&self) -> Result<[i64; NUMBERS], String> {
        let members = self.0.get("f").members();
        let fields: Vec<i128> = members.iter().map(|(_, number)| number.number()).collect();
        let (sub, own) = (self.0.get("sub").number(), &fields[5..]);
        let id = match self.case() {
            "sf1" | "sf2" => None,
            "null" => Some(0),
            "unread" => Some(self.0.get("msgid").number()),
            message => Some(message[2..].parse().unwrap()),
        };
        if id.is_some() && (sub == 1 || sub == 2) {
            return Err(format!("a message in subframe {sub}"));
        }
        if self.case() == "unread" && [0, 5, 7, 9, 11, 26].contains(&id.unwrap()) {
            return Err(format!("unread {}", id.unwrap()));
        }
        let mut numbers = [&fields[..4], &[sub - 1, fields[4]]].concat();
        numbers.extend(id);
        match self.case() {
            "mt5" => {
                numbers.extend(&own[..2]);
                numbers.extend(self.0.get("pairs").list().iter().flat_map(|pair| pair.list()).map(Json::number));
                numbers.extend(&own[2..]);
            }
            "null" | "unread" => {
                let data = self.data();
                if data[27] & 15 != 0 {
                    return Err("unused bits".to_string());
                }
                numbers.extend(data[..27].iter().map(|byte| i128::from(*byte)));
                numbers.push(i128::from(data[27] >> 4));
                numbers.extend(own);
            }
            _ => numbers.extend(own),
        }
        numbers.resize(NUMBERS, 0);
        let numbers: Result<Vec<i64>, _> = numbers.into_iter().map(i64::try_from).collect();
        Ok(numbers.map_err(|_| "above 63 bits")?.try_into().unwrap())
    }
}

fn tally(mut skipped: Vec<String>) -> String {
    skipped.sort();
    let mut counted: Vec<(String, usize)> = Vec::new();
    for why in skipped {
        match counted.last_mut() {
            Some((last, count)) if *last == why => *count += 1,
            _ => counted.push((why, 1)),
        }
    }
    counted.iter().map(|(why, count)| format!("{why} {count}")).collect::<Vec<_>>().join(", ")
}

#[test]
fn read_rows() {
    let Some(all) = rows("read.jsonl") else { return };
    let mut typed = 0;
    for (i, row) in all.iter().enumerate() {
        let symbols = symbols_of(row.get("symbols").text().as_bytes());
        let expected: Vec<u32> = row.get("line").text().split(' ').map(|word| word.parse().unwrap()).collect();
        let lent_after = bytes_of_hex(row.get("lent_after").text());
        let (mut room, mut numbers) = (vec![LENT; row.get("room").number() as usize], [i64::MIN; NUMBERS]);
        let got = calls::read(&symbols, &mut room, &mut numbers);
        let got_line = [got.refusal, got.corrected, got.polarity, got.subframe, got.towc, got.message_id];
        assert_eq!(got_line[..], expected[..], "row {i}: line");
        assert_eq!(room, lent_after, "row {i}: lent bytes");
        if expected[0] == 2 {
            assert_eq!(numbers, [i64::MIN; NUMBERS], "row {i}: lent numbers");
            continue;
        }
        typed += 1;
        let answer = read(&symbols);
        assert_eq!(line(&answer)[..], expected[..], "row {i}: line");
        match row.get("record") {
            Json::Null => assert!(answer.is_err(), "row {i}"),
            record => {
                let (reading, record) = (answer.unwrap(), Vector(record));
                record.beside_used().unwrap();
                assert_eq!(reading.record, record.record().unwrap(), "row {i}: record");
                assert_eq!(numbers, record.numbers().unwrap(), "row {i}: numbers");
                assert_eq!(reading.word[..], lent_after[..36], "row {i}: word");
            }
        }
    }
    say(&format!("read.jsonl: {} rows in numbers, {typed} of them typed", all.len()));
}

#[test]
fn write_rows() {
    let Some(all) = rows("write.jsonl") else { return };
    let base: Vec<&Json> = all.iter().filter(|row| row.get("level").text() == "base").collect();
    let (mut typed, mut plain, mut neither, mut not_typed) = (0, 0, Vec::new(), Vec::new());
    for (i, row) in base.iter().enumerate() {
        let (refusal, beside) = (row.get("refusal").number(), row.get("beside").number());
        let lent_after = bytes_of_hex(row.get("lent_after").text());
        let vector = Vector(row.get("record"));
        let numbers = vector.beside_used().and_then(|()| vector.numbers());
        if let Ok(numbers) = &numbers {
            let mut room = vec![LENT; row.get("room").number() as usize];
            let got = calls::write(numbers, &mut room);
            assert_eq!((i128::from(got.refusal), i128::from(got.first_bit)), (refusal, beside), "row {i}");
            assert_eq!(room, lent_after, "row {i}: lent bytes");
            plain += 1;
        }
        match vector.beside_used().and_then(|()| vector.record()) {
            Err(why) => not_typed.push(why),
            Ok(_) if refusal == 2 => not_typed.push("room".to_string()),
            Ok(record) => {
                let (number, bit) = match write(&record) {
                    Ok(symbols) => {
                        assert_eq!(symbols[..], lent_after[..SYMBOLS], "row {i}: symbols");
                        (0, 0)
                    }
                    Err(WriteRefusal::Field { first_bit }) => (8, first_bit),
                    Err(other) => (other.number(), 0),
                };
                assert_eq!((i128::from(number), i128::from(bit)), (refusal, beside), "row {i}");
                typed += 1;
                continue;
            }
        }
        neither.extend(numbers.err());
    }
    say(&format!("write.jsonl: {} rows of level base: {plain} in numbers, {typed} typed", base.len()));
    say(&format!("  not typed: {}", tally(not_typed)));
    say(&format!("  neither: {}", tally(neither)));
    assert!(plain > 600 && typed > 500);
}

#[test]
fn pair_rows() {
    let Some(all) = rows("pair.jsonl") else { return };
    let (mut plain, mut typed, mut skipped, mut failed) = (0, 0, Vec::new(), Vec::new());
    for (i, row) in all.iter().enumerate().filter(|(_, row)| !row.get("w201").bool()) {
        let refusal = row.get("refusal").number();
        let expected: Vec<u64> =
            row.get("f64").members().iter().map(|(_, bits)| u64::from_str_radix(bits.text(), 16).unwrap()).collect();
        let (first, second) = (Vector(row.get("first")), Vector(row.get("second")));
        // nothing beside the record is counted in pairing
        if let (Ok(one), Ok(two)) = (first.numbers(), second.numbers()) {
            plain += 1;
            let got = calls::pair(&one, &two);
            if i128::from(got.refusal) != refusal || bits_of(&got.ephemeris)[..] != expected[..] {
                failed.push(i);
                continue;
            }
        }
        match (first.record(), second.record()) {
            (Ok(one), Ok(two)) => {
                typed += 1;
                match pair(&one, &two) {
                    Ok(ephemeris) => assert_eq!((0, &bits_of(&ephemeris)[..]), (refusal, &expected[..]), "row {i}"),
                    Err(no_pair) => assert_eq!(i128::from(no_pair.number()), refusal, "row {i}"),
                }
            }
            (one, two) => skipped.extend([one.err(), two.err()].into_iter().flatten()),
        }
    }
    say(&format!("pair.jsonl: {plain} rows in numbers, {typed} typed; not typed: {}", tally(skipped)));
    assert!(failed.is_empty(), "{} rows differ: {failed:?}", failed.len());
}

/// The 26 numbers in the vectors' order.
fn bits_of(e: &Ephemeris) -> [u64; 26] {
    let first = [
        e.wn, e.af0, e.af1, e.af2, e.ura, e.toc, e.tgd, e.delta_n, e.iodec, e.l5_flag, e.s_flag, e.cuc, e.cus, e.cic, e.cis,
        e.crc,
    ];
    let second = [e.crs, e.idot, e.m0, e.toe, e.e, e.root_a, e.omega0, e.omega, e.omega_dot, e.i0];
    let mut all = first.into_iter().chain(second).map(f64::to_bits);
    std::array::from_fn(|_| all.next().unwrap())
}

#[test]
fn walk_rows() {
    let Some(all) = rows("walk.jsonl") else { return };
    for (i, row) in all.iter().enumerate() {
        let recording = match row.get("recording") {
            Json::Text(text) => text.bytes().map(|byte| byte - b'0').collect(),
            zeros => vec![0; zeros.get("zeros").number() as usize],
        };
        let start = row.get("start").number() as usize;
        let expected: Vec<i128> = row.get("answer").list().iter().map(Json::number).collect();
        let found = calls::find(&recording, start);
        let end = if found.number == 0 { found.start + SYMBOLS } else { found.start };
        assert_eq!(
            [i128::from(found.number), found.start as i128, end as i128, found.after as i128][..],
            expected[..],
            "row {i}"
        );
        match find(&recording, start) {
            Ok(window) => {
                assert_eq!([0, window.start as i128, window.end() as i128], expected[..3], "row {i}");
                assert_eq!(window.symbols[..], recording[window.start..window.end()], "row {i}");
            }
            Err(refusal) => assert_eq!(i128::from(refusal.number()), expected[0], "row {i}"),
        }
    }
    say(&format!("walk.jsonl: {} rows", all.len()));
}

#[test]
fn time_rows() {
    let Some(text) = file("time.tsv") else { return };
    for row in text.lines() {
        let columns: Vec<u32> = row.split('\t').take(3).map(|word| word.parse().unwrap()).collect();
        match Towc(columns[0]).began_at() {
            Ok(second) => {
                assert_eq!([0, second.0], columns[1..], "{row}");
                assert!((0..12).all(|within| SecondOfWeek(second.0 + within).count() == Ok(Towc(columns[0]))), "{row}");
            }
            Err(refusal) => assert_eq!([u32::from(refusal.number()), 0], columns[1..], "{row}"),
        }
    }
    say(&format!("time.tsv: {} rows", text.lines().count()));
}

/// The program's input: `\n` is a line feed, `\xNN` another byte.
fn unescaped(text: &str) -> Vec<u8> {
    let mut parts = text.split('\\');
    let mut input = parts.next().unwrap().as_bytes().to_vec();
    for part in parts {
        let (byte, rest) = match part.as_bytes()[0] {
            b'n' => (b'\n', &part[1..]),
            b'x' => (bytes_of_hex(&part[1..3])[0], &part[3..]),
            other => panic!("escape {other}"),
        };
        input.push(byte);
        input.extend(rest.as_bytes());
    }
    input
}

#[test]
fn program_cases() {
    let Some(text) = file("cases.tsv") else { return };
    let mut refusals = [0; 12];
    for row in text.lines() {
        let columns: Vec<&str> = row.split('\t').collect();
        let got = line(&read(&symbols_of(&unescaped(columns[2]))));
        let got_line = got.map(|number| number.to_string()).join(" ");
        assert_eq!(got_line, columns[3], "{} {}", columns[0], columns[1]);
        refusals[got[0] as usize] += 1;
    }
    say(&format!("cases.tsv: {} rows, by refusal {refusals:?}", text.lines().count()));
}
