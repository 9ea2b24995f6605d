//! The typed records, and the way between a record and its 42 numbers in the order of the field table.

use crate::sys::NUMBERS;
use crate::time::{Towc, Week};

/// Bits 1 to 30, which every record keeps. The subframe's number is told by the record's case.
#[derive(Clone, Copy, Debug, Default, PartialEq, Eq, Hash)]
pub struct Head {
    /// Telemetry word, 8 bits.
    pub tlm: u32,
    /// The count of twelve-second steps, 1 to 50,400.
    pub towc: Towc,
    /// The alert flag.
    pub alert: bool,
    /// The AutoNav flag.
    pub auto_nav: bool,
    /// The spare bit 30.
    pub spare: u32,
}

/// Which of subframes 3 and 4 a message was.
#[derive(Clone, Copy, Debug, Default, PartialEq, Eq, Hash)]
pub enum Slot {
    /// Subframe 3.
    #[default]
    Subframe3,
    /// Subframe 4.
    Subframe4,
}

/// GIVEI and GIVD of one of the fifteen places of an ionosphere grid.
#[derive(Clone, Copy, Debug, Default, PartialEq, Eq, Hash)]
pub struct Pair {
    /// Index of the error, 4 bits.
    pub givei: u8,
    /// Vertical delay, 9 bits, times 0.125 m.
    pub givd: u16,
}

/// The places of an ionosphere grid.
pub const GRID_PLACES: usize = 15;
/// The bytes that hold the 220 data bits of a message.
pub const DATA_BYTES: usize = 28;

/// A record's numbers while they are filled in; 0 behind them.
struct Filled {
    numbers: [i64; NUMBERS],
    count: usize,
}

impl Filled {
    fn push(&mut self, number: i64) {
        self.numbers[self.count] = number;
        self.count += 1;
    }
}

/// A field of a record: one number of the table or, for what is an array, several.
trait Field {
    fn put(&self, numbers: &mut Filled);
    /// Takes the number that the reader gave, which is within its field.
    fn take(numbers: &mut std::slice::Iter<i64>) -> Self;
}

fn next(numbers: &mut std::slice::Iter<i64>) -> i64 {
    *numbers.next().expect("42 numbers hold every layout")
}

macro_rules! field_of_integer {
    ($($integer:ty),*) => {$(
        impl Field for $integer {
            fn put(&self, numbers: &mut Filled) {
                // a u64 above i64's greatest number becomes one below 0, which no unsigned field holds either
                numbers.push(*self as i64);
            }
            fn take(numbers: &mut std::slice::Iter<i64>) -> Self {
                <$integer>::try_from(next(numbers)).expect("a number that was read is within its field")
            }
        }
    )*};
}
field_of_integer!(u8, u16, u32, u64, i32);

impl Field for bool {
    fn put(&self, numbers: &mut Filled) {
        numbers.push(i64::from(*self));
    }
    fn take(numbers: &mut std::slice::Iter<i64>) -> Self {
        next(numbers) != 0
    }
}

impl Field for Week {
    fn put(&self, numbers: &mut Filled) {
        self.0.put(numbers);
    }
    fn take(numbers: &mut std::slice::Iter<i64>) -> Self {
        Week(u32::take(numbers))
    }
}

impl Field for [Pair; GRID_PLACES] {
    fn put(&self, numbers: &mut Filled) {
        for pair in self {
            pair.givei.put(numbers);
            pair.givd.put(numbers);
        }
    }
    fn take(numbers: &mut std::slice::Iter<i64>) -> Self {
        std::array::from_fn(|_| Pair { givei: u8::take(numbers), givd: u16::take(numbers) })
    }
}

/// The 220 bits: 27 bytes, and the high four bits of the last as a number of their own.
impl Field for [u8; DATA_BYTES] {
    fn put(&self, numbers: &mut Filled) {
        let (last, whole) = self.split_last().expect("28 bytes");
        whole.iter().for_each(|byte| byte.put(numbers));
        (last >> 4).put(numbers);
    }
    fn take(numbers: &mut std::slice::Iter<i64>) -> Self {
        let mut data = std::array::from_fn(|_| u8::take(numbers));
        data[DATA_BYTES - 1] <<= 4;
        data
    }
}

/// Makes a struct that keeps the head, or head and slot, and has the fields of its kind in the table's order.
macro_rules! kind {
    ($(#[$about:meta])* $name:ident keeps $($(#[$kept_doc:meta])* $kept:ident: $kept_type:ty),*; $($(#[$doc:meta])* $field:ident: $type:ty,)*) => {
        $(#[$about])*
        #[derive(Clone, Copy, Debug, Default, PartialEq, Eq, Hash)]
        pub struct $name {
            $($(#[$kept_doc])* pub $kept: $kept_type,)*
            $($(#[$doc])* pub $field: $type,)*
        }

        impl $name {
            fn put(&self, numbers: &mut Filled) {
                $(self.$field.put(numbers);)*
            }
            fn take($($kept: $kept_type,)* numbers: &mut std::slice::Iter<i64>) -> Self {
                $(let $field = Field::take(numbers);)*
                $name { $($kept,)* $($field,)* }
            }
        }
    };
}

kind! {
    /// Subframe 1: clock, and the first part of the ephemeris.
    Subframe1 keeps
    /// Bits 1 to 30.
    head: Head;
    /// Week number, 10 bits.
    wn: Week,
    /// Clock bias, 22 bits signed, 2^-31 s.
    af0: i32,
    /// Clock drift, 16 bits signed, 2^-43 s/s.
    af1: i32,
    /// Clock drift rate, 8 bits signed, 2^-55 s/s^2.
    af2: i32,
    /// Accuracy index, 4 bits.
    ura: u32,
    /// Time of clock, 16 bits, 16 s.
    toc: u32,
    /// Group delay, 8 bits signed, 2^-31 s.
    tgd: i32,
    /// Mean motion difference, 22 bits signed, 2^-41 semi-circles/s.
    delta_n: i32,
    /// Issue of data, 8 bits.
    iodec: u32,
    /// Reserved, 10 bits.
    reserved: u32,
    /// The L5 flag.
    l5_flag: bool,
    /// The S flag.
    s_flag: bool,
    /// Argument of latitude, cosine, 15 bits signed, 2^-28 rad.
    cuc: i32,
    /// Argument of latitude, sine, 15 bits signed, 2^-28 rad.
    cus: i32,
    /// Inclination, cosine, 15 bits signed, 2^-28 rad.
    cic: i32,
    /// Inclination, sine, 15 bits signed, 2^-28 rad.
    cis: i32,
    /// Orbit radius, cosine, 15 bits signed, 2^-4 m.
    crc: i32,
    /// Orbit radius, sine, 15 bits signed, 2^-4 m.
    crs: i32,
    /// Rate of inclination, 14 bits signed, 2^-43 semi-circles/s.
    idot: i32,
    /// The spare bits 261 and 262.
    spare: u32,
}

kind! {
    /// Subframe 2: the second part of the ephemeris.
    Subframe2 keeps
    /// Bits 1 to 30.
    head: Head;
    /// Mean anomaly, 32 bits signed, 2^-31 semi-circles.
    m0: i32,
    /// Time of ephemeris, 16 bits, 16 s.
    toe: u32,
    /// Eccentricity, 32 bits, 2^-33.
    e: u32,
    /// Root of the semi-major axis, 32 bits, 2^-19 m^(1/2).
    root_a: u32,
    /// Longitude of the ascending node, 32 bits signed, 2^-31 semi-circles.
    omega0: i32,
    /// Argument of perigee, 32 bits signed, 2^-31 semi-circles.
    omega: i32,
    /// Rate of right ascension, 22 bits signed, 2^-41 semi-circles/s.
    omega_dot: i32,
    /// Inclination, 32 bits signed, 2^-31 semi-circles.
    i0: i32,
    /// The spare bits 261 and 262.
    spare: u32,
}

kind! {
    /// Message type 5: the ionosphere's grid.
    IonoGrid keeps
    /// Bits 1 to 30.
    head: Head,
    /// Which subframe it was.
    slot: Slot;
    /// Regions masked, 10 bits.
    mask: u32,
    /// Which region, 4 bits.
    region: u32,
    /// GIVEI and GIVD of the fifteen places.
    pairs: [Pair; GRID_PLACES],
    /// Issue of data, 3 bits.
    iodi: u32,
    /// Spare, 8 bits.
    spare: u32,
    /// Who sent it, 6 bits.
    prn: u32,
}

kind! {
    /// Message type 7: an almanac.
    Almanac keeps
    /// Bits 1 to 30.
    head: Head,
    /// Which subframe it was.
    slot: Slot;
    /// Week of the almanac, 10 bits.
    wna: Week,
    /// Eccentricity, 16 bits, 2^-21.
    e: u32,
    /// Time of almanac, 16 bits, 16 s.
    toa: u32,
    /// Inclination, 24 bits signed, 2^-23 semi-circles.
    i0: i32,
    /// Rate of right ascension, 16 bits signed, 2^-38 semi-circles/s.
    omega_dot: i32,
    /// Root of the semi-major axis, 24 bits, 2^-11 m^(1/2).
    root_a: u32,
    /// Longitude of the ascending node, 24 bits signed, 2^-23 semi-circles.
    omega0: i32,
    /// Argument of perigee, 24 bits signed, 2^-23 semi-circles.
    omega: i32,
    /// Mean anomaly, 24 bits signed, 2^-23 semi-circles.
    m0: i32,
    /// Clock bias, 11 bits signed, 2^-20 s.
    af0: i32,
    /// Clock drift, 11 bits signed, 2^-38 s/s.
    af1: i32,
    /// Whose almanac it is, 6 bits.
    prn_almanac: u32,
    /// Inter-signal correction, 8 bits signed, 2^-31 s.
    isc: i32,
    /// Spare, 6 bits.
    spare: u32,
    /// Who sent it, 6 bits.
    prn: u32,
}

kind! {
    /// Message types 9 and 26: time offsets, to UTC and to GPS (9) or another system (26).
    TimeOffsets keeps
    /// Bits 1 to 30.
    head: Head,
    /// Which subframe it was.
    slot: Slot;
    /// Bias to UTC, 16 bits signed, 2^-35 s.
    a0_utc: i32,
    /// Drift to UTC, 13 bits signed, 2^-51 s/s.
    a1_utc: i32,
    /// Drift rate to UTC, 7 bits signed, 2^-68 s/s^2.
    a2_utc: i32,
    /// Leap seconds now or before, 8 bits signed.
    leap_seconds: i32,
    /// Reference time of week for UTC, 16 bits, 16 s.
    t_utc: u32,
    /// Reference week for UTC, 10 bits.
    wn_utc: Week,
    /// Week of the leap second, 10 bits.
    wn_leap: Week,
    /// Day of the leap second, 4 bits.
    day_leap: u32,
    /// Leap seconds now or later, 8 bits signed.
    leap_seconds_next: i32,
    /// Bias to the other system, 16 bits signed, 2^-35 s.
    a0: i32,
    /// Drift to the other system, 13 bits signed, 2^-51 s/s.
    a1: i32,
    /// Drift rate to the other system, 7 bits signed, 2^-68 s/s^2.
    a2: i32,
    /// Reference time of week for the other system, 16 bits, 16 s.
    t_gnss: u32,
    /// Reference week for the other system, 10 bits.
    wn_gnss: Week,
    /// Which system, 3 bits.
    gnss_id: u32,
    /// Spare, 63 bits.
    spare: u64,
    /// Who sent it, 6 bits.
    prn: u32,
}

kind! {
    /// Message type 11: earth orientation and the ionosphere's coefficients.
    EarthIono keeps
    /// Bits 1 to 30.
    head: Head,
    /// Which subframe it was.
    slot: Slot;
    /// Reference time, 16 bits, 16 s.
    t_eop: u32,
    /// Polar motion, x, 21 bits signed, 2^-20 arc-seconds.
    pm_x: i32,
    /// Its drift, 15 bits signed, 2^-21 arc-seconds/day.
    pm_x_dot: i32,
    /// Polar motion, y, 21 bits signed, 2^-20 arc-seconds.
    pm_y: i32,
    /// Its drift, 15 bits signed, 2^-21 arc-seconds/day.
    pm_y_dot: i32,
    /// UT1 - UTC, 31 bits signed, 2^-24 s.
    d_ut1: i32,
    /// Its rate, 19 bits signed, 2^-25 s/day.
    d_ut1_dot: i32,
    /// Ionosphere, 8 bits signed, 2^-30 s.
    alpha0: i32,
    /// 8 bits signed, 2^-27 s/semi-circle.
    alpha1: i32,
    /// 8 bits signed, 2^-24 s/semi-circle^2.
    alpha2: i32,
    /// 8 bits signed, 2^-24 s/semi-circle^3.
    alpha3: i32,
    /// 8 bits signed, 2^11 s.
    beta0: i32,
    /// 8 bits signed, 2^14 s/semi-circle.
    beta1: i32,
    /// 8 bits signed, 2^16 s/semi-circle^2.
    beta2: i32,
    /// 8 bits signed, 2^16 s/semi-circle^3.
    beta3: i32,
    /// Spare, 18 bits.
    spare: u32,
    /// Who sent it, 6 bits.
    prn: u32,
}

kind! {
    /// Message ID 0, the null message.
    Null keeps
    /// Bits 1 to 30.
    head: Head,
    /// Which subframe it was.
    slot: Slot;
    /// The 220 data bits, first bit highest; the low four bits of the last byte are unused and 0.
    data: [u8; DATA_BYTES],
    /// Who sent it, 6 bits.
    prn: u32,
}

kind! {
    /// Every other message, carried unread.
    Unread keeps
    /// Bits 1 to 30.
    head: Head,
    /// Which subframe it was.
    slot: Slot,
    /// The message ID, 1 to 63 and none of 5, 7, 9, 11 and 26.
    id: u32;
    /// The 220 data bits, first bit highest; the low four bits of the last byte are unused and 0.
    data: [u8; DATA_BYTES],
    /// Who sent it, 6 bits.
    prn: u32,
}

/// A case for each kind of subframe or message.
#[derive(Clone, Copy, Debug, PartialEq, Eq, Hash)]
pub enum Record {
    /// Subframe 1.
    Subframe1(Subframe1),
    /// Subframe 2.
    Subframe2(Subframe2),
    /// Message 5.
    IonoGrid(IonoGrid),
    /// Message 7.
    Almanac(Almanac),
    /// Message 9: offsets to UTC and GPS.
    GpsTime(TimeOffsets),
    /// Message 11.
    EarthIono(EarthIono),
    /// Message 26: offsets to UTC and another system.
    GnssTime(TimeOffsets),
    /// Message 0.
    Null(Null),
    /// Every other message.
    Unread(Unread),
}

impl Record {
    /// What every record keeps.
    pub fn head(&self) -> &Head {
        match self {
            Record::Subframe1(c) => &c.head,
            Record::Subframe2(c) => &c.head,
            Record::IonoGrid(c) => &c.head,
            Record::Almanac(c) => &c.head,
            Record::GpsTime(c) | Record::GnssTime(c) => &c.head,
            Record::EarthIono(c) => &c.head,
            Record::Null(c) => &c.head,
            Record::Unread(c) => &c.head,
        }
    }

    /// The slot of a message; nothing for subframes 1 and 2.
    pub fn slot(&self) -> Option<Slot> {
        match self {
            Record::Subframe1(_) | Record::Subframe2(_) => None,
            Record::IonoGrid(c) => Some(c.slot),
            Record::Almanac(c) => Some(c.slot),
            Record::GpsTime(c) | Record::GnssTime(c) => Some(c.slot),
            Record::EarthIono(c) => Some(c.slot),
            Record::Null(c) => Some(c.slot),
            Record::Unread(c) => Some(c.slot),
        }
    }

    /// The subframe, 1 to 4.
    pub fn subframe(&self) -> u32 {
        match (self, self.slot()) {
            (Record::Subframe1(_), _) => 1,
            (_, None) => 2,
            (_, Some(Slot::Subframe3)) => 3,
            (_, Some(Slot::Subframe4)) => 4,
        }
    }

    /// The message ID; nothing for subframes 1 and 2.
    pub fn message_id(&self) -> Option<u32> {
        match self {
            Record::Subframe1(_) | Record::Subframe2(_) => None,
            Record::IonoGrid(_) => Some(5),
            Record::Almanac(_) => Some(7),
            Record::GpsTime(_) => Some(9),
            Record::EarthIono(_) => Some(11),
            Record::GnssTime(_) => Some(26),
            Record::Null(_) => Some(0),
            Record::Unread(c) => Some(c.id),
        }
    }

    /// The data bytes of a message that keeps its 220 bits.
    pub(crate) fn data(&self) -> Option<&[u8; DATA_BYTES]> {
        match self {
            Record::Null(c) => Some(&c.data),
            Record::Unread(c) => Some(&c.data),
            _ => None,
        }
    }

    /// The record's numbers in the table's order, 0 behind them. The unused bits of the data are not among them.
    pub(crate) fn numbers(&self) -> [i64; NUMBERS] {
        let head = self.head();
        let mut filled = Filled { numbers: [0; NUMBERS], count: 0 };
        let numbers = &mut filled;
        head.tlm.put(numbers);
        head.towc.0.put(numbers);
        head.alert.put(numbers);
        head.auto_nav.put(numbers);
        (self.subframe() - 1).put(numbers);
        head.spare.put(numbers);
        if let Some(id) = self.message_id() {
            id.put(numbers);
        }
        match self {
            Record::Subframe1(c) => c.put(numbers),
            Record::Subframe2(c) => c.put(numbers),
            Record::IonoGrid(c) => c.put(numbers),
            Record::Almanac(c) => c.put(numbers),
            Record::GpsTime(c) | Record::GnssTime(c) => c.put(numbers),
            Record::EarthIono(c) => c.put(numbers),
            Record::Null(c) => c.put(numbers),
            Record::Unread(c) => c.put(numbers),
        }
        filled.numbers
    }

    /// The record of the numbers that the reader gave.
    pub(crate) fn of_numbers(numbers: &[i64; NUMBERS]) -> Record {
        let from = &mut numbers.iter();
        let (tlm, towc, alert, auto_nav) = (u32::take(from), Towc(u32::take(from)), bool::take(from), bool::take(from));
        let (subframe, spare) = (u8::take(from), u32::take(from));
        let head = Head { tlm, towc, alert, auto_nav, spare };
        let slot = match subframe {
            0 => return Record::Subframe1(Subframe1::take(head, from)),
            1 => return Record::Subframe2(Subframe2::take(head, from)),
            2 => Slot::Subframe3,
            _ => Slot::Subframe4,
        };
        match u32::take(from) {
            0 => Record::Null(Null::take(head, slot, from)),
            5 => Record::IonoGrid(IonoGrid::take(head, slot, from)),
            7 => Record::Almanac(Almanac::take(head, slot, from)),
            9 => Record::GpsTime(TimeOffsets::take(head, slot, from)),
            11 => Record::EarthIono(EarthIono::take(head, slot, from)),
            26 => Record::GnssTime(TimeOffsets::take(head, slot, from)),
            id => Record::Unread(Unread::take(head, slot, id, from)),
        }
    }
}

macro_rules! record_from {
    ($($case:ident),*) => {$(
        impl From<$case> for Record {
            fn from(record: $case) -> Record {
                Record::$case(record)
            }
        }
    )*};
}
record_from!(Subframe1, Subframe2, IonoGrid, Almanac, EarthIono, Null, Unread);
