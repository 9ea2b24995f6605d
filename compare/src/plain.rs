//! An independent reader and writer of the NavIC (IRNSS) L5 SPS navigation message, written plainly
//! from the documents alone, so that another implementation can be compared with it.
//!
//! "01" below is `01-scope.md`, "003" the SPS ICD, "004" the messaging ICD, DECISIONS is docs/DECISIONS.md.
//! Places of bits are counted from 1, as the documents do. Bits and symbols are bytes of value 0 or 1.
//! Every public function is total: it gives an answer for every input.

// Loops over places stand as the documents count them.
#![allow(clippy::needless_range_loop, clippy::manual_range_contains)]

// ---------------------------------------------------------------------------------------------
// Sizes (01, "From symbols to 292 bits")
// ---------------------------------------------------------------------------------------------

/// Symbols of a subframe, sync included (01, Sync: "all 600 symbols").
pub const SUBFRAME_SYMBOLS: usize = 600;
/// Symbols of the sync word (01, Sync: "The first 16 symbols").
pub const SYNC_SYMBOLS: usize = 16;
/// Symbols after the sync word (01, Interleaver: "584 symbols").
pub const CODED_SYMBOLS: usize = 584;
/// Bits of a subframe (01, Nearest word: "292-bit words").
pub const WORD_BITS: usize = 292;
/// Zero bits at the end of every word (01, Nearest word: "whose last six bits are zero").
pub const TAIL_BITS: usize = 6;
/// Bits under the check (01, Check: "bits 1 to 262").
pub const BODY_BITS: usize = 262;
/// Bits of the check (01, Check: "bits 263 to 286").
pub const CHECK_BITS: usize = 24;
/// Bytes the reader puts into its room (01, after the table of numbers: "the first 36 bytes lent").
pub const READ_ROOM: usize = 36;
/// The longest recording (01, the walk: "up to 65,536 symbols"; DECISIONS).
pub const RECORDING_MOST: usize = 65_536;
/// First place of a message's 220 data bits (01, The fields: "data 37-256").
pub const DATA_FIRST: usize = 37;
/// Number of a message's data bits (01, The fields: "keeps its 220 bits").
pub const DATA_BITS: usize = 220;

// ---------------------------------------------------------------------------------------------
// The tables of fields (01, "The fields"; 003, Tables 11, 12, 15-18, 21, 22)
// ---------------------------------------------------------------------------------------------

/// One row of the table of fields: first bit, width, sign and scale (01, "All fields stand in one
/// table of first bit, width, sign and scale"). `scale` is the exponent of two; a field without a
/// scale has exponent 0, which is scale 1 (01, the pair).
#[derive(Clone, Copy, Debug, PartialEq, Eq)]
pub struct Row {
    pub name: &'static str,
    pub first: usize,
    pub width: usize,
    pub signed: bool,
    pub scale: i32,
}

impl Row {
    /// The last place of the field.
    pub fn last(&self) -> usize {
        self.first.saturating_add(self.width).saturating_sub(1)
    }
}

/// How a field's Rust type stands in the list of numbers. An unsigned number stands there with its
/// 64-bit pattern, so that also those above `i64::MAX` come back unchanged.
trait Number: Sized {
    const SIGNED: bool;
    fn to_number(&self) -> i64;
    fn from_number(number: i64) -> Option<Self>;
}

impl Number for i64 {
    const SIGNED: bool = true;
    fn to_number(&self) -> i64 {
        *self
    }
    fn from_number(number: i64) -> Option<i64> {
        Some(number)
    }
}

impl Number for u64 {
    const SIGNED: bool = false;
    fn to_number(&self) -> i64 {
        *self as i64
    }
    fn from_number(number: i64) -> Option<u64> {
        Some(number as u64)
    }
}

impl Number for bool {
    const SIGNED: bool = false;
    fn to_number(&self) -> i64 {
        i64::from(*self)
    }
    /// A flag holds 0 and 1 and nothing else (DECISIONS).
    fn from_number(number: i64) -> Option<bool> {
        match number {
            0 => Some(false),
            1 => Some(true),
            _ => None,
        }
    }
}

/// Makes, from one list of lines `field: type, first bit, width, exponent of the scale;`, the struct,
/// its table, its list of numbers and the way back. i64 is a signed field, u64 and bool unsigned.
/// What stands in square brackets are further members of the struct that are not rows of its table.
macro_rules! kind {
    ($(#[$doc:meta])* $name:ident, $table:ident, [$($extra:ident: $extra_type:ty),*] {
        $($field:ident: $type:ty, $first:expr, $width:expr, $scale:expr;)*
    }) => {
        $(#[$doc])*
        #[derive(Clone, Debug, PartialEq, Eq)]
        pub struct $name {
            $(pub $extra: $extra_type,)*
            $(pub $field: $type,)*
        }

        $(#[$doc])*
        pub const $table: &[Row] = &[$(Row {
            name: stringify!($field),
            first: $first,
            width: $width,
            signed: <$type as Number>::SIGNED,
            scale: $scale,
        },)*];

        impl $name {
            /// The numbers of this struct's own rows, in the order of its table.
            pub fn numbers(&self) -> Vec<i64> {
                vec![$(self.$field.to_number(),)*]
            }

            /// The way back; nothing if the count is wrong or a flag is neither 0 nor 1.
            pub fn from_numbers($($extra: $extra_type,)* numbers: &[i64]) -> Option<$name> {
                let mut rest = numbers.iter();
                let made = $name {
                    $($extra,)*
                    $($field: Number::from_number(*rest.next()?)?,)*
                };
                match rest.next() {
                    Some(_) => None,
                    None => Some(made),
                }
            }
        }
    };
}

kind! {
    /// What every record keeps (01, The fields: "Every record also keeps TLM, TOWC, alert, AutoNav and
    /// bit 30"; 003, Figures 11 and 12). The subframe ID, 28-29, follows from the record's case.
    Head, HEAD, [] {
        tlm: u64, 1, 8, 0;
        towc: u64, 9, 17, 0;
        alert: bool, 26, 1, 0;
        auto_nav: bool, 27, 1, 0;
        spare: bool, 30, 1, 0;
    }
}

kind! {
    /// Subframe 1 (01, The fields: "Subframe 1 (Table 11)"; 003, Table 11 and Figure 13).
    Subframe1, SUBFRAME1, [head: Head] {
        wn: u64, 31, 10, 0;
        af0: i64, 41, 22, -31;
        af1: i64, 63, 16, -43;
        af2: i64, 79, 8, -55;
        ura: u64, 87, 4, 0;
        toc: u64, 91, 16, 4;
        tgd: i64, 107, 8, -31;
        deltan: i64, 115, 22, -41;
        iodec: u64, 137, 8, 0;
        reserved145: u64, 145, 10, 0;
        l5flag: bool, 155, 1, 0;
        sflag: bool, 156, 1, 0;
        cuc: i64, 157, 15, -28;
        cus: i64, 172, 15, -28;
        cic: i64, 187, 15, -28;
        cis: i64, 202, 15, -28;
        crc: i64, 217, 15, -4;
        crs: i64, 232, 15, -4;
        idot: i64, 247, 14, -43;
        spare261: u64, 261, 2, 0;
    }
}

kind! {
    /// Subframe 2 (01, The fields: "Subframe 2 (Table 12)"; 003, Table 12 and Figure 14).
    Subframe2, SUBFRAME2, [head: Head] {
        m0: i64, 31, 32, -31;
        toe: u64, 63, 16, 4;
        e: u64, 79, 32, -33;
        sqrta: u64, 111, 32, -19;
        omega0: i64, 143, 32, -31;
        omega: i64, 175, 32, -31;
        omegadot: i64, 207, 22, -41;
        i0: i64, 229, 32, -31;
        spare261: u64, 261, 2, 0;
    }
}

kind! {
    /// Type 5 (01, The fields: "Type 5"; 003, Table 15 and Figure 15; DECISIONS for IODI and the spare).
    /// Its fifteen pairs stand beside the record; their rows are `PAIRS`.
    Type5, TYPE5, [head: Head, subframe: Which] {
        mask: u64, 37, 10, 0;
        region: u64, 47, 4, 0;
        iodi: u64, 246, 3, 0;
        spare249: u64, 249, 8, 0;
        prn: u64, 257, 6, 0;
    }
}

kind! {
    /// Type 7 (01, The fields: "Types 7, 9, 11"; 003, Table 16 and Figure 16).
    Type7, TYPE7, [head: Head, subframe: Which] {
        wna: u64, 37, 10, 0;
        e: u64, 47, 16, -21;
        toa: u64, 63, 16, 4;
        i0: i64, 79, 24, -23;
        omegadot: i64, 103, 16, -38;
        sqrta: u64, 119, 24, -11;
        omega0: i64, 143, 24, -23;
        omega: i64, 167, 24, -23;
        m0: i64, 191, 24, -23;
        af0: i64, 215, 11, -20;
        af1: i64, 226, 11, -38;
        prnal: u64, 237, 6, 0;
        isc: i64, 243, 8, -31;
        spare251: u64, 251, 6, 0;
        prn: u64, 257, 6, 0;
    }
}

kind! {
    /// Type 9 (01, The fields: "Types 7, 9, 11"; 003, Table 17 and Figure 17; DECISIONS for the spare).
    Type9, TYPE9, [head: Head, subframe: Which] {
        a0utc: i64, 37, 16, -35;
        a1utc: i64, 53, 13, -51;
        a2utc: i64, 66, 7, -68;
        dtls: i64, 73, 8, 0;
        toutc: u64, 81, 16, 4;
        wnoutc: u64, 97, 10, 0;
        wnlsf: u64, 107, 10, 0;
        dn: u64, 117, 4, 0;
        dtlsf: i64, 121, 8, 0;
        a0: i64, 129, 16, -35;
        a1: i64, 145, 13, -51;
        a2: i64, 158, 7, -68;
        tot: u64, 165, 16, 4;
        wnot: u64, 181, 10, 0;
        gnssid: u64, 191, 3, 0;
        spare194: u64, 194, 63, 0;
        prn: u64, 257, 6, 0;
    }
}

kind! {
    /// Type 11 (01, The fields: "Types 7, 9, 11"; 003, Table 18 and Figure 18).
    Type11, TYPE11, [head: Head, subframe: Which] {
        teop: u64, 37, 16, 4;
        pmx: i64, 53, 21, -20;
        pmxdot: i64, 74, 15, -21;
        pmy: i64, 89, 21, -20;
        pmydot: i64, 110, 15, -21;
        dut1: i64, 125, 31, -24;
        dut1dot: i64, 156, 19, -25;
        alpha0: i64, 175, 8, -30;
        alpha1: i64, 183, 8, -27;
        alpha2: i64, 191, 8, -24;
        alpha3: i64, 199, 8, -24;
        beta0: i64, 207, 8, 11;
        beta1: i64, 215, 8, 14;
        beta2: i64, 223, 8, 16;
        beta3: i64, 231, 8, 16;
        spare239: u64, 239, 18, 0;
        prn: u64, 257, 6, 0;
    }
}

kind! {
    /// Type 26 (01, The fields: "Type 26"; 003, Table 21 and Figure 21; DECISIONS for the spare).
    Type26, TYPE26, [head: Head, subframe: Which] {
        a0utc: i64, 37, 16, -35;
        a1utc: i64, 53, 13, -51;
        a2utc: i64, 66, 7, -68;
        dtls: i64, 73, 8, 0;
        toutc: u64, 81, 16, 4;
        wnoutc: u64, 97, 10, 0;
        wnlsf: u64, 107, 10, 0;
        dn: u64, 117, 4, 0;
        dtlsf: i64, 121, 8, 0;
        a0: i64, 129, 16, -35;
        a1: i64, 145, 13, -51;
        a2: i64, 158, 7, -68;
        tot: u64, 165, 16, 4;
        wnot: u64, 181, 10, 0;
        gnssid: u64, 191, 3, 0;
        spare194: u64, 194, 63, 0;
        prn: u64, 257, 6, 0;
    }
}

kind! {
    /// The null message (01, The fields: "Every message with ID 0 is the null message and keeps its 220
    /// bits"; 003, Table 22; DECISIONS). The 220 bits stand beside it.
    Null, NULL, [head: Head, subframe: Which] {
        prn: u64, 257, 6, 0;
    }
}

kind! {
    /// The unread case (01, The fields: "Other IDs ... give the unread case with ID and 220 bits"). The
    /// 220 bits stand beside it. Only this case keeps its message ID as a field (003, Figure 12).
    Unread, UNREAD, [head: Head, subframe: Which] {
        msgid: u64, 31, 6, 0;
        prn: u64, 257, 6, 0;
    }
}

/// First bits of type 5's fifteen pairs: GIVEI (4 bits) and GIVD (9 bits, 0.125 m) (003, Figure 15).
pub const PAIRS: [(usize, usize); 15] = [
    (51, 55),
    (64, 68),
    (77, 81),
    (90, 94),
    (103, 107),
    (116, 120),
    (129, 133),
    (142, 146),
    (155, 159),
    (168, 172),
    (181, 185),
    (194, 198),
    (207, 211),
    (220, 224),
    (233, 237),
];

/// The row of GIVEI of a pair (003, Table 15 and Figure 15).
pub fn givei_row(pair: usize) -> Row {
    Row { name: "givei", first: PAIRS[pair].0, width: 4, signed: false, scale: 0 }
}

/// The row of GIVD of a pair (003, Table 15 and Figure 15; 0.125 is two to the -3).
pub fn givd_row(pair: usize) -> Row {
    Row { name: "givd", first: PAIRS[pair].1, width: 9, signed: false, scale: -3 }
}

/// Bits 9-25, TOWC, the second row of the head (01, The fields).
const TOWC: Row = HEAD[1];
/// Bits 28-29, the subframe ID (01, The fields; 003, Table 10).
pub const SUBFRAME_ID: Row = Row { name: "subframe id", first: 28, width: 2, signed: false, scale: 0 };
/// Bits 31-36, the message ID of subframes 3 and 4 (01, The fields; 003, Figure 12).
pub const MESSAGE_ID: Row = Row { name: "message id", first: 31, width: 6, signed: false, scale: 0 };
/// Bits 263-286, the check (01, Check).
const CHECK: Row = Row { name: "check", first: 263, width: CHECK_BITS, signed: false, scale: 0 };

// ---------------------------------------------------------------------------------------------
// The record (01, "The fields")
// ---------------------------------------------------------------------------------------------

/// Whether a message was in subframe 3 or 4, with no third value (01, The fields; DECISIONS).
#[derive(Clone, Copy, Debug, PartialEq, Eq)]
pub enum Which {
    Three,
    Four,
}

/// A case per kind of subframe or message (01, The fields: "A record is a case per kind").
#[derive(Clone, Debug, PartialEq, Eq)]
pub enum Record {
    Subframe1(Subframe1),
    Subframe2(Subframe2),
    Type5(Type5),
    Type7(Type7),
    Type9(Type9),
    Type11(Type11),
    Type26(Type26),
    Null(Null),
    Unread(Unread),
}

/// The name of a record's case, without its fields (01, The fields).
#[derive(Clone, Copy, Debug, PartialEq, Eq)]
pub enum Case {
    Subframe1,
    Subframe2,
    Type5,
    Type7,
    Type9,
    Type11,
    Type26,
    Null,
    Unread,
}

/// What stands beside a record (01, The fields: "Bits that need an array stand beside the record, first
/// bit highest; so may type 5's pairs"; DECISIONS): 220 bits in 28 bytes, the low four bits of the last
/// byte unused, and fifteen GIVEI and fifteen GIVD numbers. What the case doesn't use is 0.
#[derive(Clone, Debug, PartialEq, Eq)]
pub struct Beside {
    pub data: [u8; 28],
    pub givei: [u8; 15],
    pub givd: [u16; 15],
}

impl Beside {
    /// Nothing beside the record: zeros throughout.
    pub fn zeros() -> Beside {
        Beside { data: [0; 28], givei: [0; 15], givd: [0; 15] }
    }

    /// Data bit `index`, 0 to 219, first bit highest; bit 37 of the word is index 0.
    fn data_bit(&self, index: usize) -> u8 {
        (self.data[index / 8] >> (7 - index % 8)) & 1
    }
}

/// All nine cases.
pub const CASES: [Case; 9] = [
    Case::Subframe1,
    Case::Subframe2,
    Case::Type5,
    Case::Type7,
    Case::Type9,
    Case::Type11,
    Case::Type26,
    Case::Null,
    Case::Unread,
];

impl Case {
    /// A short name, the same as in the vectors (vectors/README.md).
    pub fn name(self) -> &'static str {
        match self {
            Case::Subframe1 => "sf1",
            Case::Subframe2 => "sf2",
            Case::Type5 => "mt5",
            Case::Type7 => "mt7",
            Case::Type9 => "mt9",
            Case::Type11 => "mt11",
            Case::Type26 => "mt26",
            Case::Null => "null",
            Case::Unread => "unread",
        }
    }

    /// The case with this short name.
    pub fn from_name(name: &str) -> Option<Case> {
        CASES.into_iter().find(|case| case.name() == name)
    }

    /// The kind's own table.
    pub fn own_rows(self) -> &'static [Row] {
        match self {
            Case::Subframe1 => SUBFRAME1,
            Case::Subframe2 => SUBFRAME2,
            Case::Type5 => TYPE5,
            Case::Type7 => TYPE7,
            Case::Type9 => TYPE9,
            Case::Type11 => TYPE11,
            Case::Type26 => TYPE26,
            Case::Null => NULL,
            Case::Unread => UNREAD,
        }
    }

    /// The rows behind a record's list of numbers: the head's, then the kind's own (01, The fields).
    pub fn rows(self) -> Vec<Row> {
        [HEAD, self.own_rows()].concat()
    }

    /// Whether the 220 data bits stand beside the record (01, The fields: null and unread).
    pub fn uses_data(self) -> bool {
        matches!(self, Case::Null | Case::Unread)
    }

    /// Whether the fifteen pairs stand beside the record (01, The fields: type 5).
    pub fn uses_pairs(self) -> bool {
        matches!(self, Case::Type5)
    }

    /// The case of subframe ID bits and message ID bits (01, The fields: "0, 1, 2, 3 mean subframe 1, 2,
    /// 3, 4"; "Other IDs than 5, 7, 9, 11, 26 and 0 give the unread case").
    pub fn from_ids(subframe_id: i64, message_id: i64) -> Case {
        match (subframe_id, message_id) {
            (0, _) => Case::Subframe1,
            (1, _) => Case::Subframe2,
            (_, 0) => Case::Null,
            (_, 5) => Case::Type5,
            (_, 7) => Case::Type7,
            (_, 9) => Case::Type9,
            (_, 11) => Case::Type11,
            (_, 26) => Case::Type26,
            (_, _) => Case::Unread,
        }
    }
}

impl Record {
    /// The record's case.
    pub fn case(&self) -> Case {
        match self {
            Record::Subframe1(_) => Case::Subframe1,
            Record::Subframe2(_) => Case::Subframe2,
            Record::Type5(_) => Case::Type5,
            Record::Type7(_) => Case::Type7,
            Record::Type9(_) => Case::Type9,
            Record::Type11(_) => Case::Type11,
            Record::Type26(_) => Case::Type26,
            Record::Null(_) => Case::Null,
            Record::Unread(_) => Case::Unread,
        }
    }

    /// TLM, TOWC, alert, AutoNav and bit 30 (01, The fields).
    pub fn head(&self) -> &Head {
        match self {
            Record::Subframe1(it) => &it.head,
            Record::Subframe2(it) => &it.head,
            Record::Type5(it) => &it.head,
            Record::Type7(it) => &it.head,
            Record::Type9(it) => &it.head,
            Record::Type11(it) => &it.head,
            Record::Type26(it) => &it.head,
            Record::Null(it) => &it.head,
            Record::Unread(it) => &it.head,
        }
    }

    /// Whether a message record was subframe 3 or 4; nothing for subframes 1 and 2 (01, The fields).
    pub fn which(&self) -> Option<Which> {
        match self {
            Record::Subframe1(_) | Record::Subframe2(_) => None,
            Record::Type5(it) => Some(it.subframe),
            Record::Type7(it) => Some(it.subframe),
            Record::Type9(it) => Some(it.subframe),
            Record::Type11(it) => Some(it.subframe),
            Record::Type26(it) => Some(it.subframe),
            Record::Null(it) => Some(it.subframe),
            Record::Unread(it) => Some(it.subframe),
        }
    }

    /// The number of the subframe, 1 to 4 (01, the program's line: "subframe 1 to 4").
    pub fn subframe(&self) -> u64 {
        match (self, self.which()) {
            (Record::Subframe1(_), _) => 1,
            (Record::Subframe2(_), _) => 2,
            (_, Some(Which::Four)) => 4,
            (_, _) => 3,
        }
    }

    /// The message ID; 0 for subframes 1 and 2 (01, the program's line).
    pub fn message_id(&self) -> u64 {
        match self {
            Record::Subframe1(_) | Record::Subframe2(_) | Record::Null(_) => 0,
            Record::Type5(_) => 5,
            Record::Type7(_) => 7,
            Record::Type9(_) => 9,
            Record::Type11(_) => 11,
            Record::Type26(_) => 26,
            Record::Unread(it) => it.msgid,
        }
    }

    /// The record as a flat list of numbers, in the order of `self.case().rows()`: the head's five, then
    /// the kind's own in the order of their places (the unread case's message ID first, PRN last). An
    /// unsigned number stands with its 64-bit pattern.
    pub fn numbers(&self) -> Vec<i64> {
        let own = match self {
            Record::Subframe1(it) => it.numbers(),
            Record::Subframe2(it) => it.numbers(),
            Record::Type5(it) => it.numbers(),
            Record::Type7(it) => it.numbers(),
            Record::Type9(it) => it.numbers(),
            Record::Type11(it) => it.numbers(),
            Record::Type26(it) => it.numbers(),
            Record::Null(it) => it.numbers(),
            Record::Unread(it) => it.numbers(),
        };
        [self.head().numbers(), own].concat()
    }

    /// The way back from a case, a subframe number (1 to 4) and a flat list. Nothing if no record can
    /// hold it: a wrong count, a flag neither 0 nor 1, or a subframe number that the case can't have.
    pub fn from_numbers(case: Case, subframe: u64, numbers: &[i64]) -> Option<Record> {
        if numbers.len() < HEAD.len() {
            return None;
        }
        let (head, own) = numbers.split_at(HEAD.len());
        let head = Head::from_numbers(head)?;
        match case {
            Case::Subframe1 if subframe == 1 => Some(Record::Subframe1(Subframe1::from_numbers(head, own)?)),
            Case::Subframe2 if subframe == 2 => Some(Record::Subframe2(Subframe2::from_numbers(head, own)?)),
            Case::Subframe1 | Case::Subframe2 => None,
            Case::Type5 => Some(Record::Type5(Type5::from_numbers(head, which(subframe)?, own)?)),
            Case::Type7 => Some(Record::Type7(Type7::from_numbers(head, which(subframe)?, own)?)),
            Case::Type9 => Some(Record::Type9(Type9::from_numbers(head, which(subframe)?, own)?)),
            Case::Type11 => Some(Record::Type11(Type11::from_numbers(head, which(subframe)?, own)?)),
            Case::Type26 => Some(Record::Type26(Type26::from_numbers(head, which(subframe)?, own)?)),
            Case::Null => Some(Record::Null(Null::from_numbers(head, which(subframe)?, own)?)),
            Case::Unread => Some(Record::Unread(Unread::from_numbers(head, which(subframe)?, own)?)),
        }
    }

    /// Every row of the record with its number.
    fn fields(&self) -> Vec<(Row, i64)> {
        self.case().rows().into_iter().zip(self.numbers()).collect()
    }

    /// Every row of the record with its number, and those of the pairs beside it if the case is type 5
    /// (DECISIONS: "the pairs of type 5 count as fields at their places").
    fn fields_with_pairs(&self, beside: &Beside) -> Vec<(Row, i64)> {
        let mut fields = self.fields();
        if self.case().uses_pairs() {
            for pair in 0..PAIRS.len() {
                fields.push((givei_row(pair), i64::from(beside.givei[pair])));
                fields.push((givd_row(pair), i64::from(beside.givd[pair])));
            }
        }
        fields
    }
}

/// Subframe 3 or 4 by its number.
fn which(subframe: u64) -> Option<Which> {
    match subframe {
        3 => Some(Which::Three),
        4 => Some(Which::Four),
        _ => None,
    }
}

// ---------------------------------------------------------------------------------------------
// One field in a word (01, The fields: "Signed fields are two's complement")
// ---------------------------------------------------------------------------------------------

/// A word of 292 bits; bit 1 is at index 0 (01: "Bit 1 is sent first and is the most significant").
pub type Word = [u8; WORD_BITS];

/// The number in a field. The sign is taken from the field's own first bit (01, Slips).
fn get(word: &Word, row: &Row) -> i64 {
    let mut pattern: i64 = 0;
    for place in row.first..=row.last() {
        pattern = pattern * 2 + i64::from(word[place - 1]);
    }
    let negative = row.signed && word[row.first - 1] == 1;
    if negative {
        pattern - (1i64 << row.width)
    } else {
        pattern
    }
}

/// Puts a number that fits into its field, most significant bit first.
fn put(word: &mut Word, row: &Row, number: i64) {
    for place in row.first..=row.last() {
        let weight = row.last() - place;
        word[place - 1] = ((number >> weight) & 1) as u8;
    }
}

/// Whether a number is inside its field's width (01, the table of numbers, 8). No row is wider than 63.
fn fits(row: &Row, number: i64) -> bool {
    if row.signed {
        let half = 1i64 << (row.width - 1);
        -half <= number && number < half
    } else {
        (number as u64) < (1u64 << row.width)
    }
}

// ---------------------------------------------------------------------------------------------
// Sync and interleaver (01, "From symbols to 292 bits")
// ---------------------------------------------------------------------------------------------

/// EB90 hex (01, Sync; 003, 5.4).
pub const SYNC: [u8; SYNC_SYMBOLS] = [1, 1, 1, 0, 1, 0, 1, 1, 1, 0, 0, 1, 0, 0, 0, 0];

/// The sync rule on the first 16 of some symbols: `Some(false)` upright (at most 2 disagree),
/// `Some(true)` turned over (at least 14 disagree), `None` otherwise, also where one of the sixteen is
/// above 1 or missing (01, Sync; 01, the walk: "A sync symbol above 1 means that the rule doesn't hold").
pub fn sync(symbols: &[u8]) -> Option<bool> {
    if symbols.len() < SYNC_SYMBOLS {
        return None;
    }
    let first = &symbols[..SYNC_SYMBOLS];
    if first.iter().any(|&symbol| symbol > 1) {
        return None;
    }
    match count_differing(first, &SYNC) {
        0..=2 => Some(false),
        3..=13 => None,
        _ => Some(true),
    }
}

/// In how many places two rows of symbols of one length differ.
fn count_differing(one: &[u8], other: &[u8]) -> u32 {
    let mut count = 0;
    for (a, b) in one.iter().zip(other) {
        if a != b {
            count += 1;
        }
    }
    count
}

/// Where coded symbol `i`, counted from 0, travels (01, Interleaver: "(i mod 8)·73 + i div 8").
pub fn travels_at(i: usize) -> usize {
    (i % 8) * 73 + i / 8
}

/// From the order of coding to the order on the air (01, Interleaver).
fn interleave(coded: &[u8; CODED_SYMBOLS]) -> [u8; CODED_SYMBOLS] {
    let mut air = [0; CODED_SYMBOLS];
    for i in 0..CODED_SYMBOLS {
        air[travels_at(i)] = coded[i];
    }
    air
}

/// From the order on the air to the order of coding (01, Interleaver).
fn deinterleave(air: &[u8; CODED_SYMBOLS]) -> [u8; CODED_SYMBOLS] {
    let mut coded = [0; CODED_SYMBOLS];
    for i in 0..CODED_SYMBOLS {
        coded[i] = air[travels_at(i)];
    }
    coded
}

// ---------------------------------------------------------------------------------------------
// The code (01, Code)
// ---------------------------------------------------------------------------------------------

/// The two symbols of one bit, G1's first. `back[k]` is the bit k before the present one; `back[0]` is
/// the present one (01, Code: G1 "uses the present bit and those 1, 2, 3 and 6 before it", G2 "the
/// present bit and those 2, 3, 5 and 6 before it").
fn two_symbols(back: [u8; 7]) -> [u8; 2] {
    let g1 = back[0] ^ back[1] ^ back[2] ^ back[3] ^ back[6];
    let g2 = back[0] ^ back[2] ^ back[3] ^ back[5] ^ back[6];
    [g1, g2]
}

/// The coded form of some bits (0 or 1), register zero at the start (01, Code).
pub fn encode(bits: &[u8]) -> Vec<u8> {
    let mut coded = Vec::new();
    for i in 0..bits.len() {
        let mut back = [0; 7];
        for k in 0..7 {
            back[k] = if k <= i { bits[i - k] & 1 } else { 0 };
        }
        coded.extend(two_symbols(back));
    }
    coded
}

// ---------------------------------------------------------------------------------------------
// The nearest word (01, Nearest word)
// ---------------------------------------------------------------------------------------------

/// A nearest word: all its bits, the six zeros included, and in how many places its coded form differs.
#[derive(Clone, Debug, PartialEq, Eq)]
pub struct Nearest {
    pub differing: u32,
    pub bits: Vec<u8>,
}

/// The longest word that `nearest` takes, six zeros included.
pub const NEAREST_MOST: usize = 320;

/// The first bits of a word, and in how many places their coded form differs from the symbols.
///
/// The bits are kept as one number of 320 bits in five parts: bit 1 of the word has weight 1, bit 2
/// weight 2, bit k weight two to the k-1; part 0 has the lowest 64 weights, part 4 the highest.
#[derive(Clone, Copy)]
struct Beginning {
    differing: u32,
    number: [u64; 5],
}

impl Beginning {
    /// No bits yet.
    fn empty() -> Beginning {
        Beginning { differing: 0, number: [0; 5] }
    }

    /// This beginning and one more bit at `place`, which costs `more` differing symbols.
    fn and(mut self, place: usize, bit: u8, more: u32) -> Beginning {
        self.differing += more;
        self.number[(place - 1) / 64] |= u64::from(bit) << ((place - 1) % 64);
        self
    }

    /// The bit at `place`.
    fn bit(&self, place: usize) -> u8 {
        ((self.number[(place - 1) / 64] >> ((place - 1) % 64)) & 1) as u8
    }

    /// The order of 01 between two beginnings of one length: fewer differing places first; among equals
    /// "compare from bit 286 back to bit 1; the one with 0 where they first part wins". A later bit has
    /// a greater weight, so the first place from the end where two words part is the highest weight
    /// where their numbers differ, and the one with 0 there is the smaller number. The parts are
    /// therefore compared from the highest down.
    fn wins_over(&self, other: &Beginning) -> bool {
        if self.differing != other.differing {
            return self.differing < other.differing;
        }
        for part in (0..5).rev() {
            if self.number[part] != other.number[part] {
                return self.number[part] < other.number[part];
            }
        }
        false
    }
}

/// Of all words of `coded.len() / 2` bits whose last six bits are zero, the one that 01 takes (01, Nearest
/// word). Nothing if there is no such word (refusal 10): for 584 symbols that never happens; for other
/// lengths it is so if the length is odd, below 12, or above what this search takes.
///
/// After each place and for each content of the register (the last six bits, 64 of them) it keeps the
/// one beginning that wins over all others with that content. Why that is right:
///
/// - The register's content decides the symbols of all later bits. So if two beginnings A and B of one
///   length have the same content, every ending E that may follow A may follow B and costs the same
///   after both: the words AE and BE differ from the symbols in (A's count + E's count) and (B's count +
///   E's count) places. A's and B's counts decide.
/// - If those are equal, the tie rule compares AE and BE from the last bit back. In E they agree, so the
///   first place where they part is the first place from the end where A and B part. `wins_over` on A
///   and B therefore says the same as the rule of 01 on AE and BE, whatever E is, and a beginning that
///   loses can be the beginning of no winner.
/// - `wins_over` is a strict total order: of two different beginnings of one length exactly one wins,
///   since different words are different numbers. So the one kept doesn't depend on the order in which
///   the candidates come; no tie is left to the order of a comparison.
/// - At the end the last six bits are zero, so every word that may be taken stands at content 0, and the
///   one kept there wins over all others.
pub fn nearest(coded: &[u8]) -> Option<Nearest> {
    let length = coded.len() / 2;
    if coded.len() % 2 == 1 || length < TAIL_BITS || length > NEAREST_MOST {
        return None;
    }
    // Register content: the bit k before the next one has weight two to the k-1. It begins at zero.
    let mut kept: [Option<Beginning>; 64] = [None; 64];
    kept[0] = Some(Beginning::empty());
    for place in 1..=length {
        let received = &coded[2 * place - 2..2 * place];
        let may_be_one = place <= length - TAIL_BITS;
        kept = one_bit_further(&kept, place, received, may_be_one);
    }
    let winner = kept[0]?;
    let bits = (1..=length).map(|place| winner.bit(place)).collect();
    Some(Nearest { differing: winner.differing, bits })
}

/// One place further: every kept beginning with a 0 and, outside the tail, with a 1.
fn one_bit_further(
    kept: &[Option<Beginning>; 64],
    place: usize,
    received: &[u8],
    may_be_one: bool,
) -> [Option<Beginning>; 64] {
    let mut next: [Option<Beginning>; 64] = [None; 64];
    for content in 0..64 {
        let Some(beginning) = kept[content] else { continue };
        for bit in 0..=u8::from(may_be_one) {
            let sent = two_symbols(back_from(bit, content));
            let candidate = beginning.and(place, bit, count_differing(&sent, received));
            let after = (content * 2 + usize::from(bit)) % 64;
            next[after] = match next[after] {
                Some(held) if !candidate.wins_over(&held) => Some(held),
                _ => Some(candidate),
            };
        }
    }
    next
}

/// The present bit and the six before it, from the register's content.
fn back_from(bit: u8, content: usize) -> [u8; 7] {
    let mut back = [bit, 0, 0, 0, 0, 0, 0];
    for k in 1..7 {
        back[k] = ((content >> (k - 1)) & 1) as u8;
    }
    back
}

/// The same as `nearest`, by trying every word: for lengths up to 12 bits and six zeros (nothing above).
/// Beside the word it gives how many words are equally near. Only for comparing with `nearest`.
pub fn nearest_by_trying_all(coded: &[u8]) -> Option<(Nearest, u32)> {
    let length = coded.len() / 2;
    if coded.len() % 2 == 1 || length < TAIL_BITS || length > 12 + TAIL_BITS {
        return None;
    }
    let free = length - TAIL_BITS;
    let mut best: Option<(Nearest, u32)> = None;
    for choice in 0..(1usize << free) {
        let mut bits = vec![0; length];
        for i in 0..free {
            bits[i] = ((choice >> i) & 1) as u8;
        }
        let differing = count_differing(&encode(&bits), coded);
        let tried = Nearest { differing, bits };
        best = Some(match best {
            None => (tried, 1),
            Some((held, _)) if tried.differing < held.differing => (tried, 1),
            Some((held, count)) if tried.differing > held.differing => (held, count),
            Some((held, count)) => (zero_where_they_first_part(tried, held), count + 1),
        });
    }
    best
}

/// The tie rule of 01, word for word: from the last bit back to the first, the one with 0 where they
/// first part.
fn zero_where_they_first_part(one: Nearest, other: Nearest) -> Nearest {
    for i in (0..one.bits.len()).rev() {
        if one.bits[i] != other.bits[i] {
            return if one.bits[i] == 0 { one } else { other };
        }
    }
    one
}

// ---------------------------------------------------------------------------------------------
// The check (01, Check)
// ---------------------------------------------------------------------------------------------

/// Exponents of the generator of CRC-24Q (01, Check; 003, 5.6).
pub const GENERATOR: [usize; 14] = [24, 23, 18, 17, 14, 11, 10, 7, 6, 5, 4, 3, 1, 0];

/// The remainder of the body polynomial times X^24, by long division, with no preset and no final
/// inversion (01, Check). The body's first bit has the highest exponent.
pub fn check(body: &[u8]) -> u32 {
    let mut rest: Vec<u8> = body.iter().map(|bit| bit & 1).collect();
    rest.extend([0; CHECK_BITS]);
    for i in 0..body.len() {
        if rest[i] == 1 {
            // Index i has exponent 24 more than index i + 24.
            for exponent in GENERATOR {
                rest[i + CHECK_BITS - exponent] ^= 1;
            }
        }
    }
    rest[body.len()..].iter().fold(0, |sum, &bit| sum * 2 + u32::from(bit))
}

/// Whether bits 263 to 286 are the check of bits 1 to 262.
fn check_agrees(word: &Word) -> bool {
    get(word, &CHECK) == i64::from(check(&word[..BODY_BITS]))
}

// ---------------------------------------------------------------------------------------------
// Idle (01, Idle; 003, 5.10.3; DECISIONS)
// ---------------------------------------------------------------------------------------------

/// A row of 5.10.3's table (DECISIONS): the check is sent valid or spoiled.
#[derive(Clone, Copy, Debug, PartialEq, Eq)]
pub struct IdleRow {
    pub subframe_id: i64,
    pub alert: u8,
    pub first: usize,
    pub last: usize,
    pub spoiled: bool,
}

/// 5.10.3 of 003, as DECISIONS has it.
pub const IDLE: [IdleRow; 4] = [
    IdleRow { subframe_id: 0, alert: 1, first: 41, last: 262, spoiled: false },
    IdleRow { subframe_id: 1, alert: 1, first: 31, last: 262, spoiled: false },
    IdleRow { subframe_id: 2, alert: 0, first: 37, last: 256, spoiled: true },
    IdleRow { subframe_id: 3, alert: 0, first: 37, last: 256, spoiled: true },
];

/// Place of the alert flag (01, The fields: "26 alert").
const ALERT_PLACE: usize = 26;

/// Whether a row fits a word: subframe ID, alert flag, and alternating bits beginning with 0.
fn idle_row_fits_word(row: &IdleRow, word: &Word) -> bool {
    let alternates = (row.first..=row.last).all(|place| word[place - 1] == pattern_bit(row, place));
    get(word, &SUBFRAME_ID) == row.subframe_id && word[ALERT_PLACE - 1] == row.alert && alternates
}

/// The pattern's bit at a place at or after its first: 0, 1, 0, 1 and so on.
fn pattern_bit(row: &IdleRow, place: usize) -> u8 {
    ((place - row.first) % 2) as u8
}

/// Whether a word whose check disagrees is idle (01, the table of numbers, 5; DECISIONS).
fn idle_when_check_disagrees(word: &Word) -> bool {
    IDLE.iter().any(|row| row.spoiled && idle_row_fits_word(row, word))
}

/// Whether a record of subframe 1 or 2 is 003's idle pattern: alert set, bits from 41 or 31 to 262
/// alternating from 0 (DECISIONS). A message record gives false. TLM, TOWC, AutoNav, bit 30 and
/// subframe 1's week don't count; a number outside its width never is the pattern's.
pub fn is_idle_pattern(record: &Record) -> bool {
    let is_message = record.which().is_some();
    !is_message && idle_row_fits(record, &Beside::zeros())
}

/// Whether the row of 5.10.3 for the record's subframe fits the record and what stands beside it, for
/// all four subframes (DECISIONS: "tells whether a row fits"). What the case doesn't use isn't counted.
pub fn idle_row_fits(record: &Record, beside: &Beside) -> bool {
    let id = record.subframe() as i64 - 1;
    IDLE.iter().any(|row| {
        row.subframe_id == id
            && u8::from(record.head().alert) == row.alert
            && fields_are_pattern(row, record, beside)
            && data_is_pattern(row, record.case(), beside)
    })
}

/// Whether every field inside the row's places holds the pattern's number.
fn fields_are_pattern(row: &IdleRow, record: &Record, beside: &Beside) -> bool {
    let mut pattern: Word = [0; WORD_BITS];
    for place in row.first..=row.last {
        pattern[place - 1] = pattern_bit(row, place);
    }
    let fields = record.fields_with_pairs(beside);
    let inside = fields.iter().filter(|(field, _)| row.first <= field.first && field.last() <= row.last);
    inside.into_iter().all(|(field, number)| *number == get(&pattern, field))
}

/// Whether the 220 bits, if the case uses them, are the pattern's.
fn data_is_pattern(row: &IdleRow, case: Case, beside: &Beside) -> bool {
    !case.uses_data()
        || (0..DATA_BITS).all(|index| beside.data_bit(index) == pattern_bit(row, DATA_FIRST + index))
}

// ---------------------------------------------------------------------------------------------
// Faults of a record (01, the table of numbers, 7, 8 and 9)
// ---------------------------------------------------------------------------------------------

/// Refusal 7: TOWC outside 1 to 50,400 (01, the table of numbers).
fn towc_is_outside(towc: u64) -> bool {
    !(1..=50_400).contains(&towc)
}

/// The first bit of the lowest field, by place, that is outside its width (01, 8; DECISIONS).
fn lowest_outside(fields: &[(Row, i64)]) -> Option<usize> {
    fields.iter().filter(|(row, number)| !fits(row, *number)).map(|(row, _)| row.first).min()
}

/// Whether a bit or number beside the record that its case doesn't use is not 0 (01, 8; DECISIONS).
fn unused_is_set(case: Case, beside: &Beside) -> bool {
    let pairs_set = beside.givei.iter().any(|&it| it != 0) || beside.givd.iter().any(|&it| it != 0);
    let data_set = beside.data.iter().any(|&it| it != 0);
    let low_bits_set = beside.data[27] & 0x0F != 0;
    (pairs_set && !case.uses_pairs()) || (data_set && !case.uses_data()) || low_bits_set
}

/// Refusal 8's number, if there is such a fault (01, the table of numbers, 8; DECISIONS).
fn fault_8(record: &Record, beside: &Beside) -> Option<usize> {
    match lowest_outside(&record.fields_with_pairs(beside)) {
        Some(first) => Some(first),
        None if unused_is_set(record.case(), beside) => Some(293),
        None => None,
    }
}

/// Refusal 9: the unread case with ID 0, 5, 7, 9, 11, 26 or above 63 (01, the table of numbers).
fn fault_9(record: &Record) -> bool {
    match record {
        Record::Unread(it) => matches!(it.msgid, 0 | 5 | 7 | 9 | 11 | 26) || it.msgid > 63,
        _ => false,
    }
}

// ---------------------------------------------------------------------------------------------
// The reader (01, "Numbers that the calls give": "Reader: 1, 2, 3, 4, 10, then 5 or 6, then 7")
// ---------------------------------------------------------------------------------------------

/// What the reader gives (01, the table of numbers). Beside a refusal there is no record, and zeros
/// stand beside it; the count and the polarity are given with 0, 5, 6 and 7 and are zero otherwise.
#[derive(Clone, Debug, PartialEq, Eq)]
pub struct Reading {
    pub refusal: u32,
    pub corrected: u32,
    pub turned_over: bool,
    pub record: Option<Record>,
    pub beside: Beside,
}

impl Reading {
    /// A refusal with the count and the polarity beside it.
    fn refused(refusal: u32, corrected: u32, turned_over: bool) -> Reading {
        Reading { refusal, corrected, turned_over, record: None, beside: Beside::zeros() }
    }
}

/// Reads one subframe (01, the whole of "From symbols to 292 bits" and "The fields"). Done, the first 36
/// bytes of the room hold bits 1 to 286 and two zero bits; refused, the room stays as it was.
pub fn read(symbols: &[u8], room: &mut [u8]) -> Reading {
    read_by(nearest, symbols, room)
}

/// The same with another search for the nearest word, which has to give the answers of `nearest`.
pub fn read_by(search: fn(&[u8]) -> Option<Nearest>, symbols: &[u8], room: &mut [u8]) -> Reading {
    if symbols.len() != SUBFRAME_SYMBOLS {
        return Reading::refused(1, 0, false);
    }
    if room.len() < READ_ROOM {
        return Reading::refused(2, 0, false);
    }
    if symbols.iter().any(|&symbol| symbol > 1) {
        return Reading::refused(3, 0, false);
    }
    let Some(turned_over) = sync(symbols) else {
        return Reading::refused(4, 0, false);
    };
    let Some(found) = search(&deinterleave(&air_of(symbols, turned_over))) else {
        return Reading::refused(10, 0, false);
    };
    let mut word: Word = [0; WORD_BITS];
    word.copy_from_slice(&found.bits);
    if !check_agrees(&word) {
        let refusal = if idle_when_check_disagrees(&word) { 5 } else { 6 };
        return Reading::refused(refusal, found.differing, turned_over);
    }
    if towc_is_outside(get(&word, &TOWC) as u64) {
        return Reading::refused(7, found.differing, turned_over);
    }
    let (record, beside) = record_of(&word);
    room[..READ_ROOM].copy_from_slice(&bytes_of(&word));
    Reading { refusal: 0, corrected: found.differing, turned_over, record, beside }
}

/// The 584 symbols after the sync of 600 good ones, inverted if turned over (01, Sync).
fn air_of(symbols: &[u8], turned_over: bool) -> [u8; CODED_SYMBOLS] {
    let mut air = [0; CODED_SYMBOLS];
    for (to, from) in air.iter_mut().zip(&symbols[SYNC_SYMBOLS..]) {
        *to = if turned_over { 1 - *from } else { *from };
    }
    air
}

/// Bits 1 to 286, most significant first, and two zero bits (01, after the table of numbers).
fn bytes_of(word: &Word) -> [u8; READ_ROOM] {
    let mut bytes = [0; READ_ROOM];
    for i in 0..BODY_BITS + CHECK_BITS {
        bytes[i / 8] |= word[i] << (7 - i % 8);
    }
    bytes
}

/// The record of a word and what stands beside it (01, The fields). There always is a record, since a
/// flag is one bit wide.
fn record_of(word: &Word) -> (Option<Record>, Beside) {
    let subframe_id = get(word, &SUBFRAME_ID);
    let case = Case::from_ids(subframe_id, get(word, &MESSAGE_ID));
    let numbers: Vec<i64> = case.rows().iter().map(|row| get(word, row)).collect();
    let record = Record::from_numbers(case, subframe_id as u64 + 1, &numbers);
    (record, beside_of(case, word))
}

/// What stands beside a record of this case; zeros where the case doesn't use it (01, The fields).
fn beside_of(case: Case, word: &Word) -> Beside {
    let mut beside = Beside::zeros();
    if case.uses_pairs() {
        for pair in 0..PAIRS.len() {
            beside.givei[pair] = get(word, &givei_row(pair)) as u8;
            beside.givd[pair] = get(word, &givd_row(pair)) as u16;
        }
    }
    if case.uses_data() {
        for index in 0..DATA_BITS {
            beside.data[index / 8] |= word[DATA_FIRST - 1 + index] << (7 - index % 8);
        }
    }
    beside
}

// ---------------------------------------------------------------------------------------------
// The writer (01, "Numbers that the calls give": "Writer: 2, 9, 7, 8")
// ---------------------------------------------------------------------------------------------

/// Writes one subframe: the refusal and the number beside it (the place with 8, otherwise 0). Done, the
/// first 600 bytes of the room hold upright symbols; refused, the room stays as it was.
pub fn write(record: &Record, beside: &Beside, room: &mut [u8]) -> (u32, u32) {
    if room.len() < SUBFRAME_SYMBOLS {
        return (2, 0);
    }
    if fault_9(record) {
        return (9, 0);
    }
    if towc_is_outside(record.head().towc) {
        return (7, 0);
    }
    if let Some(place) = fault_8(record, beside) {
        return (8, place as u32);
    }
    room[..SUBFRAME_SYMBOLS].copy_from_slice(&symbols_of(&word_of(record, beside)));
    (0, 0)
}

/// The 292 bits of a record without faults and of what stands beside it (01, The fields; 01, Check).
pub fn word_of(record: &Record, beside: &Beside) -> Word {
    let mut word: Word = [0; WORD_BITS];
    put(&mut word, &SUBFRAME_ID, record.subframe() as i64 - 1);
    if record.which().is_some() {
        put(&mut word, &MESSAGE_ID, record.message_id() as i64);
    }
    for (row, number) in record.fields_with_pairs(beside) {
        put(&mut word, &row, number);
    }
    if record.case().uses_data() {
        for index in 0..DATA_BITS {
            word[DATA_FIRST - 1 + index] = beside.data_bit(index);
        }
    }
    let check = check(&word[..BODY_BITS]);
    put(&mut word, &CHECK, i64::from(check));
    word
}

/// The 600 upright symbols of a word: sync, then the interleaved coded form (01, Sync, Code, Interleaver).
pub fn symbols_of(word: &Word) -> [u8; SUBFRAME_SYMBOLS] {
    let mut coded = [0; CODED_SYMBOLS];
    coded.copy_from_slice(&encode(word));
    let mut symbols = [0; SUBFRAME_SYMBOLS];
    symbols[..SYNC_SYMBOLS].copy_from_slice(&SYNC);
    symbols[SYNC_SYMBOLS..].copy_from_slice(&interleave(&coded));
    symbols
}

// ---------------------------------------------------------------------------------------------
// The program (01, "The program takes '0' and '1' from standard input"; DECISIONS)
// ---------------------------------------------------------------------------------------------

/// The line that the program prints for a standard input, without its line feed: refusal, corrected
/// count, polarity, subframe, TOWC, message ID (01, the program; DECISIONS).
pub fn line(bytes: &[u8]) -> String {
    let mut room = [0; READ_ROOM];
    let reading = read(&symbols_of_input(bytes), &mut room);
    let (subframe, towc, message_id) = match &reading.record {
        Some(record) => (record.subframe(), record.head().towc, record.message_id()),
        None => (0, 0, 0),
    };
    let polarity = u32::from(reading.turned_over);
    format!("{} {} {polarity} {subframe} {towc} {message_id}", reading.refusal, reading.corrected)
}

/// Line feeds skipped, '0' and '1' the symbols 0 and 1, any other byte one bad symbol (DECISIONS).
fn symbols_of_input(bytes: &[u8]) -> Vec<u8> {
    let mut symbols = Vec::new();
    for &byte in bytes {
        match byte {
            b'\n' => {}
            b'0' => symbols.push(0),
            b'1' => symbols.push(1),
            _ => symbols.push(2),
        }
    }
    symbols
}

// ---------------------------------------------------------------------------------------------
// The pair (01, "The pair and the recording")
// ---------------------------------------------------------------------------------------------

/// Count of the pair's numbers.
pub const EPHEMERIS: usize = 26;

/// The rows of the pair's numbers, in the order in which `pair` gives them: "every field from bit 31 to
/// bit 260 of both subframes except the ten reserved bits" (01, the pair).
pub fn pair_rows() -> Vec<Row> {
    let both = SUBFRAME1.iter().chain(SUBFRAME2);
    both.filter(|row| is_of_the_pair(row)).copied().collect()
}

/// Whether a row of subframe 1 or 2 is part of the pair. Only subframe 1 has a field that begins at 145.
fn is_of_the_pair(row: &Row) -> bool {
    31 <= row.first && row.last() <= 260 && row.first != 145
}

/// Pairs subframe 1 and subframe 2 into one ephemeris (01, the pair; 003, note under Figure 14): 0 and
/// the 26 numbers, or 11 and +0 throughout (01, the table of numbers, 11).
pub fn pair(first: &Record, second: &Record) -> (u32, [f64; EPHEMERIS]) {
    let refused = (11, [0.0; EPHEMERIS]);
    let (Record::Subframe1(one), Record::Subframe2(two)) = (first, second) else {
        return refused;
    };
    if one.toc != two.toe || has_fault_alone(first) || has_fault_alone(second) {
        return refused;
    }
    let fields = [first.fields(), second.fields()].concat();
    let numbers = fields.iter().filter(|(row, _)| is_of_the_pair(row));
    let mut ephemeris = [0.0; EPHEMERIS];
    for (to, (row, number)) in ephemeris.iter_mut().zip(numbers) {
        *to = scaled(*number, row.scale);
    }
    (0, ephemeris)
}

/// A fault of 7 or 8 of the record alone, nothing beside it counted (01, the table of numbers, 11).
fn has_fault_alone(record: &Record) -> bool {
    towc_is_outside(record.head().towc) || lowest_outside(&record.fields()).is_some()
}

/// A number times two to the exponent. The number fits 32 bits, so it is a binary64 number exactly, and
/// so is every half and double on the way; 0 gives +0 (01, the pair: "with no rounding; raw 0 gives +0").
fn scaled(number: i64, exponent: i32) -> f64 {
    let mut result = number as f64;
    for _ in 0..exponent.unsigned_abs() {
        result = if exponent < 0 { result / 2.0 } else { result * 2.0 };
    }
    result
}

// ---------------------------------------------------------------------------------------------
// The walk (01, "The pair and the recording")
// ---------------------------------------------------------------------------------------------

/// The first window at or after a place: number, start and end of the part handed back, and the place
/// where the walk then stands (01, the walk; DECISIONS).
pub fn find(recording: &[u8], from: usize) -> (u32, usize, usize, usize) {
    if recording.len() > RECORDING_MOST {
        return (1, 0, 0, 0);
    }
    let end = recording.len();
    for start in from.min(end)..end {
        let enough = end - start >= SUBFRAME_SYMBOLS;
        if enough && sync(&recording[start..]).is_some() {
            return (0, start, start + SUBFRAME_SYMBOLS, start + SUBFRAME_SYMBOLS);
        }
    }
    (4, end, end, end)
}

/// `find` again and again from where the walk stands, beginning at 0; the last answer is the first that
/// isn't 0 (01, the walk).
pub fn walk(recording: &[u8]) -> Vec<(u32, usize, usize, usize)> {
    let mut answers = Vec::new();
    let mut place = 0;
    loop {
        let answer = find(recording, place);
        answers.push(answer);
        if answer.0 != 0 {
            return answers;
        }
        place = answer.3;
    }
}

// ---------------------------------------------------------------------------------------------
// Time (01, Time; DECISIONS)
// ---------------------------------------------------------------------------------------------

/// The second of the week at which the subframe with this TOWC began: (TOWC - 1) times 12; 7 and zero
/// outside 1 to 50,400 (01, Time; 01, the table of numbers, 7).
pub fn began(towc: u64) -> (u32, u64) {
    if towc_is_outside(towc) {
        return (7, 0);
    }
    (0, (towc - 1) * 12)
}

/// The count of the subframe in which a second of the week lies: second div 12 + 1; 7 and zero where that
/// is outside 1 to 50,400 (DECISIONS).
pub fn count_of(second: u64) -> (u32, u64) {
    let towc = second / 12 + 1;
    if towc_is_outside(towc) {
        return (7, 0);
    }
    (0, towc)
}
