/*
 * navic.h - reader and writer of the navigation subframes of NavIC (IRNSS) on L5, by the ICD for SPS,
 * version 1.0, June 2014.
 *
 * Link with libnavic_c.a, which `rt lib` in crates/navic_c writes to out/ there, for x86-64 (x86-64-v2); it needs
 * the C library and nothing else. The calls keep no state and take no memory but the caller's and the stack.
 *
 * Every call accepts every input and ends; what it can't do it refuses with a number of enum navic_refusal.
 * What the caller owes: no pointer is null (with a length of 0, any other pointer will do), each is good for
 * its length, and a buffer that a call writes overlaps no other argument. A refused call writes to no buffer.
 *
 * Symbols are bytes of value 0 or 1 in the order of arrival. Bit 1 is sent first and is the most significant.
 */
#ifndef NAVIC_H
#define NAVIC_H

#include <stdbool.h>
#include <stddef.h>
#include <stdint.h>

#ifdef __cplusplus
extern "C" {
#endif

/* ---- sizes */

#define NAVIC_SYMBOLS 600      /* symbols of a subframe */
#define NAVIC_WORD_BYTES 36    /* bytes for bits 1 to 286 of a word */
#define NAVIC_NUMBERS 42       /* numbers of a record */
#define NAVIC_RECORDING 65536  /* the most symbols of a recording */
#define NAVIC_CODED 584        /* symbols of a subframe behind its sync */
#define NAVIC_WORD_BITS 286    /* bits of a word, without the six zeros at its end */

/* ---- the numbers that the calls give */

enum navic_refusal {
    NAVIC_DONE = 0,
    NAVIC_LENGTH = 1,     /* not 600 symbols, 584 coded symbols or 42 numbers; a recording above 65536 */
    NAVIC_ROOM = 2,       /* a lent buffer is too short */
    NAVIC_SYMBOL = 3,     /* a symbol above 1 */
    NAVIC_NO_SYNC = 4,    /* no sync; in the walk, no window left */
    NAVIC_IDLE = 5,       /* an idle subframe: its check was spoiled on purpose, no error */
    NAVIC_BAD_CHECK = 6,  /* the check disagrees, and it is not idle */
    NAVIC_TIME = 7,       /* TOWC outside 1 to 50400 */
    NAVIC_FIELD = 8,      /* a number outside its field, or one that is not used not 0 */
    NAVIC_ID = 9,         /* a message ID above 63 */
    NAVIC_NO_WORD = 10,   /* no word ends in six zeros; it is proved that this never comes */
    NAVIC_NO_PAIR = 11    /* no pair of subframes 1 and 2 */
};

/* ---- reading and writing a subframe */

typedef struct navic_line {
    uint32_t refusal;     /* enum navic_refusal */
    uint32_t corrected;   /* coded symbols that differ from the word taken: with 0, 5, 6 and 7, else 0 */
    uint32_t polarity;    /* 1: it came turned over: with 0, 5, 6 and 7, else 0 */
    uint32_t subframe;    /* 1 to 4; 0 unless done */
    uint32_t towc;        /* 1 to 50400; 0 unless done */
    uint32_t message_id;  /* 0 to 63 for subframes 3 and 4; 0 for 1 and 2, and unless done */
} navic_line;

/*
 * Reads a subframe: takes the word nearest to the 600 symbols, upright or turned over, and checks it.
 *
 *   symbols   NAVIC_SYMBOLS symbols
 *   word      room for NAVIC_WORD_BYTES bytes. Done: bits 1 to 286, the first highest, the two lowest bits of
 *             the last byte 0
 *   numbers   room for NAVIC_NUMBERS numbers. Done: the record, see below
 *
 * Refusals, in this order: 1 (symbols_len is not 600), 2 (word_len below 36 or numbers_len below 42), 3, 4, 10,
 * then 5 or 6, then 7.
 */
navic_line navic_read(const uint8_t *symbols, size_t symbols_len, uint8_t *word, size_t word_len,
                      int64_t *numbers, size_t numbers_len);

typedef struct navic_written {
    uint32_t refusal;    /* enum navic_refusal */
    uint32_t first_bit;  /* with 8: where the fault is, see below; else 0 */
} navic_written;

/*
 * Writes a record as 600 upright symbols. What was written is read back equal.
 *
 *   numbers   NAVIC_NUMBERS numbers: the record, 0 behind its last row
 *   symbols   room for NAVIC_SYMBOLS symbols
 *
 * Refusals, in this order: 2 (symbols_len below 600), 1 (numbers_len is not 42), 9 (subframe ID 2 or more and
 * message ID above 63), 7, 8. Beside 8, first_bit is the first bit of the lowest field that doesn't hold its
 * number, or 293 if all fields fit and a number behind the record's last row is not 0.
 */
navic_written navic_write(const int64_t *numbers, size_t numbers_len, uint8_t *symbols, size_t symbols_len);

/*
 * ---- the record: 42 numbers, by these indices
 *
 * Numbers 0 to 5 are the same in every subframe. Then
 *   subframe ID 0   NAVIC_SF1_..
 *   subframe ID 1   NAVIC_SF2_..
 *   2 and 3         number 6 is the message ID: 5 NAVIC_GRID_.., 7 NAVIC_ALM_.., 9 and 26 NAVIC_OFFSETS_..,
 *                   11 NAVIC_EOP_.., every other ID NAVIC_DATA_..
 * Numbers behind the last row are 0 when read and must be 0 when written.
 *
 * Beside each index: first bit, width, u (unsigned) or s (two's complement), scale. The number times the scale
 * is the quantity in the unit given. tools/header_against_table.py compares all of it with the proved table.
 */

/* every subframe; the message ID only in subframes 3 and 4 */
enum {
    NAVIC_TLM = 0,                         /*   1  8 u 2^0    telemetry */
    NAVIC_TOWC = 1,                        /*   9 17 u 2^0    count of twelve-second steps, 1 to 50400 */
    NAVIC_ALERT = 2,                       /*  26  1 u 2^0    alert flag */
    NAVIC_AUTO_NAV = 3,                    /*  27  1 u 2^0    AutoNav flag */
    NAVIC_SUBFRAME_ID = 4,                 /*  28  2 u 2^0    0 to 3 for subframes 1 to 4 */
    NAVIC_SPARE30 = 5,                     /*  30  1 u 2^0    spare bit */
    NAVIC_MESSAGE_ID = 6                   /*  31  6 u 2^0    subframes 3 and 4 only */
};

/* subframe 1 */
enum {
    NAVIC_SF1_WN = 6,                      /*  31 10 u 2^0    week number (weeks) */
    NAVIC_SF1_AF0 = 7,                     /*  41 22 s 2^-31  clock bias (s) */
    NAVIC_SF1_AF1 = 8,                     /*  63 16 s 2^-43  clock drift (s/s) */
    NAVIC_SF1_AF2 = 9,                     /*  79  8 s 2^-55  clock drift rate (s/s^2) */
    NAVIC_SF1_URA = 10,                    /*  87  4 u 2^0    accuracy index */
    NAVIC_SF1_TOC = 11,                    /*  91 16 u 2^4    time of clock (s) */
    NAVIC_SF1_TGD = 12,                    /* 107  8 s 2^-31  group delay (s) */
    NAVIC_SF1_DELTA_N = 13,                /* 115 22 s 2^-41  mean motion difference (semi-circles/s) */
    NAVIC_SF1_IODEC = 14,                  /* 137  8 u 2^0    issue of data */
    NAVIC_SF1_RESERVED = 15,               /* 145 10 u 2^0    reserved */
    NAVIC_SF1_L5_FLAG = 16,                /* 155  1 u 2^0    L5 flag */
    NAVIC_SF1_S_FLAG = 17,                 /* 156  1 u 2^0    S flag */
    NAVIC_SF1_CUC = 18,                    /* 157 15 s 2^-28  argument of latitude, cosine (rad) */
    NAVIC_SF1_CUS = 19,                    /* 172 15 s 2^-28  argument of latitude, sine (rad) */
    NAVIC_SF1_CIC = 20,                    /* 187 15 s 2^-28  inclination, cosine (rad) */
    NAVIC_SF1_CIS = 21,                    /* 202 15 s 2^-28  inclination, sine (rad) */
    NAVIC_SF1_CRC = 22,                    /* 217 15 s 2^-4   orbit radius, cosine (m) */
    NAVIC_SF1_CRS = 23,                    /* 232 15 s 2^-4   orbit radius, sine (m) */
    NAVIC_SF1_IDOT = 24,                   /* 247 14 s 2^-43  rate of inclination (semi-circles/s) */
    NAVIC_SF1_SPARE = 25                   /* 261  2 u 2^0    spare bits 261 and 262 */
};

/* subframe 2 */
enum {
    NAVIC_SF2_M0 = 6,                      /*  31 32 s 2^-31  mean anomaly (semi-circles) */
    NAVIC_SF2_TOE = 7,                     /*  63 16 u 2^4    time of ephemeris (s) */
    NAVIC_SF2_E = 8,                       /*  79 32 u 2^-33  eccentricity */
    NAVIC_SF2_ROOT_A = 9,                  /* 111 32 u 2^-19  root of the semi-major axis (m^(1/2)) */
    NAVIC_SF2_OMEGA0 = 10,                 /* 143 32 s 2^-31  longitude of the ascending node (semi-circles) */
    NAVIC_SF2_OMEGA = 11,                  /* 175 32 s 2^-31  argument of perigee (semi-circles) */
    NAVIC_SF2_OMEGA_DOT = 12,              /* 207 22 s 2^-41  rate of right ascension (semi-circles/s) */
    NAVIC_SF2_I0 = 13,                     /* 229 32 s 2^-31  inclination (semi-circles) */
    NAVIC_SF2_SPARE = 14                   /* 261  2 u 2^0    spare bits 261 and 262 */
};

/* message type 5: the ionosphere's grid, fifteen places */
enum {
    NAVIC_GRID_MASK = 7,                   /*  37 10 u 2^0    regions masked */
    NAVIC_GRID_REGION = 8,                 /*  47  4 u 2^0    which region */
    NAVIC_GRID_IODI = 39,                  /* 246  3 u 2^0    issue of data */
    NAVIC_GRID_SPARE = 40,                 /* 249  8 u 2^0    spare */
    NAVIC_GRID_PRN = 41                    /* 257  6 u 2^0    who sent it */
};
#define NAVIC_GRID_PLACES 15
/* of place k, 0 to 14 */
#define NAVIC_GRID_GIVEI(k) (9 + 2 * (k))  /* 51+13k 4 u 2^0   index of the error */
#define NAVIC_GRID_GIVD(k) (10 + 2 * (k))  /* 55+13k 9 u 2^-3  vertical delay (m) */

/* message type 7: an almanac */
enum {
    NAVIC_ALM_WNA = 7,                     /*  37 10 u 2^0    week of the almanac */
    NAVIC_ALM_E = 8,                       /*  47 16 u 2^-21  eccentricity */
    NAVIC_ALM_TOA = 9,                     /*  63 16 u 2^4    time of almanac (s) */
    NAVIC_ALM_I0 = 10,                     /*  79 24 s 2^-23  inclination (semi-circles) */
    NAVIC_ALM_OMEGA_DOT = 11,              /* 103 16 s 2^-38  rate of right ascension (semi-circles/s) */
    NAVIC_ALM_ROOT_A = 12,                 /* 119 24 u 2^-11  root of the semi-major axis (m^(1/2)) */
    NAVIC_ALM_OMEGA0 = 13,                 /* 143 24 s 2^-23  longitude of the ascending node (semi-circles) */
    NAVIC_ALM_OMEGA = 14,                  /* 167 24 s 2^-23  argument of perigee (semi-circles) */
    NAVIC_ALM_M0 = 15,                     /* 191 24 s 2^-23  mean anomaly (semi-circles) */
    NAVIC_ALM_AF0 = 16,                    /* 215 11 s 2^-20  clock bias (s) */
    NAVIC_ALM_AF1 = 17,                    /* 226 11 s 2^-38  clock drift (s/s) */
    NAVIC_ALM_PRN_ALMANAC = 18,            /* 237  6 u 2^0    whose almanac it is */
    NAVIC_ALM_ISC = 19,                    /* 243  8 s 2^-31  inter-signal correction (s) */
    NAVIC_ALM_SPARE = 20,                  /* 251  6 u 2^0    spare */
    NAVIC_ALM_PRN = 21                     /* 257  6 u 2^0    who sent it */
};

/* message types 9 and 26: time offsets, to UTC and to GPS (9) or another system (26) */
enum {
    NAVIC_OFFSETS_A0_UTC = 7,              /*  37 16 s 2^-35  UTC: bias (s) */
    NAVIC_OFFSETS_A1_UTC = 8,              /*  53 13 s 2^-51  UTC: drift (s/s) */
    NAVIC_OFFSETS_A2_UTC = 9,              /*  66  7 s 2^-68  UTC: drift rate (s/s^2) */
    NAVIC_OFFSETS_LEAP_SECONDS = 10,       /*  73  8 s 2^0    leap seconds now or before (s) */
    NAVIC_OFFSETS_T_UTC = 11,              /*  81 16 u 2^4    UTC: reference time of week (s) */
    NAVIC_OFFSETS_WN_UTC = 12,             /*  97 10 u 2^0    UTC: reference week */
    NAVIC_OFFSETS_WN_LEAP = 13,            /* 107 10 u 2^0    week of the leap second */
    NAVIC_OFFSETS_DAY_LEAP = 14,           /* 117  4 u 2^0    day of the leap second */
    NAVIC_OFFSETS_LEAP_SECONDS_NEXT = 15,  /* 121  8 s 2^0    leap seconds now or later (s) */
    NAVIC_OFFSETS_A0 = 16,                 /* 129 16 s 2^-35  GPS or other: bias (s) */
    NAVIC_OFFSETS_A1 = 17,                 /* 145 13 s 2^-51  GPS or other: drift (s/s) */
    NAVIC_OFFSETS_A2 = 18,                 /* 158  7 s 2^-68  GPS or other: drift rate (s/s^2) */
    NAVIC_OFFSETS_T_GNSS = 19,             /* 165 16 u 2^4    GPS or other: reference time of week (s) */
    NAVIC_OFFSETS_WN_GNSS = 20,            /* 181 10 u 2^0    GPS or other: reference week */
    NAVIC_OFFSETS_GNSS_ID = 21,            /* 191  3 u 2^0    which system */
    NAVIC_OFFSETS_SPARE = 22,              /* 194 63 u 2^0    spare, 0 to 2^63 - 1 */
    NAVIC_OFFSETS_PRN = 23                 /* 257  6 u 2^0    who sent it */
};

/* message type 11: earth orientation and the ionosphere's coefficients */
enum {
    NAVIC_EOP_T_EOP = 7,                   /*  37 16 u 2^4    reference time (s) */
    NAVIC_EOP_PM_X = 8,                    /*  53 21 s 2^-20  polar motion, x (arc-seconds) */
    NAVIC_EOP_PM_X_DOT = 9,                /*  74 15 s 2^-21  its drift (arc-seconds/day) */
    NAVIC_EOP_PM_Y = 10,                   /*  89 21 s 2^-20  polar motion, y (arc-seconds) */
    NAVIC_EOP_PM_Y_DOT = 11,               /* 110 15 s 2^-21  its drift (arc-seconds/day) */
    NAVIC_EOP_D_UT1 = 12,                  /* 125 31 s 2^-24  UT1 - UTC (s) */
    NAVIC_EOP_D_UT1_DOT = 13,              /* 156 19 s 2^-25  its rate (s/day) */
    NAVIC_EOP_ALPHA0 = 14,                 /* 175  8 s 2^-30  ionosphere (s) */
    NAVIC_EOP_ALPHA1 = 15,                 /* 183  8 s 2^-27  (s/semi-circle) */
    NAVIC_EOP_ALPHA2 = 16,                 /* 191  8 s 2^-24  (s/semi-circle^2) */
    NAVIC_EOP_ALPHA3 = 17,                 /* 199  8 s 2^-24  (s/semi-circle^3) */
    NAVIC_EOP_BETA0 = 18,                  /* 207  8 s 2^11   (s) */
    NAVIC_EOP_BETA1 = 19,                  /* 215  8 s 2^14   (s/semi-circle) */
    NAVIC_EOP_BETA2 = 20,                  /* 223  8 s 2^16   (s/semi-circle^2) */
    NAVIC_EOP_BETA3 = 21,                  /* 231  8 s 2^16   (s/semi-circle^3) */
    NAVIC_EOP_SPARE = 22,                  /* 239 18 u 2^0    spare */
    NAVIC_EOP_PRN = 23                     /* 257  6 u 2^0    who sent it */
};

/* every other message, the null message (ID 0) among them: its 220 bits as 27 numbers of 8
 * bits and one of 4, the first bit highest */
enum {
    NAVIC_DATA_LAST = 34,                  /* 253  4 u 2^0    bits 217 to 220 of the message, 0 to 15 */
    NAVIC_DATA_PRN = 35                    /* 257  6 u 2^0    who sent it */
};
#define NAVIC_DATA_BYTES 28
/* number k, 0 to 27; the last, NAVIC_DATA_BYTE(27), is NAVIC_DATA_LAST and has 4 bits */
#define NAVIC_DATA_BYTE(k) (7 + (k))  /* 37+8k 8 u 2^0  bits of the message */

/* ---- pairing subframes 1 and 2 */

/* Each is exactly its raw number times the table's scale, in the units above: no angle is converted. */
typedef struct navic_ephemeris {
    double wn, af0, af1, af2, ura, toc, tgd, delta_n, iodec, l5_flag, s_flag;
    double cuc, cus, cic, cis, crc, crs, idot;
    double m0, toe, e, root_a, omega0, omega, omega_dot, i0;
} navic_ephemeris;

typedef struct navic_paired {
    uint8_t refusal;            /* NAVIC_DONE or NAVIC_NO_PAIR */
    navic_ephemeris ephemeris;  /* +0 throughout beside 11 */
} navic_paired;

/*
 * Pairs a record of subframe 1 with one of subframe 2. 11 unless each is 42 numbers, the first of subframe 1 and
 * the second of subframe 2, each alone has no fault of 7 or 8, and toc equals toe. Numbers behind the last row are
 * not counted.
 *
 * Hazard: an idle subframe 1 and an idle subframe 2 come with a valid check and read as data, with toc = toe, so
 * they pair. Leave records out for which navic_is_idle_pattern is true.
 */
navic_paired navic_pair(const int64_t *first, size_t first_len, const int64_t *second, size_t second_len);

/* Whether a record of subframe 1 or 2 is the idle pattern: alert set, and alternating bits from 0 up to bit 262,
 * in subframe 1 from bit 41 and in subframe 2 from bit 31. False for everything else, and for numbers outside their
 * fields. Numbers behind the last row and the range of TOWC are not counted. */
bool navic_is_idle_pattern(const int64_t *numbers, size_t numbers_len);

/* ---- walking over a recording */

typedef struct navic_found {
    uint8_t number;  /* NAVIC_DONE, NAVIC_NO_SYNC or NAVIC_LENGTH */
    size_t start;    /* 0: the window is recording[start] to recording[start + 599] */
    size_t after;    /* 0: start + 600, from where to go on */
} navic_found;

/*
 * Finds the first place at or after `from` where 600 symbols remain and a sync stands, upright or turned over.
 * 4: none left, start = after = recording_len. 1: recording_len above 65536, start = after = 0.
 */
navic_found navic_find(const uint8_t *recording, size_t recording_len, size_t from);

/* ---- time */

typedef struct navic_began {
    uint32_t refusal;  /* NAVIC_DONE or NAVIC_TIME */
    uint32_t second;   /* of the week; 0 beside 7 */
} navic_began;

/* When the subframe with this TOWC began: second (towc - 1) * 12 of the week. 7 outside 1 to 50400. */
navic_began navic_began_at(uint32_t towc);

typedef struct navic_counted {
    uint32_t refusal;  /* NAVIC_DONE or NAVIC_TIME */
    uint32_t towc;     /* 0 beside 7 */
} navic_counted;

/* The TOWC of the subframe in which this second of the week lies: second / 12 + 1. 7 where that is above 50400. */
navic_counted navic_count_in(uint32_t second);

/* ---- the decoder alone */

typedef struct navic_nearest_word {
    uint32_t refusal;    /* enum navic_refusal */
    uint32_t corrected;  /* symbols that differ from the word taken; 0 if refused */
} navic_nearest_word;

/*
 * The nearest word to 584 coded symbols, in the order of the code (the interleaver undone). Among equals: going
 * back from bit 286, the one with 0 where they first part.
 *
 *   coded   NAVIC_CODED symbols
 *   word    room for NAVIC_WORD_BITS bytes. Done: the bits, a byte each
 *
 * Refusals, in this order: 1 (coded_len is not 584), 2 (word_len below 286), 3.
 */
navic_nearest_word navic_nearest(const uint8_t *coded, size_t coded_len, uint8_t *word, size_t word_len);

/* ---- the structs are laid out as the library has them */

#define NAVIC_SIZE_IS(type, size) typedef char type##_size_is_right[sizeof(type) == (size) ? 1 : -1]
NAVIC_SIZE_IS(navic_line, 24);
NAVIC_SIZE_IS(navic_written, 8);
NAVIC_SIZE_IS(navic_ephemeris, 208);
NAVIC_SIZE_IS(navic_paired, 216);
NAVIC_SIZE_IS(navic_found, 3 * sizeof(size_t));
NAVIC_SIZE_IS(navic_began, 8);
NAVIC_SIZE_IS(navic_counted, 8);
NAVIC_SIZE_IS(navic_nearest_word, 8);
#undef NAVIC_SIZE_IS

#ifdef __cplusplus
}
#endif

#endif
