/*
 * Reads one subframe, 600 characters '0' and '1' from standard input, writes its record again, and shows a refusal.
 * At the repository's root:
 *
 *   (cd crates/navic_c && rt lib) && mkdir -p target
 *   cc -std=c99 -Iinclude examples/c/subframe.c crates/navic_c/out/libnavic_c.a -o target/subframe
 *   target/subframe < samples/noisy.txt
 */
#include <inttypes.h>
#include <stdio.h>
#include <stdlib.h>
#include <string.h>

#include "navic.h"

/* The symbols of standard input, line feeds left out. Every other byte counts, so that the reader sees what is wrong. */
static size_t take_symbols(uint8_t *symbols, size_t room)
{
    size_t count = 0;
    int c;
    while (count < room && (c = getchar()) != EOF)
        if (c != '\n')
            symbols[count++] = c == '0' ? 0 : c == '1' ? 1 : 255;
    return count;
}

static void print_named(const int64_t *numbers)
{
    printf("TLM %" PRId64 ", alert %" PRId64 ", AutoNav %" PRId64, numbers[NAVIC_TLM], numbers[NAVIC_ALERT], numbers[NAVIC_AUTO_NAV]);
    switch (numbers[NAVIC_SUBFRAME_ID]) {
    case 0:
        printf(", week %" PRId64 ", af0 %.9g s\n", numbers[NAVIC_SF1_WN], (double)numbers[NAVIC_SF1_AF0] / 2147483648.0);
        break;
    case 1:
        printf(", toe %" PRId64 " s, e %.9g\n", numbers[NAVIC_SF2_TOE] * 16, (double)numbers[NAVIC_SF2_E] / 8589934592.0);
        break;
    default:
        if (numbers[NAVIC_MESSAGE_ID] == 0)
            printf(", null message, data from %02X, PRN %" PRId64 "\n", (unsigned)numbers[NAVIC_DATA_BYTE(0)], numbers[NAVIC_DATA_PRN]);
        else
            printf(", message %" PRId64 "\n", numbers[NAVIC_MESSAGE_ID]);
    }
}

/* Whether the record, written as 600 symbols, reads back equal. */
static bool reads_back(const int64_t *numbers)
{
    uint8_t symbols[NAVIC_SYMBOLS], word[NAVIC_WORD_BYTES];
    int64_t again[NAVIC_NUMBERS];
    if (navic_write(numbers, NAVIC_NUMBERS, symbols, sizeof symbols).refusal != NAVIC_DONE)
        return false;
    if (navic_read(symbols, sizeof symbols, word, sizeof word, again, NAVIC_NUMBERS).refusal != NAVIC_DONE)
        return false;
    return memcmp(again, numbers, sizeof again) == 0;
}

int main(void)
{
    uint8_t symbols[NAVIC_SYMBOLS + 1]; /* one more, so that a longer input is not taken for 600 */
    uint8_t word[NAVIC_WORD_BYTES];
    int64_t numbers[NAVIC_NUMBERS];

    size_t count = take_symbols(symbols, sizeof symbols);
    navic_line line = navic_read(symbols, count, word, sizeof word, numbers, NAVIC_NUMBERS);
    printf("%" PRIu32 " %" PRIu32 " %" PRIu32 " %" PRIu32 " %" PRIu32 " %" PRIu32 "\n",
           line.refusal, line.corrected, line.polarity, line.subframe, line.towc, line.message_id);
    if (line.refusal != NAVIC_DONE)
        return line.refusal == NAVIC_IDLE ? EXIT_SUCCESS : EXIT_FAILURE;
    print_named(numbers);

    bool equal = reads_back(numbers);
    printf("written and read again: %s\n", equal ? "equal" : "not equal");

    numbers[NAVIC_ALERT] = 2; /* one bit holds 0 and 1 */
    navic_written written = navic_write(numbers, NAVIC_NUMBERS, symbols, NAVIC_SYMBOLS);
    printf("alert 2: refusal %" PRIu32 ", first bit %" PRIu32 "\n", written.refusal, written.first_bit);
    return equal && written.refusal == NAVIC_FIELD ? EXIT_SUCCESS : EXIT_FAILURE;
}
