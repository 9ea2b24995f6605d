// The reader, the decoder and the writer beside the decoders of libfec and libosmocore, on the same subframes in one run; the walk over
// noise; stack use. bench/run builds and runs it.
//   bench              measures and prints
//   bench --once       calls each of them once, for a tool that counts instructions
//   bench --seed N     other random subframes
//   bench --rounds N   more or fewer repetitions
#define _GNU_SOURCE
#include <dlfcn.h>
#include <pthread.h>
#include <stdbool.h>
#include <stddef.h>
#include <stdint.h>
#include <stdio.h>
#include <stdlib.h>
#include <string.h>
#include <sys/mman.h>
#include <time.h>

#include <fec.h>
#include <osmocom/core/conv.h>

// ---- the calls of libnavic_c.a that are measured

typedef struct { uint32_t refusal, corrected, polarity, subframe, towc, message_id; } navic_line;
typedef struct { uint32_t refusal, first_bit; } navic_written;
typedef struct { uint8_t number; size_t start, after; } navic_found;
typedef struct { uint32_t refusal, corrected; } navic_nearest_word;

navic_line navic_read(const uint8_t *symbols, size_t symbols_len, uint8_t *word, size_t word_len, int64_t *numbers, size_t numbers_len);
navic_written navic_write(const int64_t *numbers, size_t numbers_len, uint8_t *symbols, size_t symbols_len);
navic_found navic_find(const uint8_t *recording, size_t recording_len, size_t from);
navic_nearest_word navic_nearest(const uint8_t *coded, size_t coded_len, uint8_t *word, size_t word_len);

enum {
    SYNC = 16,
    CODED = 584,
    SYMBOLS = SYNC + CODED,
    WORD = 286,
    TAIL = 6,
    STEPS = WORD + TAIL,
    BYTES = 36,
    NUMBERS = 42,
    LAYOUTS = 7,
    MOST_ERRORS = 20,
    CORRECTABLE = 4,
    // every layout with every number of errors, upright and turned over, twice
    EACH = LAYOUTS * (MOST_ERRORS + 1),
    POOL = 4 * EACH,
    BLOCK = 84,
};

static void fail(const char *what)
{
    fprintf(stderr, "bench: %s\n", what);
    exit(1);
}

// ---- random numbers: splitmix64

static uint64_t state = 20140601;

static uint64_t draw(void)
{
    uint64_t z = state += 0x9e3779b97f4a7c15;
    z = (z ^ (z >> 30)) * 0xbf58476d1ce4e5b9;
    z = (z ^ (z >> 27)) * 0x94d049bb133111eb;
    return z ^ (z >> 31);
}

static uint32_t below(uint32_t n)
{
    return (uint32_t)(((draw() >> 32) * n) >> 32);
}

// ---- random records: the widths of each layout's fields behind the head, a signed field's negative

static const signed char WIDTHS[LAYOUTS][NUMBERS] = {
    {10, -22, -16, -8, 4, 16, -8, -22, 8, 10, 1, 1, -15, -15, -15, -15, -15, -15, -14, 2},
    {-32, 16, 32, 32, -32, -32, -22, -32, 2},
    {10, 4, 4, 9, 4, 9, 4, 9, 4, 9, 4, 9, 4, 9, 4, 9, 4, 9, 4, 9, 4, 9, 4, 9, 4, 9, 4, 9, 4, 9, 4, 9, 3, 8, 6},
    {10, 16, 16, -24, -16, 24, -24, -24, -24, -11, -11, 6, -8, 6, 6},
    {-16, -13, -7, -8, 16, 10, 10, 4, -8, -16, -13, -7, 16, 10, 3, 63, 6},
    {16, -21, -15, -21, -15, -31, -19, -8, -8, -8, -8, -8, -8, -8, -8, 18, 6},
    {8, 8, 8, 8, 8, 8, 8, 8, 8, 8, 8, 8, 8, 8, 8, 8, 8, 8, 8, 8, 8, 8, 8, 8, 8, 8, 8, 4, 6},
};

// Layouts 0 and 1 are subframes 1 and 2; the others are messages, by these IDs (the last one: any other).
static const int64_t IDS[LAYOUTS] = {0, 0, 5, 7, 26, 11, 33};

static int64_t number_of(int width)
{
    if (width < 0)
        return (int64_t)draw() >> (64 + width);
    return (int64_t)(draw() >> (64 - width));
}

static void random_record(int layout, int64_t numbers[NUMBERS])
{
    int n = 0;
    memset(numbers, 0, NUMBERS * sizeof *numbers);
    numbers[n++] = number_of(8);
    numbers[n++] = 1 + below(50400);
    numbers[n++] = number_of(1);
    numbers[n++] = number_of(1);
    numbers[n++] = layout < 2 ? layout : 2 + (int)below(2);
    numbers[n++] = number_of(1);
    if (layout >= 2)
        numbers[n++] = IDS[layout];
    for (const signed char *w = WIDTHS[layout]; *w != 0; w++)
        numbers[n++] = number_of(*w);
}

// ---- the code, from the generators: a register whose lowest bit is the present bit

static int odd(unsigned x) { return __builtin_parity(x); }

// The bits 0, 1, 2, 3, 6 and 0, 2, 3, 5, 6 before the present one: 171 and 133 octal, read from the other end.
enum { TAPS1 = 0x4f, TAPS2 = 0x6d };

// The word whose code these symbols are, a step at a time: both generators use the present bit, so at each step one bit fits.
static void word_of(const uint8_t coded[CODED], uint8_t word[STEPS])
{
    unsigned r = 0;
    for (int t = 0; t < STEPS; t++) {
        r = (r << 1) & 0x7f;
        if (odd(r & TAPS1) != coded[2 * t])
            r |= 1;
        if (odd(r & TAPS1) != coded[2 * t] || odd(r & TAPS2) != coded[2 * t + 1])
            fail("the writer's symbols are not those of a word");
        word[t] = r & 1;
    }
    for (int t = WORD; t < STEPS; t++)
        if (word[t] != 0)
            fail("the writer's word does not end in six zeros");
}

// In how many places a word's code and the symbols differ.
static unsigned distance(const uint8_t word[WORD], const uint8_t coded[CODED])
{
    unsigned r = 0, d = 0;
    for (int t = 0; t < STEPS; t++) {
        r = ((r << 1) | (t < WORD ? word[t] : 0)) & 0x7f;
        d += odd(r & TAPS1) != coded[2 * t];
        d += odd(r & TAPS2) != coded[2 * t + 1];
    }
    return d;
}

static int place(int i) { return SYNC + (i % 8) * 73 + i / 8; }

// ---- the subframes, and what each decoder is given: its own form of the 584 symbols is made before it is timed

struct subframe {
    int layout;
    unsigned errors;
    bool turned;
    int64_t numbers[NUMBERS];
    uint8_t word[STEPS];
    uint8_t received[SYMBOLS];
    uint8_t coded[CODED];
    // libfec: 127 and 128, of 0 to 255. It counts a start from another state as 63, which must be more than the few symbols that this
    // could spare, so that it starts from zero; with 0 and 255 it would be less than one.
    uint8_t levels[CODED];
    // libosmocore: 127 and -127
    sbit_t soft[CODED];
};

static struct subframe *pool;

static void make(struct subframe *s, int layout, unsigned errors, bool turned)
{
    uint8_t upright[SYMBOLS];
    s->layout = layout;
    s->errors = errors;
    s->turned = turned;
    random_record(layout, s->numbers);
    if (navic_write(s->numbers, NUMBERS, upright, SYMBOLS).refusal != 0)
        fail("the writer refused a record");
    for (int i = 0; i < CODED; i++)
        s->coded[i] = upright[place(i)];
    word_of(s->coded, s->word);
    bool hit[CODED] = {false};
    for (unsigned e = 0; e < errors;) {
        int i = below(CODED);
        if (hit[i])
            continue;
        hit[i] = true;
        s->coded[i] ^= 1;
        upright[place(i)] ^= 1;
        e++;
    }
    for (int i = 0; i < SYMBOLS; i++)
        s->received[i] = upright[i] ^ turned;
    for (int i = 0; i < CODED; i++) {
        s->levels[i] = s->coded[i] ? 128 : 127;
        s->soft[i] = s->coded[i] ? -127 : 127;
    }
}

// ---- what is measured: a call on the subframe k, its answer left where it can be compared

static navic_line line;
static navic_nearest_word near;
static navic_written written;
static uint8_t read_bytes[BYTES];
static int64_t read_numbers[NUMBERS];
static uint8_t near_word[WORD];
static uint8_t written_symbols[SYMBOLS];
static uint8_t fec_bytes[BYTES + 1];
static ubit_t osmo_word[WORD];

static void *fec;
static uint8_t next_output[64][2], next_state[64][2];
static struct osmo_conv_code code = {
    .N = 2, .K = 7, .len = WORD, .term = CONV_TERM_FLUSH, .next_output = next_output, .next_state = next_state,
};

static void prepare_others(void)
{
    int taps[2] = {TAPS1, TAPS2};
    set_viterbi27_polynomial(taps);
    fec = create_viterbi27(STEPS);
    if (fec == NULL)
        fail("libfec gave no decoder");
    for (unsigned s = 0; s < 64; s++)
        for (unsigned b = 0; b < 2; b++) {
            unsigned r = (s << 1) | b;
            next_output[s][b] = odd(r & TAPS1) << 1 | odd(r & TAPS2);
            next_state[s][b] = r & 0x3f;
        }
}

static void do_read(int k)
{
    line = navic_read(pool[k].received, SYMBOLS, read_bytes, BYTES, read_numbers, NUMBERS);
}

static void do_nearest(int k)
{
    near = navic_nearest(pool[k].coded, CODED, near_word, WORD);
}

static void do_write(int k)
{
    written = navic_write(pool[k].numbers, NUMBERS, written_symbols, SYMBOLS);
}

// Not inlined, so that its instructions can be counted by name.
__attribute__((noinline)) static void do_fec(int k)
{
    init_viterbi27(fec, 0);
    update_viterbi27_blk(fec, pool[k].levels, STEPS);
    chainback_viterbi27(fec, fec_bytes, WORD, 0);
}

static void do_osmo(int k)
{
    osmo_conv_decode(&code, pool[k].soft, osmo_word);
}

static void do_nothing(int k)
{
    __asm__ volatile("" : : "r"(k) : "memory");
}

enum { READ, NEAREST, WRITE, FEC, OSMO, THINGS };

static void (*const things[THINGS])(int) = {do_read, do_nearest, do_write, do_fec, do_osmo};

static const char *const names[THINGS] = {
    "whole reader (navic_read)", "decoder alone (navic_nearest)", "writer (navic_write)", "libfec viterbi27", "libosmocore osmo_conv_decode",
};

// Which of its variants each library uses here. libfec's call is a plain name for one of those that it was built with. libosmocore points
// at one when it is first used; only its SSE and AVX ones have the instruction psignw.
static const char *fec_variant(void)
{
    return dlsym(RTLD_DEFAULT, "update_viterbi27_blk_sse2") != NULL ? "the best of its variants, SSE2 among them" : "portable C, the only variant in it";
}

static const char *osmo_variant(void)
{
    void **chosen = dlsym(RTLD_DEFAULT, "osmo_conv_metrics_k7_n2");
    if (chosen == NULL || *chosen == NULL)
        return "variant unknown";
    const uint8_t *at = *chosen;
    for (int i = 0; i < 512; i++) {
        if (memcmp(at + i, "\x66\x0f\x38\x09", 4) == 0)
            return "SIMD: SSE, 128 bits wide";
        if (at[i] == 0xc4 && (at[i + 1] & 0x1f) == 2 && at[i + 3] == 0x09)
            return at[i + 2] & 4 ? "SIMD: AVX2, 256 bits wide" : "SIMD: AVX, 128 bits wide";
    }
    return "portable C, no SIMD";
}

// ---- the answers compared, so that the times are those of the same work

static void bits_of(const uint8_t *bytes, uint8_t word[WORD])
{
    for (int i = 0; i < WORD; i++)
        word[i] = bytes[i / 8] >> (7 - i % 8) & 1;
}

static bool compare(void)
{
    int few = 0, done = 0, counts = 0, same_count = 0, records = 0;
    int same[THINGS] = {0}, least[THINGS] = {0};
    for (int k = 0; k < POOL; k++) {
        const struct subframe *s = &pool[k];
        uint8_t word[THINGS][WORD];
        memset(read_bytes, 0xff, sizeof read_bytes);
        memset(near_word, 0xff, sizeof near_word);
        for (int i = 0; i < THINGS; i++)
            things[i](k);
        bits_of(read_bytes, word[READ]);
        memcpy(word[NEAREST], near_word, WORD);
        bits_of(fec_bytes, word[FEC]);
        memcpy(word[OSMO], osmo_word, WORD);
        done += line.refusal == 0;
        same_count += near.refusal == 0 && line.corrected == near.corrected;
        if (s->errors <= CORRECTABLE) {
            few++;
            counts += near.corrected == s->errors && line.polarity == s->turned;
            records += line.refusal == 0 && memcmp(read_numbers, s->numbers, sizeof read_numbers) == 0;
            for (int i = 0; i < THINGS; i++)
                same[i] += i != WRITE && memcmp(word[i], s->word, WORD) == 0;
        }
        for (int i = NEAREST; i < THINGS; i++)
            least[i] += i != WRITE && distance(word[i], s->coded) == near.corrected;
    }
    printf("compared: %d subframes, of each layout alike, 0 to %d symbol errors, half of them turned over; %d read as sound\n", POOL, MOST_ERRORS, done);
    printf("  of the %d with up to %d errors, those with the sent word:\n", few, CORRECTABLE);
    printf("    reader %d, decoder %d, libfec %d, libosmocore %d; sent record read %d, exact count and polarity %d\n", same[READ],
           same[NEAREST], same[FEC], same[OSMO], records, counts);
    printf("  of all %d, those whose word is as near as the corrected count says: decoder %d, libfec %d, libosmocore %d; reader and decoder\n"
           "    give the same count: %d\n", POOL, least[NEAREST], least[FEC], least[OSMO], same_count);
    bool all = same_count == POOL && records == few && counts == few;
    for (int i = 0; i < THINGS; i++)
        all = all && (i == WRITE || (same[i] == few && (i == READ || least[i] == POOL)));
    printf("  %s\n\n", all ? "all agree" : "NOT all agree");
    return all;
}

// ---- time: what this thread used of its core, in microseconds

static double now(void)
{
    struct timespec t;
    clock_gettime(CLOCK_THREAD_CPUTIME_ID, &t);
    return t.tv_sec * 1e6 + t.tv_nsec * 1e-3;
}

static int in_order(const void *a, const void *b)
{
    double x = *(const double *)a, y = *(const double *)b;
    return (x > y) - (x < y);
}

static double least_of(const double *a, int n)
{
    double m = a[0];
    for (int i = 1; i < n; i++)
        m = a[i] < m ? a[i] : m;
    return m;
}

static double median(const double *a, int n)
{
    double *b = malloc(n * sizeof *b);
    memcpy(b, a, n * sizeof *b);
    qsort(b, n, sizeof *b, in_order);
    double m = n % 2 ? b[n / 2] : (b[n / 2 - 1] + b[n / 2]) / 2;
    free(b);
    return m;
}

static double ratio(const double *a, const double *b, int n)
{
    double *r = malloc(n * sizeof *r);
    for (int i = 0; i < n; i++)
        r[i] = a[i] / b[i];
    double m = median(r, n);
    free(r);
    return m;
}

static void target(const char *what, double is, const char *unit, double limit)
{
    printf("  %-62s %6.3f%s, less than %.3g%s: %s\n", what, is, unit, limit, unit, is < limit ? "met" : "missed");
}

static double reader_ratio, decoder_ratio;

static void measure_subframes(int rounds)
{
    double *t[THINGS];
    for (int i = 0; i < THINGS; i++)
        t[i] = calloc(rounds, sizeof *t[i]);
    for (int r = -1; r < rounds; r++)
        for (int b = 0; b < POOL; b += BLOCK)
            for (int i = 0; i < THINGS; i++) {
                double start = now();
                for (int k = b; k < b + BLOCK; k++)
                    things[i](k);
                double end = now();
                if (r >= 0)
                    t[i][r] += (end - start) / POOL;
            }
    printf("microseconds for a subframe, over %d rounds:         minimum  median  to libosmocore\n", rounds);
    for (int i = 0; i < THINGS; i++)
        printf("  %-48s %7.2f %7.2f %12.2f%s%s%s\n", names[i], least_of(t[i], rounds), median(t[i], rounds), ratio(t[i], t[OSMO], rounds),
               i == FEC || i == OSMO ? "  " : "", i == FEC ? fec_variant() : "", i == OSMO ? osmo_variant() : "");
    printf("  (CPU time of one thread; the last column is the median of the rounds' ratios)\n\n");
    reader_ratio = ratio(t[READ], t[OSMO], rounds);
    decoder_ratio = ratio(t[NEAREST], t[OSMO], rounds);
    for (int i = 0; i < THINGS; i++)
        free(t[i]);
}

// ---- the walk

enum { LONGEST = 65536, SIZES = 5 };

static uint8_t noise[LONGEST], barren[LONGEST];

// Whether the sync rule holds for the sixteen symbols.
static bool holds(const uint8_t *symbols)
{
    int d = 0;
    for (int i = 0; i < SYNC; i++)
        d += symbols[i] != (0xeb90 >> (15 - i) & 1);
    return d <= 2 || d >= 14;
}

static void make_noise(void)
{
    for (int i = 0; i < LONGEST; i++)
        noise[i] = draw() >> 63;
    for (int i = 0; i < LONGEST; i++) {
        barren[i] = draw() >> 63;
        if (i >= SYNC - 1 && holds(barren + i - (SYNC - 1)))
            i = i < 2 * SYNC ? -1 : i - SYNC;
    }
}

static int walk(const uint8_t *recording, size_t n)
{
    size_t from = 0;
    int windows = 0;
    for (;;) {
        navic_found f = navic_find(recording, n, from);
        if (f.number != 0)
            return windows;
        windows++;
        from = f.after;
    }
}

static double walk_noise, walk_barren;

static void measure_walk(int rounds)
{
    double *t[2][SIZES];
    int windows[2][SIZES];
    for (int w = 0; w < 2; w++)
        for (int s = 0; s < SIZES; s++)
            t[w][s] = calloc(rounds, sizeof(double));
    for (int r = 0; r < rounds; r++)
        for (int s = 0; s < SIZES; s++)
            for (int w = 0; w < 2; w++) {
                double start = now();
                windows[w][s] = walk(w ? barren : noise, 4096 << s);
                t[w][s][r] = (now() - start) / 1000;
            }
    printf("the walk, navic_find from one window to the next, median over %d rounds:\n", rounds);
    printf("               noise                                 noise in which no place holds\n");
    printf("    symbols    windows       ms   ns per symbol      windows       ms   ns per symbol\n");
    for (int s = 0; s < SIZES; s++) {
        double a = median(t[0][s], rounds), b = median(t[1][s], rounds);
        printf("    %7d %10d %8.3f %15.2f %12d %8.3f %15.2f\n", 4096 << s, windows[0][s], a, a * 1e6 / (4096 << s), windows[1][s], b,
               b * 1e6 / (4096 << s));
    }
    printf("\n");
    walk_noise = median(t[0][SIZES - 1], rounds);
    walk_barren = median(t[1][SIZES - 1], rounds);
    for (int w = 0; w < 2; w++)
        for (int s = 0; s < SIZES; s++)
            free(t[w][s]);
}

// ---- the stack: a thread on a painted one makes one call and looks how far down the paint is gone

enum { STACK = 1 << 18 };

struct painted {
    uint8_t *lowest;
    uint8_t paint;
    void (*call)(int);
    int k;
    size_t touched;
};

static void *on_painted(void *p)
{
    struct painted *s = p;
    uint8_t *here = __builtin_frame_address(0);
    s->call(s->k);
    volatile uint8_t *q = s->lowest;
    while (*q == s->paint)
        q++;
    s->touched = here - q;
    return NULL;
}

static size_t stack_of_one(void (*call)(int), int k, uint8_t paint)
{
    uint8_t *stack = mmap(NULL, STACK, PROT_READ | PROT_WRITE, MAP_PRIVATE | MAP_ANONYMOUS | MAP_STACK, -1, 0);
    if (stack == MAP_FAILED)
        fail("no memory for a stack");
    memset(stack, paint, STACK);
    struct painted s = {stack, paint, call, k, 0};
    pthread_attr_t attr;
    pthread_t thread;
    pthread_attr_init(&attr);
    if (pthread_attr_setstack(&attr, stack, STACK) != 0 || pthread_create(&thread, &attr, on_painted, &s) != 0)
        fail("no thread");
    pthread_join(thread, NULL);
    pthread_attr_destroy(&attr);
    munmap(stack, STACK);
    return s.touched;
}

// The most over every layout and number of errors, with two paints, as a byte written may be the paint's.
static size_t stack_of(void (*call)(int))
{
    size_t most = 0;
    for (int k = 0; k < POOL; k++)
        for (int p = 0; p < 2; p++) {
            size_t n = stack_of_one(call, k, p ? 0xa5 : 0x5a);
            most = n > most ? n : most;
        }
    return most;
}

static void do_find(int k)
{
    (void)k;
    navic_find(noise, LONGEST, 0);
}

static void measure_stack(void)
{
    printf("stack touched by one call, the most over the %d subframes, in bytes:\n", POOL);
    printf("  navic_read %zu, navic_nearest %zu, navic_write %zu, navic_find %zu; an empty call, with what starts the thread: %zu\n\n",
           stack_of(do_read), stack_of(do_nearest), stack_of(do_write), stack_of(do_find), stack_of(do_nothing));
}

// ----

static uint64_t number_after(int argc, char **argv, int i)
{
    if (i + 1 >= argc)
        fail("a number is missing behind --seed or --rounds");
    return strtoull(argv[i + 1], NULL, 10);
}

int main(int argc, char **argv)
{
    bool once = false;
    int rounds = 400;
    for (int i = 1; i < argc; i++) {
        if (strcmp(argv[i], "--once") == 0)
            once = true;
        else if (strcmp(argv[i], "--seed") == 0)
            state = number_after(argc, argv, i++);
        else if (strcmp(argv[i], "--rounds") == 0)
            rounds = (int)number_after(argc, argv, i++);
        else
            fail("usage: bench [--once] [--seed N] [--rounds N]");
    }
    if (rounds < 1)
        fail("at least one round");
    uint64_t seed = state;
    prepare_others();

    if (once) {
        // The writer is called once by `make`.
        pool = calloc(1, sizeof *pool);
        make(&pool[0], 0, CORRECTABLE, true);
        do_read(0);
        do_nearest(0);
        do_fec(0);
        do_osmo(0);
        printf("subframe 1, %d symbol errors, turned over: refusal %u, corrected %u\n", CORRECTABLE, line.refusal, line.corrected);
        return 0;
    }

    pool = calloc(POOL, sizeof *pool);
    for (int k = 0; k < POOL; k++)
        make(&pool[k], k % LAYOUTS, k / LAYOUTS % (MOST_ERRORS + 1), k / EACH % 2);
    make_noise();

    printf("seed %llu\n", (unsigned long long)seed);
    bool agree = compare();
    measure_subframes(rounds);
    measure_walk(rounds);
    measure_stack();

    printf("targets:\n");
    target("whole reader to libosmocore's decode", reader_ratio, "", 1);
    target("decoder alone to libosmocore's decode", decoder_ratio, "", 0.5);
    target("walk over 65,536 symbols of noise", walk_noise, " ms", 2);
    target("walk over 65,536 symbols of noise in which no place holds", walk_barren, " ms", 2);
    delete_viterbi27(fec);
    return agree ? 0 : 1;
}
