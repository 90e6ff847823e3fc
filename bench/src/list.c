/* list [MICROSECONDS [ROUNDS]]: what it costs to write a set's saved list through include/kladomyne.h, at three capacities and for
 * several shapes of set, by these writers in turn:
 *   two walks     klado_list_write with a buffer just long enough, so that it counts the runs first
 *   one walk      klado_list_write with 11 + 4 * capacity bytes, which are enough for any set
 *   plain C       a loop over the words of a plain bitset, which has no masks to skip by, into a buffer long enough
 *   libroaring    its portable serialisation of the same set as the same range calls left it
 *   run_optimize  the same after libroaring's run_optimize, which is not timed
 * Each writer's bytes are checked before it is timed. A round of a writer writes the same set again and again, for at least
 * MICROSECONDS (2,000): how often is tried out first, which warms up too. The median of ROUNDS rounds (21) counts. */
#define _POSIX_C_SOURCE 199309L
#include "beside.h"
#include "kladomyne.h"

#include <math.h>
#include <stdio.h>
#include <stdlib.h>
#include <string.h>
#include <time.h>

enum { MOST = 262144, HEADER = 11, RUN = 8, FILE_MOST = HEADER + 4 * MOST, ROUNDS_MOST = 1001, UNWRITTEN = 0xa5 };

/* The set of the row, as the library's, as a plain bitset and as libroaring's two, and its saved list. */
static size_t capacity;
static klado_set head;
static uint64_t sheets[KLADO_SET_STORAGE(MOST)], opened[KLADO_SET_STORAGE(MOST)], bits[MOST / 64];
static const size_t room = sizeof sheets / sizeof *sheets;
static void *as_left, *run_optimized;
static uint8_t wanted[FILE_MOST], file[FILE_MOST];
static size_t runs, length;

static double now(void) {
    struct timespec t;
    clock_gettime(CLOCK_MONOTONIC, &t);
    return (double)t.tv_sec * 1e9 + (double)t.tv_nsec;
}

static void expect(bool held, const char *what) {
    if (held) return;
    printf("list: %s\n", what);
    exit(1);
}

/* Making the set: every call on all sides. */

static void plain_assign(size_t start, size_t end, bool value) {
    while (start < end) {
        size_t word = start / 64, stop = 64 * word + 64 < end ? 64 * word + 64 : end;
        uint64_t mask = ~(uint64_t)0 >> (64 - (stop - start)) << start % 64;
        bits[word] = value ? bits[word] | mask : bits[word] & ~mask;
        start = stop;
    }
}

static void assign(size_t start, size_t end, bool value) {
    klado_set_answer got = klado_set_assign(head, sheets, room, start, end, value);
    expect(got.refused == 0, "assign was refused");
    head = got.head;
    plain_assign(start, end, value);
    beside_assign(as_left, start, end, value);
}

static uint64_t seed;

static uint64_t draw(void) {
    seed ^= seed << 13;
    seed ^= seed >> 7;
    return seed ^= seed << 17;
}

/* bench/run's filling: random ranges of below `reach` positions, set or cleared. */
static void random_ranges(size_t reach) {
    seed = 1;
    for (int i = 0; i < 131072; i++) {
        size_t start = draw() & (capacity - 1), end = start + draw() % reach;
        assign(start, end < capacity ? end : capacity, draw() % 2 == 0);
    }
}

/* `on` positions in each part of `part`, from position `first` of the part, by calls on `step` positions each. */
static void regular(size_t part, size_t first, size_t on, size_t step) {
    for (size_t i = first; i < capacity; i += part)
        for (size_t k = 0; k < on; k += step) assign(i + k, i + k + step, true);
}

/* The saved list by a look at every position, which the writers must give too. */

static void put_byte_by_byte(uint8_t *at, size_t number) {
    for (int i = 0; i < 4; i++) at[i] = (uint8_t)(number >> (24 - 8 * i));
}

static bool has(size_t index) { return index < capacity && bits[index / 64] >> index % 64 & 1; }

static void want(void) {
    runs = 0;
    for (size_t i = 0; i <= capacity; i++) {
        bool before = i > 0 && has(i - 1);
        if (has(i) && !before) put_byte_by_byte(wanted + HEADER + RUN * runs, i);
        if (!has(i) && before) put_byte_by_byte(wanted + HEADER + RUN * runs++ + 4, i);
    }
    length = HEADER + RUN * runs;
    memcpy(wanted, "MSL\0\1", 5);
    wanted[5] = (uint8_t)(capacity / 64 >> 8);
    wanted[6] = (uint8_t)(capacity / 64);
    put_byte_by_byte(wanted + 7, runs);
}

static size_t wanted_number(size_t at) {
    const uint8_t *b = wanted + at;
    return (size_t)b[0] << 24 | (size_t)b[1] << 16 | (size_t)b[2] << 8 | b[3];
}

/* The writers: each writes the row's set to `file` and gives the length. */

static size_t two_walks(void) {
    klado_answer got = klado_list_write(head, sheets, room, file, length);
    return got.refused == 0 ? got.value : 0;
}

static size_t one_walk(void) {
    klado_answer got = klado_list_write(head, sheets, room, file, HEADER + 4 * capacity);
    return got.refused == 0 ? got.value : 0;
}

static uint8_t *put(uint8_t *at, size_t number) {
    uint32_t swapped = __builtin_bswap32((uint32_t)number);
    memcpy(at, &swapped, 4);
    return at + 4;
}

/* A run's start and its end are the two places where a position differs from the one before it: the bits of `turns`. */
static size_t plain(void) {
    const size_t words = capacity / 64;
    uint8_t *at = file + HEADER;
    uint64_t before = 0;
    for (size_t word = 0; word < words; word++) {
        uint64_t here = bits[word];
        for (uint64_t turns = here ^ (here << 1 | before); turns != 0; turns &= turns - 1)
            at = put(at, 64 * word + (size_t)__builtin_ctzll(turns));
        before = here >> 63;
    }
    if (before) at = put(at, 64 * words);
    size_t len = (size_t)(at - file);
    memcpy(file, "MSL\0\1", 5);
    file[5] = (uint8_t)(words >> 8);
    file[6] = (uint8_t)words;
    put(file + 7, (len - HEADER) / RUN);
    return len;
}

static size_t roaring_as_left(void) { return beside_save(as_left, file); }

static size_t roaring_run_optimized(void) { return beside_save(run_optimized, file); }

static struct writer {
    size_t (*write)(void);
    size_t bytes, calls; /* what it writes, and how often in a round */
    double took[ROUNDS_MOST], median; /* ns a call: of each round, and their median */
    double logs[2];                   /* of ns a run, added up over the rows: of the medians and of the least times */
} writers[] = {
    {.write = two_walks},
    {.write = one_walk},
    {.write = plain},
    {.write = roaring_as_left},
    {.write = roaring_run_optimized},
};
enum { MSL_WRITERS = 3, WRITERS = BESIDE ? 5 : MSL_WRITERS };

/* The checks before a row is timed. */

static void check_opened(void) {
    static uint32_t journal[1];
    klado_opened got = klado_ledger_open(file, length, 0, opened, room, journal, 0);
    expect(got.refused == 0, "what was written is not opened");
    klado_set set = got.head.set;
    expect(set.words == head.words && set.len == head.len, "what was written opens as another set");
    for (size_t at = HEADER; at < length; at += RUN) {
        size_t start = wanted_number(at), end = wanted_number(at + 4);
        expect(klado_set_count(set, opened, room, start, end).value == end - start, "what was written opens without a run");
    }
}

static void check_msl(struct writer *w) {
    memset(file, UNWRITTEN, sizeof file);
    w->bytes = w->write();
    expect(w->bytes == length, "a writer gave another length");
    expect(memcmp(file, wanted, length) == 0, "a writer wrote other bytes");
    for (size_t i = length; i < sizeof file; i++) expect(file[i] == UNWRITTEN, "a writer wrote past the length");
    check_opened();
}

static void check_refused(void) {
    memset(file, UNWRITTEN, sizeof file);
    expect(klado_list_write(head, sheets, room, file, length - 1).refused == 9, "a buffer a byte too short was not refused");
    for (size_t i = 0; i < sizeof file; i++) expect(file[i] == UNWRITTEN, "a refused call wrote");
}

static void check_beside(struct writer *w, const void *set) {
    expect(beside_saved_len(set) <= sizeof file, "libroaring's bytes are too many");
    w->bytes = w->write();
    void *back = beside_open(file, w->bytes);
    expect(back && beside_count(back, 0, capacity) == head.len, "libroaring has another set");
    for (size_t at = HEADER; at < length; at += RUN) {
        size_t start = wanted_number(at), end = wanted_number(at + 4);
        expect(beside_count(back, start, end) == end - start, "libroaring has not a run");
    }
    beside_free(back);
}

static void check(void) {
    for (int k = 0; k < MSL_WRITERS; k++) check_msl(&writers[k]);
    check_refused();
    if (!BESIDE) return;
    check_beside(&writers[3], as_left);
    check_beside(&writers[4], run_optimized);
}

/* Times. */

/* One round: ns a call. */
static double round_of(const struct writer *w) {
    bool same = true;
    double begun = now();
    for (size_t i = 0; i < w->calls; i++) same &= w->write() == w->bytes;
    double took = now() - begun;
    expect(same, "a writer gave another length while it was timed");
    return took / (double)w->calls;
}

static void warm_up(struct writer *w, double least) {
    w->calls = 1;
    while (round_of(w) * (double)w->calls < least) w->calls *= 2;
}

static int order(const void *a, const void *b) {
    double x = *(const double *)a, y = *(const double *)b;
    return (x > y) - (x < y);
}

static size_t rows_with_runs;

static void measure(double least, int rounds) {
    for (int k = 0; k < WRITERS; k++) warm_up(&writers[k], least);
    for (int r = 0; r < rounds; r++)
        for (int k = 0; k < WRITERS; k++) writers[k].took[r] = round_of(&writers[k]);
    for (int k = 0; k < WRITERS; k++) {
        struct writer *w = &writers[k];
        qsort(w->took, (size_t)rounds, sizeof *w->took, order);
        w->median = w->took[rounds / 2];
        if (runs == 0) continue;
        w->logs[0] += log(w->median / (double)runs);
        w->logs[1] += log(w->took[0] / (double)runs);
    }
    if (runs > 0) rows_with_runs++;
}

static void print_time(const struct writer *w) {
    double of_run = w->median / (double)runs;
    if (runs == 0) printf(" %.1f a call |", w->median);
    else printf(" %.*f, %.0f |", of_run < 1 ? 3 : 1, of_run, (double)w->bytes / w->median * 1e3);
}

static void print_row(const char *name) {
    printf("| %zu | %s | %zu | %zu |", capacity, name, runs, length);
    for (int k = 0; k < WRITERS; k++) {
        if (k >= MSL_WRITERS) printf(" %zu |", writers[k].bytes);
        print_time(&writers[k]);
    }
    printf("\n");
    fflush(stdout);
}

static void print_means(int of) {
    for (int k = 0; k < WRITERS; k++) printf(" %.2f", exp(writers[k].logs[of] / (double)rows_with_runs));
}

enum shape { EMPTY, AFTER_200, AFTER_5000, AFTER_100000, LONG_RUNS, BY_POINTS, ONE_OF_64, TWO_OF_4, EVERY_OTHER, SHAPES };
static const char *const names[SHAPES] = {
    [EMPTY] = "empty",
    [AFTER_200] = "after 200",
    [AFTER_5000] = "after 5000",
    [AFTER_100000] = "after 100000",
    [LONG_RUNS] = "8 long runs",
    [BY_POINTS] = "the same, by points",
    [ONE_OF_64] = "1 of 64",
    [TWO_OF_4] = "2 of 4",
    [EVERY_OTHER] = "1 of 2",
};

static void fill(enum shape shape) {
    switch (shape) {
    case AFTER_200: random_ranges(200); break;
    case AFTER_5000: random_ranges(5000); break;
    case AFTER_100000: random_ranges(100000); break;
    case LONG_RUNS: regular(capacity / 8, 5, capacity / 16 + 7, capacity / 16 + 7); break;
    case BY_POINTS: regular(capacity / 8, 5, capacity / 16 + 7, 1); break;
    case ONE_OF_64: regular(64, 37, 1, 1); break;
    case TWO_OF_4: regular(4, 1, 2, 2); break;
    case EVERY_OTHER: regular(2, 0, 1, 1); break;
    default: break;
    }
}

static void row(size_t positions, enum shape shape, double least, int rounds) {
    capacity = positions;
    head = klado_set_new(capacity).head;
    memset(bits, 0, sizeof bits);
    as_left = beside_new();
    fill(shape);
    run_optimized = beside_run_optimized(as_left);
    want();
    check();
    measure(least, rounds);
    print_row(names[shape]);
    beside_free(as_left);
    beside_free(run_optimized);
}

int main(int count, char **words) {
    long least = count > 1 ? atol(words[1]) : 2000, rounds = count > 2 ? atol(words[2]) : 21;
    if (least < 1 || rounds < 1 || rounds > ROUNDS_MOST) return 2;
    printf("median of %ld rounds of at least %ld us, in turn: ns a run, MB/s of bytes written\n", rounds, least);
    if (!BESIDE) puts("libroaring is not installed (pkg-config roaring, roaring/roaring.h): it has no columns");
    printf("\n| capacity | set | runs | bytes | two walks | one walk | plain C |");
    puts(BESIDE ? " bytes | libroaring | bytes | run_optimize |\n|---|---|---|---|---|---|---|---|---|---|---|"
                : "\n|---|---|---|---|---|---|---|");
    static const size_t capacities[] = {4096, 65536, 262144};
    for (int c = 0; c < 3; c++)
        for (int shape = EMPTY; shape < SHAPES; shape++) row(capacities[c], (enum shape)shape, (double)least * 1e3, (int)rounds);
    printf("\nns a run, geometric means over the %zu rows with runs, by column: of the medians", rows_with_runs);
    print_means(0);
    printf("; of the least times");
    print_means(1);
    printf("\nevery writer's bytes were checked\n");
    return 0;
}
