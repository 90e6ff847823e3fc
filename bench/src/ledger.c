/* ledger [CALLS [ROUNDS]]: ns a call of the ledger's mark, clear and take-back through include/kladomyne.h, at capacity 262,144
 * and a journal of 16,384 numbers. The set is filled by random assignments first. Each round makes CALLS calls on random
 * ranges in batches of 64, markings and clearings by turns, and takes those that stand back, the last call first; the clock is read
 * before and after each batch and its take-backs. The least time of the rounds counts. Take-back must leave as many positions
 * as there were, which is checked.
 *
 * A second table has calls that change nothing, beside the search that finds that out, and calls refused 6; each answer is checked. */
#define _POSIX_C_SOURCE 199309L
#include "kladomyne.h"

#include <stdio.h>
#include <stdlib.h>
#include <time.h>

enum { CAPACITY = 262144, BATCH = 64 };

static uint64_t sheets[KLADO_SET_STORAGE(CAPACITY)];
static uint32_t undo[16384];
static const size_t room = sizeof sheets / sizeof *sheets, limit = sizeof undo / sizeof *undo;
static uint64_t seed = 0x9e3779b97f4a7c15u;

static uint64_t draw(void) {
    seed ^= seed << 13;
    seed ^= seed >> 7;
    return seed ^= seed << 17;
}

static double now(void) {
    struct timespec t;
    clock_gettime(CLOCK_MONOTONIC, &t);
    return (double)t.tv_sec * 1e9 + (double)t.tv_nsec;
}

static klado_ledger go_on(klado_ledger_answer got) {
    if (got.refused == 0) return got.head;
    printf("ledger: refused %u\n", got.refused);
    exit(1);
}

static size_t starts[BATCH], ends[BATCH];

static void ranges(size_t span) {
    for (int i = 0; i < BATCH; i++) {
        starts[i] = draw() % CAPACITY;
        ends[i] = starts[i] + 1 + draw() % (span - 1);
        if (ends[i] > CAPACITY) ends[i] = CAPACITY;
    }
}

/* One batch of markings (kind 0) or clearings (1), and its take-backs: adds to their times, to the runs changed, and to the calls that
 * stood. */
static klado_ledger batch(klado_ledger head, size_t span, int kind, double spent[3], uint64_t runs[2], uint64_t *stood) {
    uint32_t len = head.set.len, stands = 0;
    ranges(span);
    double begun = now();
    for (int i = 0; i < BATCH; i++)
        head = go_on(kind == 0 ? klado_ledger_mark(head, sheets, room, undo, limit, starts[i], ends[i])
                               : klado_ledger_clear(head, sheets, room, undo, limit, starts[i], ends[i]));
    double done = now();
    uint32_t used = head.used;
    for (; head.used > 0; stands++) head = go_on(klado_ledger_take_back(head, sheets, room, undo, limit));
    spent[kind] += done - begun;
    spent[2] += now() - done;
    runs[kind] += (used - stands) / 2;
    *stood += stands;
    if (head.set.len == len) return head;
    printf("ledger: take-back left another set\n");
    exit(1);
}

/* A ledger over a set filled by random ranges: by the set alone, so that no call stands. */
static klado_ledger filled(size_t fill) {
    klado_ledger head = klado_ledger_new(CAPACITY, limit, sheets, room, undo, limit).head;
    for (int i = 0; i < 131072; i++) {
        size_t start = draw() % CAPACITY, end = start + draw() % fill;
        head.set = klado_set_assign(head.set, sheets, room, start, end < CAPACITY ? end : CAPACITY, draw() & 1).head;
    }
    return head;
}

static void row(size_t fill, size_t span, long calls, long rounds) {
    klado_ledger head = filled(fill);
    double least[3] = {1e30, 1e30, 1e30};
    uint64_t runs[2] = {0, 0};
    long batches = calls / BATCH / 2 * 2;
    for (long r = 0; r < rounds; r++) {
        double spent[3] = {0, 0, 0};
        uint64_t stood = 0;
        for (long b = 0; b < batches; b++) head = batch(head, span, (int)(b & 1), spent, runs, &stood);
        spent[2] /= (double)stood;
        for (int k = 0; k < 3; k++)
            if (spent[k] < least[k]) least[k] = spent[k];
    }
    double of_kind = (double)batches * BATCH / 2, all = of_kind * (double)rounds;
    printf("| %zu | %zu | %.1f | %.2f | %.1f | %.2f | %.1f |\n", fill, span - 1, least[0] / of_kind, (double)runs[0] / all,
           least[1] / of_kind, (double)runs[1] / all, least[2]);
}

static bool values[BATCH];

/* Ranges that begin at a random position and end where its value does, at most `span` positions behind it. */
static void stretches(klado_set set, size_t span) {
    for (int i = 0; i < BATCH; i++) {
        starts[i] = draw() % CAPACITY;
        values[i] = klado_set_get(set, sheets, room, starts[i]).value;
        size_t end = starts[i] + span < CAPACITY ? starts[i] + span : CAPACITY;
        klado_found other = (values[i] ? klado_set_next_zero : klado_set_next_one)(set, sheets, room, starts[i], end);
        ends[i] = other.found ? (size_t)other.at : end;
    }
}

/* The batch's ranges marked where their positions have that value, or lack it (same 0): all must be refused so, or change nothing. */
static double idle(klado_ledger head, bool same, uint32_t refused) {
    double begun = now();
    for (int i = 0; i < BATCH; i++) {
        klado_ledger_answer got = values[i] == same ? klado_ledger_mark(head, sheets, room, undo, limit, starts[i], ends[i])
                                                    : klado_ledger_clear(head, sheets, room, undo, limit, starts[i], ends[i]);
        if (got.refused == refused && got.value == 0 && got.head.used == head.used) continue;
        printf("ledger: refused %u, value %u\n", got.refused, got.value);
        exit(1);
    }
    return now() - begun;
}

static double search(klado_set set) {
    double begun = now();
    for (int i = 0; i < BATCH; i++) {
        klado_found got = (values[i] ? klado_set_next_zero : klado_set_next_one)(set, sheets, room, starts[i], ends[i]);
        if (got.found == 0) continue;
        printf("ledger: a position is found at %llu\n", (unsigned long long)got.at);
        exit(1);
    }
    return now() - begun;
}

/* Calls that change nothing: the search alone, the call at U = J and with the whole journal free; then calls refused 6 at U = J. */
static void idle_row(size_t fill, size_t span, long calls, long rounds) {
    klado_ledger roomy = filled(fill), full = roomy;
    full.journal = 0;
    double least[4] = {1e30, 1e30, 1e30, 1e30};
    for (long r = 0; r < rounds; r++) {
        double spent[4] = {0, 0, 0, 0};
        for (long b = 0; b < calls / BATCH; b++) {
            stretches(roomy.set, span);
            spent[0] += search(roomy.set);
            spent[1] += idle(full, true, 0);
            spent[2] += idle(roomy, true, 0);
            spent[3] += idle(full, false, 6);
        }
        for (int k = 0; k < 4; k++)
            if (spent[k] < least[k]) least[k] = spent[k];
    }
    double all = (double)(calls / BATCH * BATCH);
    printf("| %zu | %zu | %.1f | %.1f | %.1f | %.1f |\n", fill, span, least[0] / all, least[1] / all, least[2] / all, least[3] / all);
}

int main(int count, char **words) {
    long calls = count > 1 ? atol(words[1]) : 16384, rounds = count > 2 ? atol(words[2]) : 400;
    if (calls < 2 * BATCH || rounds < 1) return 2;
    puts("| filled by | range up to | mark | runs changed | clear | runs changed | take-back |\n|---|---|---|---|---|---|---|");
    row(200, 2, calls, rounds);
    row(200, 200, calls, rounds);
    row(200, 5000, calls, rounds);
    row(5000, 5000, calls, rounds);
    puts("\n| filled by | range up to | the search alone | nothing changed, U = J | nothing changed, J free | refused 6, U = J |");
    puts("|---|---|---|---|---|---|");
    idle_row(200, 1, calls, rounds);
    idle_row(200, 199, calls, rounds);
    idle_row(5000, 4999, calls, rounds);
    idle_row(100000, CAPACITY, calls, rounds);
    return 0;
}
