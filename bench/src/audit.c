/* audit [AUDITS]: the median and the least time of AUDITS audits (101) through include/kladomyne.h, at capacity 262,144, for three
 * sound sets: one position set in each of the 4,096 words, so that each word is stored; one in each of the 64 blocks; and every
 * position set. Each audit must say yes, and no for a head whose population is one less. With BEFORE the audit of an earlier archive
 * stands beside it, the two are called in turn, and the last column has the ratio of the medians, now to before. */
#define _POSIX_C_SOURCE 199309L
#include "kladomyne.h"

#include <stdio.h>
#include <stdlib.h>
#include <time.h>

enum { CAPACITY = 262144, MOST = 100001 };

typedef klado_answer audit_fn(klado_set head, const uint64_t *storage, size_t storage_len);

#ifdef BEFORE
audit_fn before_set_audit;
static audit_fn *const audits[] = {before_set_audit, klado_set_audit};
static const char *const columns = "| set | before: median, us | least | now: median, us | least | now to before |\n|---|---|---|---|---|---|\n";
#else
static audit_fn *const audits[] = {klado_set_audit};
static const char *const columns = "| set | median, us | least |\n|---|---|---|\n";
#endif
enum { SIDES = sizeof audits / sizeof *audits };

static uint64_t sheets[KLADO_SET_STORAGE(CAPACITY)];
static const size_t room = sizeof sheets / sizeof *sheets;
static double times[SIDES][MOST];

static double now(void) {
    struct timespec t;
    clock_gettime(CLOCK_MONOTONIC, &t);
    return (double)t.tv_sec * 1e9 + (double)t.tv_nsec;
}

static void expect(klado_answer got, uint64_t value) {
    if (got.refused == 0 && got.value == value) return;
    printf("audit: answered %llu, refused %u\n", (unsigned long long)got.value, got.refused);
    exit(1);
}

static int order(const void *a, const void *b) {
    double x = *(const double *)a, y = *(const double *)b;
    return (x > y) - (x < y);
}

static void measure(const char *name, klado_set head, int rounds) {
    klado_set other = head;
    other.len -= 1;
    for (int side = 0; side < SIDES; side++) expect(audits[side](other, sheets, room), 0);
    for (int i = 0; i < rounds; i++) {
        for (int side = 0; side < SIDES; side++) {
            double begun = now();
            klado_answer got = audits[side](head, sheets, room);
            times[side][i] = now() - begun;
            expect(got, 1);
        }
    }
    printf("| %s |", name);
    for (int side = 0; side < SIDES; side++) {
        qsort(times[side], (size_t)rounds, sizeof *times[side], order);
        printf(" %.3f | %.3f |", times[side][rounds / 2] / 1e3, times[side][0] / 1e3);
    }
    if (SIDES == 2) printf(" %.3f |", times[SIDES - 1][rounds / 2] / times[0][rounds / 2]);
    printf("\n");
}

/* A set with one position in each part of so many positions. */
static klado_set spread(size_t part) {
    klado_set head = klado_set_new(CAPACITY).head;
    for (size_t i = 0; i < CAPACITY; i += part) head = klado_set_set(head, sheets, room, i, 1).head;
    return head;
}

int main(int argc, char **argv) {
    int rounds = argc > 1 ? atoi(argv[1]) : 101;
    if (rounds < 1 || rounds > MOST) return 2;
    printf("%s", columns);
    measure("4,096 stored words", spread(64), rounds);
    measure("64 stored words", spread(4096), rounds);
    measure("every position set", klado_set_assign(klado_set_new(CAPACITY).head, sheets, room, 0, CAPACITY, 1).head, rounds);
    return 0;
}
