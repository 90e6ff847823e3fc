/* A C caller of include/kladomyne.h: a day at the archive. A ledger is opened on a saved list, sheets are marked, cleared and
 * taken back, two calls change nothing while the journal is full, and each refusal of the table is met once. It prints every answer
 * with the head and the audit after it, so that oracle/data/ledger_day.expected holds all of them; what the expected answers are
 * follows from the header alone. */
#include "kladomyne.h"

#include <stdio.h>
#include <string.h>

enum { CAPACITY = 4096, LIMIT = 11 };

static uint64_t sheets[KLADO_SET_STORAGE(CAPACITY)];
static uint32_t undo[LIMIT];
static const size_t room = sizeof sheets / sizeof *sheets;

/* MSL, version 1, W = 64, two runs: 100..200 and 300..301. */
static const uint8_t saved[] = {'M', 'S', 'L', 0, 1, 0, 64, 0, 0, 0, 2, 0, 0, 0,  100, 0,
                                0,   0,   200, 0, 0, 1, 44, 0, 0, 1, 45};

static void opened(const char *what, klado_opened got) {
    printf("%-24s refused %u run %llu | words %u len %u journal %u used %u\n", what, got.refused,
           (unsigned long long)got.run, got.head.set.words, got.head.set.len, got.head.journal, got.head.used);
}

/* Prints the answer, and gives the head to go on with. */
static klado_ledger called(const char *what, klado_ledger_answer got) {
    klado_answer sound = klado_set_audit(got.head.set, sheets, room);
    printf("%-24s refused %u value %u | len %u allocated %d used %u | audit %u %u\n", what, got.refused, got.value,
           got.head.set.len, got.head.set.allocated, got.head.used, sound.refused, sound.value);
    return got.head;
}

static void making(void) {
    uint8_t other[sizeof saved];
    opened("new 96", klado_ledger_new(96, LIMIT, sheets, room, undo, LIMIT));
    opened("new, J 16385", klado_ledger_new(CAPACITY, KLADO_JOURNAL_MOST + 1, sheets, room, undo, LIMIT));
    opened("new, short storage", klado_ledger_new(CAPACITY, LIMIT, sheets, room - 1, undo, LIMIT));
    opened("new, short journal", klado_ledger_new(CAPACITY, LIMIT, sheets, room, undo, LIMIT - 1));
    opened("new", klado_ledger_new(CAPACITY, LIMIT, sheets, room, undo, LIMIT));
    opened("open, short file", klado_ledger_open(saved, sizeof saved - 1, LIMIT, sheets, room, undo, LIMIT));
    memcpy(other, saved, sizeof saved);
    other[22] = 200; /* the second run's start, 0x01c8, is above its end */
    opened("open, bad run", klado_ledger_open(other, sizeof other, LIMIT, sheets, room, undo, LIMIT));
}

int main(void) {
    memset(sheets, 0xa5, sizeof sheets); /* stale numbers: open looks at none */
    making();
    klado_opened day = klado_ledger_open(saved, sizeof saved, LIMIT, sheets, room, undo, LIMIT);
    opened("open", day);
    klado_ledger head = day.head;
    head = called("take back, none stands", klado_ledger_take_back(head, sheets, room, undo, LIMIT));
    head = called("mark 150..310", klado_ledger_mark(head, sheets, room, undo, LIMIT, 150, 310));
    printf("journal                  %u %u %u %u %u\n", undo[0], undo[1], undo[2], undo[3], undo[4]);
    head = called("clear 0..120", klado_ledger_clear(head, sheets, room, undo, LIMIT, 0, 120));
    head = called("clear point 250", klado_ledger_clear_point(head, sheets, room, undo, LIMIT, 250));
    head = called("mark 0..400, J full", klado_ledger_mark(head, sheets, room, undo, LIMIT, 0, 400));
    head = called("mark point 200, marked", klado_ledger_mark_point(head, sheets, room, undo, LIMIT, 200));
    head = called("clear 5..5, J full", klado_ledger_clear(head, sheets, room, undo, LIMIT, 5, 5));
    head = called("mark 0..1, J full", klado_ledger_mark(head, sheets, room, undo, LIMIT, 0, 1));
    head = called("mark 0..4097", klado_ledger_mark(head, sheets, room, undo, LIMIT, 0, 4097));
    head = called("mark point 4096", klado_ledger_mark_point(head, sheets, room, undo, LIMIT, 4096));
    head = called("mark point SIZE_MAX", klado_ledger_mark_point(head, sheets, room, undo, LIMIT, SIZE_MAX));
    head = called("wipe, short storage", klado_ledger_wipe(head, sheets, room - 1));
    klado_found next = klado_set_next_zero(head.set, sheets, room, 150, 400);
    printf("next_zero 150..400       %llu..%llu\n", (unsigned long long)next.at, (unsigned long long)next.end);
    next = klado_set_next_zero(head.set, sheets, room, 251, 400);
    printf("next_zero 251..400       %llu..%llu\n", (unsigned long long)next.at, (unsigned long long)next.end);
    for (int calls = 4; calls > 0; calls--)
        head = called("take back", klado_ledger_take_back(head, sheets, room, undo, LIMIT));
    printf("count 100..200           %u\n", klado_set_count(head.set, sheets, room, 100, 200).value);
    sheets[1] ^= 1; /* a bit that no count knows of */
    printf("audit, a bit changed     %u\n", klado_set_audit(head.set, sheets, room).value);
    sheets[1] ^= 1;
    klado_ledger worse = head;
    worse.used = LIMIT + 1;
    called("mark, U above J", klado_ledger_mark(worse, sheets, room, undo, LIMIT, 0, 1));
    head = called("mark 0..4096", klado_ledger_mark(head, sheets, room, undo, LIMIT, 0, 4096));
    head = called("wipe", klado_ledger_wipe(head, sheets, room));
    sheets[1] ^= 1; /* in an empty set no sheet's bit is read */
    printf("audit, a stale bit       %u\n", klado_set_audit(head.set, sheets, room).value);
    return 0;
}
