/* A morning at the desk, in C: mark a box, take it back, mark the right one, and ask what is next. README.md has how to build it. */
#include "kladomyne.h"

#include <stdio.h>

enum { SHEETS = 256, UNDO = 40 };

static uint64_t sheets[KLADO_SET_STORAGE(SHEETS)]; /* static memory is zeroed */
static uint32_t undo[UNDO];
static const size_t room = KLADO_SET_STORAGE(SHEETS);

int main(void) {
    klado_opened made = klado_ledger_new(SHEETS, UNDO, sheets, room, undo, UNDO);
    if (made.refused != 0) return 1;
    klado_ledger_answer did = klado_ledger_mark(made.head, sheets, room, undo, UNDO, 50, 80);
    printf("marked %u\n", did.value);
    did = klado_ledger_take_back(did.head, sheets, room, undo, UNDO);
    printf("taken back %u\n", did.value);
    did = klado_ledger_mark(did.head, sheets, room, undo, UNDO, 0, 24);
    printf("marked %u\n", did.value);
    did = klado_ledger_mark(did.head, sheets, room, undo, UNDO, 250, 300);
    printf("refused %u\n", did.refused); /* 4: there is no sheet 256, and the head that comes back is the old one */
    klado_found next = klado_set_next_zero(did.head.set, sheets, room, 0, SHEETS);
    if (next.found) printf("next to scan %llu to %llu\n", (unsigned long long)next.at, (unsigned long long)next.end - 1);
    return 0;
}
