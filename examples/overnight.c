/* Overnight, in C: the evening saves which sheets are scanned, and the next morning opens a ledger from the file. Its path is the
 * first argument, or overnight.msl. The journal is not saved: what was marked before the night cannot be taken back after it.
 * README.md has how to build it. */
#include "kladomyne.h"

#include <stdio.h>
#include <string.h>

enum { SHEETS = 256, UNDO = 40 };

static uint64_t sheets[KLADO_SET_STORAGE(SHEETS)]; /* static memory is zeroed */
static uint32_t undo[UNDO];
static uint8_t list[KLADO_LIST_MOST(SHEETS)];
static const size_t room = KLADO_SET_STORAGE(SHEETS);

static int refused(const char *call, uint32_t number) {
    fprintf(stderr, "%s: refused %u\n", call, number);
    return 1;
}

static int failed(const char *path) {
    perror(path);
    return 1;
}

static int evening(const char *path) {
    klado_opened made = klado_ledger_new(SHEETS, UNDO, sheets, room, undo, UNDO);
    if (made.refused != 0) return refused("new", made.refused);
    klado_ledger_answer did = klado_ledger_mark(made.head, sheets, room, undo, UNDO, 0, 24);
    if (did.refused != 0) return refused("mark", did.refused);
    printf("marked %u\n", did.value);
    did = klado_ledger_mark(did.head, sheets, room, undo, UNDO, 100, 130);
    if (did.refused != 0) return refused("mark", did.refused);
    printf("marked %u\n", did.value);
    klado_answer saved = klado_list_write(did.head.set, sheets, room, list, sizeof list);
    if (saved.refused != 0) return refused("write", saved.refused);
    FILE *file = fopen(path, "wb");
    if (file == NULL) return failed(path);
    size_t written = fwrite(list, 1, saved.value, file);
    if (fclose(file) != 0 || written != saved.value) return failed(path);
    printf("saved %u bytes\n", saved.value);
    return 0;
}

static int morning(const char *path) {
    FILE *file = fopen(path, "rb");
    if (file == NULL) return failed(path);
    size_t len = fread(list, 1, sizeof list, file);
    fclose(file);
    klado_opened made = klado_ledger_open(list, len, UNDO, sheets, room, undo, UNDO);
    if (made.refused != 0) return refused("open", made.refused); /* 7 where the file was not read to its end */
    printf("scanned %u\n", made.head.set.len);
    klado_found next = klado_set_next_zero(made.head.set, sheets, room, 0, SHEETS);
    if (next.refused != 0) return refused("next_zero", next.refused);
    if (next.found) printf("next to scan %llu\n", (unsigned long long)next.at);
    return 0;
}

int main(int count, char **words) {
    const char *path = count > 1 ? words[1] : "overnight.msl";
    if (evening(path) != 0) return 1;
    memset(sheets, 0xa5, sizeof sheets); /* only the file lasts the night; open looks at no number of the storage */
    memset(list, 0, sizeof list);
    return morning(path);
}
