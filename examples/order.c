/* An order, in C: what it costs to scan the sheets that a saved list has not. The list's path is the first argument, or overnight.msl, as
 * examples/overnight.c saves it. One sheet of the drawer has no edge in the catalogue at first: it is named, measured, and the order
 * is priced again. README.md has how to build it. */
#include "kladomyne.h"

#include <stdio.h>

enum { SHEETS = 256 };

static uint64_t sheets[KLADO_SET_STORAGE(SHEETS)]; /* static memory is zeroed */
static uint32_t undo[1];                           /* no undo: J is 0, and the journal is never looked at */
static uint8_t list[KLADO_LIST_MOST(SHEETS)];
static uint16_t edges[SHEETS]; /* each sheet's longest edge in millimetres */
static const size_t room = KLADO_SET_STORAGE(SHEETS);

static const char *const classes[5] = {"up to A3", "up to A2", "up to A1", "up to A0", "larger"};

/* The catalogue: a quarter of the drawer in each size, and a poster at the end. */
static void measure(void) {
    static const uint16_t sizes[4] = {420, 594, 841, 1189};
    for (size_t sheet = 0; sheet < SHEETS; sheet++) edges[sheet] = sizes[sheet / (SHEETS / 4)];
    edges[SHEETS - 1] = 1600;
    edges[200] = 0;
}

static int refused(const char *call, uint32_t number) {
    fprintf(stderr, "%s: refused %u\n", call, number);
    return 1;
}

static int print_order(klado_set set) {
    klado_estimated priced = klado_estimate_price(set, sheets, room, edges, SHEETS, 0, SHEETS);
    if (priced.refused == 13) {
        printf("sheet %llu is not measured\n", (unsigned long long)priced.position);
        edges[priced.position] = 1189;
        priced = klado_estimate_price(set, sheets, room, edges, SHEETS, 0, SHEETS);
    }
    if (priced.refused != 0) return refused("price", priced.refused);
    for (size_t class = 0; class < 5; class++) printf("%u %s\n", priced.estimate.classes[class], classes[class]);
    printf("%u sheets, %u.%02u pounds\n", priced.estimate.sheets, priced.estimate.pence / 100, priced.estimate.pence % 100);
    return 0;
}

int main(int count, char **words) {
    const char *path = count > 1 ? words[1] : "overnight.msl";
    FILE *file = fopen(path, "rb");
    if (file == NULL) {
        perror(path);
        return 1;
    }
    size_t len = fread(list, 1, sizeof list, file);
    fclose(file);
    klado_opened made = klado_ledger_open(list, len, 0, sheets, room, undo, 0);
    if (made.refused != 0) return refused("open", made.refused); /* 3 where the list is of a larger drawer */
    measure();
    return print_order(made.head.set);
}
