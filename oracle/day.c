/* A C caller of include/kladomyne.h: one set of 8,192 sheets, from new to clear, with each answer checked. It prints the
 * first answer that is not the expected one and ends with status 1, or prints one line and ends with 0. */
#include "kladomyne.h"

#include <stdio.h>
#include <stdlib.h>

static void expect(const char *what, uint64_t got, uint64_t want) {
    if (got == want) return;
    printf("day: %s gave %llu, not %llu\n", what, (unsigned long long)got, (unsigned long long)want);
    exit(1);
}

int main(void) {
    static uint64_t sheets[KLADO_SET_STORAGE(8192)];
    const size_t room = sizeof sheets / sizeof *sheets;
    expect("new 96, refused", klado_set_new(96).refused, 1);
    expect("new 524288, refused", klado_set_new(524288).refused, 1);
    klado_set_answer made = klado_set_new(8192);
    expect("new 8192, refused", made.refused, 0);
    expect("capacity", klado_set_capacity(made.head).value, 8192);
    klado_set_answer marked = klado_set_assign(made.head, sheets, room, 4032, 4160, true);
    expect("assign 4032..4160", marked.value, 128);
    expect("count 4095..4097", klado_set_count(marked.head, sheets, room, 4095, 4097).value, 2);
    klado_found run = klado_set_next_one(marked.head, sheets, room, 0, 8192);
    expect("next_one 0..8192", run.at, 4032);
    expect("next_one 0..8192, end", run.end, 4160);
    expect("next_one 4100..4130, end", klado_set_next_one(marked.head, sheets, room, 4100, 4130).end, 4130);
    run = klado_set_next_zero(marked.head, sheets, room, 4032, 8192);
    expect("next_zero 4032..8192", run.at, 4160);
    expect("next_zero 4032..8192, end", run.end, 8192);
    expect("next_zero 4032..4160, found", klado_set_next_zero(marked.head, sheets, room, 4032, 4160).found, 0);
    klado_set_answer one = klado_set_set(marked.head, sheets, room, 4100, false);
    expect("set 4100 to false", one.value, 1);
    expect("get 4100", klado_set_get(one.head, sheets, room, 4100).value, 0);
    /* 4032..4100 has 68 sheets, 64 of them before the border at 4096, and 4101..4160 has 59 */
    expect("select 0", klado_set_select(one.head, sheets, room, 0).at, 4032);
    expect("select 64", klado_set_select(one.head, sheets, room, 64).at, 4096);
    expect("select 67", klado_set_select(one.head, sheets, room, 67).at, 4099);
    expect("select 68", klado_set_select(one.head, sheets, room, 68).at, 4101);
    expect("select 126", klado_set_select(one.head, sheets, room, 126).at, 4159);
    expect("select 127, found", klado_set_select(one.head, sheets, room, 127).found, 0);
    expect("select SIZE_MAX, refused", klado_set_select(one.head, sheets, room, SIZE_MAX).refused, 0);
    expect("select in a short slice, refused", klado_set_select(one.head, sheets, room - 1, 0).refused, 3);
    expect("get 8192, refused", klado_set_get(one.head, sheets, room, 8192).refused, 4);
    expect("assign 0..8193, refused", klado_set_assign(one.head, sheets, room, 0, 8193, true).refused, 4);
    expect("a short slice, refused", klado_set_clear(one.head, sheets, room - 1).refused, 3);
    expect("len", klado_set_len(one.head).value, 127);
    /* scanned are 4032..4100 and 4101..4160; placed are 4090..4120 and 8000..8010: both have 10 and 19, either 127 + 40 - 29 */
    static uint64_t placed[KLADO_SET_STORAGE(8192)], made_of[KLADO_SET_STORAGE(8192)], scratch[8192 / 64];
    klado_set_answer two = klado_set_assign(klado_set_new(8192).head, placed, room, 4090, 4120, true);
    two = klado_set_assign(two.head, placed, room, 8000, 8010, true);
    klado_set_answer third =
        klado_set_both(one.head, sheets, room, two.head, placed, room, made_of, room, scratch, sizeof scratch / 8);
    expect("both", third.head.len, 29);
    expect("both, 4100", klado_set_get(third.head, made_of, room, 4100).value, 0);
    third = klado_set_either(one.head, sheets, room, two.head, placed, room, made_of, room, scratch, sizeof scratch / 8);
    expect("either", third.head.len, 138);
    expect("either, last", klado_set_select(third.head, made_of, room, 137).at, 8009);
    third = klado_set_without(one.head, sheets, room, two.head, placed, room, made_of, room, scratch, sizeof scratch / 8);
    expect("without", third.head.len, 98);
    run = klado_set_next_one(third.head, made_of, room, 4090, 8192);
    expect("without, next after 4089", run.at, 4120);
    expect("without, next after 4089, end", run.end, 4160);
    expect("without, audit", klado_set_audit(third.head, made_of, room).value, 1);
    third = klado_set_without(one.head, sheets, room, one.head, sheets, room, made_of, room, scratch, sizeof scratch / 8);
    expect("without itself", third.head.len, 0);
    expect("without itself, allocated", third.head.allocated, 1);
    klado_set other = klado_set_new(4096).head;
    expect("other capacity, refused",
           klado_set_both(one.head, sheets, room, other, placed, room, made_of, room, scratch, 0).refused, 10);
    expect("short scratch, refused",
           klado_set_both(one.head, sheets, room, two.head, placed, room, made_of, room, scratch, 127).refused, 11);
    expect("clear", klado_set_clear(one.head, sheets, room).value, 127);
    puts("day: every answer as expected");
    return 0;
}
