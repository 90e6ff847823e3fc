/* Kladomyne's ledger library, for C and C++: the set of sheets, and the ledger, which is a set with an undo journal.
 *
 * Link libcapi.a for the calls klado_set_ and libcapi_ledger.a for the calls klado_ledger_, klado_list_ and
 * klado_estimate_, which `rt lib` makes in crates/capi and crates/capi_ledger, in their folders out/, on x86-64 Linux with
 * the instructions of x86-64-v2; neither needs a symbol from outside. examples/desk.c, examples/overnight.c and
 * examples/order.c are short callers. The library allocates nothing, keeps nothing between calls, and reads and writes only
 * what the caller lends for the length of a call: calls may run in several threads at once where they share no lent memory,
 * or only such as each of them takes as `const`. Every symbol and type has the prefix `klado_`.
 *
 * A set is a head, which goes in and comes back by value, and storage, which the caller owns and lends to each call.
 * It holds positions 0 up to its capacity, the capacity itself left out. A range start..end holds start and leaves
 * out end; it holds nothing where start is not below end.
 *
 * A ledger is a head, storage as a set's, and a journal, which the caller owns and lends too: J numbers of 32 bits, J at most
 * 16,384, of which the first U are in use. A marking or clearing records in the journal the runs that it changes, and take-back
 * gives just those runs their old value again, the last standing call first. A marking or clearing that changes no position leaves
 * the ledger as it is: it does not stand, and needs no journal number. The set in a ledger's head can be asked
 * through the set's calls, with the ledger's storage; a ledger's set is changed by the ledger's calls alone.
 *
 * Heads, storage and journals hold numbers and no addresses: together they may be copied, moved or stored. A saved list is the
 * positions alone, in bytes that mean the same on every machine: klado_list_write makes one, klado_ledger_open reads it.
 *
 * An estimate is what it costs to scan the sheets of a range that a set has not, by the longest edge of each:
 * klado_estimate_price.
 *
 * What the caller owes. Nothing here can be checked by the library:
 *   - `storage` points to `storage_len` numbers and is aligned to 8 bytes, and so do `first_storage`, `second_storage`, `third` and
 *     `scratch` with their lengths; `journal` points to `journal_len` numbers and is aligned to 4 bytes; `edges` points to `edges_len`
 *     numbers and is aligned to 2 bytes; `file` points to `file_len` bytes. None of them is null, also where its length is 0.
 *   - what is lent through a pointer not to `const` overlaps nothing else that is lent to the call, and nothing else reads or
 *     writes it during the call; what is lent through a pointer to `const` is not written during the call.
 *   - what is lent may hold anything, but must be readable and initialised in C's sense: zero it or make it static.
 *   - a `bool` is 0 or 1, as C and C++ make it.
 * Nothing else is owed: any head, any numbers in the storage and any arguments are allowed, and each call then returns and
 * stays in the numbers that were lent. What the calls promise below of their answer is promised where head and storage are a
 * pair that these calls left behind: the head is the one that the last call gave, and the storage has not been written since,
 * nor, for a ledger, the journal's first U numbers. On any other memory an accepted call's answer, its head and the numbers
 * that it may write may be anything, but that a ledger's W and J stay, its U is at most J, a list's length is at most the
 * buffer's, a combined set's head has the first set's W and its flag, and an estimate's numbers agree with each other and
 * count no more sheets than the range has positions; and all that is said of refusals and of the other numbers still holds.
 * (But for 6, 9 and 13, where head and storage are not sound: there is no set to count runs by, or to have sheets left. 6
 * is never answered where as many runs fit as the range's n positions can have, (n + 1) / 2, nor for a range of none; else
 * it may be. 9 is answered where the buffer is under 11 bytes; never where it has KLADO_LIST_MOST; between these it may be.
 * 13 comes with a position of the range whose edge is 0.) What klado_set_audit, klado_ledger_new and klado_ledger_open
 * promise is promised on any memory.
 *
 * Refusals. Every answer opens with `refused`: 0, or the number of the first of these rules that is broken, in this order:
 *   1  new and open alone: the capacity is not 64 * W for a W that is a power of two from 1 to 4096, or J is above 16,384.
 *   2  the head is not one: its word count is no such W, it counts more positions than the capacity, J is above 16,384, or
 *      U is above J.
 *   3  the storage is shorter than the set needs (KLADO_SET_STORAGE), or the journal is shorter than J; of a combination, the
 *      first, the second or the third storage, and the third is measured by the first set.
 *   4  an end above the capacity, or an index at or above it.
 *   5  take-back alone: no call stands, U is 0.
 *   6  marking and clearing alone: the call needs more journal numbers than are free, of J - U: 1 + 2 * (runs that it changes), or
 *      none where it changes no position.
 *   7  open alone: the file is under 11 bytes, its mark or version is wrong, or its length is not 11 + 8 * (its run count).
 *   8  open alone: a run of the file is empty, ends above the capacity, or does not start above the end of the run before it.
 *      `run` is the index of the first such run, counted from 0.
 *   9  klado_list_write alone: the buffer is shorter than the list, 11 + 8 * (the set's runs).
 *  10  combinations alone: the two sets' capacities differ.
 *  11  combinations alone: the scratch has less than W numbers.
 *  12  klado_estimate_price alone: there are fewer edges than the capacity has positions.
 *  13  klado_estimate_price alone: a position of the range that the set has not has the edge 0. `position` is the first such
 *      position.
 * Open checks 7 (at least 11 bytes, mark, version), then 1, then 7 (11 + 8 * its run count), then 3, then 8.
 * A call that is refused writes nothing. Its other numbers are 0 (but for `run` with 8 and `position` with 13), and the
 * head in its answer is the head that it was given (for new, open and combinations a head of zeros, which every call
 * refuses with 2). So a head can be replaced by the answer's in every case, but that of a combination's third storage,
 * which is no set's until the call is accepted.
 *
 * A call that is accepted writes only the first KLADO_SET_STORAGE numbers of the storage, journal numbers from the old U up
 * to the new one, the buffer's bytes up to the length that klado_list_write answers, and of a combination the first KLADO_SET_STORAGE
 * numbers of the third storage and the scratch's first W; and only through pointers that are not to `const`.
 */
#ifndef KLADOMYNE_H
#define KLADOMYNE_H

#include <stddef.h>
#include <stdint.h>
#ifndef __cplusplus
#include <stdbool.h>
#endif

/* How many 64-bit numbers the storage of a set of this capacity needs: W + 3 * B + 2, where W = capacity / 64 and
 * B = W / 64 rounded up. 4,290 for the largest set. */
#define KLADO_SET_STORAGE(capacity) \
    ((size_t)(capacity) / 64 + 3 * (((size_t)(capacity) / 64 + 63) / 64) + 2)
#define KLADO_SET_STORAGE_MOST ((size_t)4290)

/* The longest journal. */
#define KLADO_JOURNAL_MOST ((size_t)16384)

/* How many bytes are enough for the saved list of any set of this capacity: 11, and 8 for each of capacity / 2 runs. 1,048,587 for
 * the largest set. */
#define KLADO_LIST_MOST(capacity) (11 + 4 * (size_t)(capacity))

#ifdef __cplusplus
extern "C" {
#endif

/* The head of a set. To be read by anyone, and to be made and changed by the calls below alone. */
typedef struct {
    uint32_t words;     /* W: the capacity is 64 * W */
    uint32_t len;       /* how many positions the set has */
    bool     allocated; /* whether the storage is in use: clear until a position is first set */
} klado_set;

/* What the calls give that make or change a set: the refusal, the answer, and the head as it is from now on. */
typedef struct {
    uint32_t  refused;
    uint32_t  value;
    klado_set head;
} klado_set_answer;

/* What the calls give that ask for a number. */
typedef struct {
    uint32_t refused;
    uint32_t value;
} klado_answer;

/* What the searches give: `found` is 1, and the run that was found is at..end; or `found`, `at` and `end` are 0. On any memory, sound or not,
 * a run that is found has a position and lies in the range: start <= at, at < end, and `end` is at most the search's own. */
typedef struct {
    uint32_t refused;
    uint32_t found;
    uint64_t at;
    uint64_t end;
} klado_found;

/* What the call gives that asks for one position: `found` is 1 and `at` the position, or `found` and `at` are 0. */
typedef struct {
    uint32_t refused;
    uint32_t found;
    uint64_t at;
} klado_place;

/* An empty set of this capacity: its head, with `allocated` clear. It takes no storage, and the storage that is
 * lent to the calls after it may hold anything. `value` is 0. Refused: 1. */
klado_set_answer klado_set_new(size_t capacity);

/* The capacity. Refused: 2. */
klado_answer klado_set_capacity(klado_set head);

/* How many positions the set has. Refused: 2. */
klado_answer klado_set_len(klado_set head);

/* 1 where the set has `index`, else 0. Refused: 2, 3, 4. */
klado_answer klado_set_get(klado_set head, const uint64_t *storage, size_t storage_len, size_t index);

/* Puts `index` into the set (value true) or takes it out (false). Answers 1 where that changed the set, else 0.
 * Refused: 2, 3, 4. */
klado_set_answer klado_set_set(klado_set head, uint64_t *storage, size_t storage_len, size_t index, bool value);

/* Puts every position of start..end into the set (value true) or takes them out (false), and answers how many
 * positions that changed. The work is bounded by the set's blocks, 64 at the most, of 64 words each: it looks into the words of the
 * two at the ends alone, and adds up a number for each that is covered whole. Refused: 2, 3, 4. */
klado_set_answer klado_set_assign(klado_set head, uint64_t *storage, size_t storage_len, size_t start, size_t end,
                                  bool value);

/* How many positions of start..end the set has. Refused: 2, 3, 4. */
klado_answer klado_set_count(klado_set head, const uint64_t *storage, size_t storage_len, size_t start, size_t end);

/* The first run of start..end that the set has: from the first such position to the first later one that the set has not, or to `end`.
 * Refused: 2, 3, 4. */
klado_found klado_set_next_one(klado_set head, const uint64_t *storage, size_t storage_len, size_t start, size_t end);

/* The first run of start..end that the set has not: from the first such position to the first later one that the set has, or to `end`.
 * Refused: 2, 3, 4. */
klado_found klado_set_next_zero(klado_set head, const uint64_t *storage, size_t storage_len, size_t start, size_t end);

/* The set's position number `n`, counted from 0: the one that has exactly `n` positions of the set before it; found is 0 where the set has
 * `n` positions or fewer. Any `n` is allowed. It looks at a number for each block on the way that is neither all in the set nor all
 * out of it, mostly from the nearer end, and into the words of one block. Refused: 2, 3. */
klado_place klado_set_select(klado_set head, const uint64_t *storage, size_t storage_len, size_t n);

/* Takes every position out, and answers how many there were. `allocated` stays as it is. Refused: 2, 3. */
klado_set_answer klado_set_clear(klado_set head, uint64_t *storage, size_t storage_len);

/* Both, either, without: from two sets of one capacity, in a third storage, the set of the positions that both have, that either has,
 * or that the first has and the second has not. `head` is the third's, with its population, and `allocated` set also where it has no
 * position; `value` is 0. The third storage may hold anything before, and is sound afterwards; the two sets and their storages are only
 * read. They may be one set lent twice, and ledgers' sets too (`head.set`, with the ledger's storage). `scratch` is W numbers for the call's own
 * use; what they hold afterwards is not said. The work grows with the words that the two sets leave neither all clear nor all set, and that
 * neither settles alone (a clear word settles both, a set one either); blocks and words that are settled are not looked into. Refused: 2 (either head),
 * 3, 10, 11. */
klado_set_answer klado_set_both(klado_set first, const uint64_t *first_storage, size_t first_len, klado_set second,
                                const uint64_t *second_storage, size_t second_len, uint64_t *third, size_t third_len,
                                uint64_t *scratch, size_t scratch_len);
klado_set_answer klado_set_either(klado_set first, const uint64_t *first_storage, size_t first_len, klado_set second,
                                  const uint64_t *second_storage, size_t second_len, uint64_t *third, size_t third_len,
                                  uint64_t *scratch, size_t scratch_len);
klado_set_answer klado_set_without(klado_set first, const uint64_t *first_storage, size_t first_len, klado_set second,
                                   const uint64_t *second_storage, size_t second_len, uint64_t *third, size_t third_len,
                                   uint64_t *scratch, size_t scratch_len);

/* The audit: answers 1 where every number that the calls read agrees with the others (head and storage are then sound), else 0.
 * What the calls leave behind is sound. Numbers that no call reads, such as the words of an empty set, may hold anything. It cannot
 * see a change that keeps the numbers in agreement, and does not look at a ledger's journal. It answers so on any memory, and its
 * work grows with the capacity. Refused: 2, 3. */
klado_answer klado_set_audit(klado_set head, const uint64_t *storage, size_t storage_len);

/* The head of a ledger. To be read by anyone, and to be made and changed by the calls below alone. */
typedef struct {
    klado_set set;
    uint32_t  journal; /* J: the journal's length; each call that takes a journal must be lent at least so many numbers */
    uint32_t  used;    /* U: how many of them are in use */
} klado_ledger;

/* What the calls give that change a ledger: the refusal, the answer, and the head as it is from now on. */
typedef struct {
    uint32_t     refused;
    uint32_t     value;
    klado_ledger head;
} klado_ledger_answer;

/* What new and open give: the refusal, the first bad run's index with refusal 8 (else 0), and the ledger's head. */
typedef struct {
    uint32_t     refused;
    uint64_t     run;
    klado_ledger head;
} klado_opened;

/* An empty ledger of this capacity with a journal of J = `limit` numbers: its head, with `allocated` clear and U = 0. It
 * writes nothing, and what it is lent may hold anything; only the two lengths are looked at. `run` is 0. Refused: 1, 3. */
klado_opened klado_ledger_new(size_t capacity, size_t limit, const uint64_t *storage, size_t storage_len,
                              const uint32_t *journal, size_t journal_len);

/* A ledger that has the positions of a saved list, with a journal of J = `limit` numbers, and no calls: U = 0. Every run
 * of the file is checked before anything is written; what storage and journal hold before does not matter.
 * `allocated` is set where the file has at least one run. Refused: 7, 1, 3, 8.
 *
 * A saved list, all numbers big-endian: the letters MSL, the version 1 (2 bytes), W (2 bytes), how many runs (4 bytes), then the
 * runs, each a start and an end (4 bytes each), start < end <= 64 * W, each start above the end of the run before. The capacity
 * is the file's, 64 * W; KLADO_SET_STORAGE_MOST numbers are enough for any file. klado_list_write writes such files. */
klado_opened klado_ledger_open(const uint8_t *file, size_t file_len, size_t limit, uint64_t *storage,
                               size_t storage_len, const uint32_t *journal, size_t journal_len);

/* Puts every position of start..end into the set, and answers how many positions that changed. Where it is not 0 the call stands
 * until it is taken back, and uses 1 + 2 * (runs that it changes) journal numbers. Where it is 0 the call does not stand, uses no
 * journal number, and is accepted even with a full journal, J = 0 among them; it then costs what finding that out does, one search
 * or two of the range. Else the work grows with the runs; beside them it is klado_set_assign's. Refused: 2, 3, 4, 6. */
klado_ledger_answer klado_ledger_mark(klado_ledger head, uint64_t *storage, size_t storage_len, uint32_t *journal,
                                      size_t journal_len, size_t start, size_t end);

/* The same, taking the positions out. Refused: 2, 3, 4, 6. */
klado_ledger_answer klado_ledger_clear(klado_ledger head, uint64_t *storage, size_t storage_len, uint32_t *journal,
                                       size_t journal_len, size_t start, size_t end);

/* klado_ledger_mark of index..index + 1: answers 1 or 0. Refused: 2, 3, 4, 6. */
klado_ledger_answer klado_ledger_mark_point(klado_ledger head, uint64_t *storage, size_t storage_len,
                                            uint32_t *journal, size_t journal_len, size_t index);

/* klado_ledger_clear of index..index + 1: answers 1 or 0. Refused: 2, 3, 4, 6. */
klado_ledger_answer klado_ledger_clear_point(klado_ledger head, uint64_t *storage, size_t storage_len,
                                             uint32_t *journal, size_t journal_len, size_t index);

/* Takes the last standing call back: the positions that it changed, and no others, have their old value again. Answers how
 * many they are, 1 at least. The call stands no longer and its journal numbers are free; they are not written. Refused: 2, 3, 5. */
klado_ledger_answer klado_ledger_take_back(klado_ledger head, uint64_t *storage, size_t storage_len,
                                           const uint32_t *journal, size_t journal_len);

/* Takes every position out, and answers how many there were. No call stands any longer: U is 0, and nothing can be taken
 * back. `allocated` and J stay as they are; the journal's numbers are left. Refused: 2, 3. */
klado_ledger_answer klado_ledger_wipe(klado_ledger head, uint64_t *storage, size_t storage_len);

/* Writes the saved list of a set, or of a ledger's set (`head.set`, with the ledger's storage), to the front of `file`, and
 * answers its length: 11 + 8 * n bytes for the set's n runs, the longest stretches of its positions, in ascending order. The
 * bytes past them are as they were. klado_ledger_open refuses such a list for J or for short slices alone, and else gives the
 * same capacity and positions, `allocated` set where there are any; and the set of a list that it accepted is written as that
 * list again. The journal is not saved: no call that stood can be taken back from the opened ledger. The set and its storage
 * are only read. The work grows with the runs, which are gone through twice: counted first, so that nothing is written where
 * they do not fit, unless the buffer has KLADO_LIST_MOST(capacity) bytes. Refused: 2, 3, 9. */
klado_answer klado_list_write(klado_set head, const uint64_t *storage, size_t storage_len, uint8_t *file, size_t file_len);

/* What it costs to scan an order, in pence; how many sheets it has; and how many of each class, by the longest edge in millimetres:
 * up to 420, 594, 841 and 1189 (the longer edges of A3, A2, A1 and A0), and larger. A sheet of these costs 650, 1100, 1400, 1850 and
 * 4200 pence. */
typedef struct {
    uint32_t pence;
    uint32_t sheets;
    uint32_t classes[5];
} klado_estimate;

/* What the estimate gives: the refusal, the position with refusal 13 (else 0), and the order, seven zeros where it is refused. */
typedef struct {
    uint32_t       refused;
    uint64_t       position;
    klado_estimate estimate;
} klado_estimated;

/* What it costs to scan the positions of start..end that the set has not, or a ledger's set (`head.set`, with the ledger's storage).
 * `edges` has each position's longest edge in whole millimetres, 0 where it is not measured; edges past the capacity, and
 * those of positions that are not asked, may be anything. The number of sheets is the range's length less its count, and 0
 * where start is not below end; the classes' sheets are together all the sheets, and each class's number at its price
 * together the sum. The set, its storage and the edges are only read. The work grows with those positions, and with two
 * searches for each stretch of them. Refused: 2, 3, 4, 12, 13. */
klado_estimated klado_estimate_price(klado_set head, const uint64_t *storage, size_t storage_len, const uint16_t *edges,
                                     size_t edges_len, size_t start, size_t end);

#ifdef __cplusplus
}
#endif

#endif
