/* libroaring's calls for the benchmark, one function for each call of the set. It has no search for a clear position, and
 * its range calls do not say how many positions they changed. */
#include <roaring/roaring.h>

void *beside_new(void) { return roaring_bitmap_create(); }

void beside_free(void *set) { roaring_bitmap_free(set); }

void beside_assign(void *set, uint64_t start, uint64_t end, bool value) {
    if (start >= end) return;
    if (value) roaring_bitmap_add_range(set, start, end);
    else roaring_bitmap_remove_range(set, start, end);
}

bool beside_set(void *set, uint32_t index, bool value) {
    return value ? roaring_bitmap_add_checked(set, index) : roaring_bitmap_remove_checked(set, index);
}

bool beside_get(const void *set, uint32_t index) { return roaring_bitmap_contains(set, index); }

uint64_t beside_count(const void *set, uint64_t start, uint64_t end) {
    return start < end ? roaring_bitmap_range_cardinality(set, start, end) : 0;
}

/* The first position at or after start, or UINT64_MAX. */
uint64_t beside_next_one(const void *set, uint32_t start) {
    roaring_uint32_iterator_t at;
    roaring_init_iterator(set, &at);
    return roaring_move_uint32_iterator_equalorlarger(&at, start) ? at.current_value : UINT64_MAX;
}

/* The position that has n set ones before it and is set itself, or UINT64_MAX. */
uint64_t beside_select(const void *set, uint32_t n) {
    uint32_t at;
    return roaring_bitmap_select(set, n, &at) ? at : UINT64_MAX;
}

/* Both, either, or the first without the second, by rule, in a new bitmap: how many positions it has. */
uint64_t beside_combine(const void *first, const void *second, uint32_t rule) {
    roaring_bitmap_t *made = rule == 0   ? roaring_bitmap_and(first, second)
                             : rule == 1 ? roaring_bitmap_or(first, second)
                                         : roaring_bitmap_andnot(first, second);
    uint64_t population = roaring_bitmap_get_cardinality(made);
    roaring_bitmap_free(made);
    return population;
}

/* Its portable serialisation, for bench/list: a copy of the set with runs where they are shorter, the length, the bytes, and
 * the set of such bytes, or null. */
void *beside_run_optimized(const void *set) {
    roaring_bitmap_t *copy = roaring_bitmap_copy(set);
    if (copy) roaring_bitmap_run_optimize(copy);
    return copy;
}

size_t beside_saved_len(const void *set) { return roaring_bitmap_portable_size_in_bytes(set); }

size_t beside_save(const void *set, void *file) { return roaring_bitmap_portable_serialize(set, file); }

void *beside_open(const void *file, size_t len) { return roaring_bitmap_portable_deserialize_safe(file, len); }
