/* libroaring's calls of roaring.c for a C driver. Where libroaring is missing (ROARING is not defined) they do nothing. */
#ifndef BESIDE_H
#define BESIDE_H

#include <stdbool.h>
#include <stddef.h>
#include <stdint.h>

#ifdef ROARING
enum { BESIDE = 1 };
void *beside_new(void);
void beside_free(void *set);
void beside_assign(void *set, uint64_t start, uint64_t end, bool value);
uint64_t beside_count(const void *set, uint64_t start, uint64_t end);
void *beside_run_optimized(const void *set);
size_t beside_saved_len(const void *set);
size_t beside_save(const void *set, void *file);
void *beside_open(const void *file, size_t len);
#else
enum { BESIDE = 0 };
#define beside_new() NULL
#define beside_free(set) ((void)(set))
#define beside_assign(set, start, end, value) ((void)(set))
#define beside_count(set, start, end) ((void)(set), (uint64_t)0)
#define beside_run_optimized(set) NULL
#define beside_saved_len(set) ((void)(set), (size_t)0)
#define beside_save(set, file) ((void)(set), (size_t)0)
#define beside_open(file, len) NULL
#endif

#endif
