/* Which rows of words are sound, decided on its own from the definition; the objects of a sound row, and which are reached. */
#ifndef ROW_H
#define ROW_H

#include <stdbool.h>
#include <stddef.h>
#include <stdint.h>

/* The manager's own words: the header of none, where the free words begin, the header of the root. */
enum { OWN_WORDS = 64, NONE_AT = 0, FREE_AT = 2, ROOT_AT = 62 };

/* A header: places, words, mark, kind, from these bits on. A reference word: the address from this bit on. */
enum { WORDS_SHIFT = 16, MARK_SHIFT = 32, KIND_SHIFT = 49, ADDRESS_SHIFT = 8 };

/* What an object weighs besides its places and words. */
enum { OBJECT_WORDS = 2 };

/* An object: where it begins, and how many places and words it has. */
typedef struct cell {
    size_t start, places, words;
} cell;

/* The objects of a row, one behind the other. */
typedef struct cells {
    cell *cell;
    size_t count;
} cells;

bool row_is_sound(const uint64_t *row, size_t count, uint64_t slots);

/* The objects of a sound row; the caller frees them. */
cells row_cells(const uint64_t *row, size_t count, uint64_t slots);

/* How many words the objects of a sound row take, and how many of these the slots come to. */
size_t row_used(const uint64_t *row, uint64_t slots);
size_t row_reached(const uint64_t *row, size_t count, uint64_t slots);

/* All words of a row as one number, to compare rows by. */
uint64_t row_sum(const uint64_t *row, size_t count);

#endif
