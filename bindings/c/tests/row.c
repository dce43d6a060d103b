/* Which rows of words are sound, decided on its own from the definition; the objects of a sound row, and which are reached. */
#include "row.h"
#include "tests.h"
#include <stdlib.h>

/* The header of none: no places, words up to the root, marked. */
#define NONE_HEADER ((UINT64_C(60) << WORDS_SHIFT) | (UINT64_C(1) << MARK_SHIFT))
#define SIZE_MASK UINT64_C(0xFFFF)
#define TAG_MASK UINT64_C(0xFF)
#define SUM_FACTOR UINT64_C(0x100000001B3)

static cell cell_at(const uint64_t *row, size_t at) {
    cell c = {at, (size_t)(row[at] & SIZE_MASK), (size_t)((row[at] >> WORDS_SHIFT) & SIZE_MASK)};
    return c;
}

static size_t cell_weight(const cell *c) {
    return OBJECT_WORDS + c->places + c->words;
}

/* Does the row have its two sentinels, and do its objects end where the free words begin? */
static bool is_tiled(const uint64_t *row, size_t count, uint64_t slots) {
    if (slots >= SIZE_LIMIT || count < OWN_WORDS + slots) return false;
    if (row[NONE_AT] != NONE_HEADER || row[ROOT_AT] != slots || row[FREE_AT] > count) return false;
    size_t at = OWN_WORDS + (size_t)slots;
    while (at < row[FREE_AT]) {
        cell c = cell_at(row, at);
        at += cell_weight(&c);
    }
    return at == row[FREE_AT];
}

cells row_cells(const uint64_t *row, size_t count, uint64_t slots) {
    cells all = {test_memory(count, sizeof(cell)), 0};
    for (size_t at = OWN_WORDS + (size_t)slots; at < row[FREE_AT]; all.count++) {
        all.cell[all.count] = cell_at(row, at);
        at += cell_weight(&all.cell[all.count]);
    }
    return all;
}

/* For each address whether an object begins there. */
static bool *begins_of(const cells *all, size_t count) {
    bool *begins = test_memory(count, sizeof *begins);
    for (size_t i = 0; i < all->count; i++) begins[all->cell[i].start] = true;
    return begins;
}

static bool are_references(const uint64_t *from, size_t many, const bool *begins, size_t count) {
    for (size_t i = 0; i < many; i++) {
        uint64_t address = from[i] >> ADDRESS_SHIFT;
        if ((from[i] & TAG_MASK) != 0 || address >= count) return false;
        if (address != 0 && !begins[address]) return false;
    }
    return true;
}

bool row_is_sound(const uint64_t *row, size_t count, uint64_t slots) {
    if (!is_tiled(row, count, slots)) return false;
    cells all = row_cells(row, count, slots);
    bool *begins = begins_of(&all, count);
    bool sound = are_references(row + OWN_WORDS, (size_t)slots, begins, count);
    for (size_t i = 0; sound && i < all.count; i++) {
        const cell *c = &all.cell[i];
        sound = row[c->start] >> MARK_SHIFT == 0 && are_references(row + c->start + OBJECT_WORDS, c->places, begins, count);
    }
    free(begins);
    free(all.cell);
    return sound;
}

size_t row_used(const uint64_t *row, uint64_t slots) {
    return (size_t)row[FREE_AT] - OWN_WORDS - (size_t)slots;
}

/* Notes the objects that so many references lead to; true if one of them is new. */
static bool note(const uint64_t *from, size_t many, bool *reached) {
    bool grown = false;
    for (size_t i = 0; i < many; i++) {
        size_t address = (size_t)(from[i] >> ADDRESS_SHIFT);
        grown = grown || (address != 0 && !reached[address]);
        reached[address] = true;
    }
    return grown;
}

size_t row_reached(const uint64_t *row, size_t count, uint64_t slots) {
    cells all = row_cells(row, count, slots);
    bool *reached = test_memory(count, sizeof *reached);
    bool *done = test_memory(count, sizeof *done);
    bool grown = note(row + OWN_WORDS, (size_t)slots, reached);
    size_t words = 0;
    for (size_t pass = 0; grown; pass++) {  /* by turns from below and from above, since chains go both ways */
        grown = false;
        for (size_t i = 0; i < all.count; i++) {
            const cell *c = &all.cell[pass % 2 == 0 ? all.count - 1 - i : i];
            if (!reached[c->start] || done[c->start]) continue;
            done[c->start] = true;
            words += cell_weight(c);
            grown = note(row + c->start + OBJECT_WORDS, c->places, reached) || grown;
        }
    }
    free(done);
    free(reached);
    free(all.cell);
    return words;
}

uint64_t row_sum(const uint64_t *row, size_t count) {
    uint64_t sum = count;
    for (size_t i = 0; i < count; i++) sum = (sum ^ row[i]) * SUM_FACTOR;
    return sum;
}
