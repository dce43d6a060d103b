/* The C interface of the twin: the manager's algorithm once more, in plain C, under names of its own.
 *
 * Types, codes and what is asked of the caller are those of the manager's own header. The row of words has the same
 * layout, so that one may be compared with the other word by word.
 */
#ifndef TWIN_H
#define TWIN_H

#include "../bindings/c/pagzimul.h"

bool twin_fits(const uint64_t *words, size_t count, uint64_t slots);
bool twin_start(uint64_t *words, size_t count, uint64_t slots);
bool twin_is_sound(uint64_t *words, size_t count, uint64_t slots);

pagzimul_told twin_new(uint64_t *words, size_t count, uint64_t slots, uint64_t s, uint64_t places, uint64_t nwords);
pagzimul_told twin_get(uint64_t *words, size_t count, uint64_t slots, uint64_t t, uint64_t s, uint64_t i);
pagzimul_told twin_set(uint64_t *words, size_t count, uint64_t slots, uint64_t s, uint64_t i, uint64_t t);
pagzimul_told twin_read(uint64_t *words, size_t count, uint64_t slots, uint64_t s, uint64_t i);
pagzimul_told twin_write(uint64_t *words, size_t count, uint64_t slots, uint64_t s, uint64_t i, uint64_t x);
pagzimul_told twin_copy(uint64_t *words, size_t count, uint64_t slots, uint64_t t, uint64_t s);
pagzimul_told twin_clear(uint64_t *words, size_t count, uint64_t slots, uint64_t t);
pagzimul_told twin_same(uint64_t *words, size_t count, uint64_t slots, uint64_t s, uint64_t t);
pagzimul_told twin_sizes(uint64_t *words, size_t count, uint64_t slots, uint64_t s);
pagzimul_told twin_collect(uint64_t *words, size_t count, uint64_t slots);

#endif
