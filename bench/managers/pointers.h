/* What Boehm's collector and malloc share: slots are pointers, and an object is its places and then its words, with
 * nothing before them. The including file says how an object is made and freed. */
#ifndef POINTERS_H
#define POINTERS_H

#include "../contest.h"

#include <string.h>

static uint64_t *slot[SLOTS];

static inline void manager_get(unsigned t, unsigned s, unsigned i) { slot[t] = (uint64_t *)slot[s][i]; }

static inline void manager_set(unsigned s, unsigned i, unsigned t) { slot[s][i] = (uint64_t)slot[t]; }

static inline uint64_t manager_read(unsigned s, unsigned places, unsigned i) { return slot[s][places + i]; }

static inline void manager_write(unsigned s, unsigned places, unsigned i, uint64_t x) { slot[s][places + i] = x; }

static inline void manager_copy(unsigned t, unsigned s) { slot[t] = slot[s]; }

static inline void manager_clear(unsigned t) { slot[t] = NULL; }

static inline bool manager_is_none(unsigned s) { return slot[s] == NULL; }

#endif
