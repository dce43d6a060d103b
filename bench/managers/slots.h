/* The manager, and its twin with -DTWIN: the workloads' operations as its calls. Both are called in the same way. With -DINLINE
 * the manager's calls that only read and write are those of its inline header. */
#ifndef MANAGER_H
#define MANAGER_H

#include "../twin.h"
#include "../contest.h"

#ifdef TWIN
#define CALL(name) twin_##name
#else
#define CALL(name) pagzimul_##name
#endif

#ifdef INLINE
#include "../../bindings/c/pagzimul_inline.h"
#define ACCESS(name) pagzimul_inline_##name
#else
#define ACCESS(name) CALL(name)
#endif

#define MANAGER_FREES false

enum { HEAP_WORDS = HEAP_BYTES / sizeof(uint64_t) };

static uint64_t heap[HEAP_WORDS];

static inline void manager_start(void)
{
    if (!CALL(start)(heap, HEAP_WORDS, SLOTS))
        out_of_room();
}

static inline void manager_new(unsigned s, unsigned places, unsigned words)
{
    if (CALL(new)(heap, HEAP_WORDS, SLOTS, s, places, words).code != PAGZIMUL_DONE)
        out_of_room();
}

static inline void manager_get(unsigned t, unsigned s, unsigned i) { ACCESS(get)(heap, HEAP_WORDS, SLOTS, t, s, i); }

static inline void manager_set(unsigned s, unsigned i, unsigned t) { ACCESS(set)(heap, HEAP_WORDS, SLOTS, s, i, t); }

static inline uint64_t manager_read(unsigned s, unsigned places, unsigned i)
{
    (void)places;
    return ACCESS(read)(heap, HEAP_WORDS, SLOTS, s, i).val;
}

static inline void manager_write(unsigned s, unsigned places, unsigned i, uint64_t x)
{
    (void)places;
    ACCESS(write)(heap, HEAP_WORDS, SLOTS, s, i, x);
}

static inline void manager_copy(unsigned t, unsigned s) { ACCESS(copy)(heap, HEAP_WORDS, SLOTS, t, s); }

static inline void manager_clear(unsigned t) { ACCESS(clear)(heap, HEAP_WORDS, SLOTS, t); }

static inline bool manager_is_none(unsigned s) { return ACCESS(sizes)(heap, HEAP_WORDS, SLOTS, s).code == PAGZIMUL_NOTHING; }

static inline void manager_free(unsigned s) { (void)s; }

#endif
