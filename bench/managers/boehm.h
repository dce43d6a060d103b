/* Boehm's collector: one marking thread, not incremental, the heap bounded by the limit. Only pointers to the beginning
 * of an object are kept, and it is told so; objects without places are made as such, which it need not look into. */
#ifndef MANAGER_H
#define MANAGER_H

#include "pointers.h"

/* Without it the number of marking threads cannot be set. */
#define GC_THREADS
#include <gc/gc.h>

#define MANAGER_FREES false

/* How often it collects before it says that the heap is full; by default it says so without. */
enum { RETRIES = 1 };

/* It does not begin with less. */
#define BOEHM_LEAST_BYTES (UINT64_C(64) << 10)

static inline void manager_start(void)
{
    if (HEAP_BYTES < BOEHM_LEAST_BYTES)
        out_of_room();
    GC_set_markers_count(1);
    GC_set_all_interior_pointers(0);
    GC_set_max_heap_size(HEAP_BYTES);
    GC_set_max_retries(RETRIES);
    GC_set_warn_proc(GC_ignore_warn_proc);
    GC_INIT();
}

static inline void manager_new(unsigned s, unsigned places, unsigned words)
{
    size_t bytes = (places + words) * sizeof(uint64_t);
    uint64_t *object = places != 0 ? GC_MALLOC(bytes) : GC_MALLOC_ATOMIC(bytes);

    if (object == NULL)
        out_of_room();
    if (places == 0)
        memset(object, 0, bytes);
    slot[s] = object;
}

static inline void manager_free(unsigned s) { (void)s; }

#endif
