/* MicroPython's collector, py/gc.c of its sources: marking and sweeping over blocks of four words, with a bitmap, conservative in
 * all that it looks into. Its tables lie in the heap, too, and so count to the limit. The slots are the roots; nothing else is. */
#ifndef MANAGER_H
#define MANAGER_H

#include "pointers.h"

#include "py/gc.h"
#include "py/mpstate.h"

#define MANAGER_FREES false

mp_state_ctx_t mp_state_ctx;
static uint64_t micropython_heap[HEAP_BYTES / sizeof(uint64_t)];

/* What it calls when a block cannot be found. */
void gc_collect(void)
{
    gc_collect_start();
    gc_collect_root((void **)slot, SLOTS);
    gc_collect_end();
}

static inline void manager_start(void)
{
    gc_init(micropython_heap, micropython_heap + HEAP_BYTES / sizeof(uint64_t));
}

/* By its default it clears what it hands out. An object of no words has a block, too. */
static inline void manager_new(unsigned s, unsigned places, unsigned words)
{
    slot[s] = gc_alloc((places + words) * sizeof(uint64_t), 0);
    if (slot[s] == NULL)
        out_of_room();
}

static inline void manager_free(unsigned s) { (void)s; }

#endif
