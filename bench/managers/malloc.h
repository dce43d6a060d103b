/* malloc and free: the workload says when an object is done with. The limit is the kernel's, on what the process may
 * have of data beyond what it has at the start. */
#ifndef MANAGER_H
#define MANAGER_H

#include "pointers.h"

#include <stdlib.h>
#include <sys/resource.h>

#define MANAGER_FREES true

static inline void manager_start(void)
{
    uint64_t limit = status_bytes("VmData") + HEAP_BYTES;
    struct rlimit data = { .rlim_cur = limit, .rlim_max = limit };

    if (setrlimit(RLIMIT_DATA, &data) != 0)
        out_of_room();
}

static inline void manager_new(unsigned s, unsigned places, unsigned words)
{
    slot[s] = calloc(places + words, sizeof(uint64_t));
    if (slot[s] == NULL)
        out_of_room();
}

static inline void manager_free(unsigned s) { free(slot[s]); }

#endif
