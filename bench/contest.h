/* What the managers' adapters and the workloads share: the limit, the slots, the clock, and the way out where a heap is
 * full. */
#ifndef CONTEST_H
#define CONTEST_H

#include <inttypes.h>
#include <setjmp.h>
#include <stdbool.h>
#include <stdint.h>
#include <stdio.h>
#include <stdnoreturn.h>
#include <string.h>
#include <time.h>

/* The heap limit of every contestant. */
#ifndef HEAP_BYTES
#define HEAP_BYTES (UINT64_C(32) << 20)
#endif

enum { SLOTS = 64, LINE_LENGTH = 128 };

#define NANOSECONDS_A_SECOND UINT64_C(1000000000)
#define BYTES_A_KILOBYTE UINT64_C(1024)

static jmp_buf full;

/* Ends the workload: the manager has no room for what it was asked for. */
static noreturn inline void out_of_room(void) { longjmp(full, 1); }

static inline uint64_t nanoseconds(clockid_t clock)
{
    struct timespec now;

    clock_gettime(clock, &now);
    return (uint64_t)now.tv_sec * NANOSECONDS_A_SECOND + (uint64_t)now.tv_nsec;
}

/* A field of the kernel's status of this process, in bytes; 0 if it is not there. */
static inline uint64_t status_bytes(const char *field)
{
    char line[LINE_LENGTH];
    uint64_t kilobytes = 0;
    size_t length = strlen(field);
    FILE *status = fopen("/proc/self/status", "r");

    if (status == NULL)
        return 0;
    while (fgets(line, sizeof line, status) != NULL)
        if (strncmp(line, field, length) == 0 && line[length] == ':')
            sscanf(line + length + 1, "%" SCNu64, &kilobytes);
    fclose(status);
    return kilobytes * BYTES_A_KILOBYTE;
}

#endif
