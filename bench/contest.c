/* One contestant, one workload, one process: runs it and prints what was measured, one `name value` a line.
 *
 *   contest WORKLOAD ROUNDS      ROUNDS out of 100
 *
 * The contestant is chosen at compile time by -DMANAGER='"managers/NAME.h"'; -DPAUSES times each allocation. Exit
 * status 2 for words that are not understood. */
#include MANAGER

#include "workloads.h"

#include <stdlib.h>

typedef struct workload {
    const char *name;
    uint64_t (*run)(unsigned rounds);
} workload;

/* Garbage with cycles has no moment at which each object can be freed, short of a collector. */
static const workload workloads[] = {
    { "trees", trees },
    { "list", list },
    { "queue", queue },
    { "array", array },
    { "graph", MANAGER_FREES ? NULL : graph },
    { "nearly-full", nearly_full },
    { "small-quarter", small_quarter },
    { "small-half", small_half },
    { "fill-small", fill_small },
    { "fill-large", fill_large },
};

static const workload *find(const char *name)
{
    for (size_t i = 0; i < sizeof workloads / sizeof *workloads; i++)
        if (strcmp(workloads[i].name, name) == 0)
            return &workloads[i];
    return NULL;
}

/* Seconds are processor time, so that other work on the machine counts little. */
static void measure(const workload *chosen, unsigned rounds)
{
    volatile uint64_t resident = status_bytes("VmRSS");
    uint64_t begin = nanoseconds(CLOCK_PROCESS_CPUTIME_ID);

    if (setjmp(full) == 0) {
        manager_start();
        uint64_t sum = chosen->run(rounds);
        uint64_t took = nanoseconds(CLOCK_PROCESS_CPUTIME_ID) - begin;
        printf("sum %" PRIu64 "\nnanoseconds %" PRIu64 "\n", sum, took);
    } else {
        printf("full 1\n");
    }
    printf("peak %" PRIu64 "\n", status_bytes("VmHWM") - resident);
    printf("pause %" PRIu64 "\n", longest_call);
    printf("payload %" PRIu64 "\nlimit %" PRIu64 "\n", payload, (uint64_t)HEAP_BYTES);
}

int main(int argc, char **argv)
{
    const workload *chosen = argc == 3 ? find(argv[1]) : NULL;

    if (chosen == NULL) {
        fprintf(stderr, "use: contest WORKLOAD ROUNDS\n");
        return 2;
    }
    if (chosen->run == NULL)
        printf("unfit 1\n");
    else
        measure(chosen, (unsigned)strtoul(argv[2], NULL, 10));
    return 0;
}
