/* One heap, collected again and again, beside memcpy of the same words: nanoseconds of the fastest, one `name value` a line.
 *
 *   collecting SHAPE WORDS       SHAPE is half or all, of what is reached
 *
 * The heap has no word left: objects of 8 to 100 words, half of them places, all of which lead to objects that are reached.
 * Before each collection the words are put back as they were. Exit status 2 for words that are not understood. */
#define HEAP_BYTES UINT64_C(0)
#include "contest.h"
#include "random.h"
#include "twin.h"

#include <stdlib.h>

#ifdef TWIN
#define CALL(name) twin_##name
#else
#define CALL(name) pagzimul_##name
#endif

enum { OWN_WORDS = 64, HEADS = 2, LEAST = 8, MOST = 100, RECENT = 32, LAST = RECENT, OBJECT, COLLECTED_SLOTS };
enum { MOST_RUNS = 2000, FEWEST_RUNS = 5, COPIED_AT_ONCE = 1000000 };
#define BUDGET_NANOSECONDS UINT64_C(300000000)

static uint64_t *row;
static size_t count;

static void stop(const char *why)
{
    fprintf(stderr, "collecting: %s\n", why);
    exit(1);
}

/* The next object: its first place leads to the last that is reached, all others to some that were made shortly before. */
static void make_object(uint64_t *state, unsigned weight)
{
    unsigned places = (weight - HEADS) / 2, words = weight - HEADS - places;

    if (CALL(new)(row, count, COLLECTED_SLOTS, OBJECT, places, words).code != PAGZIMUL_DONE)
        stop("the heap is too small");
    CALL(set)(row, count, COLLECTED_SLOTS, OBJECT, 0, LAST);
    for (unsigned i = 1; i < places; i++)
        CALL(set)(row, count, COLLECTED_SLOTS, OBJECT, i, random_below(state, RECENT));
}

/* Objects until no word is left. The last takes what remains, so that the heap is full to the last word; the first is dropped
 * unless all are reached, so that the others move. */
static void fill(bool all)
{
    uint64_t state = RANDOM_SEED;
    size_t room = count - OWN_WORDS - COLLECTED_SLOTS;

    for (unsigned made = 0; room > 0; made++) {
        unsigned weight = LEAST + (unsigned)random_below(&state, MOST - LEAST + 1);
        if (weight + LEAST > room)
            weight = (unsigned)room;
        make_object(&state, weight);
        room -= weight;
        if (all || (made > 0 && random_below(&state, 2) == 0)) {
            CALL(copy)(row, count, COLLECTED_SLOTS, LAST, OBJECT);
            CALL(copy)(row, count, COLLECTED_SLOTS, random_below(&state, RECENT), OBJECT);
        }
    }
    CALL(clear)(row, count, COLLECTED_SLOTS, OBJECT);
}

static uint64_t *words_taken(void)
{
    uint64_t *words = malloc(count * sizeof(uint64_t));

    if (words == NULL)
        stop("there is no memory");
    memset(words, 0, count * sizeof(uint64_t));
    return words;
}

static inline void lesser(uint64_t *least, uint64_t found)
{
    if (found < *least)
        *least = found;
}

/* The fastest collection, in nanoseconds. */
static uint64_t collections(const uint64_t *kept)
{
    uint64_t least = UINT64_MAX, spent = 0;

    for (unsigned run = 0; run < FEWEST_RUNS || (run < MOST_RUNS && spent < BUDGET_NANOSECONDS); run++) {
        memcpy(row, kept, count * sizeof(uint64_t));
        uint64_t begin = nanoseconds(CLOCK_MONOTONIC);
        CALL(collect)(row, count, COLLECTED_SLOTS);
        uint64_t took = nanoseconds(CLOCK_MONOTONIC) - begin;
        lesser(&least, took);
        spent += took;
    }
    return least;
}

/* The fastest copy, in picoseconds, since a small one is over before the clock has gone on. */
static uint64_t copies(const uint64_t *kept)
{
    unsigned at_once = COPIED_AT_ONCE > count ? (unsigned)(COPIED_AT_ONCE / count) : 1;
    uint64_t least = UINT64_MAX, spent = 0;

    for (unsigned run = 0; run < FEWEST_RUNS || (run < MOST_RUNS && spent < BUDGET_NANOSECONDS); run++) {
        uint64_t begin = nanoseconds(CLOCK_MONOTONIC);
        for (unsigned i = 0; i < at_once; i++) {
            memcpy(row, kept, count * sizeof(uint64_t));
            __asm__ volatile("" : : "r"(row) : "memory");
        }
        uint64_t took = nanoseconds(CLOCK_MONOTONIC) - begin;
        lesser(&least, took * 1000 / at_once);
        spent += took;
    }
    return least;
}

int main(int argc, char **argv)
{
    bool all = argc == 3 && strcmp(argv[1], "all") == 0;

    if (argc != 3 || (!all && strcmp(argv[1], "half") != 0)) {
        fprintf(stderr, "use: collecting SHAPE WORDS\n");
        return 2;
    }
    count = strtoull(argv[2], NULL, 10);
    row = words_taken();
    if (!CALL(start)(row, count, COLLECTED_SLOTS))
        stop("the heap is too small");
    fill(all);
    uint64_t *kept = words_taken();
    memcpy(kept, row, count * sizeof(uint64_t));
    printf("collect %" PRIu64 "\n", collections(kept));
    printf("copy %" PRIu64 "\n", copies(kept));
    return 0;
}
