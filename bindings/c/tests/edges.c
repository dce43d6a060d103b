/* What lies at the edges: NULL, fewest words and very many, slots out of range. */
#define _DEFAULT_SOURCE
#include "lent.h"
#include "row.h"
#include "tests.h"
#include <stdio.h>
#include <sys/mman.h>

enum { MOST_SIZE = 65535, SOME_ROOM = 50 };

#define LENGTH(row) (sizeof(row) / sizeof((row)[0]))

/* Slots that cannot be; with some of the last, 64 + slots is no number of 64 bits. */
static const uint64_t no_slots[] = {65536,           65537,           65536 + 5,  UINT64_C(1) << 32, UINT64_C(1) << 63,
                                    UINT64_MAX - 64, UINT64_MAX - 63, UINT64_MAX - 1, UINT64_MAX};

static void test_null(void) {
    static const uint64_t slots[] = {0, 1, 65535, 65536, UINT64_MAX - 63, UINT64_MAX};
    for (size_t i = 0; i < LENGTH(slots); i++) {
        require(!pagzimul_fits(NULL, 0, slots[i]), "no words fit");
        require(!pagzimul_start(NULL, 0, slots[i]), "no words start");
        require(!pagzimul_is_sound(NULL, 0, slots[i]), "no words are sound");
    }
}

static void fill_with_ones(lent *l) {
    for (size_t i = 0; i < l->count; i++) l->words[i] = UINT64_MAX;
}

static bool is_all_ones(const lent *l) {
    for (size_t i = 0; i < l->count; i++) {
        if (l->words[i] != UINT64_MAX) return false;
    }
    return true;
}

/* The three functions on so many words of all ones: do they say no, and write nothing? */
static void require_refused(placing how, size_t count, uint64_t slots) {
    lent l = lent_take(how, count);
    fill_with_ones(&l);
    require(!pagzimul_fits(l.words, count, slots), "fits says yes to too few words or too many slots");
    require(!pagzimul_start(l.words, count, slots), "start says yes to too few words or too many slots");
    require(!pagzimul_is_sound(l.words, count, slots), "is_sound says yes to too few words or too many slots");
    require(is_all_ones(&l) && lent_is_guarded(&l), "what was refused was written");
    lent_drop(&l);
}

/* A started heap of just so much room; start must leave that room as it was. */
static void require_started(placing how, uint64_t slots, size_t room) {
    size_t base = OWN_WORDS + (size_t)slots;
    lent l = lent_take(how, base + room);
    fill_with_ones(&l);
    require(pagzimul_fits(l.words, l.count, slots), "fits says no to enough words");
    require(pagzimul_start(l.words, l.count, slots), "start says no to enough words");
    require(pagzimul_is_sound(l.words, l.count, slots), "what start made is not sound");
    for (size_t i = base; i < l.count; i++) require(l.words[i] == UINT64_MAX, "start wrote to the words for objects");
    require(lent_is_guarded(&l), "start wrote outside of the words");
    require(!pagzimul_is_sound(l.words, l.count, slots + SIZE_LIMIT), "slots out of range are sound");
    require(!pagzimul_is_sound(l.words, l.count, slots + 1), "one slot more is sound");
    require(!pagzimul_is_sound(l.words, base - 1, slots), "a word less than there must be is sound");
    lent_drop(&l);
}

static void test_fits(void) {
    static const uint64_t slots[] = {0, 1, 6, 255, 256, MOST_SIZE};
    for (size_t how = 0; how < PLACINGS; how++) {
        for (size_t i = 0; i < LENGTH(slots); i++) {
            require_refused((placing)how, OWN_WORDS + (size_t)slots[i] - 1, slots[i]);
            require_started((placing)how, slots[i], 0);
            require_started((placing)how, slots[i], SOME_ROOM);
        }
        for (size_t i = 0; i < LENGTH(no_slots); i++) {
            require_refused((placing)how, OWN_WORDS, no_slots[i]);
            require_refused((placing)how, OWN_WORDS + 2 * SIZE_LIMIT, no_slots[i]);
        }
    }
}

/* More words than 32 bits number. They are only said to be there: no more than a few pages are touched. */
static void test_many_words(void) {
    enum { SLOTS = 3 };
    const size_t many = 5000000000U;
    size_t bytes = many * sizeof(uint64_t);
    void *block = mmap(NULL, bytes, PROT_READ | PROT_WRITE, MAP_PRIVATE | MAP_ANONYMOUS | MAP_NORESERVE, -1, 0);
    if (block == MAP_FAILED) {
        puts("many words: skipped, so many cannot be mapped here");
        return;
    }
    uint64_t *words = block;
    require(pagzimul_start(words, many, SLOTS), "start says no to 5,000,000,000 words");
    require(pagzimul_is_sound(words, many, SLOTS), "5,000,000,000 words are said to be unsound");
    require(pagzimul_new(words, many, SLOTS, 0, 1, 1).code == PAGZIMUL_DONE, "no object on so many words");
    require(pagzimul_collect(words, many, SLOTS).code == PAGZIMUL_DONE, "no collection on so many words");
    require(pagzimul_is_sound(words, many, SLOTS), "an object on 5,000,000,000 words is said to be unsound");
    munmap(block, bytes);
}

void test_edges(void) {
    test_null();
    test_fits();
    test_many_words();
}
