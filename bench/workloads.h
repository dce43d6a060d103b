/* The workloads, written once against the operations of an adapter. Each answers a number that is the same for every
 * contestant. `rounds` says how often its main part is done, out of 100 in a whole run. */
#ifndef WORKLOADS_H
#define WORKLOADS_H

#include "random.h"

#define ROUNDS_WHOLE 100

/* The longest call, and the clocks when they were last looked at. */
static uint64_t longest_call, seen_wall, seen_cpu;

#define LOOK_EVERY_NANOSECONDS UINT64_C(100000)

/* A call that began then has ended. What the process did not run since the clocks were last looked at is taken off, so
 * that other work on the machine is no pause; the processor's clock is too slow to be asked at every call. */
static inline void note_call(uint64_t begin)
{
    uint64_t wall = nanoseconds(CLOCK_MONOTONIC), took = wall - begin;

    if (took <= longest_call && wall - seen_wall < LOOK_EVERY_NANOSECONDS)
        return;
    uint64_t cpu = nanoseconds(CLOCK_PROCESS_CPUTIME_ID);
    uint64_t passed = wall - seen_wall, ran = cpu - seen_cpu;
    uint64_t elsewhere = passed > ran ? passed - ran : 0;
    if (seen_wall != 0 && took > elsewhere && took - elsewhere > longest_call)
        longest_call = took - elsewhere;
    seen_wall = wall;
    seen_cpu = cpu;
}

/* A new object. In the pass for pauses each call is timed, in the others none is. */
static inline void make(unsigned s, unsigned places, unsigned words)
{
#ifdef PAUSES
    uint64_t begin = nanoseconds(CLOCK_MONOTONIC);
    manager_new(s, places, words);
    note_call(begin);
#else
    manager_new(s, places, words);
#endif
}

/* An object that nothing leads to is done with; only a manager without a collector is told. */
static inline void drop(unsigned s)
{
#ifdef PAUSES
    uint64_t begin = nanoseconds(CLOCK_MONOTONIC);
    manager_free(s);
    note_call(begin);
#else
    manager_free(s);
#endif
}

/* Binary trees, as in the well-known benchmark: a tree that is held, and many short-lived ones of several depths. */
enum { TREE_DEPTH = 16, TREE_LEAST = 4, TREE_STEP = 4, TREE_CHILDREN = 2 };
enum { TREE_HELD, TREE_NEXT };

static void tree_build(unsigned s, unsigned depth)
{
    make(s, TREE_CHILDREN, 0);
    for (unsigned i = 0; depth > 0 && i < TREE_CHILDREN; i++) {
        tree_build(s + 1, depth - 1);
        manager_set(s, i, s + 1);
    }
}

static uint64_t tree_count(unsigned s)
{
    uint64_t nodes = 1;

    for (unsigned i = 0; i < TREE_CHILDREN; i++) {
        manager_get(s + 1, s, i);
        if (!manager_is_none(s + 1))
            nodes += tree_count(s + 1);
    }
    return nodes;
}

static void tree_free(unsigned s)
{
    for (unsigned i = 0; i < TREE_CHILDREN; i++) {
        manager_get(s + 1, s, i);
        if (!manager_is_none(s + 1))
            tree_free(s + 1);
    }
    drop(s);
}

/* Builds, counts and drops a tree; no slot leads to any of it afterwards. */
static uint64_t tree_once(unsigned s, unsigned depth)
{
    tree_build(s, depth);
    uint64_t nodes = tree_count(s);
    if (MANAGER_FREES)
        tree_free(s);
    for (unsigned below = 0; below <= depth + 1; below++)
        manager_clear(s + below);
    return nodes;
}

static uint64_t trees(unsigned rounds)
{
    uint64_t nodes = tree_once(TREE_NEXT, TREE_DEPTH + 1);

    tree_build(TREE_HELD, TREE_DEPTH);
    for (unsigned depth = TREE_LEAST; depth <= TREE_DEPTH; depth += TREE_STEP) {
        uint64_t count = (UINT64_C(1) << (TREE_DEPTH - depth + TREE_LEAST)) * rounds / ROUNDS_WHOLE;
        for (uint64_t i = 0; i < count; i++)
            nodes += tree_once(TREE_NEXT, depth);
    }
    return nodes + tree_count(TREE_HELD);
}

/* A long linked list: a new one is made of it, cell by cell and the other way round, again and again. */
enum { LIST_LENGTH = 100000, LIST_COPIES = 60, LIST_NEXT = 0, LIST_PLACES = 1, LIST_WORDS = 1 };
enum { LIST_OLD, LIST_NEW, LIST_CELL };

static void list_prepend(uint64_t x)
{
    make(LIST_CELL, LIST_PLACES, LIST_WORDS);
    manager_write(LIST_CELL, LIST_PLACES, 0, x);
    manager_set(LIST_CELL, LIST_NEXT, LIST_NEW);
    manager_copy(LIST_NEW, LIST_CELL);
}

/* Takes the first cell of the old list away, and answers its word. */
static uint64_t list_take(void)
{
    uint64_t x = manager_read(LIST_OLD, LIST_PLACES, 0);

    manager_copy(LIST_CELL, LIST_OLD);
    manager_get(LIST_OLD, LIST_OLD, LIST_NEXT);
    drop(LIST_CELL);
    return x;
}

static uint64_t list(unsigned rounds)
{
    uint64_t sum = 0;

    for (uint64_t i = 0; i < LIST_LENGTH; i++)
        list_prepend(i);
    for (unsigned copy = 0; copy < LIST_COPIES * rounds / ROUNDS_WHOLE; copy++) {
        manager_copy(LIST_OLD, LIST_NEW);
        manager_clear(LIST_NEW);
        while (!manager_is_none(LIST_OLD))
            list_prepend(list_take() + 1);
    }
    manager_copy(LIST_OLD, LIST_NEW);
    while (!manager_is_none(LIST_OLD))
        sum += list_take();
    return sum;
}

/* A queue under churn: an element of some size comes, the eldest goes. */
enum { QUEUE_LENGTH = 50000, QUEUE_STEPS = 4000000, QUEUE_NEXT = 0, QUEUE_PLACES = 1, QUEUE_WORDS = 8 };
enum { QUEUE_HEAD, QUEUE_TAIL, QUEUE_CELL };

static void queue_put(uint64_t *state)
{
    uint64_t x = random_next(state);

    make(QUEUE_CELL, QUEUE_PLACES, 1 + (unsigned)(x % QUEUE_WORDS));
    manager_write(QUEUE_CELL, QUEUE_PLACES, 0, x);
    if (manager_is_none(QUEUE_TAIL))
        manager_copy(QUEUE_HEAD, QUEUE_CELL);
    else
        manager_set(QUEUE_TAIL, QUEUE_NEXT, QUEUE_CELL);
    manager_copy(QUEUE_TAIL, QUEUE_CELL);
}

static uint64_t queue_take(void)
{
    uint64_t x = manager_read(QUEUE_HEAD, QUEUE_PLACES, 0);

    manager_copy(QUEUE_CELL, QUEUE_HEAD);
    manager_get(QUEUE_HEAD, QUEUE_HEAD, QUEUE_NEXT);
    drop(QUEUE_CELL);
    return x;
}

static uint64_t queue(unsigned rounds)
{
    uint64_t state = RANDOM_SEED, sum = 0;

    for (unsigned i = 0; i < QUEUE_LENGTH; i++)
        queue_put(&state);
    for (unsigned i = 0; i < QUEUE_STEPS / ROUNDS_WHOLE * rounds; i++) {
        queue_put(&state);
        sum += queue_take();
    }
    return sum;
}

/* One large object, whose places hold small objects that are replaced at random. */
enum { ARRAY_PLACES = 60000, ARRAY_STEPS = 4000000, ELEMENT_WORDS = 2 };
enum { ARRAY, ELEMENT };

static uint64_t array(unsigned rounds)
{
    uint64_t state = RANDOM_SEED, sum = 0;

    make(ARRAY, ARRAY_PLACES, 0);
    for (unsigned i = 0; i < ARRAY_STEPS / ROUNDS_WHOLE * rounds; i++) {
        unsigned place = (unsigned)random_below(&state, ARRAY_PLACES);
        manager_get(ELEMENT, ARRAY, place);
        if (!manager_is_none(ELEMENT)) {
            sum += manager_read(ELEMENT, 0, 0);
            drop(ELEMENT);
        }
        make(ELEMENT, 0, ELEMENT_WORDS);
        manager_write(ELEMENT, 0, 0, i);
        manager_set(ARRAY, place, ELEMENT);
    }
    return sum;
}

/* Clusters of objects that lead to each other at random, replaced as a whole: garbage with cycles and sharing. */
enum { GRAPH_CLUSTERS = 5000, GRAPH_STEPS = 250000, GRAPH_NODES = 16, GRAPH_EDGES = 3, GRAPH_WORDS = 1, GRAPH_RING = 0 };
enum { GRAPH, GRAPH_OLD, GRAPH_NODE };

static void graph_build(uint64_t *state)
{
    for (unsigned node = 0; node < GRAPH_NODES; node++) {
        make(GRAPH_NODE + node, GRAPH_EDGES, GRAPH_WORDS);
        manager_write(GRAPH_NODE + node, GRAPH_EDGES, 0, node);
    }
    for (unsigned node = 0; node < GRAPH_NODES; node++) {
        manager_set(GRAPH_NODE + node, GRAPH_RING, GRAPH_NODE + (node + 1) % GRAPH_NODES);
        for (unsigned edge = GRAPH_RING + 1; edge < GRAPH_EDGES; edge++)
            manager_set(GRAPH_NODE + node, edge, GRAPH_NODE + (unsigned)random_below(state, GRAPH_NODES));
    }
}

/* A walk through a cluster, as long as it has nodes. */
static uint64_t graph_walk(uint64_t *state)
{
    uint64_t sum = 0;

    for (unsigned step = 0; step < GRAPH_NODES; step++) {
        sum += manager_read(GRAPH_OLD, GRAPH_EDGES, 0);
        manager_get(GRAPH_OLD, GRAPH_OLD, (unsigned)random_below(state, GRAPH_EDGES));
    }
    manager_clear(GRAPH_OLD);
    return sum;
}

static uint64_t graph(unsigned rounds)
{
    uint64_t state = RANDOM_SEED, sum = 0;

    make(GRAPH, GRAPH_CLUSTERS, 0);
    for (unsigned i = 0; i < GRAPH_STEPS / ROUNDS_WHOLE * rounds; i++) {
        unsigned cluster = (unsigned)random_below(&state, GRAPH_CLUSTERS);
        manager_get(GRAPH_OLD, GRAPH, cluster);
        if (!manager_is_none(GRAPH_OLD))
            sum += graph_walk(&state);
        graph_build(&state);
        manager_set(GRAPH, cluster, GRAPH_NODE);
    }
    return sum;
}

/* A heap that is nearly full: so many per cent of the limit are held, by what this manager needs for the objects and for
 * the places that lead to them, and one object is replaced at a time. Each leads back to the table that holds it. */
enum { NEAR_PER_CENT = 95, NEAR_PLACES = 3, NEAR_WORDS = 13, NEAR_WEIGHT = 2 + NEAR_PLACES + NEAR_WORDS + 1 };
enum { NEAR_TABLE_PLACES = 1000, NEAR_STEPS = 250000, NEAR_BACK = 0, PER_CENT = 100 };
enum { NEAR_TABLES = HEAP_BYTES / sizeof(uint64_t) * NEAR_PER_CENT / PER_CENT / NEAR_WEIGHT / NEAR_TABLE_PLACES };
enum { NEAR_ALL, NEAR_TABLE, NEAR_OBJECT };

static void near_put(unsigned place, uint64_t x)
{
    make(NEAR_OBJECT, NEAR_PLACES, NEAR_WORDS);
    manager_write(NEAR_OBJECT, NEAR_PLACES, 0, x);
    manager_set(NEAR_OBJECT, NEAR_BACK, NEAR_TABLE);
    manager_set(NEAR_TABLE, place, NEAR_OBJECT);
    manager_clear(NEAR_OBJECT);
}

static void near_fill(void)
{
    make(NEAR_ALL, NEAR_TABLES, 0);
    for (unsigned table = 0; table != NEAR_TABLES; table++) {
        make(NEAR_TABLE, NEAR_TABLE_PLACES, 0);
        manager_set(NEAR_ALL, table, NEAR_TABLE);
        for (unsigned place = 0; place < NEAR_TABLE_PLACES; place++)
            near_put(place, place);
    }
}

static uint64_t nearly_full(unsigned rounds)
{
    uint64_t state = RANDOM_SEED, sum = 0;

    near_fill();
    for (unsigned i = 0; i < NEAR_STEPS / ROUNDS_WHOLE * rounds; i++) {
        unsigned place = (unsigned)random_below(&state, NEAR_TABLE_PLACES);
        manager_get(NEAR_TABLE, NEAR_ALL, (unsigned)random_below(&state, NEAR_TABLES));
        manager_get(NEAR_OBJECT, NEAR_TABLE, place);
        sum += manager_read(NEAR_OBJECT, NEAR_PLACES, 0);
        drop(NEAR_OBJECT);
        manager_clear(NEAR_OBJECT);
        near_put(place, i);
    }
    return sum;
}

/* A small heap, of which so many per cent are held, by what this manager needs: a table whose entries are replaced at random,
 * each an object that leads back to the table and to a text of its own. */
enum { SMALL_STEPS = 500000, SMALL_PLACES = 2, SMALL_WORDS = 1, SMALL_BACK = 0, SMALL_LINE = 1, LINE_WORDS = 6 };
/* An entry and its place in the table, and a text of the mean size, rounded up. */
enum { SMALL_WEIGHT = 2 + SMALL_PLACES + SMALL_WORDS + 1 + 2 + (1 + LINE_WORDS + 1) / 2 };
enum { SMALL_TABLE, SMALL_ENTRY, SMALL_TEXT };

static uint64_t small_take(unsigned place)
{
    manager_get(SMALL_ENTRY, SMALL_TABLE, place);
    if (manager_is_none(SMALL_ENTRY))
        return 0;
    uint64_t x = manager_read(SMALL_ENTRY, SMALL_PLACES, 0);
    manager_get(SMALL_TEXT, SMALL_ENTRY, SMALL_LINE);
    x += manager_read(SMALL_TEXT, 0, 0);
    drop(SMALL_TEXT);
    drop(SMALL_ENTRY);
    return x;
}

static void small_put(unsigned place, uint64_t x)
{
    make(SMALL_ENTRY, SMALL_PLACES, SMALL_WORDS);
    manager_write(SMALL_ENTRY, SMALL_PLACES, 0, x);
    manager_set(SMALL_ENTRY, SMALL_BACK, SMALL_TABLE);
    make(SMALL_TEXT, 0, 1 + (unsigned)(x % LINE_WORDS));
    manager_write(SMALL_TEXT, 0, 0, x);
    manager_set(SMALL_ENTRY, SMALL_LINE, SMALL_TEXT);
    manager_set(SMALL_TABLE, place, SMALL_ENTRY);
}

static uint64_t small(unsigned per_cent, unsigned rounds)
{
    unsigned entries = (unsigned)(HEAP_BYTES / sizeof(uint64_t) * per_cent / PER_CENT / SMALL_WEIGHT);
    uint64_t state = RANDOM_SEED, sum = 0;

    make(SMALL_TABLE, entries, 0);
    for (unsigned i = 0; i < SMALL_STEPS / ROUNDS_WHOLE * rounds; i++) {
        unsigned place = (unsigned)random_below(&state, entries);
        sum += small_take(place);
        small_put(place, random_next(&state));
    }
    return sum;
}

static uint64_t small_quarter(unsigned rounds) { return small(PER_CENT / 4, rounds); }

static uint64_t small_half(unsigned rounds) { return small(PER_CENT / 2, rounds); }

/* Objects of one size, each leading to the one before, until the heap is full. */
enum { FILL_PLACES = 1, FILL_SMALL_WORDS = 2, FILL_LARGE_WORDS = 31 };
enum { FILL_LAST, FILL_OBJECT };

static uint64_t payload;

static void fill(unsigned words)
{
    for (;;) {
        make(FILL_OBJECT, FILL_PLACES, words);
        manager_set(FILL_OBJECT, 0, FILL_LAST);
        manager_copy(FILL_LAST, FILL_OBJECT);
        payload += (FILL_PLACES + words) * sizeof(uint64_t);
    }
}

static uint64_t fill_small(unsigned rounds)
{
    (void)rounds;
    fill(FILL_SMALL_WORDS);
    return payload;
}

static uint64_t fill_large(unsigned rounds)
{
    (void)rounds;
    fill(FILL_LARGE_WORDS);
    return payload;
}

#endif
