/* Plays calls made at random on the manager and on the twin, and compares every answer and, after every call, the row of words
 * up to where the free words begin: what is held, where it lies, and what leads to it. Second words and what lies behind the
 * free words are not compared, since nobody relies on them, and the manager may write fewer of them than the twin. Exit
 * status 1 at the first difference. */
#include "twin.h"
#include "random.h"

#include <inttypes.h>
#include <stdio.h>
#include <stdlib.h>
#include <string.h>

enum { GAMES = 3000, CALLS_A_GAME = 400, OWN = 64, SLOTS_LIMIT = 12, ROOM_LIMIT = 700, WORDS_LIMIT = OWN + SLOTS_LIMIT + ROOM_LIMIT };
enum { CHECK_EVERY = 16, ODD_ONE_IN = 24, SMALL_SIZE = 6, LARGE_SIZE = 60, WORD_BITS = 64 };
enum { KIND_NEW, KIND_GET, KIND_SET, KIND_READ, KIND_WRITE, KIND_COPY, KIND_CLEAR, KIND_SAME, KIND_SIZES, KIND_COLLECT, KINDS };
enum { FREE = 2, SECOND = 1, HEADS = 2, SIZE_MASK = 0xffff, WORDS_SHIFT = 16 };
enum { CODES = PAGZIMUL_NO_PLACE + 1 };

static const char *const names[KINDS] = { "new", "get", "set", "read", "write", "copy", "clear", "same", "sizes", "collect" };
static uint64_t ours[WORDS_LIMIT], theirs[WORDS_LIMIT];
static uint64_t met[KINDS][CODES];

typedef struct game {
    size_t count;
    uint64_t slots;
} game;

typedef struct ask {
    int kind;
    uint64_t a, b, c;
} ask;

/* A number below a limit or a little above it, and now and then any number. */
static uint64_t number(uint64_t *state, uint64_t limit)
{
    if (random_below(state, ODD_ONE_IN) == 0)
        return random_next(state) >> random_below(state, WORD_BITS);
    return random_below(state, limit + 1);
}

static pagzimul_told ask_ours(const game *g, const ask *q)
{
    switch (q->kind) {
    case KIND_NEW: return pagzimul_new(ours, g->count, g->slots, q->a, q->b, q->c);
    case KIND_GET: return pagzimul_get(ours, g->count, g->slots, q->a, q->b, q->c);
    case KIND_SET: return pagzimul_set(ours, g->count, g->slots, q->a, q->b, q->c);
    case KIND_READ: return pagzimul_read(ours, g->count, g->slots, q->a, q->b);
    case KIND_WRITE: return pagzimul_write(ours, g->count, g->slots, q->a, q->b, q->c);
    case KIND_COPY: return pagzimul_copy(ours, g->count, g->slots, q->a, q->b);
    case KIND_CLEAR: return pagzimul_clear(ours, g->count, g->slots, q->a);
    case KIND_SAME: return pagzimul_same(ours, g->count, g->slots, q->a, q->b);
    case KIND_SIZES: return pagzimul_sizes(ours, g->count, g->slots, q->a);
    default: return pagzimul_collect(ours, g->count, g->slots);
    }
}

static pagzimul_told ask_theirs(const game *g, const ask *q)
{
    switch (q->kind) {
    case KIND_NEW: return twin_new(theirs, g->count, g->slots, q->a, q->b, q->c);
    case KIND_GET: return twin_get(theirs, g->count, g->slots, q->a, q->b, q->c);
    case KIND_SET: return twin_set(theirs, g->count, g->slots, q->a, q->b, q->c);
    case KIND_READ: return twin_read(theirs, g->count, g->slots, q->a, q->b);
    case KIND_WRITE: return twin_write(theirs, g->count, g->slots, q->a, q->b, q->c);
    case KIND_COPY: return twin_copy(theirs, g->count, g->slots, q->a, q->b);
    case KIND_CLEAR: return twin_clear(theirs, g->count, g->slots, q->a);
    case KIND_SAME: return twin_same(theirs, g->count, g->slots, q->a, q->b);
    case KIND_SIZES: return twin_sizes(theirs, g->count, g->slots, q->a);
    default: return twin_collect(theirs, g->count, g->slots);
    }
}

static ask next_ask(const game *g, uint64_t *state)
{
    ask q = { .kind = (int)random_below(state, KINDS) };
    uint64_t size = random_below(state, ODD_ONE_IN) == 0 ? LARGE_SIZE : SMALL_SIZE;

    q.a = number(state, g->slots);
    q.b = q.kind == KIND_NEW || q.kind == KIND_SET || q.kind == KIND_READ || q.kind == KIND_WRITE
        ? number(state, size) : number(state, g->slots);
    q.c = q.kind == KIND_NEW || q.kind == KIND_GET ? number(state, size)
        : q.kind == KIND_SET ? number(state, g->slots) : random_next(state);
    return q;
}

static void fail_at(const game *g, const char *after, const ask *q, size_t i)
{
    fprintf(stderr, "twin_test: after %s %" PRIu64 " %" PRIu64 " %" PRIu64 " word %zu of %zu differs: %" PRIx64 ", twin %" PRIx64 "\n",
        after, q->a, q->b, q->c, i, g->count, ours[i], theirs[i]);
    exit(1);
}

static void check_words(const game *g, const char *after, const ask *q, size_t from, size_t end)
{
    for (size_t i = from; i < end; i++)
        if (ours[i] != theirs[i])
            fail_at(g, after, q, i);
}

/* The manager's own words and the slots, and object for object its header, places and words. */
static void check_rows(const game *g, const char *after, const ask *q)
{
    size_t at = OWN + g->slots;

    check_words(g, after, q, 0, at);
    while (at < ours[FREE]) {
        check_words(g, after, q, at, at + SECOND);
        size_t weight = HEADS + (ours[at] & SIZE_MASK) + (ours[at] >> WORDS_SHIFT & SIZE_MASK);
        check_words(g, after, q, at + HEADS, at + weight);
        at += weight;
    }
}

static void check_told(const ask *q, pagzimul_told us, pagzimul_told them)
{
    if (us.code == them.code && us.val == them.val) {
        met[q->kind][us.code]++;
        return;
    }
    fprintf(stderr, "twin_test: %s %" PRIu64 " %" PRIu64 " %" PRIu64 " answers %u %" PRIu64 ", twin %u %" PRIu64 "\n",
        names[q->kind], q->a, q->b, q->c, us.code, us.val, them.code, them.val);
    exit(1);
}

/* Do both find the manager's row sound, or not, and leave it as it was? One word is changed before, now and then, and put back. */
static void check_sound(const game *g, uint64_t *state)
{
    static uint64_t kept[WORDS_LIMIT], seen[WORDS_LIMIT];
    size_t i = random_below(state, g->count), bytes = sizeof kept;

    memcpy(kept, ours, bytes);
    if (random_below(state, 2) == 0)
        ours[i] = random_next(state) >> random_below(state, WORD_BITS);
    memcpy(seen, ours, bytes);
    bool sound = twin_is_sound(seen, g->count, g->slots);
    if (pagzimul_is_sound(ours, g->count, g->slots) != sound || memcmp(ours, seen, bytes) != 0) {
        fprintf(stderr, "twin_test: is_sound differs, or a word was changed\n");
        exit(1);
    }
    memcpy(ours, kept, bytes);
}

static void play(uint64_t *state)
{
    game g = { .slots = random_below(state, SLOTS_LIMIT + 1) };
    ask q = { .kind = KIND_COLLECT };

    g.count = OWN - 1 + g.slots + random_below(state, ROOM_LIMIT);
    for (size_t i = 0; i < WORDS_LIMIT; i++)
        ours[i] = theirs[i] = random_next(state);
    if (pagzimul_fits(ours, g.count, g.slots) != twin_fits(theirs, g.count, g.slots)) {
        fprintf(stderr, "twin_test: fits differs\n");
        exit(1);
    }
    bool started = pagzimul_start(ours, g.count, g.slots);
    if (started != twin_start(theirs, g.count, g.slots)) {
        fprintf(stderr, "twin_test: start differs\n");
        exit(1);
    }
    check_words(&g, "start", &q, 0, WORDS_LIMIT);
    for (int i = 0; started && i < CALLS_A_GAME; i++) {
        q = next_ask(&g, state);
        pagzimul_told us = ask_ours(&g, &q);
        check_told(&q, us, ask_theirs(&g, &q));
        check_rows(&g, names[q.kind], &q);
        if (i % CHECK_EVERY == 0)
            check_sound(&g, state);
    }
}

int main(void)
{
    uint64_t state = RANDOM_SEED, calls = 0;

    for (int i = 0; i < GAMES; i++)
        play(&state);
    for (int kind = 0; kind < KINDS; kind++)
        for (int code = 0; code < CODES; code++)
            calls += met[kind][code];
    for (int kind = 0; kind < KINDS; kind++)
        if (met[kind][PAGZIMUL_DONE] == 0) {
            fprintf(stderr, "twin_test: no %s was done\n", names[kind]);
            return 1;
        }
    if (met[KIND_NEW][PAGZIMUL_FULL] == 0) {
        fprintf(stderr, "twin_test: nothing was full\n");
        return 1;
    }
    printf("twin_test: %" PRIu64 " calls, all answers the same, and all that is held\n", calls);
    return 0;
}
