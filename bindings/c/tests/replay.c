/* Scripts replayed on the library: each answer is the one that play gave, and the row is sound, wherever the words lie. */
#include "lent.h"
#include "random.h"
#include "row.h"
#include "tests.h"
#include <inttypes.h>
#include <stdio.h>
#include <stdlib.h>
#include <string.h>

enum { MESSAGE = 200, LONGEST_PATH = 4096, SMALL = 1000 };

enum { LARGEST = SIZE_LIMIT - 1 };

static uint64_t answers_by_code[CODES];
static uint64_t wild_calls;

/* A script that is played: on which words, and the sum of its row after each call, or 0 where none was taken. */
typedef struct game {
    const script *script;
    lent lent;
    heap on;
    uint64_t *sums;
} game;

_Noreturn static void fail_call(const game *g, size_t i, const char *what) {
    char message[MESSAGE];
    const call *asked = &g->script->calls[i];
    snprintf(message, sizeof message, "call %zu, %s %" PRIu64 " %" PRIu64 " %" PRIu64 " (%s): %s", i + 1, asked->form->name,
             asked->numbers[0], asked->numbers[1], asked->numbers[2], placing_name(g->lent.placing), what);
    fail(g->script->path, message);
}

static void compare(const game *g, size_t i, pagzimul_told expected, pagzimul_told got) {
    if (got.code == expected.code && got.val == expected.val) return;
    char message[MESSAGE];
    snprintf(message, sizeof message, "expected %d %" PRIu64 ", got %d %" PRIu64, expected.code, expected.val, got.code, got.val);
    fail_call(g, i, message);
}

/* The call with some numbers far above 65,535. Slots, places and words are answered as 65,535 is, which is none of them; a size,
 * behind the slots, is no size. Nothing changes. */
static void play_wild(const game *g, size_t i, random_state *random) {
    const call *asked = &g->script->calls[i];
    call wild = *asked, largest = *asked;
    bool sized = false, changed = false;
    for (size_t k = 0; k < strlen(asked->form->kinds); k++) {
        char kind = asked->form->kinds[k];
        if (kind == 'x' || random_below(random, 2) == 0) continue;
        wild.numbers[k] = random_out_of_range(random, asked->numbers[k]);
        largest.numbers[k] = LARGEST;
        sized = sized || kind == 'n';
        changed = true;
    }
    if (!changed) return;
    uint64_t before = row_sum(g->on.words, g->on.count);
    pagzimul_told expected = {PAGZIMUL_NO_PLACE, 0};
    if (sized && largest.numbers[0] >= g->on.slots) expected.code = PAGZIMUL_NO_SLOT;
    if (!sized) expected = call_play(&largest, g->on);
    compare(g, i, expected, call_play(&wild, g->on));
    if (row_sum(g->on.words, g->on.count) != before) fail_call(g, i, "a call with numbers out of range changed the row");
    wild_calls += 1;
}

/* The row after a call: sound, and after a collection all that is used is reached. Each placing leaves the same words. */
static void look_inside(game *g, size_t i, bool first) {
    const heap *on = &g->on;
    if (!row_is_sound(on->words, on->count, on->slots)) fail_call(g, i, "the row is not sound");
    bool collected = call_is(&g->script->calls[i], "Collect");
    if (collected && row_used(on->words, on->slots) != row_reached(on->words, on->count, on->slots))
        fail_call(g, i, "what is not reached was kept");
    uint64_t sum = row_sum(on->words, on->count);
    if (!first && g->sums[i] != sum) fail_call(g, i, "the row differs from that on other words");
    g->sums[i] = sum;
}

static void play_call(game *g, size_t i, random_state *random, bool first) {
    const script *s = g->script;
    bool looks = s->words < SMALL || i + 1 == s->count || call_is(&s->calls[i], "Collect");
    playing(s->path, i + 1);
    if (looks) play_wild(g, i, random);
    pagzimul_told got = call_play(&s->calls[i], g->on);
    compare(g, i, s->answers[i], got);
    if (!lent_is_guarded(&g->lent)) fail_call(g, i, "it wrote outside of the words");
    if (looks) look_inside(g, i, first);
    answers_by_code[got.code] += 1;
}

/* Too few words: all say no, and nothing is written. */
static void play_without_words(const game *g) {
    const heap *on = &g->on;
    uint64_t before = row_sum(on->words, on->count);
    bool says = pagzimul_start(on->words, on->count, on->slots) || pagzimul_is_sound(on->words, on->count, on->slots);
    if (says || row_sum(on->words, on->count) != before) fail(g->script->path, "too few words were started or written");
}

static void play_on(game *g, placing how, random_state *random, bool first) {
    const script *s = g->script;
    g->lent = lent_take(how, s->words);
    g->on = (heap){g->lent.words, s->words, s->slots};
    lent_fill(&g->lent);
    playing(s->path, 0);
    if (pagzimul_fits(g->on.words, g->on.count, g->on.slots)) {
        if (!pagzimul_start(g->on.words, g->on.count, g->on.slots)) fail(s->path, "start refused enough words");
        for (size_t i = 0; i < s->count; i++) play_call(g, i, random, first);
        if (!pagzimul_is_sound(g->on.words, g->on.count, g->on.slots)) fail(s->path, "is said to be unsound");
    } else {
        play_without_words(g);
    }
    if (!lent_is_guarded(&g->lent)) fail(s->path, "it wrote outside of the words");
    lent_drop(&g->lent);
}

/* Writes the sums for Rust to compare: a call's number, counted from 1, and the sum of the row after it. */
static void write_sums(const game *g, const char *folder) {
    const char *slash = strrchr(g->script->path, '/'), *name = slash == NULL ? g->script->path : slash + 1;
    char path[LONGEST_PATH];
    snprintf(path, sizeof path, "%s/%.*s.sums", folder, (int)(strlen(name) - strlen(".script")), name);
    FILE *file = fopen(path, "w");
    if (file == NULL) fail(path, "cannot be written");
    for (size_t i = 0; i < g->script->count; i++) {
        if (g->sums[i] != 0) fprintf(file, "%zu %" PRIu64 "\n", i + 1, g->sums[i]);
    }
    if (fclose(file) != 0) fail(path, "cannot be written");
}

void test_scripts(plan plan) {
    uint64_t calls = 0;
    for (size_t i = 0; i < plan.count; i++) {
        script s = script_read(plan.paths[i]);
        game g = {.script = &s, .sums = test_memory(s.count, sizeof(uint64_t))};
        random_state random = random_of_script(plan.seed, i);
        for (size_t how = 0; how < PLACINGS; how++) play_on(&g, (placing)how, &random, how == 0);
        write_sums(&g, plan.folder);
        calls += s.count;
        free(g.sums);
        script_drop(&s);
    }
    playing(NULL, 0);
    printf("scripts: %zu, %" PRIu64 " calls, each on %d placings of the words, answers by code", plan.count, calls, PLACINGS);
    for (size_t code = 0; code < CODES; code++) {
        printf(" %" PRIu64, answers_by_code[code]);
        require(answers_by_code[code] > 0, "some code was never answered");
    }
    printf("; %" PRIu64 " calls with numbers out of range\n", wild_calls);
}
