/* Scripts replayed through the inline calls and through the library, side by side: each answer is the same, and each word of the row. */
#include "../pagzimul_inline.h"
#include "lent.h"
#include "random.h"
#include "tests.h"
#include <inttypes.h>
#include <stdio.h>
#include <string.h>

enum { MESSAGE = 200, SMALL = 1000, LOOK_EVERY = 500 };

/* The calls that have an inline form; all others are the library's on both rows. */
static const form inline_forms[] = {
    {.name = "Get", .three = pagzimul_inline_get},   {.name = "Set", .three = pagzimul_inline_set},
    {.name = "Read", .two = pagzimul_inline_read},   {.name = "Write", .three = pagzimul_inline_write},
    {.name = "Copy", .two = pagzimul_inline_copy},   {.name = "Clear", .one = pagzimul_inline_clear},
    {.name = "Same", .two = pagzimul_inline_same},   {.name = "Sizes", .one = pagzimul_inline_sizes},
};

enum { INLINES = sizeof inline_forms / sizeof inline_forms[0] };

static uint64_t answers[INLINES][CODES];

/* A script that is played on two rows: the library's, and that of the inline calls. */
typedef struct pair {
    const script *script;
    lent library, inlined;
} pair;

static heap heap_of(const pair *p, const lent *l) {
    return (heap){l->words, l->count, p->script->slots};
}

/* Which inline call it is; INLINES if it is none. */
static size_t inline_of(const call *asked) {
    size_t k = 0;
    while (k < INLINES && !call_is(asked, inline_forms[k].name)) k++;
    return k;
}

_Noreturn static void fail_at(const pair *p, const call *asked, const char *what) {
    char message[MESSAGE];
    snprintf(message, sizeof message, "%s %" PRIu64 " %" PRIu64 " %" PRIu64 " inline: %s", asked->form->name, asked->numbers[0],
             asked->numbers[1], asked->numbers[2], what);
    fail(p->script->path, message);
}

/* One call on both rows: the answers are the same. */
static pagzimul_told play_both(const pair *p, const call *asked) {
    size_t k = inline_of(asked);
    call inlined = *asked;
    if (k < INLINES) inlined.form = &inline_forms[k];
    pagzimul_told expected = call_play(asked, heap_of(p, &p->library));
    pagzimul_told got = call_play(&inlined, heap_of(p, &p->inlined));
    if (got.code != expected.code || got.val != expected.val) fail_at(p, asked, "another answer than the library's");
    if (k < INLINES) answers[k][got.code] += 1;
    return got;
}

/* The same call with some slots, places and words far above 65,535, which no answer but a refusal is for. */
static void play_out_of_range(const pair *p, const call *asked, random_state *random) {
    call wild = *asked;
    if (inline_of(asked) == INLINES) return;
    for (size_t k = 0; k < strlen(asked->form->kinds); k++) {
        bool stays = asked->form->kinds[k] == 'x' || random_below(random, 2) == 0;
        if (!stays) wild.numbers[k] = random_out_of_range(random, asked->numbers[k]);
    }
    if (memcmp(wild.numbers, asked->numbers, sizeof wild.numbers) != 0) play_both(p, &wild);
}

static void compare_rows(const pair *p, const call *asked) {
    if (memcmp(p->library.words, p->inlined.words, p->library.count * sizeof(uint64_t)) != 0) fail_at(p, asked, "another row than the library's");
}

static void play_script(pair *p, random_state *random) {
    const script *s = p->script;
    heap first = heap_of(p, &p->library), second = heap_of(p, &p->inlined);
    require(pagzimul_start(first.words, first.count, first.slots), "start refused enough words");
    require(pagzimul_start(second.words, second.count, second.slots), "start refused enough words");
    for (size_t i = 0; i < s->count; i++) {
        const call *asked = &s->calls[i];
        playing(s->path, i + 1);
        play_out_of_range(p, asked, random);
        pagzimul_told got = play_both(p, asked);
        if (got.code != s->answers[i].code || got.val != s->answers[i].val) fail_at(p, asked, "another answer than play's");
        if (s->words < SMALL || i % LOOK_EVERY == 0 || i + 1 == s->count) compare_rows(p, asked);
    }
}

/* Each code that a call can answer must have been answered. */
static void require_all_met(void) {
    for (size_t k = 0; k < INLINES; k++) {
        const form *f = &inline_forms[k];
        bool reads_an_object = strcmp(f->name, "Copy") != 0 && strcmp(f->name, "Clear") != 0 && strcmp(f->name, "Same") != 0;
        bool has_place = reads_an_object && strcmp(f->name, "Sizes") != 0;
        require(answers[k][PAGZIMUL_DONE] > 0 && answers[k][PAGZIMUL_NO_SLOT] > 0, "an inline call was never done, or never refused");
        require(!reads_an_object || answers[k][PAGZIMUL_NOTHING] > 0, "an inline call never met an empty slot");
        require(!has_place || answers[k][PAGZIMUL_NO_PLACE] > 0, "an inline call never met a place that is not there");
    }
}

void test_inline(plan plan) {
    uint64_t calls = 0;
    for (size_t i = 0; i < plan.count; i++) {
        script s = script_read(plan.paths[i]);
        random_state random = random_of_script(plan.seed, i);
        if (pagzimul_fits(NULL, s.words, s.slots)) {
            pair p = {&s, lent_take(EXACT, s.words), lent_take(EXACT, s.words)};
            lent_fill(&p.library);
            lent_fill(&p.inlined);
            play_script(&p, &random);
            lent_drop(&p.library);
            lent_drop(&p.inlined);
            calls += s.count;
        }
        script_drop(&s);
    }
    playing(NULL, 0);
    require_all_met();
    printf("inline calls: %" PRIu64 " calls of scripts, answers and rows as the library's\n", calls);
}
