/* Damaged and never started words: the library's check against the one written here, and calls on what is sound. */
#include "lent.h"
#include "random.h"
#include "row.h"
#include "tests.h"
#include <inttypes.h>
#include <stdio.h>
#include <stdlib.h>
#include <string.h>

enum { CALLS_BEFORE = 30, CALLS_AFTER = 25, MOST_DAMAGES = 3, MOST_WORDS = 300, FEWEST_ROWS = 1000, FEWEST_SOUND = 20 };
enum { WORD_BITS = 64, NEAR = 4, LONGEST_PATH = 4096 };

/* How many of the damaged rows are written for Rust to compare. */
enum { WRITTEN = 4000 };

static uint64_t random_bit(random_state *random) {
    return UINT64_C(1) << random_below(random, WORD_BITS);
}

/* Where a reference stands: a slot or a place. */
static size_t reference_at(random_state *random, uint64_t slots, const cell *c) {
    if (c->places == 0 || random_below(random, 4) == 0) return OWN_WORDS + random_below(random, (size_t)slots);
    return c->start + OBJECT_WORDS + random_below(random, c->places);
}

/* An address that is almost that of an object, or is one of the manager's own or of the free words. */
static uint64_t near_address(random_state *random, const heap *g, const cell *c) {
    switch (random_below(random, 6)) {
    case 0: return c->start + 1;
    case 1: return c->start - 1;
    case 2: return c->start + OBJECT_WORDS;
    case 3: return g->words[FREE_AT];
    case 4: return ROOT_AT;
    default: return random_below(random, g->count + 2);
    }
}

/* What is to stand where. */
typedef struct damage {
    size_t at;
    uint64_t new;
} damage;

/* Damage to a header: a bit, a mark, a kind, or a place that becomes a word and back. */
static damage damage_header(random_state *random, const heap *g, const cell *c) {
    uint64_t header = g->words[c->start];
    uint64_t word = UINT64_C(1) << WORDS_SHIFT;
    damage d = {c->start, header};
    switch (random_below(random, 5)) {
    case 0: d.new = header ^ random_bit(random); break;
    case 1: d.new = header | UINT64_C(1) << MARK_SHIFT; break;
    case 2: d.new = header | UINT64_C(1) << KIND_SHIFT; break;
    case 3: d.new = header - 1 + word; break;
    default: d.new = header + 1 - word; break;
    }
    return d;
}

/* Damage to a reference: another object, almost one, or a low byte. */
static damage damage_reference(random_state *random, const heap *g, const cell *c, const cell *other) {
    size_t at = reference_at(random, g->slots, c);
    damage d = {at, 0};
    switch (random_below(random, 3)) {
    case 0: d.new = (uint64_t)other->start << ADDRESS_SHIFT; break;
    case 1: d.new = near_address(random, g, other) << ADDRESS_SHIFT; break;
    default: d.new = g->words[at] | UINT64_C(1) << random_below(random, ADDRESS_SHIFT); break;
    }
    return d;
}

/* Damage to the manager's own words: where the free words begin, a sentinel, or any. */
static damage damage_own(random_state *random, const heap *g, const cell *c) {
    const uint64_t *row = g->words;
    damage d = {FREE_AT, 0};
    switch (random_below(random, 6)) {
    case 0: d.new = c->start; break;
    case 1: d.new = row[FREE_AT] + random_below(random, 2 * NEAR + 1) - NEAR; break;
    case 2: d.new = g->count + random_below(random, 3); break;
    case 3: d.at = NONE_AT; d.new = row[NONE_AT] ^ random_bit(random); break;
    case 4: d.at = ROOT_AT; d.new = row[ROOT_AT] ^ random_bit(random); break;
    default: d.at = random_below(random, OWN_WORDS); d.new = random_word(random); break;
    }
    return d;
}

/* Damage to any word: a bit of it or all. */
static damage damage_any(random_state *random, const heap *g) {
    size_t at = random_below(random, g->count);
    damage d = {at, random_word(random)};
    if (random_below(random, 2) == 0) d.new = g->words[at] ^ random_bit(random);
    return d;
}

static damage damage_one(random_state *random, const heap *g, const cells *all) {
    size_t chance = random_below(random, 5);
    if (chance == 0 || all->count == 0) return damage_any(random, g);
    const cell *c = &all->cell[random_below(random, all->count)];
    const cell *other = &all->cell[random_below(random, all->count)];
    damage second = {c->start + 1, random_word(random)};
    switch (chance) {
    case 1: return damage_header(random, g, c);
    case 2: return damage_reference(random, g, c, other);
    case 3: return damage_own(random, g, c);
    default: return second;
    }
}

static void do_damage(const heap *g, random_state *random) {
    cells all = row_cells(g->words, g->count, g->slots);
    size_t many = 1 + random_below(random, MOST_DAMAGES);
    for (size_t i = 0; i < many; i++) {
        damage d = damage_one(random, g, &all);
        g->words[d.at] = d.new;
    }
    free(all.cell);
}

/* Does the check say what the one written here says, and leave every word as it was? */
static bool check(const heap *on) {
    size_t bytes = on->count * sizeof(uint64_t);
    uint64_t *before = test_memory(on->count, sizeof(uint64_t));
    if (bytes > 0) memcpy(before, on->words, bytes);
    bool expected = row_is_sound(before, on->count, on->slots);
    bool agrees = pagzimul_is_sound(on->words, on->count, on->slots) == expected;
    bool same = bytes == 0 || memcmp(before, on->words, bytes) == 0;
    free(before);
    return agrees && same;
}

/* Some calls of a script, from one on, whose answers on these words nobody knows: each leaves a sound row. */
static void play_calls(const script *s, size_t from, size_t many, const heap *on) {
    for (size_t i = from; i < from + many && i < s->count; i++) {
        playing(s->path, i + 1);
        if (call_play(&s->calls[i], *on).code >= CODES) fail(s->path, "an answer on damaged words has no such code");
        if (!row_is_sound(on->words, on->count, on->slots)) fail(s->path, "a call on sound words left an unsound row");
    }
}

/* For Rust to compare: the script, from which call on it goes on, whether the words are sound, then the words. */
static void write_row(FILE *file, const script *s, size_t from, bool sound, const heap *on) {
    fprintf(file, "%s %zu %d %" PRIu64 "\n", s->path, from, sound, on->slots);
    for (size_t i = 0; i < on->count; i++) fprintf(file, i + 1 < on->count ? "%" PRIu64 " " : "%" PRIu64 "\n", on->words[i]);
}

/* A row of the first calls of a script, damaged; is it sound still? */
static bool play_damaged(const script *s, uint64_t number, random_state *random, FILE *file) {
    lent l = lent_take((placing)(number % PLACINGS), s->words);
    heap on = {l.words, l.count, s->slots};
    lent_fill(&l);
    size_t from = random_below(random, CALLS_BEFORE);
    if (!pagzimul_start(on.words, on.count, on.slots)) fail(s->path, "start refused enough words");
    play_calls(s, 0, from, &on);
    do_damage(&on, random);
    bool sound = row_is_sound(on.words, on.count, on.slots);
    if (file != NULL) write_row(file, s, from, sound, &on);
    if (!check(&on)) fail(s->path, sound ? "damaged, and expected sound" : "damaged, and expected unsound; or a word was changed");
    if (sound) play_calls(s, from, CALLS_AFTER, &on);
    if (sound && file != NULL) fprintf(file, "%" PRIu64 "\n", row_sum(on.words, on.count));
    if (!lent_is_guarded(&l)) fail(s->path, "damaged: it wrote outside of the words");
    lent_drop(&l);
    return sound;
}

/* The scripts of small heaps are gone through again and again. */
void test_damaged(plan plan) {
    char path[LONGEST_PATH];
    snprintf(path, sizeof path, "%s/damaged.rows", plan.folder);
    FILE *file = fopen(path, "w");
    if (file == NULL) fail(path, "cannot be written");
    uint64_t sound = 0, rows = 0;
    for (size_t i = 0; rows < plan.rows; i++) {
        require(i < plan.count || rows > 0, "there is no script of a small heap");
        script s = script_read(plan.paths[i % plan.count]);
        bool small = s.words <= MOST_WORDS && s.slots > 0 && pagzimul_fits(NULL, s.words, s.slots);
        random_state random = random_of_script(plan.seed, i);
        for (uint64_t share = 0; small && share < plan.rows / plan.count + 1 && rows < plan.rows; share++, rows++)
            sound += play_damaged(&s, rows, &random, rows < WRITTEN ? file : NULL);
        script_drop(&s);
    }
    playing(NULL, 0);
    if (fclose(file) != 0) fail(path, "cannot be written");
    printf("damaged words: %" PRIu64 " rows, %" PRIu64 " of them sound\n", rows, sound);
    bool fair = sound >= FEWEST_SOUND && sound + FEWEST_SOUND <= rows;
    require(rows < FEWEST_ROWS || fair, "no fair share of the damaged rows is sound");
}

/* Fills words in one of three ways: zeros, all ones, anything. */
static void fill(lent *l, random_state *random, size_t way) {
    for (size_t i = 0; i < l->count; i++) {
        uint64_t any = random_word(random);
        l->words[i] = way == 0 ? 0 : way == 1 ? UINT64_MAX : any;
    }
}

void test_never_started(plan plan) {
    enum { LONGEST = 200, WAYS = 3 };
    static const uint64_t slots[] = {0, 1, 6, 65535, 65536, UINT64_MAX};
    random_state random = random_of_script(plan.seed, 0);
    for (size_t count = 0; count < LONGEST; count++) {
        for (size_t way = 0; way < WAYS; way++) {
            lent l = lent_take((placing)(count % PLACINGS), count);
            fill(&l, &random, way);
            for (size_t i = 0; i < sizeof slots / sizeof slots[0]; i++) {
                heap on = {l.words, count, slots[i]};
                require(check(&on), "never started words: said to be sound, or changed");
                require(!pagzimul_is_sound(l.words, count, slots[i]), "never started words are said to be sound");
            }
            require(lent_is_guarded(&l), "the check wrote outside of never started words");
            lent_drop(&l);
        }
    }
}
