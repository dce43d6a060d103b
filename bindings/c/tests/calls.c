/* Calls: read from a line of a script, and played on the library. */
#include "calls.h"
#include <stdlib.h>
#include <string.h>

static const form forms[] = {
#include "calls.inc"
};

enum { FORMS = sizeof forms / sizeof forms[0], DECIMAL = 10 };

static const form *form_of(const char *name, size_t length) {
    for (size_t i = 0; i < FORMS; i++) {
        if (strlen(forms[i].name) == length && memcmp(forms[i].name, name, length) == 0) return &forms[i];
    }
    return NULL;
}

bool call_read(const char *line, call *read) {
    call none = {0};
    size_t length = strcspn(line, " ");
    *read = none;
    read->form = form_of(line, length);
    if (read->form == NULL) return false;
    const char *at = line + length;
    for (size_t i = 0; i < strlen(read->form->kinds); i++) {
        char *end = NULL;
        read->numbers[i] = strtoull(at, &end, DECIMAL);
        if (end == at) return false;
        at = end;
    }
    return *at == '\0';
}

pagzimul_told call_play(const call *asked, heap on) {
    const form *f = asked->form;
    const uint64_t *n = asked->numbers;
    if (f->none != NULL) return f->none(on.words, on.count, on.slots);
    if (f->one != NULL) return f->one(on.words, on.count, on.slots, n[0]);
    if (f->two != NULL) return f->two(on.words, on.count, on.slots, n[0], n[1]);
    return f->three(on.words, on.count, on.slots, n[0], n[1], n[2]);
}

bool call_is(const call *asked, const char *name) {
    return strcmp(asked->form->name, name) == 0;
}
