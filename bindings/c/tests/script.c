/* A script, and the answers that the program play printed for it. */
#include "script.h"
#include "tests.h"
#include <stdio.h>
#include <stdlib.h>
#include <string.h>

enum { DECIMAL = 10, LONGEST_PATH = 4096 };

static char *text_of(const char *path) {
    FILE *file = fopen(path, "rb");
    if (file == NULL || fseek(file, 0, SEEK_END) != 0) fail(path, "cannot be read");
    long size = ftell(file);
    rewind(file);
    char *text = test_memory((size_t)size + 1, 1);
    if (fread(text, 1, (size_t)size, file) != (size_t)size) fail(path, "cannot be read");
    fclose(file);
    return text;
}

/* The next line that is no comment and not empty, ended by a zero; NULL at the end. */
static char *next_line(char **rest) {
    while (**rest != '\0') {
        char *line = *rest;
        size_t length = strcspn(line, "\n");
        *rest = line + length + (line[length] == '\n');
        line[length] = '\0';
        if (length > 0 && line[0] != '#') return line;
    }
    return NULL;
}

/* Two numbers, and nothing behind them. */
static bool two_numbers(const char *line, uint64_t *first, uint64_t *second) {
    char *end = NULL;
    *first = strtoull(line, &end, DECIMAL);
    const char *at = end;
    *second = strtoull(at, &end, DECIMAL);
    return at != line && end != at && *end == '\0';
}

static size_t lines_in(const char *text) {
    size_t lines = 1;
    for (; *text != '\0'; text++) lines += *text == '\n';
    return lines;
}

static void read_answers(script *s) {
    char path[LONGEST_PATH];
    size_t stem = strlen(s->path) - strlen(".script");
    snprintf(path, sizeof path, "%.*s.answers", (int)stem, s->path);
    char *text = text_of(path), *rest = text;
    for (size_t i = 0; i < s->count; i++) {
        char *line = next_line(&rest);
        uint64_t code = 0;
        if (line == NULL || !two_numbers(line, &code, &s->answers[i].val)) fail(path, "has not an answer for each call");
        s->answers[i].code = (uint8_t)code;
    }
    if (next_line(&rest) != NULL) fail(path, "has more answers than there are calls");
    free(text);
}

script script_read(const char *path) {
    script s = {.path = path};
    char *text = text_of(path), *rest = text;
    char *line = next_line(&rest);
    uint64_t words = 0;
    if (line == NULL || !two_numbers(line, &words, &s.slots)) fail(path, "does not begin with WORDS SLOTS");
    s.words = (size_t)words;
    size_t most = lines_in(rest);
    s.calls = test_memory(most, sizeof(call));
    s.answers = test_memory(most, sizeof(pagzimul_told));
    while ((line = next_line(&rest)) != NULL) {
        if (!call_read(line, &s.calls[s.count])) fail(path, line);
        s.count += 1;
    }
    free(text);
    read_answers(&s);
    return s;
}

void script_drop(script *s) {
    free(s->calls);
    free(s->answers);
}
