/* Tests of the memory manager from outside. Arguments: SEED, how many damaged ROWS, a FOLDER for what Rust compares, SCRIPTS. */
#include "tests.h"
#include <errno.h>
#include <inttypes.h>
#include <stdio.h>
#include <stdlib.h>

#if defined(__SANITIZE_ADDRESS__)
#include <sanitizer/common_interface_defs.h>
#endif

enum { DECIMAL = 10, EXIT_USAGE = 2, EXIT_NO_MEMORY = 3, FIRST_SCRIPT = 4 };

static const char *path_played;
static size_t call_played;

void playing(const char *path, size_t call) {
    path_played = path;
    call_played = call;
}

static void print_playing(void) {
    if (path_played != NULL) fprintf(stderr, "%s: call %zu was played last\n", path_played, call_played);
}

#if defined(__SANITIZE_ADDRESS__)
void print_playing_at_death(void) {
    __sanitizer_set_death_callback(print_playing);
}
#else
void print_playing_at_death(void) {}
#endif

_Noreturn void fail(const char *where, const char *what) {
    fprintf(stderr, "%s: %s\n", where, what);
    print_playing();
    exit(EXIT_FAILURE);
}

void require(bool holds, const char *what) {
    if (!holds) fail("expected otherwise", what);
}

void *test_memory(size_t count, size_t size) {
    void *memory = calloc(count == 0 ? 1 : count, size);
    if (memory != NULL) return memory;
    fputs("the tests have no memory\n", stderr);
    exit(EXIT_NO_MEMORY);
}

static uint64_t number_or_usage(const char *text) {
    char *end = NULL;
    errno = 0;
    uint64_t number = strtoull(text, &end, DECIMAL);
    if (errno != 0 || end == text || *end != '\0') {
        fputs("expected SEED ROWS FOLDER SCRIPT...\n", stderr);
        exit(EXIT_USAGE);
    }
    return number;
}

int main(int count, char **arguments) {
    if (count <= FIRST_SCRIPT) number_or_usage("");
    plan plan = {number_or_usage(arguments[1]), number_or_usage(arguments[2]), arguments[3], arguments + FIRST_SCRIPT,
                 (size_t)(count - FIRST_SCRIPT)};
    print_playing_at_death();
    test_edges();
    test_never_started(plan);
    test_scripts(plan);
    test_inline(plan);
    test_damaged(plan);
    puts("no difference");
    return EXIT_SUCCESS;
}
