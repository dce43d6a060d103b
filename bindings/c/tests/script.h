/* A script, and the answers that the program play printed for it. */
#ifndef SCRIPT_H
#define SCRIPT_H

#include "calls.h"

typedef struct script {
    const char *path;
    size_t words;
    uint64_t slots;
    size_t count;
    call *calls;
    pagzimul_told *answers;
} script;

/* Reads NAME.script and NAME.answers; ends the program where they are none. */
script script_read(const char *path);

void script_drop(script *s);

#endif
