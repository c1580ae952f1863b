// Which mutation runs in a program of tests: the number in MUTATION, 0 for none. With TRACE the numbers of the functions that were
// called are written there at the end. A program that is started without MUTATION only writes itself to COPY_TO.
#define _GNU_SOURCE
#include <dlfcn.h>
#include <fcntl.h>
#include <stdio.h>
#include <stdlib.h>
#include <unistd.h>

#define FUNCTIONS 65536

static unsigned chosen;
static unsigned char called[FUNCTIONS];

unsigned mutation_switch_chosen(unsigned function) {
    called[function % FUNCTIONS] = 1;
    return chosen;
}

static void write_trace(void) {
    FILE *file = fopen(getenv("TRACE"), "w");
    for (unsigned at = 0; file && at < FUNCTIONS; at++)
        if (called[at])
            fprintf(file, "%u\n", at);
    if (file)
        fclose(file);
}

static void copy(const char *from, const char *to) {
    char buffer[65536];
    const int in = open(from, O_RDONLY), out = open(to, O_CREAT | O_WRONLY | O_TRUNC, 0755);
    for (ssize_t got = 1; in >= 0 && out >= 0 && got > 0;) {
        got = read(in, buffer, sizeof buffer);
        if (got > 0 && write(out, buffer, got) != got)
            abort();
    }
}

__attribute__((constructor)) static void choose(void) {
    const char *number = getenv("MUTATION");
    Dl_info program;
    if (number) {
        chosen = atoi(number);
        if (getenv("TRACE"))
            atexit(write_trace);
    } else {
        if (dladdr((void *)&choose, &program))
            copy(program.dli_fname, COPY_TO);
        _exit(0);
    }
}
