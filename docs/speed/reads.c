/* Decodes inputs, each on a page of its own, so that a tool that traces memory tells how often each
 * of their bytes is read. Standard input has a line of numbers for each: the call, the sizes of a key
 * and of a value, and the bytes in hexadecimal. */
#define _GNU_SOURCE
#include "commonware.h"
#include <stdio.h>
#include <stdlib.h>
#include <string.h>
#include <sys/mman.h>

/* Where the pages begin, and their size. */
#define BASE ((uintptr_t)1 << 33)
#define PAGE 4096u
#define MOST 4096u

static uint32_t decode(int call, size_t size, size_t value, const uint8_t *input, size_t length) {
    static uint32_t indices[PAGE];
    switch (call) {
    case 0:
        return commonware_set_read(size, input, length, 0, SIZE_MAX).status;
    case 1:
        return commonware_map_read(size, value, input, length, 0, SIZE_MAX).status;
    case 2:
        return commonware_certificate_read(input, length, SIZE_MAX, SIZE_MAX, indices, PAGE).status;
    default:
        /* The first `size` bytes are sought among the keys that follow them. */
        if (length < size) {
            return commonware_set_position(input, 0, input, length).status;
        }
        return commonware_set_position(input + size, (length - size) / size * size, input, size)
            .status;
    }
}

static unsigned digit(char it) {
    return it <= '9' ? (unsigned)(it - '0') : (unsigned)(it - 'a') + 10;
}

int main(void) {
    static char line[2 * PAGE + 64];
    uint8_t *pages = mmap((void *)BASE, (size_t)PAGE * MOST, PROT_READ | PROT_WRITE,
        MAP_PRIVATE | MAP_ANONYMOUS | MAP_FIXED_NOREPLACE, -1, 0);
    if (pages == MAP_FAILED) {
        return 1;
    }
    for (size_t i = 0; i < MOST && fgets(line, sizeof line, stdin) != NULL; i++) {
        size_t length = 0;
        char *at = line;
        const int call = (int)strtoul(at, &at, 10);
        const size_t size = strtoul(at, &at, 10), value = strtoul(at, &at, 10);
        uint8_t *input = pages + i * PAGE;
        for (const char *it = at + 1; it[0] > ' '; it += 2) {
            input[length++] = (uint8_t)(digit(it[0]) << 4 | digit(it[1]));
        }
        printf("%u\n", (unsigned)decode(call, size, value, input, length));
    }
    return 0;
}
