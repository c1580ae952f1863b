/* What the tests share: checks that are counted, the fields of a view at once, keys, and pages. */
#ifndef COMMONWARE_TESTS_H
#define COMMONWARE_TESTS_H

/* For mmap and its flags. */
#define _DEFAULT_SOURCE

#include "commonware.h"

#include <stdbool.h>
#include <stdio.h>
#include <stdlib.h>
#include <string.h>
#include <sys/mman.h>
#include <unistd.h>

static int failed;

static inline void check(bool holds, const char *what, const char *file, int line) {
    if (!holds) {
        printf("%s:%d: %s\n", file, line, what);
        failed++;
    }
}

#define CHECK(condition) check((condition), #condition, __FILE__, __LINE__)

/* Runs a test, and prints its name and whether all its checks hold. */
static inline void run_test(void (*test)(void), const char *name) {
    const int before = failed;
    test();
    printf("%s %s\n", failed == before ? "ok" : "not ok", name);
}

#define RUN(test) run_test(test, #test)

#define OF(array) (array), sizeof(array) / sizeof *(array)

/* Two certificates for different values, by 0, 1, 2 and by 1, 2, 3. */
static const uint8_t first[] = {1, 0xaa, 3, 0, 1, 2}, second[] = {1, 0xbb, 3, 1, 2, 3};

/* Sizes of keys that are in use, and of one byte. */
static const size_t sizes[] = {1, 20, 32, 33, 48, 96};

#define SIZES (sizeof sizes / sizeof *sizes)

/* What the view says, field by field; what isn't described at a status is 0. */
static inline bool is_set(commonware_set_view view, uint32_t status, uint32_t count, size_t number,
                          size_t start, size_t left) {
    return view.status == status && view.count == count && view.number == number &&
           view.start == start && view.left == left;
}

static inline bool is_map(commonware_map_view view, uint32_t status, uint32_t count, size_t number,
                          size_t keys, size_t values, size_t left) {
    return view.status == status && view.count == count && view.number == number &&
           view.keys == keys && view.values == values && view.left == left;
}

static inline bool is_place(commonware_place_view view, uint32_t status, size_t index) {
    return view.status == status && view.index == index;
}

static inline bool is_written(commonware_written_view view, uint32_t status, size_t count,
                              size_t number, size_t size) {
    return view.status == status && view.count == count && view.number == number &&
           view.size == size;
}

/* Writes the keys 11 .. 11 22 and 11 .. 11 33 of this size, which differ in the last byte alone. */
static inline void put_two(uint8_t *out, size_t size) {
    memset(out, 0x11, 2 * size);
    out[size - 1] = 0x22;
    out[2 * size - 1] = 0x33;
}

/* Where as many bytes of 0 begin, after which comes a page that can't be touched. */
static inline uint8_t *before_end(size_t length) {
    const size_t page = (size_t)sysconf(_SC_PAGESIZE), pages = length / page + 1;
    uint8_t *const map = (uint8_t *)mmap(NULL, (pages + 1) * page, PROT_READ | PROT_WRITE,
                                         MAP_PRIVATE | MAP_ANONYMOUS, -1, 0);
    if (map == MAP_FAILED || mprotect(map + pages * page, page, PROT_NONE) != 0) {
        printf("no pages\n");
        exit(2);
    }
    return map + pages * page - length;
}

/* Ends a program of tests. */
static inline int report(void) {
    printf("%d failed\n", failed);
    return failed != 0;
}

#endif
