/* How much stack the calls take that go deepest: those that sort, by a tree or in place, and those
 * that walk certificates. Each runs in a thread whose stack is filled with one byte before. */
#include "tests.h"

#include <pthread.h>

/* What the header says that a call takes at most. */
#define MOST ((size_t)16 * 1024)

/* How many bytes the stack of a thread has here, and what they are before. */
#define STACK ((size_t)256 * 1024)
#define FILL 0xa5

/* How many pairs are written and read, each of a key and of a value. */
#define PAIRS ((size_t)70000)
#define KEY ((size_t)20)
#define VALUE ((size_t)8)

static uint8_t pairs[PAIRS * (KEY + VALUE)], written[10 + PAIRS * (KEY + VALUE)];
static uint32_t room[PAIRS];
static size_t count, length;

/* The order in which the values come. */
enum order { RISING, FALLING, DRAWN, SAME, SAWTOOTH, ORDERS };

static uint64_t value_at(enum order order, size_t i) {
    switch (order) {
    case RISING:
        return i;
    case FALLING:
        return PAIRS - i;
    case SAME:
        return 7;
    case SAWTOOTH:
        return i % 2 == 0 ? i : PAIRS - i;
    default:
        return (i + 1) * UINT64_C(0x9e3779b97f4a7c15);
    }
}

static void put_number(uint8_t *out, size_t bytes, uint64_t number) {
    for (size_t i = bytes; i > 0; i--, number >>= 8) {
        out[i - 1] = (uint8_t)number;
    }
}

static void put_pairs(enum order keys, enum order values) {
    memset(pairs, 0, sizeof pairs);
    for (size_t i = 0; i < count; i++) {
        put_number(pairs + i * (KEY + VALUE) + KEY - 8, 8, value_at(keys, i));
        put_number(pairs + i * (KEY + VALUE) + KEY, VALUE, value_at(values, i));
    }
}

static void *nothing(void *argument) { return argument; }

static void *map_encode_dedup(void *argument) {
    const commonware_written_view view = commonware_map_encode_dedup(
        KEY, VALUE, pairs, count * (KEY + VALUE), written, sizeof written);
    CHECK(view.status == COMMONWARE_OK);
    length = view.size;
    return argument;
}

static void *unique_write(void *argument) {
    const uint32_t status =
        commonware_map_encode(KEY, VALUE, pairs, count * (KEY + VALUE), written, sizeof written)
            .status;
    CHECK(status == COMMONWARE_OK || status == COMMONWARE_REPEATED_KEY);
    return argument;
}

static void *set_encode_dedup(void *argument) {
    CHECK(commonware_set_encode_dedup(KEY + VALUE, pairs, count * (KEY + VALUE), written,
                                      sizeof written)
              .status == COMMONWARE_OK);
    return argument;
}

static void *bimap_read(void *argument) {
    const uint32_t status =
        commonware_bimap_read(KEY, VALUE, written, length, 0, PAIRS, room, PAIRS).status;
    CHECK(status == COMMONWARE_OK || status == COMMONWARE_REPEATED_VALUE);
    return argument;
}

static void *conflict(void *argument) {
    uint32_t both[4];
    CHECK(commonware_conflict(3, 4, OF(first), OF(second), OF(both)).status == COMMONWARE_OK);
    CHECK(commonware_check(3, 4, OF(first)).status == COMMONWARE_OK);
    const uint64_t weights[] = {40, 30, 20, 10};
    CHECK(commonware_weighted_check(3, OF(weights), OF(first)).status == COMMONWARE_OK);
    CHECK(commonware_weighted_conflict(2, OF(weights), OF(first), OF(second), OF(both)).status ==
          COMMONWARE_OK);
    return argument;
}

/* Returns how many bytes of its stack a thread has written to that makes a call. */
static size_t written_by(void *(*call)(void *)) {
    uint8_t *const stack =
        mmap(NULL, STACK, PROT_READ | PROT_WRITE, MAP_PRIVATE | MAP_ANONYMOUS, -1, 0);
    pthread_attr_t attributes;
    pthread_t thread;
    size_t untouched = 0;
    if (stack == MAP_FAILED || pthread_attr_init(&attributes) != 0 ||
        pthread_attr_setstack(&attributes, memset(stack, FILL, STACK), STACK) != 0 ||
        pthread_create(&thread, &attributes, call, NULL) != 0 || pthread_join(thread, NULL) != 0) {
        printf("no thread\n");
        exit(2);
    }
    while (untouched < STACK && stack[untouched] == FILL) {
        untouched++;
    }
    pthread_attr_destroy(&attributes);
    munmap(stack, STACK);
    return STACK - untouched;
}

/* Returns how much the deepest call takes of these pairs, beside a thread that makes none. */
static size_t deepest(enum order keys, enum order values, size_t pairs_count) {
    void *(*const calls[])(void *) = {map_encode_dedup, bimap_read, unique_write, set_encode_dedup,
                                      conflict};
    const size_t without = written_by(nothing);
    size_t most = 0;
    count = pairs_count;
    put_pairs(keys, values);
    for (size_t i = 0; i < sizeof calls / sizeof *calls; i++) {
        const size_t with = written_by(calls[i]);
        most = with > without + most ? with - without : most;
    }
    return most;
}

static void test_deepest(void) {
    static const size_t counts[] = {1, 2, 12, 50, 1000, PAIRS};
    size_t most = 0;
    for (size_t i = 0; i < ORDERS * ORDERS * sizeof counts / sizeof *counts; i++) {
        const enum order keys = (enum order)(i % ORDERS);
        const enum order values = (enum order)(i / ORDERS % ORDERS);
        const size_t found = deepest(keys, values, counts[i / (ORDERS * ORDERS)]);
        most = found > most ? found : most;
    }
    CHECK(most > 0 && most <= MOST);
    printf("the deepest call takes %zu bytes of stack\n", most);
}

int main(void) {
    RUN(test_deepest);
    return report();
}
