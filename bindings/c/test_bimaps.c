/* Calls commonware_bimap_read where the vectors of native calls (test_vectors.c) don't: faults of
 * the values' number where the room is too short, and a value that two of 1,000 pairs have. Prints
 * what failed, and ends with 0 where nothing did. */
#include "tests.h"

/* Whether a view is this one; what isn't named is 0. */
#define IS(view, ...) is_same((view), (commonware_bimap_view){__VA_ARGS__})

static bool is_same(commonware_bimap_view view, commonware_bimap_view other) {
    return view.status == other.status && view.count == other.count &&
           view.number == other.number && view.keys == other.keys && view.values == other.values &&
           view.left == other.left && view.first == other.first && view.second == other.second;
}

/* What is wrong with the values' number comes before a room that is too short. */
static void test_faults(void) {
    const uint8_t overlong[] = {2, 5, 6, 0x82, 0, 7, 8}, more[] = {2, 5, 6, 3, 7, 8, 9};
    uint32_t room[2] = {9, 9};
    for (size_t places = 0; places < 2; places++) {
        CHECK(IS(commonware_bimap_read(1, 1, OF(overlong), 0, 9, room, places),
                 .status = COMMONWARE_INVALID_VARINT));
        CHECK(IS(commonware_bimap_read(1, 1, OF(more), 0, 9, room, places),
                 .status = COMMONWARE_INVALID_LENGTH, .number = 3));
    }
    CHECK(room[0] == 9 && room[1] == 9);
}

/* Puts a number of two bytes as a varint. */
static void put_count(uint8_t *bytes, size_t count) {
    bytes[0] = (uint8_t)(count % 128 + 128);
    bytes[1] = (uint8_t)(count / 128);
}

/* 1,000 pairs of keys of 32 bytes and values of 20 that fall, but for one that is made that of
 * another: the input and the room end where the page does. */
static void test_many(void) {
    const size_t count = 1000, keys = 2, values = 4 + 32 * count, length = values + 20 * count;
    uint8_t *bytes = before_end(length);
    uint32_t *room = (uint32_t *)(void *)before_end(4 * count);
    put_count(bytes, count);
    put_count(bytes + values - 2, count);
    for (size_t i = 0; i < count; i++) {
        const size_t j = count - i;
        bytes[keys + 32 * i + 30] = (uint8_t)(i / 256);
        bytes[keys + 32 * i + 31] = (uint8_t)i;
        bytes[values + 20 * i + 17] = (uint8_t)(j / 256);
        bytes[values + 20 * i + 18] = (uint8_t)j;
    }
    CHECK(IS(commonware_bimap_read(32, 20, bytes, length, 0, 1000, room, count), .count = 1000,
             .keys = 2, .values = values));
    bool falls = true;
    for (size_t i = 0; i < count; i++) {
        falls = falls && room[i] == count - 1 - i;
    }
    CHECK(falls);
    static const size_t places[][2] = {{0, 999},   {0, 1},     {998, 999},
                                       {255, 256}, {127, 700}, {499, 500}};
    for (size_t i = 0; i < sizeof places / sizeof *places; i++) {
        uint8_t kept[20], *later = bytes + values + 20 * places[i][1];
        memcpy(kept, later, 20);
        memcpy(later, bytes + values + 20 * places[i][0], 20);
        CHECK(IS(commonware_bimap_read(32, 20, bytes, length, 0, 1000, room, count),
                 .status = COMMONWARE_REPEATED_VALUE, .first = places[i][0],
                 .second = places[i][1]));
        memcpy(later, kept, 20);
    }
    CHECK(IS(commonware_bimap_read(32, 20, bytes, length, 0, 1000, room + 1, count - 1),
             .status = COMMONWARE_ROOM, .number = 1000));
    CHECK(IS(commonware_bimap_read(32, 20, bytes, length - 1, 0, 1000, room, count),
             .status = COMMONWARE_END_OF_INPUT));
}

int main(void) {
    RUN(test_faults);
    RUN(test_many);
    return report();
}
