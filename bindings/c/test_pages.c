/* Calls the functions at the ends of pages: inputs that end before a page that can't be read, rooms
 * that end before one that can't be written; and with lengths past 2^32. Prints what failed, and
 * ends with 0 where nothing did. */
#include "tests.h"

/* Sets, maps and keys of each size, and what they begin with, before a page that can't be read. */
static void try_keys_before(uint8_t *stop, size_t size) {
    const size_t whole = 2 + 2 * size + 2 * (size / 2);
    uint8_t map[2 + 3 * 96] = {2};
    put_two(map + 1, size);
    map[1 + 2 * size] = 2;
    for (size_t end = 0; end <= 1 + 2 * size; end++) {
        memcpy(stop - end, map, end);
        const uint32_t status = commonware_set_read(size, stop - end, end, 0, 9).status;
        CHECK(status == (end < 1 + 2 * size ? COMMONWARE_END_OF_INPUT : COMMONWARE_OK));
    }
    /* Two values, of half as many bytes as a key. */
    memcpy(stop - whole, map, whole);
    const commonware_map_view view = commonware_map_read(size, size / 2, stop - whole, whole, 0, 9);
    CHECK(is_map(view, COMMONWARE_OK, 2, 0, 1, 2 + 2 * size, 0));
    put_two(stop - 2 * size, size);
    const uint8_t *const key = stop - size;
    CHECK(is_place(commonware_set_position(key - size, 2 * size, key, size), COMMONWARE_OK, 1));
}

static void test_keys(void) {
    uint8_t *const stop = before_end(0);
    for (size_t i = 0; i < SIZES; i++) {
        try_keys_before(stop, sizes[i]);
    }
}

static void test_committee(void) {
    uint8_t *const stop = before_end(0);
    uint8_t committee[1 + 3 * 32] = {3};
    committee[33] = 1;
    committee[65] = 2;
    for (size_t length = 0; length <= sizeof committee; length++) {
        uint8_t *const input = stop - length;
        memcpy(input, committee, length);
        const uint32_t status = commonware_committee_read(input, length, 0, 9).status;
        CHECK(status == (length < sizeof committee ? COMMONWARE_END_OF_INPUT : COMMONWARE_OK));
    }
    CHECK(commonware_committee_position(stop - 96, 3, stop - 32).index == 2);
}

static void test_certificate(void) {
    uint8_t *const stop = before_end(0);
    uint32_t *const room = (uint32_t *)(void *)before_end(3 * sizeof(uint32_t));
    for (size_t length = 0; length <= sizeof first; length++) {
        uint8_t *const input = stop - length;
        memcpy(input, first, length);
        const uint32_t status = commonware_certificate_read(input, length, 9, 9, room, 3).status;
        CHECK(status == (length < sizeof first ? COMMONWARE_END_OF_INPUT : COMMONWARE_OK));
    }
    uint8_t *const out = before_end(6);
    CHECK(commonware_certificate_encode(first + 1, 1, room, 3, out, 6).status == COMMONWARE_OK);
    CHECK(memcmp(out, first, 6) == 0);
    uint8_t *const value = before_end(4);
    const uint8_t slot[] = {7, 1}, decision[] = {0xaa}, wanted[] = {2, 7, 1, 0xaa};
    CHECK(commonware_slot_value(OF(slot), OF(decision), value, 4).status == COMMONWARE_OK);
    CHECK(memcmp(value, wanted, 4) == 0);
}

/* The two members that signed both take all of the room. */
static void test_conflict(void) {
    uint32_t *const room = (uint32_t *)(void *)before_end(2 * sizeof(uint32_t));
    commonware_conflict_view view = commonware_conflict(3, 4, OF(first), OF(second), room, 2);
    CHECK(view.status == COMMONWARE_OK && room[0] == 1 && room[1] == 2);
    room[0] = 9;
    /* Slot 7, decisions aa and bb. */
    const uint8_t one[] = {3, 1, 7, 0xaa, 3, 0, 1, 2}, other[] = {3, 1, 7, 0xbb, 3, 1, 2, 3};
    view = commonware_equivocation(3, 4, OF(one), OF(other), room, 2);
    CHECK(view.status == COMMONWARE_OK && room[0] == 1 && room[1] == 2);
    CHECK(commonware_conflict(3, 4, OF(first), OF(second), room + 1, 1).status == COMMONWARE_ROOM);
    CHECK(room[1] == 2);
}

/* A call that writes items of these sizes. */
typedef commonware_written_view writer(
    size_t key_size, size_t value_size, const uint8_t *items, size_t items_length, uint8_t *out,
    size_t out_length);

static commonware_written_view write_set(
    size_t key_size, size_t value_size, const uint8_t *items, size_t items_length, uint8_t *out,
    size_t out_length) {
    (void)value_size;
    return commonware_set_encode_dedup(key_size, items, items_length, out, out_length);
}

static commonware_written_view write_committee(
    size_t key_size, size_t value_size, const uint8_t *items, size_t items_length, uint8_t *out,
    size_t out_length) {
    (void)value_size;
    return commonware_committee_encode_dedup(items, items_length / key_size, out, out_length);
}

/* Items of two sizes, what is written of them, and how many items that has. */
struct task {
    size_t key_size, value_size;
    const uint8_t *items;
    size_t items_length;
    const uint8_t *wanted;
    size_t size, count;
};

/* Whether as many bytes are those that a room has before a call. */
static bool are_before(const uint8_t *bytes, size_t length) {
    size_t i = 0;
    while (i < length && bytes[i] == 0xee) {
        i++;
    }
    return i == length;
}

/* Writes to each room from a length on that isn't longer than what is written. It ends before a
 * page that can't be written: nothing is written to one that is too short, and in no case anything
 * before it. */
static void try_rooms(writer *write, struct task task, size_t least) {
    uint8_t *const all = before_end(1 + task.size), *const stop = all + 1 + task.size;
    for (size_t length = least; length <= task.size; length++) {
        memset(all, 0xee, 1 + task.size);
        uint8_t *const out = stop - length;
        const commonware_written_view view = write(
            task.key_size, task.value_size, task.items, task.items_length, out, length);
        const bool fits = length == task.size;
        const uint32_t status = fits ? COMMONWARE_OK : COMMONWARE_ROOM;
        CHECK(is_written(view, status, task.count, 0, task.size));
        CHECK(fits ? memcmp(out, task.wanted, length) == 0 : are_before(out, length));
        CHECK(are_before(all, 1 + task.size - length));
    }
}

/* Three keys of which one repeats, and the set of the two. */
static void try_set_rooms(size_t size) {
    uint8_t keys[3 * 96], set[1 + 2 * 96] = {2};
    put_two(set + 1, size);
    memcpy(keys, set + 1 + size, size);
    put_two(keys + size, size);
    const struct task task = {size, 0, keys, 3 * size, set, 1 + 2 * size, 2};
    try_rooms(write_set, task, 0);
    if (size == 32) {
        try_rooms(write_committee, task, 0);
    }
}

/* Pairs 33 7, 22 8 and 33 9, where the keys are those of put_two, and the map of them: of the two
 * with one key it has the first. The first two alone have the same map. */
static void try_map_rooms(size_t size, size_t value_size) {
    uint8_t pairs[3 * 2 * 96], map[2 + 2 * 2 * 96] = {2};
    const size_t pair = size + value_size;
    put_two(map + 1, size);
    map[1 + 2 * size] = 2;
    memset(map + 2 + 2 * size, 8, value_size);
    memset(map + 2 + 2 * size + value_size, 7, value_size);
    for (uint8_t i = 0; i < 3; i++) {
        memcpy(pairs + i * pair, map + 1 + (i == 1 ? 0 : size), size);
        memset(pairs + i * pair + size, 7 + i, value_size);
    }
    struct task task = {size, value_size, pairs, 3 * pair, map, 2 + 2 * pair, 2};
    try_rooms(commonware_map_encode_dedup, task, 0);
    task.items_length = 2 * pair;
    try_rooms(commonware_map_encode, task, 0);
}

/* 300 keys of 33 bytes that fall, whose number takes two bytes. */
static void try_many_rooms(void) {
    static uint8_t keys[300 * 33], map[2 + 300 * 33 + 2] = {300 % 128 + 128, 300 / 128};
    for (size_t i = 0; i < 300; i++) {
        uint8_t *const key = map + 2 + 33 * i;
        key[31] = (uint8_t)(i / 256);
        key[32] = (uint8_t)i;
        memcpy(keys + 33 * (299 - i), key, 33);
    }
    memcpy(map + 2 + sizeof keys, map, 2);
    struct task task = {33, 0, keys, sizeof keys, map, 2 + sizeof keys, 300};
    try_rooms(write_set, task, task.size - 40);
    task.size = sizeof map;
    try_rooms(commonware_map_encode_dedup, task, task.size - 40);
    try_rooms(commonware_map_encode, task, task.size - 40);
}

/* Rooms that end before one that can't be written. */
static void test_rooms(void) {
    for (size_t i = 0; i < SIZES; i++) {
        try_set_rooms(sizes[i]);
        try_map_rooms(sizes[i], 0);
        try_map_rooms(sizes[i], 8);
        try_map_rooms(sizes[i], sizes[i]);
    }
    try_many_rooms();
}

/* Lengths past 2^32, over zeros that no one has to hold. */
static void test_long(void) {
    const size_t limit = (size_t)1 << 32;
    uint8_t *const zeros =
        mmap(NULL, 4 * limit, PROT_READ, MAP_PRIVATE | MAP_ANONYMOUS | MAP_NORESERVE, -1, 0);
    if (zeros == MAP_FAILED) {
        puts("no room for lengths past 2^32");
        return;
    }
    uint8_t out[3] = {9, 9, 9};
    commonware_written_view written = commonware_certificate_encode(zeros, limit, NULL, 0, OF(out));
    CHECK(written.status == COMMONWARE_INVALID_LENGTH && written.number == limit && out[0] == 9);
    const uint32_t *const indices = (const uint32_t *)(const void *)zeros;
    written = commonware_certificate_encode(zeros, 0, indices, limit, OF(out));
    CHECK(written.status == COMMONWARE_INVALID_LENGTH && written.number == limit && out[0] == 9);
    written = commonware_certificate_encode(zeros, limit - 1, NULL, 0, OF(out));
    CHECK(written.status == COMMONWARE_ROOM && written.size == limit + 5 && out[0] == 9);
    const commonware_committee_view view = commonware_committee_read(zeros, 2 * limit, 0, SIZE_MAX);
    CHECK(view.status == COMMONWARE_OK && view.count == 0 && view.left == 2 * limit - 1);
    const commonware_set_view set = commonware_set_read(48, zeros, 2 * limit, 0, 9);
    CHECK(is_set(set, COMMONWARE_OK, 0, 0, 1, 2 * limit - 1));
    const commonware_map_view map = commonware_map_read(48, 96, zeros, 2 * limit, 0, 9);
    CHECK(is_map(map, COMMONWARE_OK, 0, 0, 1, 2, 2 * limit - 2));
    /* 2^30 keys of 16 zeros. */
    const uint8_t one[16] = {[15] = 1};
    CHECK(
        is_place(commonware_set_position(zeros, 4 * limit, OF(one)), COMMONWARE_ABSENT, limit / 4));
    CHECK(
        is_place(commonware_set_position(zeros, 4 * limit - 1, OF(one)), COMMONWARE_NOT_WHOLE, 0));
    CHECK(commonware_set_position(zeros, 4 * limit, zeros, 16).status == COMMONWARE_OK);
    CHECK(
        is_place(commonware_set_position(zeros, limit + 1, zeros, limit), COMMONWARE_NOT_WHOLE, 0));
    CHECK(munmap(zeros, 4 * limit) == 0);
}

int main(void) {
    RUN(test_keys);
    RUN(test_committee);
    RUN(test_certificate);
    RUN(test_conflict);
    RUN(test_rooms);
    RUN(test_long);
    return report();
}
