/* What the vectors of native calls (test_vectors.c) don't have: the header's constants and texts,
 * each number of keys and signers up to 300, each allocation failing in turn, and some orders of
 * keys. Prints what failed, and ends with 0 where nothing did. */
#include "tests.h"

/* In place of the archive's heap: one that allows some requests, and refuses all after them. */
struct tried {
    bool ok;
    unsigned char *block;
};

struct tried commonware_alloc(size_t size, size_t align);
struct tried commonware_realloc(unsigned char *block, size_t kept, size_t size, size_t align);
void commonware_dealloc(unsigned char *block);

static size_t requests, allowed = SIZE_MAX, live;
static unsigned char no_block;

static struct tried tried(unsigned char *block) {
    const struct tried result = {block != NULL, block != NULL ? block : &no_block};
    return result;
}

struct tried commonware_alloc(size_t size, size_t align) {
    if (requests++ >= allowed) {
        return tried(NULL);
    }
    live++;
    return tried(malloc(size != 0 ? size : align));
}

struct tried commonware_realloc(unsigned char *block, size_t kept, size_t size, size_t align) {
    (void)kept;
    if (requests++ >= allowed) {
        return tried(NULL);
    }
    return tried(realloc(block, size != 0 ? size : align));
}

void commonware_dealloc(unsigned char *block) {
    live--;
    free(block);
}

#if COMMONWARE_VERSION != 2000000 || COMMONWARE_VERSION_MAJOR != 2
#error "commonware.h has another version than these tests"
#endif

/* The version is 2.0.0, of the header and of the library. */
static void test_version(void) {
    CHECK(commonware_version() == 2000000);
    CHECK(COMMONWARE_VERSION == 2000000 && COMMONWARE_VERSION_MAJOR == 2);
    CHECK(COMMONWARE_VERSION_MINOR == 0 && COMMONWARE_VERSION_PATCH == 0);
}

static void test_status_text(void) {
    static const struct {
        uint32_t status;
        const char *text;
    } told[] = {
        {COMMONWARE_OK, "no error"},
        {COMMONWARE_END_OF_INPUT, "the input ends before the value does"},
        {COMMONWARE_INVALID_VARINT, "a varint is longer than it has to be, or past 4294967295"},
        {COMMONWARE_INVALID_LENGTH, "a length is out of range"},
        {COMMONWARE_NOT_STRICT, "the items aren't strictly increasing"},
        {COMMONWARE_MEMORY, "an allocation failed"},
        {COMMONWARE_LEFT_OVER, "bytes follow the certificate"},
        {COMMONWARE_NO_MEMBERS, "a committee of 0 members"},
        {COMMONWARE_SAME_VALUE, "both certificates are for one value"},
        {COMMONWARE_OUTSIDE, "a signer is no member"},
        {COMMONWARE_TOO_FEW, "fewer signers than a quorum"},
        {COMMONWARE_ROOM, "the room for the result is too short"},
        {COMMONWARE_ABSENT, "the key isn't among the members, or the keys"},
        {COMMONWARE_NO_MODEL, "k is below 2"},
        {COMMONWARE_NO_SLOT, "the value is no decision for a slot"},
        {COMMONWARE_OTHER_SLOT, "the values are for two different slots"},
        {COMMONWARE_NO_SIZE, "keys have no bytes: it can't be told how many there are"},
        {COMMONWARE_NOT_WHOLE, "bytes follow the last whole key, or the last whole pair"},
        {COMMONWARE_REPEATED_VALUE, "two pairs have the same value"},
        {COMMONWARE_REPEATED_KEY, "a pair has the key of an earlier one"},
        {COMMONWARE_ZERO_WEIGHT, "a weight is 0"},
        {COMMONWARE_WEIGHT_OVERFLOW, "the sum of the weights is past 18446744073709551615"},
        {COMMONWARE_TOO_LIGHT, "the signers weigh less than a quorum"},
        {23, "no status of this version"},
        {UINT32_MAX, "no status of this version"},
    };
    for (size_t i = 0; i < sizeof told / sizeof *told; i++) {
        CHECK(strcmp(commonware_status_text(told[i].status), told[i].text) == 0);
        CHECK(told[i].status == (i < 24 ? i : UINT32_MAX));
    }
}

/* The fault models by their names. */
static void test_models(void) {
    CHECK(commonware_max_faults(COMMONWARE_N3F1, 4) == 1);
    CHECK(commonware_quorum(COMMONWARE_N3F1, 4) == 3);
    CHECK(commonware_max_faults(COMMONWARE_N5F1, 10) == 1);
    CHECK(commonware_quorum(COMMONWARE_N5F1, 10) == 9);
    CHECK(commonware_smaller_quorum(COMMONWARE_N5F1, 10) == 3);
}

/* Keys of a committee whose first byte, or one in the middle, decides which is less. */
static void test_committee_order(void) {
    uint8_t bytes[1 + 3 * 32] = {3, 1}, *const keys = bytes + 1;
    keys[31] = 9;
    keys[32] = 3;
    keys[64] = 3;
    keys[66] = 7;
    CHECK(commonware_committee_read(OF(bytes), 0, 9).status == COMMONWARE_OK);
    static const uint8_t sought[5][32] = {{0}, {3}, {3, 0, 7}, {2}, {9}};
    static const uint32_t statuses[5] = {COMMONWARE_ABSENT, COMMONWARE_OK, COMMONWARE_OK,
                                         COMMONWARE_ABSENT, COMMONWARE_ABSENT};
    static const size_t indices[5] = {0, 1, 2, 1, 3};
    for (size_t i = 0; i < 5; i++) {
        const commonware_place_view view = commonware_committee_position(keys, 3, sought[i]);
        CHECK(is_place(view, statuses[i], indices[i]));
    }
    keys[66] = 0;
    CHECK(commonware_committee_read(OF(bytes), 0, 9).status == COMMONWARE_NOT_STRICT);
    keys[66] = 7;
    keys[0] = 4;
    keys[31] = 0;
    CHECK(commonware_committee_read(OF(bytes), 0, 9).status == COMMONWARE_NOT_STRICT);
}

/* Two keys of each size, of which the second is less by one, the same, and greater by one. */
static void test_set_order(void) {
    uint8_t bytes[1 + 2 * 96] = {2};
    for (size_t i = 0; i < SIZES; i++) {
        const size_t size = sizes[i], length = 1 + 2 * size;
        put_two(bytes + 1, size);
        for (uint8_t last = 0x21; last <= 0x23; last++) {
            bytes[2 * size] = last;
            const commonware_set_view view = commonware_set_read(size, bytes, length, 0, 9);
            CHECK(last == 0x23 ? is_set(view, COMMONWARE_OK, 2, 0, 1, 0)
                               : is_set(view, COMMONWARE_NOT_STRICT, 0, 0, 0, 0));
        }
    }
}

/* Keys that are out of order have an index that is the key's, or a gap. */
static void test_mixed_keys(void) {
    const uint8_t mixed[] = {5, 1, 9}, five[] = {5}, seven[] = {7};
    commonware_place_view view = commonware_set_position(OF(mixed), OF(five));
    CHECK(is_place(view, COMMONWARE_OK, 0) || is_place(view, COMMONWARE_ABSENT, 2));
    view = commonware_set_position(OF(mixed), OF(seven));
    CHECK(is_place(view, COMMONWARE_ABSENT, 2));
}

/* What two certificates of which the first, or the second, is NULL are refused for. */
static void test_no_certificate(void) {
    static const uint64_t weights[] = {40, 30, 20, 10};
    for (uint32_t which = 1; which <= 2; which++) {
        const uint8_t *const input = which == 1 ? NULL : first;
        const size_t length = which == 1 ? 0 : sizeof first;
        commonware_conflict_view view = commonware_conflict(3, 4, input, length, NULL, 0, NULL, 0);
        CHECK(view.status == COMMONWARE_END_OF_INPUT && view.which == which);
        view = commonware_equivocation(3, 4, input, length, NULL, 0, NULL, 0);
        CHECK(view.status == COMMONWARE_END_OF_INPUT && view.which == which);
        commonware_weighted_conflict_view weighted =
            commonware_weighted_conflict(3, OF(weights), input, length, NULL, 0, NULL, 0);
        CHECK(weighted.status == COMMONWARE_END_OF_INPUT && weighted.which == which);
        weighted =
            commonware_weighted_equivocation(3, OF(weights), input, length, NULL, 0, NULL, 0);
        CHECK(weighted.status == COMMONWARE_END_OF_INPUT && weighted.which == which);
    }
}

/* Writes a committee of this many keys, with room for it and for one byte less. */
static void write_keys(uint32_t count) {
    static uint8_t keys[300][32], bytes[COMMONWARE_COMMITTEE_SIZE(300)];
    for (uint32_t i = 0; i < count; i++) {
        keys[i][30] = (uint8_t)(i / 256);
        keys[i][31] = (uint8_t)i;
    }
    const size_t size = (count < 128 ? 1 : 2) + 32 * (size_t)count;
    commonware_written_view written =
        commonware_committee_encode_dedup(keys[0], count, bytes, size);
    CHECK(written.status == COMMONWARE_OK && written.count == count && written.size == size);
    CHECK(memcmp(bytes + size - 32 * (size_t)count, keys, 32 * (size_t)count) == 0);
    written = commonware_committee_encode_dedup(keys[0], count, bytes, size - 1);
    CHECK(written.status == COMMONWARE_ROOM && written.count == count && written.size == size);
}

/* Writes a count below 16384 in one byte, or in two. */
static void put_count(uint8_t *out, uint32_t count) {
    out[0] = (uint8_t)(count < 128 ? count : 128 | count % 128);
    if (count >= 128) {
        out[1] = (uint8_t)(count / 128);
    }
}

/* Reads a map of this many keys of 20 bytes to values of 3, and the set that it begins with, before
 * a byte; finds each key, and its value. */
static void read_pairs(uint32_t count) {
    static uint8_t bytes[2 + 300 * 20 + 2 + 300 * 3 + 1];
    const size_t head = count < 128 ? 1 : 2, values = 2 * head + 20 * (size_t)count;
    const size_t length = values + 3 * (size_t)count + 1;
    memset(bytes, 0, sizeof bytes);
    put_count(bytes, count);
    put_count(bytes + values - head, count);
    for (size_t i = 0; i < count; i++) {
        bytes[head + 20 * i + 18] = (uint8_t)(i / 256);
        bytes[head + 20 * i + 19] = (uint8_t)i;
        bytes[values + 3 * i + 2] = (uint8_t)(i + 7);
    }
    const commonware_set_view set = commonware_set_read(20, bytes, length, count, count);
    CHECK(is_set(set, COMMONWARE_OK, count, 0, head, length - head - 20 * (size_t)count));
    commonware_map_view map = commonware_map_read(20, 3, bytes, length, count, count);
    CHECK(is_map(map, COMMONWARE_OK, count, 0, head, values, 1));
    for (size_t i = 0; i < count; i++) {
        const uint8_t *const key = bytes + head + 20 * i;
        const commonware_place_view place =
            commonware_set_position(bytes + head, 20 * (size_t)count, key, 20);
        CHECK(is_place(place, COMMONWARE_OK, i));
        CHECK(bytes[map.values + 3 * place.index + 2] == (uint8_t)(i + 7));
    }
    map = commonware_map_read(20, 3, bytes, length - 2, 0, SIZE_MAX);
    CHECK(count == 0 || is_map(map, COMMONWARE_END_OF_INPUT, 0, 0, 0, 0, 0));
}

/* Writes and reads certificates that this many members signed, and finds that all of them signed
 * both, with room for the result and for one element less. */
static void use_signers(uint32_t count) {
    static uint8_t value[400], bytes[2][COMMONWARE_CERTIFICATE_SIZE(400, 300)];
    static uint32_t signers[300], out[300];
    for (uint32_t i = 0; i < count; i++) {
        signers[i] = i;
    }
    /* The length of the value and the value, a number of one or two bytes, and one or two for each
     * index. */
    const size_t size = 402 + (count < 128 ? 1u : 2u) + count + (count < 128 ? 0 : count - 128);
    for (uint8_t i = 0; i < 2; i++) {
        value[399] = i;
        commonware_written_view written =
            commonware_certificate_encode(OF(value), signers, count, bytes[i], size - 1);
        CHECK(written.status == COMMONWARE_ROOM && written.count == count && written.size == size);
        written = commonware_certificate_encode(OF(value), signers, count, bytes[i], size);
        CHECK(written.status == COMMONWARE_OK && written.count == count && written.size == size);
    }
    for (uint32_t less = 0; less < 2 && less <= count; less++) {
        memset(out, 0xee, sizeof out);
        const uint32_t status = less == 0 ? COMMONWARE_OK : COMMONWARE_ROOM;
        const commonware_certificate_view view =
            commonware_certificate_read(bytes[1], size, 400, count, out, count - less);
        CHECK(view.status == status && view.signers == count && view.left == 0);
        CHECK(view.value_start == 2 && view.value_length == 400);
        CHECK(count == 0 || less == 1 || memcmp(out, signers, count * sizeof *out) == 0);
        const commonware_conflict_view both =
            commonware_conflict(3, count, bytes[0], size, bytes[1], size, out, count - less);
        CHECK(both.status == (count == 0 ? COMMONWARE_NO_MEMBERS : status) && both.count == count);
        CHECK(both.which == 0 && both.number == 0);
        CHECK(less == 0 || out[0] == 0xeeeeeeee);
    }
}

/* Each number of keys, of pairs and of signers up to 300. */
static void test_sizes(void) {
    for (uint32_t count = 0; count <= 300; count++) {
        write_keys(count);
        read_pairs(count);
        use_signers(count);
    }
}

/* Each request refused in turn, with all after it, until a run has none refused. */
static void test_memory(void) {
    uint8_t keys[5][32] = {{5}, {4}, {3}, {2}, {1}};
    uint8_t committee[COMMONWARE_COMMITTEE_SIZE(5)];
    const uint8_t empty[] = {0, 0};
    uint32_t out[4];
    const uint64_t weights[] = {10, 20, 30, 40};
    for (int call = 0; call < 15; call++) {
        for (allowed = 0;; allowed++) {
            requests = 0;
            memset(out, 0xee, sizeof out);
            memset(committee, 0xee, sizeof committee);
            committee[0] = 0;
            const uint32_t status =
                call == 0   ? commonware_committee_encode_dedup(keys[0], 5, OF(committee)).status
                : call == 1 ? commonware_certificate_read(OF(first), 32, 256, OF(out)).status
                : call == 2 ? commonware_conflict(3, 4, OF(first), OF(second), OF(out)).status
                : call == 3 ? commonware_committee_read(OF(committee), 0, 256).status
                : call == 4 ? commonware_committee_position(keys[0], 5, keys[2]).status
                : call == 5 ? commonware_certificate_encode(NULL, 0, NULL, 0, OF(committee)).status
                : call == 6 ? commonware_set_read(20, OF(committee), 0, 256).status
                : call == 7 ? commonware_map_read(20, 8, OF(empty), 0, 256).status
                : call == 8 ? commonware_set_position(keys[0], 32, keys[0], 32).status
                : call == 9 ? commonware_set_encode_dedup(32, keys[0], 160, OF(committee)).status
                : call == 10
                    ? commonware_map_encode_dedup(20, 12, keys[0], 160, OF(committee)).status
                : call == 11 ? commonware_map_encode(20, 12, keys[0], 160, OF(committee)).status
                : call == 12 ? commonware_weights_quorum(3, OF(weights)).status
                : call == 13
                    ? commonware_weighted_check(2, OF(weights), OF(first)).status
                    : commonware_weighted_conflict(2, OF(weights), OF(first), OF(second), OF(out))
                          .status;
            CHECK(live == 0);
            if (status == COMMONWARE_OK) {
                break;
            }
            CHECK(status == COMMONWARE_MEMORY && out[0] == 0xeeeeeeee && committee[1] == 0xee);
            if (status != COMMONWARE_MEMORY) {
                break;
            }
        }
        CHECK(allowed == requests && (allowed > 0) == (call == 0 || (call > 8 && call < 12)));
        printf("call %d: each of %zu requests refused\n", call, allowed);
    }
    /* Keys in order, each once, take no memory, nor do pairs of such keys. */
    uint8_t rising[3][32] = {{1}, {2}, {3}};
    requests = 0;
    for (size_t count = 0; count <= 3; count++) {
        CHECK(commonware_committee_encode_dedup(rising[0], count, OF(committee)).status ==
              COMMONWARE_OK);
        CHECK(commonware_set_encode_dedup(32, rising[0], 32 * count, OF(committee)).status ==
              COMMONWARE_OK);
        CHECK(commonware_map_encode_dedup(20, 12, rising[0], 32 * count, OF(committee)).status ==
              COMMONWARE_OK);
        CHECK(commonware_map_encode(20, 12, rising[0], 32 * count, OF(committee)).status ==
              COMMONWARE_OK);
    }
    CHECK(requests == 0);
    allowed = SIZE_MAX;
}

/* The number is made of the parts, here of those of 2.23.456. */
#undef COMMONWARE_VERSION_MINOR
#undef COMMONWARE_VERSION_PATCH
#define COMMONWARE_VERSION_MINOR 23
#define COMMONWARE_VERSION_PATCH 456
#if COMMONWARE_VERSION != 2023456
#error "COMMONWARE_VERSION isn't made of the parts"
#endif

int main(void) {
    RUN(test_version);
    RUN(test_status_text);
    RUN(test_models);
    RUN(test_committee_order);
    RUN(test_set_order);
    RUN(test_mixed_keys);
    RUN(test_no_certificate);
    RUN(test_sizes);
    RUN(test_memory);
    return report();
}
