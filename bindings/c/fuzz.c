/* The readers and writers beside a decoder that is written from docs/FORMAT.md alone. The data of a
 * case is three bytes of limits and then the input of the calls.
 *
 * clang -fsanitize=fuzzer makes a fuzzer of it. With COMMONWARE_DRIVER it has a main of its own,
 * which takes a number n and files: it tries each file, and n random changes of each. */
#include "decoder.h"

#include <stdbool.h>
#include <stdio.h>
#include <stdlib.h>
#include <string.h>

int LLVMFuzzerTestOneInput(const uint8_t *data, size_t size);

static void require(bool holds, const char *what, int line) {
    if (!holds) {
        fprintf(stderr, "fuzz.c:%d: %s\n", line, what);
        abort();
    }
}

#define REQUIRE(condition) require((condition), #condition, __LINE__)

/* At least one element, so that no allocation is of 0 bytes. */
static void *room(size_t elements, size_t size) {
    void *block = malloc((elements + 1) * size);
    REQUIRE(block != NULL);
    memset(block, 0xee, (elements + 1) * size);
    return block;
}

static void try_index(const uint8_t *members, uint32_t count, const uint8_t *key) {
    const commonware_place_view view = commonware_committee_position(members, count, key);
    size_t place = 0;
    while (place < count && memcmp(members + 32 * place, key, 32) < 0) {
        place++;
    }
    const bool is_there = place < count && memcmp(members + 32 * place, key, 32) == 0;
    REQUIRE(view.status == (is_there ? COMMONWARE_OK : COMMONWARE_ABSENT) && view.index == place);
}

static void try_committee(const uint8_t *input, size_t length, size_t least, size_t most) {
    struct rest rest = {input, length};
    uint32_t count = 0;
    const uint32_t status = decode_set(&rest, 32, least, most, &count);
    const commonware_committee_view view = commonware_committee_read(input, length, least, most);
    REQUIRE(view.status == status);
    REQUIRE(status != COMMONWARE_INVALID_LENGTH || view.number == count);
    if (status != COMMONWARE_OK) {
        return;
    }
    REQUIRE(view.count == count && view.left == rest.length);
    REQUIRE(view.start + 32 * (size_t)count + rest.length == length);
    const uint8_t *members = input + view.start;
    if (length >= 32) {
        try_index(members, count, input);
        try_index(members, count, input + length - 32);
    }
    /* From the last to the first, and then all again. */
    uint8_t *keys = room(2 * (size_t)count, 32);
    for (size_t i = 0; i < count; i++) {
        memcpy(keys + 32 * (count - 1 - i), members + 32 * i, 32);
        memcpy(keys + 32 * (count + i), members + 32 * i, 32);
    }
    const size_t size = length - rest.length;
    uint8_t *out = room(size, 1);
    commonware_written_view written =
        commonware_committee_encode_dedup(keys, 2 * (size_t)count, out, size - 1);
    REQUIRE(written.status == COMMONWARE_ROOM && written.size == size && out[0] == 0xee);
    written = commonware_committee_encode_dedup(keys, 2 * (size_t)count, out, size);
    REQUIRE(written.status == COMMONWARE_OK && written.size == size && written.count == count);
    REQUIRE(memcmp(out, input, size) == 0 && out[size] == 0xee);
    free(keys);
    free(out);
}

/* The place of a key among some in order, and that of keys which differ from one in a byte. */
static void try_keys(const uint8_t *keys, uint32_t count, size_t size, const uint8_t *input) {
    uint8_t *key = room(size, 1);
    for (uint32_t i = 0; i <= count; i++) {
        memcpy(key, i < count ? keys + i * size : input, size);
        for (size_t change = 0; change < 3; change++) {
            key[(i + change) % size] ^= (uint8_t)(change << 7 | change >> 1);
            uint32_t place = 0;
            while (place < count && memcmp(keys + place * size, key, size) < 0) {
                place++;
            }
            const bool is_there = place < count && memcmp(keys + place * size, key, size) == 0;
            const commonware_place_view view =
                commonware_set_position(keys, count * size, key, size);
            REQUIRE(view.status == (is_there ? COMMONWARE_OK : COMMONWARE_ABSENT));
            REQUIRE(view.index == place);
        }
    }
    free(key);
}

/* From the last to the first, and then all again, which are written as they stand in the input. */
static void try_set_encode_dedup(const uint8_t *keys, uint32_t count, size_t size,
                                 const uint8_t *set, size_t length) {
    const size_t bytes = count * size;
    uint8_t *given = room(2 * bytes, 1), *out = room(length, 1);
    for (uint32_t i = 0; i < count; i++) {
        memcpy(given + (count - 1 - i) * size, keys + i * size, size);
    }
    memcpy(given + bytes, keys, bytes);
    commonware_written_view view =
        commonware_set_encode_dedup(size, given, 2 * bytes, out, length - 1);
    REQUIRE(view.status == COMMONWARE_ROOM && view.size == length && view.count == count);
    REQUIRE(view.number == 0 && out[0] == 0xee);
    view = commonware_set_encode_dedup(size, given, 2 * bytes, out, length);
    REQUIRE(view.status == COMMONWARE_OK && view.size == length && view.count == count);
    REQUIRE(view.number == 0 && memcmp(out, set, length) == 0 && out[length] == 0xee);
    free(given);
    free(out);
}

static void try_set(size_t size, const uint8_t *input, size_t length, size_t least, size_t most) {
    struct rest rest = {input, length};
    uint32_t count = 0;
    const uint32_t status = decode_set(&rest, size, least, most, &count);
    const commonware_set_view view = commonware_set_read(size, input, length, least, most);
    REQUIRE(view.status == status);
    REQUIRE(view.number == (status == COMMONWARE_INVALID_LENGTH ? count : 0));
    if (status != COMMONWARE_OK) {
        REQUIRE(view.count == 0 && view.start == 0 && view.left == 0);
        return;
    }
    REQUIRE(view.count == count && view.left == rest.length && view.start <= length);
    REQUIRE(view.count == 0 || size <= (length - view.start) / view.count);
    REQUIRE(view.start + view.count * size + view.left == length);
    const uint8_t *keys = input + view.start;
    for (uint32_t i = 1; i < count; i++) {
        REQUIRE(memcmp(keys + (i - 1) * size, keys + i * size, size) < 0);
    }
    if (size > 0 && size <= length) {
        try_keys(keys, count, size, input);
        try_set_encode_dedup(keys, count, size, input, length - rest.length);
    }
}

static void try_map(size_t key_size, size_t value_size, const uint8_t *input, size_t length,
                    size_t least, size_t most) {
    struct rest rest = {input, length};
    uint32_t count = 0, stated = 0;
    bool strict = true;
    uint32_t status = decode_set(&rest, key_size, least, most, &count);
    const uint8_t *values = NULL;
    if (status != COMMONWARE_OK) {
        stated = count;
    } else {
        status = decode_length(&rest, count, count, &stated);
        values = rest.bytes;
        if (status == COMMONWARE_OK) {
            status = decode_items(&rest, value_size, count, &strict);
        }
    }
    const commonware_map_view view =
        commonware_map_read(key_size, value_size, input, length, least, most);
    REQUIRE(view.status == status);
    REQUIRE(view.number == (status == COMMONWARE_INVALID_LENGTH ? stated : 0));
    if (status != COMMONWARE_OK) {
        REQUIRE(view.count == 0 && view.keys == 0 && view.values == 0 && view.left == 0);
        return;
    }
    REQUIRE(view.count == count && view.left == rest.length && input + view.values == values);
    REQUIRE(view.keys + count * key_size < view.values);
    REQUIRE(view.values + count * value_size + view.left == length);
    const commonware_set_view set = commonware_set_read(key_size, input, length, least, most);
    REQUIRE(set.status == COMMONWARE_OK && set.start == view.keys && set.count == count);
}

/* Of a map that was found: all its pairs as a bimap, whose indices have to be in the order of the
 * values. */
static void try_pairs(commonware_map_view map, size_t value_size, commonware_bimap_view view,
                      const uint8_t *input, const uint32_t *indices) {
    const uint8_t *values = input + map.values;
    size_t first = 0, second = map.count;
    for (uint32_t i = 0; i < map.count; i++) {
        REQUIRE(indices[i] < map.count);
        if (i > 0) {
            const size_t one = indices[i - 1], other = indices[i];
            const int order =
                memcmp(values + one * value_size, values + other * value_size, value_size);
            REQUIRE(order < 0 || (order == 0 && one < other));
            if (order == 0 && other < second) {
                first = one;
                second = other;
            }
        }
    }
    REQUIRE(view.status == (second < map.count ? COMMONWARE_REPEATED_VALUE : COMMONWARE_OK));
    if (view.status == COMMONWARE_OK) {
        REQUIRE(view.count == map.count && view.keys == map.keys && view.values == map.values);
        REQUIRE(view.left == map.left && view.first == 0 && view.second == 0);
    } else {
        REQUIRE(view.first == first && view.second == second && view.count == 0);
    }
}

static void try_bimap(size_t key_size, size_t value_size, const uint8_t *input, size_t length,
                      size_t least, size_t most) {
    const commonware_map_view map =
        commonware_map_read(key_size, value_size, input, length, least, most);
    const size_t places = map.count;
    uint32_t *indices = room(places + 1, sizeof(uint32_t));
    commonware_bimap_view view = commonware_bimap_read(key_size, value_size, input, length, least,
                                                       most, indices, places - (places > 0));
    REQUIRE(indices[0] == 0xeeeeeeee);
    if (map.status == COMMONWARE_OK && places > 0) {
        REQUIRE(view.status == COMMONWARE_ROOM && view.number == places && view.count == 0);
        view = commonware_bimap_read(key_size, value_size, input, length, least, most, indices,
                                     places);
    }
    if (map.status == COMMONWARE_OK) {
        REQUIRE(view.number == 0 && indices[places] == 0xeeeeeeee);
        try_pairs(map, value_size, view, input, indices);
    } else {
        REQUIRE(view.status == map.status && view.number == map.number && view.count == 0);
        REQUIRE(view.keys == 0 && view.values == 0 && view.left == 0);
        REQUIRE(view.first == 0 && view.second == 0);
    }
    free(indices);
}

/* Any bytes as a list of keys, whose first is sought: not whole ones, or in any order. */
static void try_list(size_t size, const uint8_t *input, size_t length) {
    const size_t count = size > 0 ? length / size : 0;
    if (size > length) {
        return;
    }
    const commonware_place_view view = commonware_set_position(input, length, input, size);
    if (size == 0) {
        REQUIRE(view.status == COMMONWARE_NO_SIZE && view.index == 0);
    } else if (length % size > 0) {
        REQUIRE(view.status == COMMONWARE_NOT_WHOLE && view.index == 0);
    } else if (view.status == COMMONWARE_OK) {
        REQUIRE(view.index < count && memcmp(input + view.index * size, input, size) == 0);
    } else {
        REQUIRE(view.status == COMMONWARE_ABSENT && view.index <= count);
        const uint8_t *at = input + view.index * size;
        REQUIRE(view.index == 0 || memcmp(at - size, input, size) < 0);
        REQUIRE(view.index == count || memcmp(at, input, size) > 0);
    }
}

/* Rows of a key and a value, one after another. */
struct rows {
    const uint8_t *bytes;
    size_t key_size, value_size, count;
};

static const uint8_t *row_at(struct rows rows, size_t index) {
    return rows.bytes + index * (rows.key_size + rows.value_size);
}

/* The index of the first row with the key of a row, which may be that one. */
static size_t first_with_key(struct rows rows, size_t index) {
    size_t first = 0;
    while (memcmp(row_at(rows, first), row_at(rows, index), rows.key_size) != 0) {
        first++;
    }
    return first;
}

/* A map that was written of rows: it has this number of pairs, and each key has the value of the
 * first row with it. */
static void try_written(struct rows rows, commonware_written_view view, const uint8_t *out,
                        size_t count) {
    REQUIRE(view.status == COMMONWARE_OK && view.count == count && view.number == 0);
    REQUIRE(out[view.size] == 0xee);
    const commonware_map_view map =
        commonware_map_read(rows.key_size, rows.value_size, out, view.size, count, count);
    REQUIRE(map.status == COMMONWARE_OK && map.left == 0);
    for (size_t i = 0; i < rows.count; i++) {
        const commonware_place_view place = commonware_set_position(
            out + map.keys, count * rows.key_size, row_at(rows, i), rows.key_size);
        REQUIRE(place.status == COMMONWARE_OK);
        const uint8_t *value = row_at(rows, first_with_key(rows, i)) + rows.key_size;
        REQUIRE(memcmp(out + map.values + place.index * rows.value_size, value, rows.value_size) ==
                0);
    }
}

/* Any bytes as rows: of rows with one key the first is written, or the first row that has the key
 * of an earlier one is told. */
static void try_rows(size_t key_size, size_t value_size, const uint8_t *input, size_t length) {
    const size_t size = key_size + value_size;
    if (key_size == 0 || key_size > length || size > length || length % size > 0) {
        return;
    }
    const struct rows rows = {input, key_size, value_size, length / size};
    const size_t most = 10 + length;
    size_t distinct = 0, repeat = rows.count;
    for (size_t i = rows.count; i > 0; i--) {
        const bool is_first = first_with_key(rows, i - 1) == i - 1;
        distinct += is_first;
        repeat = is_first ? repeat : i - 1;
    }
    uint8_t *out = room(most, 1);
    try_written(rows, commonware_map_encode_dedup(key_size, value_size, input, length, out, most),
                out, distinct);
    memset(out, 0xee, most);
    const commonware_written_view view =
        commonware_map_encode(key_size, value_size, input, length, out, most);
    if (repeat == rows.count) {
        try_written(rows, view, out, rows.count);
    } else {
        REQUIRE(view.status == COMMONWARE_REPEATED_KEY && view.number == repeat);
        REQUIRE(view.count == 0 && view.size == 0 && out[0] == 0xee);
    }
    free(out);
}

/* Sizes that are in use, small ones, and some of which few keys have 2^64 bytes and more. */
static const size_t sizes[] = {0, 1, 2, 3, 7, 8, 9, 16, 20, 32, 33, 48, 96,
                               SIZE_MAX, SIZE_MAX / 2 + 1, SIZE_MAX / 4 + 2, SIZE_MAX / 8 + 1};

/* `value` is a size of values, and says which of the others goes with which size of keys. */
static void try_sizes(const uint8_t *input, size_t length, size_t low, size_t high, size_t value) {
    const size_t all = sizeof sizes / sizeof *sizes;
    for (size_t i = 0; i < all; i++) {
        try_set(sizes[i], input, length, low, high);
        try_set(sizes[i], input, length, 0, SIZE_MAX);
        try_list(sizes[i], input, length);
        try_rows(sizes[i], value, input, length);
        try_map(sizes[i], sizes[(i + value) % all], input, length, low, high);
        try_map(sizes[i], value, input, length, 0, SIZE_MAX);
        try_bimap(sizes[i], sizes[(i + value) % all], input, length, low, high);
        try_bimap(sizes[i], value, input, length, 0, SIZE_MAX);
    }
}

static void try_certificate(const uint8_t *input, size_t length, size_t most_bytes,
                            size_t most_signers) {
    struct rest rest = {input, length};
    struct parts parts = {NULL, 0, 0, room(length, sizeof(uint32_t))};
    uint32_t stated = 0;
    const uint32_t status = decode_certificate(&rest, most_bytes, most_signers, &parts, &stated);
    uint32_t *signers = room(length, sizeof(uint32_t));
    commonware_certificate_view view =
        commonware_certificate_read(input, length, most_bytes, most_signers, signers, length);
    REQUIRE(view.status == status);
    REQUIRE(status != COMMONWARE_INVALID_LENGTH || view.number == stated);
    REQUIRE(status == COMMONWARE_OK || signers[0] == 0xeeeeeeee);
    if (status == COMMONWARE_OK) {
        REQUIRE(view.signers == parts.count && view.left == rest.length);
        REQUIRE(input + view.value_start == parts.value && view.value_length == parts.value_length);
        REQUIRE(memcmp(signers, parts.signers, 4 * (size_t)parts.count) == 0);
        const size_t size = length - rest.length;
        uint8_t *out = room(size, 1);
        commonware_written_view written = commonware_certificate_encode(
            parts.value, parts.value_length, signers, parts.count, out, size - 1);
        REQUIRE(written.status == COMMONWARE_ROOM && written.size == size && out[0] == 0xee);
        written = commonware_certificate_encode(parts.value, parts.value_length, signers,
                                                parts.count, out, size);
        REQUIRE(written.status == COMMONWARE_OK && written.size == size);
        REQUIRE(memcmp(out, input, size) == 0 && out[size] == 0xee);
        free(out);
        if (parts.count > 0) {
            const size_t short_by_one = parts.count - 1;
            view = commonware_certificate_read(input, length, most_bytes, most_signers, signers,
                                               short_by_one);
            REQUIRE(view.status == COMMONWARE_ROOM && view.signers == parts.count);
        }
    }
    free(parts.signers);
    free(signers);
}

/* Indices as they come, which are seldom in order. */
static void try_indices(const uint8_t *input, size_t length, size_t value_length) {
    const size_t count = (length - value_length) / 4;
    uint32_t *signers = room(count, sizeof(uint32_t));
    memcpy(signers, input + value_length, 4 * count);
    const size_t most = COMMONWARE_CERTIFICATE_SIZE(value_length, count);
    uint8_t *out = room(most, 1);
    size_t place = 1;
    while (place < count && signers[place - 1] < signers[place]) {
        place++;
    }
    const commonware_written_view view =
        commonware_certificate_encode(input, value_length, signers, count, out, most);
    if (place < count) {
        REQUIRE(view.status == COMMONWARE_NOT_STRICT && view.number == place && out[0] == 0xee);
    } else {
        REQUIRE(view.status == COMMONWARE_OK);
        try_certificate(out, view.size, SIZE_MAX, SIZE_MAX);
    }
    free(signers);
    free(out);
}

/* The k of a model, how many members there are, and what each of them weighs, or NULL. */
struct committee {
    uint32_t k, members;
    const uint64_t *weights;
};

static bool has_outsider(const struct parts *parts, uint32_t members) {
    return parts->count > 0 && parts->signers[parts->count - 1] >= members;
}

/* A status, the input that it is about, and its number. */
struct verdict {
    uint32_t status, which;
    size_t number;
};

static const struct verdict no_fault = {COMMONWARE_OK, 0, 0};

static struct verdict fault(uint32_t status, uint32_t which, size_t number) {
    return (struct verdict){status, which, number};
}

/* What signers weigh that are members: their number, where the members have no weights. */
static uint64_t weight_of(struct committee it, const uint32_t *signers, size_t count) {
    uint64_t weight = it.weights == NULL ? count : 0;
    for (size_t i = 0; it.weights != NULL && i < count; i++) {
        weight += it.weights[signers[i]];
    }
    return weight;
}

/* Whether there is a model, and members, with weights whose sum fits; and what they weigh. */
static struct verdict judge_committee(struct committee it, uint64_t *total) {
    if (it.k < 2 || it.members == 0) {
        return fault(it.k < 2 ? COMMONWARE_NO_MODEL : COMMONWARE_NO_MEMBERS, 0, 0);
    }
    *total = it.weights == NULL ? it.members : 0;
    for (uint32_t i = 0; it.weights != NULL && i < it.members; i++) {
        if (it.weights[i] == 0) {
            return fault(COMMONWARE_ZERO_WEIGHT, 0, i);
        }
        if (it.weights[i] > UINT64_MAX - *total) {
            return fault(COMMONWARE_WEIGHT_OVERFLOW, 0, i);
        }
        *total += it.weights[i];
    }
    return no_fault;
}

/* Finds the slot of a value and the decision after it. */
static bool find_slot(const struct parts *parts, struct rest *slot, struct rest *decision) {
    struct rest rest = {parts->value, parts->value_length};
    uint32_t length = 0;
    if (decode_varint(&rest, &length) != COMMONWARE_OK || rest.length < length) {
        return false;
    }
    *slot = (struct rest){rest.bytes, length};
    *decision = (struct rest){rest.bytes + length, rest.length - length};
    return true;
}

static bool are_same(struct rest one, struct rest other) {
    return one.length == other.length &&
           (one.length == 0 || memcmp(one.bytes, other.bytes, one.length) == 0);
}

/* What two values are to one another: of a conflict, or of an equivocation. */
static struct verdict judge_values(const struct parts *parts, bool by_slot) {
    struct rest slots[2], decisions[2];
    if (!by_slot) {
        const struct rest values[2] = {{parts[0].value, parts[0].value_length},
                                       {parts[1].value, parts[1].value_length}};
        return fault(are_same(values[0], values[1]) ? COMMONWARE_SAME_VALUE : COMMONWARE_OK, 0, 0);
    }
    for (uint32_t i = 0; i < 2; i++) {
        if (!find_slot(&parts[i], &slots[i], &decisions[i])) {
            return fault(COMMONWARE_NO_SLOT, i + 1, 0);
        }
    }
    if (!are_same(slots[0], slots[1])) {
        return fault(COMMONWARE_OTHER_SLOT, 0, 0);
    }
    const bool is_same = are_same(decisions[0], decisions[1]);
    return fault(is_same ? COMMONWARE_SAME_VALUE : COMMONWARE_OK, 0, 0);
}

/* Whether the signers are members, and a quorum of this total or more, one list after the other. */
static struct verdict judge_signers(const struct parts *parts, uint32_t lists,
                                    struct committee it, uint64_t total) {
    for (uint32_t i = 0; i < lists; i++) {
        if (has_outsider(&parts[i], it.members)) {
            return fault(COMMONWARE_OUTSIDE, i + 1, 0);
        }
    }
    for (uint32_t i = 0; i < lists; i++) {
        if (weight_of(it, parts[i].signers, parts[i].count) < total - (total - 1) / it.k) {
            const bool by_weight = it.weights != NULL;
            return fault(by_weight ? COMMONWARE_TOO_LIGHT : COMMONWARE_TOO_FEW, i + 1, 0);
        }
    }
    return no_fault;
}

/* Decodes an input that is exactly one certificate: of two the one of this number, else 0. */
static struct verdict decode_whole(struct rest rest, struct parts *parts, uint32_t which) {
    uint32_t stated = 0;
    const uint32_t status = decode_certificate(&rest, SIZE_MAX, SIZE_MAX, parts, &stated);
    if (status != COMMONWARE_OK) {
        return fault(status, which, 0);
    }
    return rest.length == 0 ? no_fault : fault(COMMONWARE_LEFT_OVER, which, rest.length);
}

/* Calls the library for two inputs. Where the members have no weights, each weighs 1. */
static commonware_weighted_conflict_view call_both(struct committee it, const struct rest *rests,
                                                   bool by_slot, uint32_t *out, size_t places) {
    const struct rest one = rests[0], two = rests[1];
    if (it.weights != NULL) {
        return (by_slot ? commonware_weighted_equivocation : commonware_weighted_conflict)(
            it.k, it.weights, it.members, one.bytes, one.length, two.bytes, two.length, out,
            places);
    }
    const commonware_conflict_view view =
        (by_slot ? commonware_equivocation : commonware_conflict)(
            it.k, it.members, one.bytes, one.length, two.bytes, two.length, out, places);
    const size_t weight = view.status == COMMONWARE_OK ? view.count : 0;
    return (commonware_weighted_conflict_view){view.status, view.which, view.number, view.count,
                                               weight};
}

/* The members that signed both of two inputs: the bytes before a place, and those from it on. */
static void try_both(struct committee it, const uint8_t *input, size_t length, size_t place,
                     bool by_slot) {
    const struct rest rests[2] = {{input, place}, {input + place, length - place}};
    struct parts parts[2];
    uint64_t total = 0;
    struct verdict wanted = judge_committee(it, &total);
    for (uint32_t i = 0; i < 2; i++) {
        parts[i].signers = room(length, sizeof(uint32_t));
        parts[i].count = 0;
        wanted = wanted.status == COMMONWARE_OK ? decode_whole(rests[i], &parts[i], i + 1) : wanted;
    }
    if (wanted.status == COMMONWARE_OK) {
        wanted = judge_values(parts, by_slot);
        wanted = wanted.status == COMMONWARE_OK ? judge_signers(parts, 2, it, total) : wanted;
    }
    size_t both = 0;
    uint32_t *out = room(length, sizeof(uint32_t));
    commonware_weighted_conflict_view view = call_both(it, rests, by_slot, out, length);
    REQUIRE(view.status == wanted.status && view.which == wanted.which);
    REQUIRE(view.number == wanted.number);
    for (uint32_t i = 0; view.status == COMMONWARE_OK && i < parts[0].count; i++) {
        for (uint32_t j = 0; j < parts[1].count; j++) {
            if (parts[0].signers[i] == parts[1].signers[j]) {
                REQUIRE(out[both++] == parts[0].signers[i]);
            }
        }
    }
    REQUIRE(view.count == both);
    if (view.status == COMMONWARE_OK) {
        REQUIRE(out[both] == 0xeeeeeeee && view.weight == weight_of(it, out, both));
        REQUIRE(view.weight >= (it.k - 2) * ((total - 1) / it.k) + 1);
        view = call_both(it, rests, by_slot, out, both);
        REQUIRE(view.status == COMMONWARE_OK && view.count == both);
        out[0] = 0xeeeeeeee;
        view = call_both(it, rests, by_slot, out, both - 1);
        REQUIRE(view.status == COMMONWARE_ROOM && view.count == both);
    }
    REQUIRE(out[0] == 0xeeeeeeee && view.weight == 0);
    free(parts[0].signers);
    free(parts[1].signers);
    free(out);
}

/* Calls the library for one input. Where the members have no weights, each weighs 1. */
static commonware_weighted_check_view call_check(struct committee it, const uint8_t *input,
                                                 size_t length) {
    if (it.weights != NULL) {
        return commonware_weighted_check(it.k, it.weights, it.members, input, length);
    }
    const commonware_check_view counted = commonware_check(it.k, it.members, input, length);
    /* The fields of that view come first. */
    commonware_weighted_check_view view = {.weight = counted.signers};
    memcpy(&view, &counted, sizeof counted);
    return view;
}

/* Whether the input is the certificate of a quorum, and where its parts are. */
static void try_check(struct committee it, const uint8_t *input, size_t length) {
    struct parts parts = {NULL, 0, 0, room(length, sizeof(uint32_t))};
    struct rest slot = {NULL, 0}, decision = {NULL, 0}, rest = {input, length};
    uint64_t total = 0;
    struct verdict wanted = judge_committee(it, &total);
    wanted = wanted.status == COMMONWARE_OK ? decode_whole(rest, &parts, 0) : wanted;
    wanted = wanted.status == COMMONWARE_OK ? judge_signers(&parts, 1, it, total) : wanted;
    const commonware_weighted_check_view view = call_check(it, input, length);
    REQUIRE(view.status == wanted.status && view.number == wanted.number);
    if (view.status == COMMONWARE_OK) {
        REQUIRE(view.weight == weight_of(it, parts.signers, parts.count));
        REQUIRE(view.signers == parts.count && input + view.value_start == parts.value);
        REQUIRE(view.value_length == parts.value_length);
        const bool has_slot = find_slot(&parts, &slot, &decision);
        REQUIRE(has_slot == (view.slot_start > 0));
        REQUIRE(!has_slot || input + view.slot_start == slot.bytes);
        REQUIRE(!has_slot || input + view.decision_start == decision.bytes);
        REQUIRE(view.slot_length == slot.length && view.decision_length == decision.length);
    }
    free(parts.signers);
}

/* The numbers of weights. */
static void try_weights(struct committee it) {
    uint64_t total = 0;
    const struct verdict wanted = judge_committee(it, &total);
    const commonware_weights_view view = commonware_weights_quorum(it.k, it.weights, it.members);
    REQUIRE(view.status == wanted.status && view.number == wanted.number);
    const bool is_ok = view.status == COMMONWARE_OK;
    const uint64_t tolerated = is_ok ? (total - 1) / it.k : 0;
    REQUIRE(view.total == (is_ok ? total : 0) && view.tolerated == tolerated);
    REQUIRE(view.quorum == (is_ok ? total - tolerated : 0));
    REQUIRE(view.smaller_quorum == (is_ok ? 2 * tolerated + 1 : 0));
}

/* All that is asked of a committee: without weights, and with the bytes of the input as weights, as
 * they are, or with 1 added, and so many bits moved up that few or many sums overflow. */
static void try_committees(uint32_t k, uint32_t members, const uint8_t *input, size_t length,
                           size_t place) {
    uint64_t *weights = room(members, sizeof(uint64_t));
    for (unsigned form = 0; form < 5; form++) {
        for (uint32_t i = 0; i < members; i++) {
            const uint64_t byte = input[i % length];
            weights[i] = form == 0 ? byte : (byte + 1) << (form - 1) * 18;
        }
        const struct committee it = {k, members, form < 4 ? weights : NULL};
        try_both(it, input, length, place, false);
        try_both(it, input, length, place, true);
        try_check(it, input, length);
        if (it.weights != NULL) {
            try_weights(it);
        }
    }
    free(weights);
}

int LLVMFuzzerTestOneInput(const uint8_t *data, size_t size) {
    if (size < 4) {
        return 0;
    }
    const size_t low = data[0], high = data[1], length = size - 3;
    const uint32_t k = data[2] % 8;
    uint8_t *input = room(length, 1);
    memcpy(input, data + 3, length);
    try_committee(input, length, low, high);
    try_committee(input, length, 0, SIZE_MAX);
    try_sizes(input, length, low, high, k);
    try_certificate(input, length, low, high);
    try_certificate(input, length, SIZE_MAX, SIZE_MAX);
    try_indices(input, length, low < length ? low : length);
    try_committees(k, (uint32_t)high, input, length, low < length ? low : length);
    /* Of few members few signers are a quorum. */
    try_committees(k, (uint32_t)high % 5, input, length, low < length ? low : length);
    free(input);
    return 0;
}

#ifdef COMMONWARE_DRIVER
static uint64_t state = 88172645463325252u;

static size_t below(size_t n) {
    state ^= state << 13;
    state ^= state >> 7;
    state ^= state << 17;
    return (size_t)(state >> 11) % n;
}

/* Changes, drops or adds some bytes; returns the new length. */
static size_t change(uint8_t *bytes, size_t length, size_t most) {
    for (size_t changes = 1 + below(4); changes > 0; changes--) {
        const size_t at = below(length);
        switch (below(4)) {
        case 0:
            bytes[at] = (uint8_t)below(256);
            break;
        case 1:
            bytes[at] ^= (uint8_t)(1 << below(8));
            break;
        case 2:
            length = length > 4 ? length - 1 : length;
            break;
        default:
            if (length < most) {
                memmove(bytes + at + 1, bytes + at, length - at);
                length++;
            }
        }
    }
    return length;
}

int main(int argc, char **argv) {
    static uint8_t bytes[1 << 16], changed[1 << 16];
    const long changes = argc > 1 ? strtol(argv[1], NULL, 10) : 0;
    unsigned long tried = 0;
    for (int i = 2; i < argc; i++) {
        FILE *file = fopen(argv[i], "rb");
        REQUIRE(file != NULL);
        const size_t length = fread(bytes, 1, sizeof bytes / 2, file);
        REQUIRE(fclose(file) == 0 && length > 0);
        LLVMFuzzerTestOneInput(bytes, length);
        tried++;
        for (long j = 0; j < changes; j++) {
            memcpy(changed, bytes, length);
            LLVMFuzzerTestOneInput(changed, change(changed, length, sizeof changed));
            tried++;
        }
    }
    printf("%lu inputs\n", tried);
    return 0;
}
#endif
