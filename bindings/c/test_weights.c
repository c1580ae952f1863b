/* Calls the functions that take weights where the vectors of native calls (test_vectors.c) don't:
 * each part of an input before a page that can't be touched, and more than 4294967295 weights.
 * Prints what failed, and ends with 0 where nothing did. */
#include "tests.h"

/* Of 100 in all a quorum weighs 67 at a k of 3, since 33 are tolerated. */
static const uint64_t stakes[] = {40, 30, 20, 10};

/* Slot 7: decision aa by 0 and 1, who weigh 70; decision bb by 0, 2 and 3, who do. */
static const uint8_t one[] = {3, 1, 7, 0xaa, 2, 0, 1}, other[] = {3, 1, 7, 0xbb, 3, 0, 2, 3};

/* Whether the weights are refused so, with all numbers 0. */
static bool are_refused(const uint64_t *weights, size_t length, uint32_t status, size_t number) {
    const commonware_weights_view view = commonware_weights_quorum(3, weights, length);
    return view.status == status && view.number == number && view.total == 0 &&
           view.tolerated == 0 && view.quorum == 0 && view.smaller_quorum == 0;
}

/* Whether a view has a status and a number, and nothing beside them. */
static bool is_unchecked(commonware_weighted_check_view view, uint32_t status, size_t number) {
    return view.status == status && view.number == number && view.signers == 0 &&
           view.value_start == 0 && view.value_length == 0 && view.slot_start == 0 &&
           view.slot_length == 0 && view.decision_start == 0 && view.decision_length == 0 &&
           view.weight == 0;
}

/* Whether a view has a status, which input it is about, and a number, and nothing beside them. */
static bool is_unnamed(commonware_weighted_conflict_view view, uint32_t status, uint32_t which,
                       size_t number) {
    return view.status == status && view.which == which && view.number == number &&
           view.count == 0 && view.weight == 0;
}

/* Weights, inputs and rooms that end before a page that can't be touched. */
static void test_pages(void) {
    uint64_t *const weights = (uint64_t *)(void *)before_end(sizeof stakes);
    memcpy(weights, stakes, sizeof stakes);
    CHECK(commonware_weights_quorum(3, weights, 4).total == 100);
    uint8_t *const stop = before_end(0), *const end = before_end(0);
    memcpy(end - sizeof other, other, sizeof other);
    uint32_t *const room = (uint32_t *)(void *)before_end(sizeof(uint32_t));
    for (size_t length = 0; length <= sizeof one; length++) {
        uint8_t *const input = stop - length;
        memcpy(input, one, length);
        const bool is_whole = length == sizeof one;
        const uint32_t status = is_whole ? COMMONWARE_OK : COMMONWARE_END_OF_INPUT;
        CHECK(commonware_weighted_check(3, weights, 4, input, length).status == status);
        *room = 9;
        commonware_weighted_conflict_view view = commonware_weighted_conflict(
            3, weights, 4, input, length, end - sizeof other, sizeof other, room, 1);
        CHECK(view.status == status && *room == (is_whole ? 0 : 9));
        *room = 9;
        view = commonware_weighted_equivocation(3, weights, 4, end - sizeof other, sizeof other,
                                                input, length, room, 1);
        CHECK(view.status == status && *room == (is_whole ? 0 : 9));
        *room = 9;
        view = commonware_weighted_equivocation(3, weights, 4, input, length, end - sizeof other,
                                                sizeof other, room + 1, 0);
        CHECK(view.status == (is_whole ? COMMONWARE_ROOM : COMMONWARE_END_OF_INPUT) && *room == 9);
    }
}

/* More than 4294967295 weights are refused by their number alone: no one has to hold them. */
static void test_too_many(void) {
    const size_t limit = (size_t)1 << 32;
    uint64_t *const zeros =
        mmap(NULL, 8 * (limit + 1), PROT_READ, MAP_PRIVATE | MAP_ANONYMOUS | MAP_NORESERVE, -1, 0);
    if (zeros == MAP_FAILED) {
        puts("no room for 4294967296 weights");
        return;
    }
    CHECK(are_refused(zeros, limit - 1, COMMONWARE_ZERO_WEIGHT, 0));
    CHECK(are_refused(zeros, limit, COMMONWARE_INVALID_LENGTH, limit));
    CHECK(are_refused(zeros, limit + 1, COMMONWARE_INVALID_LENGTH, limit + 1));
    CHECK(commonware_weights_quorum(1, zeros, limit).status == COMMONWARE_NO_MODEL);
    CHECK(is_unchecked(commonware_weighted_check(3, zeros, limit, OF(one)),
                       COMMONWARE_INVALID_LENGTH, limit));
    uint32_t out[1];
    CHECK(is_unnamed(commonware_weighted_conflict(3, zeros, limit, OF(one), OF(other), OF(out)),
                     COMMONWARE_INVALID_LENGTH, 0, limit));
    CHECK(munmap(zeros, 8 * (limit + 1)) == 0);
}

int main(void) {
    RUN(test_pages);
    RUN(test_too_many);
    return report();
}
