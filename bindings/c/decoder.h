/* A decoder that is written from docs/FORMAT.md alone, which the fuzz target compares the library
 * with. */
#ifndef COMMONWARE_DECODER_H
#define COMMONWARE_DECODER_H

#include "commonware.h"

#include <stdbool.h>
#include <string.h>

/* The bytes that are not yet read. */
struct rest {
    const uint8_t *bytes;
    size_t length;
};

/* Decodes groups of seven bits, the lowest first, in at most five bytes and the fewest. */
static inline uint32_t decode_varint(struct rest *rest, uint32_t *number) {
    uint64_t value = 0;
    for (size_t i = 0; i < 5; i++) {
        if (i == rest->length) {
            return COMMONWARE_END_OF_INPUT;
        }
        const uint8_t byte = rest->bytes[i];
        value |= (uint64_t)(byte % 128) << (7 * i);
        if (i == 4 && byte > 0x0f) {
            return COMMONWARE_INVALID_VARINT;
        }
        if (byte < 128) {
            if (byte == 0 && i > 0) {
                return COMMONWARE_INVALID_VARINT;
            }
            *number = (uint32_t)value;
            rest->bytes += i + 1;
            rest->length -= i + 1;
            return COMMONWARE_OK;
        }
    }
    return COMMONWARE_INVALID_VARINT;
}

/* Decodes how many items follow, of which `least` to `most` are allowed. */
static inline uint32_t decode_length(struct rest *rest, size_t least, size_t most,
                                     uint32_t *length) {
    const uint32_t status = decode_varint(rest, length);
    if (status == COMMONWARE_OK && (*length < least || most < *length)) {
        return COMMONWARE_INVALID_LENGTH;
    }
    return status;
}

/* Takes `count` items of `size` bytes; says whether they are strictly increasing. */
static inline uint32_t decode_items(struct rest *rest, size_t size, uint32_t count, bool *strict) {
    *strict = size > 0 || count < 2;
    for (uint32_t i = 0; size > 0 && i < count; i++) {
        if (rest->length < size) {
            return COMMONWARE_END_OF_INPUT;
        }
        *strict = *strict && (i == 0 || memcmp(rest->bytes - size, rest->bytes, size) < 0);
        rest->bytes += size;
        rest->length -= size;
    }
    return COMMONWARE_OK;
}

/* A set of keys of `size` bytes; `count` is the length that the input states. */
static inline uint32_t decode_set(struct rest *rest, size_t size, size_t least, size_t most,
                                  uint32_t *count) {
    uint32_t status = decode_length(rest, least, most, count);
    bool strict = true;
    if (status == COMMONWARE_OK) {
        status = decode_items(rest, size, *count, &strict);
    }
    return status == COMMONWARE_OK && !strict ? COMMONWARE_NOT_STRICT : status;
}

/* A list of bytes, and then a set of participants, whose indices go to `signers`. */
struct parts {
    const uint8_t *value;
    uint32_t value_length;
    uint32_t count;
    uint32_t *signers;
};

/* `length` is the length that the input states. */
static inline uint32_t decode_certificate(struct rest *rest, size_t most_bytes,
                                          size_t most_signers, struct parts *parts,
                                          uint32_t *length) {
    uint32_t status = decode_length(rest, 0, most_bytes, length);
    if (status != COMMONWARE_OK) {
        return status;
    }
    if (rest->length < *length) {
        return COMMONWARE_END_OF_INPUT;
    }
    parts->value = rest->bytes;
    parts->value_length = *length;
    rest->bytes += *length;
    rest->length -= *length;
    status = decode_length(rest, 0, most_signers, length);
    if (status != COMMONWARE_OK) {
        return status;
    }
    parts->count = *length;
    bool strict = true;
    for (uint32_t i = 0; i < parts->count; i++) {
        uint32_t signer = 0;
        status = decode_varint(rest, &signer);
        if (status != COMMONWARE_OK) {
            return status;
        }
        strict = strict && (i == 0 || parts->signers[i - 1] < signer);
        parts->signers[i] = signer;
    }
    return strict ? COMMONWARE_OK : COMMONWARE_NOT_STRICT;
}

#endif
