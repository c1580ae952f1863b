/* What the module for WebAssembly has in the place of a C library: its heap, and the product of two
 * numbers of 128 bits, for which WebAssembly has no instruction. Nothing proves this file: the heap stands
 * where the archive has the toolchain's over malloc.
 *
 * What the four writers take is cut off a region of memory that the caller gives, one block after
 * another, and none comes back before the caller gives it anew. So a call that gets a region of its own
 * leaves nothing behind. */
typedef __SIZE_TYPE__ size_t;
typedef __UINT64_TYPE__ word;
typedef unsigned __int128 wide;
typedef unsigned char byte;

struct tried {
    _Bool ok;
    byte *block;
};

/* What isn't given out yet is from `next` up to `end`: nothing at first. No block is at the address 0. */
static size_t next = 16, end = 16;

/* Gives the heap `size` bytes from `start` on. Every block that it gave out before is gone. */
void commonware_heap_reset(size_t start, size_t size) {
    next = start;
    end = start + size < start ? start : start + size;
}

struct tried rattle_alloc(size_t size, size_t align) {
    const size_t start = (next + (align - 1)) & ~(align - 1);
    if (start < next || start > end || size > end - start) {
        return (struct tried){0, (byte *)align};
    }
    next = start + size;
    return (struct tried){1, (byte *)start};
}

/* Makes the block one of `size` bytes, of which the first `kept` stay. */
struct tried rattle_realloc(byte *block, size_t kept, size_t size, size_t align) {
    const struct tried got = rattle_alloc(size, align);
    if (got.ok) {
        __builtin_memcpy(got.block, block, kept < size ? kept : size);
    }
    return got;
}

void rattle_dealloc(byte *block) {
    (void)block;
}

/* The product of two words, by halves of 32 bits. */
static wide product(word one, word other) {
    const word low = 0xffffffff;
    const word least = (one & low) * (other & low);
    const word first = (one >> 32) * (other & low) + (least >> 32);
    const word second = (one & low) * (other >> 32) + (first & low);
    const word greatest = (one >> 32) * (other >> 32) + (first >> 32) + (second >> 32);
    return (wide)greatest << 64 | (second << 32 | (least & low));
}

/* The lowest 128 bits of a product, signed or not. */
wide __multi3(wide one, wide other) {
    const word crossed = (word)(one >> 64) * (word)other + (word)one * (word)(other >> 64);
    return product((word)one, (word)other) + ((wide)crossed << 64);
}
