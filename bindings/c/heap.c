/* Calls the functions through which the library allocates, and tests that they do what the library takes them to do. */
#include <stdbool.h>
#include <stdint.h>
#include <stdio.h>
#include <stdlib.h>
#include <string.h>

struct tried {
    bool ok;
    void *p;
};

struct tried rattle_alloc(size_t size, size_t align);
struct tried rattle_realloc(void *p, size_t kept, size_t size, size_t align);
void rattle_dealloc(void *p);

/* more than any machine has, and no more than the library asks for */
#define TOO_MUCH ((size_t)PTRDIFF_MAX - 15)

static void must(bool holds, const char *what) {
    if (!holds) {
        fprintf(stderr, "heap: %s\n", what);
        exit(1);
    }
}

/* Makes a block of so many bytes, all 7, one of another size, and returns that. */
static size_t resized(struct tried *block, size_t has, size_t to, size_t align) {
    size_t kept = has < to ? has : to, at;
    struct tried moved = rattle_realloc(block->p, kept, to, align);
    must(moved.ok && moved.p != NULL && (uintptr_t)moved.p % align == 0, "a block cannot grow or shrink");
    for (at = 0; at < kept; at++) {
        must(((unsigned char *)moved.p)[at] == 7, "a block has lost a byte");
    }
    memset(moved.p, 7, to);
    *block = moved;
    return to;
}

int main(void) {
    size_t align, size, to;
    for (align = 1; align <= 16; align *= 2) {
        for (size = 0; size <= 200; size++) {
            struct tried block = rattle_alloc(size, align), other = rattle_alloc(size, align);
            size_t has = size;
            must(block.ok && other.ok, "no memory");
            must(block.p != NULL && other.p != NULL && block.p != other.p, "a block has no address of its own");
            must((uintptr_t)block.p % align == 0, "a block is not aligned");
            memset(other.p, 1, size);
            memset(block.p, 7, size);
            for (to = 4000; to > 0; to /= 3) {
                has = resized(&block, has, to, align);
            }
            has = resized(&block, has, 0, align);
            resized(&block, has, 100, align);
            rattle_dealloc(block.p);
            rattle_dealloc(other.p);
        }
    }
    {
        struct tried block = rattle_alloc(100, 8), none = rattle_alloc(TOO_MUCH, 8), moved;
        must(block.ok, "no memory");
        must(!none.ok && none.p != NULL, "a block that is too large is given");
        memset(block.p, 7, 100);
        moved = rattle_realloc(block.p, 100, TOO_MUCH, 8);
        must(!moved.ok && moved.p != NULL, "a block grows past all memory");
        for (size = 0; size < 100; size++) {
            must(((unsigned char *)block.p)[size] == 7, "a block that could not grow has changed");
        }
        rattle_dealloc(block.p);
    }
    return 0;
}
