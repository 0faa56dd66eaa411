/* The functions through which the library allocates, over malloc, realloc and free: for a target for which the toolchain has no object of
 * them. It includes nothing, so that the toolchain's own compiler, which has no headers, can compile it.
 *
 * `align` divides 16, and malloc aligns to 16 wherever the library is built for. A block of no bytes gets `align` bytes, so that it has
 * an address of its own, and realloc frees nothing. If it fails, `ok` is 0, `p` is some address that is not null, and the block is as it
 * was. `kept` says how many bytes of a block have to stay: realloc keeps all that fit. */

typedef __SIZE_TYPE__ size_t;

void *malloc(size_t size);
void *realloc(void *p, size_t size);
void free(void *p);

struct tried {
    _Bool ok;
    void *p;
};

struct tried rattle_alloc(size_t size, size_t align);
struct tried rattle_realloc(void *p, size_t kept, size_t size, size_t align);
void rattle_dealloc(void *p);

static char nothing;

static struct tried tried(void *p) {
    struct tried result;
    result.ok = p != 0;
    result.p = p != 0 ? p : &nothing;
    return result;
}

struct tried rattle_alloc(size_t size, size_t align) {
    return tried(malloc(size != 0 ? size : align));
}

struct tried rattle_realloc(void *p, size_t kept, size_t size, size_t align) {
    (void)kept;
    return tried(realloc(p, size != 0 ? size : align));
}

void rattle_dealloc(void *p) {
    free(p);
}
