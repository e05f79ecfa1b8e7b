/* memory.c: the memory that the library asks for, from the C library.
 *
 * The library asks for blocks through these three functions alone. Alignments are powers of two. The library's are 16
 * at most, which malloc gives. A greater one is refused, as if there were no memory: realloc could not keep it.
 */
#include <stdalign.h>
#include <stdbool.h>
#include <stddef.h>
#include <stdlib.h>

/* Whether there is memory, and where. */
struct tried {
    bool ok;
    void *at;
};

struct tried rattle_alloc(size_t size, size_t alignment);
struct tried rattle_realloc(void *block, size_t kept, size_t size, size_t alignment);
void rattle_dealloc(void *block);

/* What the library gets where there is no memory: an address that it can hold, and at which it owns nothing. */
static max_align_t nowhere;

static struct tried answer(void *block) {
    if (block == NULL) {
        return (struct tried){.ok = false, .at = &nowhere};
    }
    return (struct tried){.ok = true, .at = block};
}

/* malloc and realloc may answer NULL for no bytes, where there is memory. So no bytes are asked for as one. */
static size_t not_zero(size_t size) {
    return size == 0 ? 1 : size;
}

/* A new block. */
struct tried rattle_alloc(size_t size, size_t alignment) {
    if (alignment > alignof(max_align_t)) {
        return answer(NULL);
    }
    return answer(malloc(not_zero(size)));
}

/* Makes a block one of `size` bytes, which may be elsewhere. Its first `kept` bytes stay as they are, as all that fit
 * do. Where there is no memory the block stays as it is. */
struct tried rattle_realloc(void *block, size_t kept, size_t size, size_t alignment) {
    (void)kept;
    if (alignment > alignof(max_align_t)) {
        return answer(NULL);
    }
    return answer(realloc(block, not_zero(size)));
}

/* Frees a block. */
void rattle_dealloc(void *block) {
    free(block);
}
