/* The memory functions that the core calls, over malloc. A program that wants another allocator links libembed.a with its own three
 * functions. */
#include <stdbool.h>
#include <stdint.h>
#include <stdlib.h>

/* The result of an allocation: whether it succeeded, and the block. After a failure `block` is an aligned pointer that isn't null.
 * malloc aligns to 16 bytes, and the core needs no larger alignment. */
struct tried {
    bool ok;
    void *block;
};

static struct tried tried_of(void *block, size_t alignment) {
    return (struct tried){ .ok = block != NULL, .block = block ? block : (void *)(uintptr_t)alignment };
}

struct tried rattle_alloc(size_t size, size_t alignment);
struct tried rattle_realloc(void *block, size_t kept, size_t size, size_t alignment);
void rattle_dealloc(void *block);

struct tried rattle_alloc(size_t size, size_t alignment) {
    return tried_of(malloc(size ? size : 1), alignment);
}

struct tried rattle_realloc(void *block, size_t kept, size_t size, size_t alignment) {
    (void)kept;
    return tried_of(realloc(block, size ? size : 1), alignment);
}

void rattle_dealloc(void *block) {
    free(block);
}
