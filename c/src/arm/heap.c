/* The allocator of the proved library on ARM: the three calls that it makes, by malloc. The kit has this part for
   x86-64 alone, and this is the same. Each allocation says whether it succeeded, and where. No block of the library is
   aligned beyond what malloc ensures. */
#include <stddef.h>
#include <stdint.h>
#include <stdlib.h>

typedef struct {
    uint64_t is_there;
    void *address;
} allocation;

allocation rattle_alloc(size_t size, size_t align);
allocation rattle_realloc(void *block, size_t old_size, size_t size, size_t align);
void rattle_dealloc(void *block, size_t size, size_t align);

/* A failed allocation has an address too, since the library's pointers are never null. */
static char nothing;

static allocation found(void *block) { return (allocation){block != NULL, block ? block : &nothing}; }

/* malloc(0) may return null, which would be taken for a failure. So an empty block has as many bytes as its align. */
static size_t at_least(size_t size, size_t align) { return size ? size : align; }

allocation rattle_alloc(size_t size, size_t align) { return found(malloc(at_least(size, align))); }

allocation rattle_realloc(void *block, size_t old_size, size_t size, size_t align) {
    (void)old_size;
    return found(realloc(block, at_least(size, align)));
}

void rattle_dealloc(void *block, size_t size, size_t align) {
    (void)size;
    (void)align;
    free(block);
}
