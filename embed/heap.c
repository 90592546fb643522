/* The heap that libsouper_c.a calls, over the C library's. It is to be compiled as C, and is trusted:
 *
 *   - malloc and realloc align a block to each power of two up to 16 that divides its size, as those of the common C libraries
 *     do, and may be called on any threads at once;
 *   - a block is never null, also if an allocation fails; one of size 0 is a block like others;
 *   - `old_size` of rattle_realloc is the number of bytes in use, which are to be kept. The block may be larger.
 *
 * A heap of your own in its place must keep the same, by one allocator for the three functions. */
#include <stdbool.h>
#include <stddef.h>
#include <stdlib.h>

struct Tried {
    bool ok;
    void *block;
};

struct Tried rattle_alloc(size_t size, size_t align);
struct Tried rattle_realloc(void *block, size_t old_size, size_t size, size_t align);
void rattle_dealloc(void *block);

/* The greatest alignment that malloc sees to. */
enum { GREATEST = 16 };

/* What a failed allocation points to. */
static unsigned char nothing;

static struct Tried tried(void *block) {
    return block ? (struct Tried){true, block} : (struct Tried){false, &nothing};
}

struct Tried rattle_alloc(size_t size, size_t align) {
    return tried(align > GREATEST ? NULL : malloc(size ? size : align));
}

struct Tried rattle_realloc(void *block, size_t old_size, size_t size, size_t align) {
    (void)old_size;
    return tried(align > GREATEST ? NULL : realloc(block, size ? size : align));
}

void rattle_dealloc(void *block) {
    free(block);
}
