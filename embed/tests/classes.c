/* A heap of size classes in place of embed/heap.c. A block has a power of two of bytes and is kept for later calls when it is freed. It is
 * overwritten when it is handed out and when it is freed, and realloc keeps the bytes in use alone. So a caller that reads others finds the
 * wrong ones. The program aborts if a call breaks what heap.c says, and if a block is left at its end. */
#include <stdbool.h>
#include <stddef.h>
#include <stdio.h>
#include <stdlib.h>
#include <string.h>

struct Tried {
    bool ok;
    void *block;
};

struct Tried rattle_alloc(size_t size, size_t align);
struct Tried rattle_realloc(void *block, size_t old_size, size_t size, size_t align);
void rattle_dealloc(void *block);

enum { CLASSES = 48, LEAST = 4, LIVE = 0x11fe, FREE = 0xf4ee, JUNK = 0xa5 };

/* Before each block. Its size is a multiple of 16. */
struct Head {
    struct Head *next;
    size_t size;
    unsigned class;
    unsigned state;
    size_t unused;
};

static struct Head *kept[CLASSES];
static size_t live;

static void ensure(bool holds, const char *what) {
    if (!holds) {
        fprintf(stderr, "heap of size classes: %s\n", what);
        abort();
    }
}

static void end(void) {
    ensure(live == 0, "a block is left");
}

static struct Head *head_of(void *block) {
    struct Head *head = (struct Head *)block - 1;
    ensure(head->state == LIVE, "no block of this heap, or a free one");
    return head;
}

static struct Tried taken(size_t size, unsigned class) {
    struct Head *head = kept[class];
    if (head) {
        kept[class] = head->next;
    } else {
        head = malloc(sizeof *head + ((size_t)1 << class));
        ensure(head != NULL, "out of memory");
    }
    *head = (struct Head){NULL, size, class, LIVE, 0};
    memset(head + 1, JUNK, (size_t)1 << class);
    live++;
    return (struct Tried){true, head + 1};
}

struct Tried rattle_alloc(size_t size, size_t align) {
    static bool asked;
    unsigned class = LEAST;
    if (!asked) {
        asked = true;
        ensure(atexit(end) == 0, "atexit");
    }
    ensure(align && align <= 16 && (align & (align - 1)) == 0, "the alignment");
    while (class < CLASSES && ((size_t)1 << class) < size) {
        class++;
    }
    ensure(class < CLASSES, "the size");
    return taken(size, class);
}

struct Tried rattle_realloc(void *block, size_t old_size, size_t size, size_t align) {
    struct Head *head = head_of(block);
    ensure(old_size <= head->size, "more bytes in use than were asked for");
    struct Tried new = rattle_alloc(size, align);
    memcpy(new.block, block, old_size < size ? old_size : size);
    rattle_dealloc(block);
    return new;
}

void rattle_dealloc(void *block) {
    struct Head *head = head_of(block);
    memset(block, JUNK, (size_t)1 << head->class);
    head->state = FREE;
    head->next = kept[head->class];
    kept[head->class] = head;
    live--;
}
