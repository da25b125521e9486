/* The heap of the library, over malloc, realloc and free, whose alignment is enough for all that it asks for.
 *
 * A producer that has told what became of a batch soon makes another one. So of the blocks that it gives back some are kept, by
 * their sizes, and serve again. glibc's malloc would go through all small ones, which are the values of records, each time that it
 * is asked for a large one, as for a batch or a request. */
#include <stdatomic.h>
#include <stdbool.h>
#include <stdlib.h>

/* The sizes of blocks: one is 16 bytes above the one before it, or, from 128 bytes on, an eighth of a power of two. */
enum { STEP_BITS = 4, STEPS_BITS = 3, STEPS = 1 << STEPS_BITS };

enum {
    SIZES = 14 * STEPS, /* below 1 MiB */
    MOST = 4 << 20,     /* bytes that are kept, at most */
    APART = 16384       /* so many times a thread does without them that met another one there */
};

/* What stands before the bytes of a block: the place of its size, SIZES where it is not kept, and the block of this size that was
 * kept before it. */
struct block { size_t place; struct block *before; };

static struct block *kept[SIZES];
static size_t bytes_kept;
static size_t leaving; /* the size of which one goes where there are too many */
static atomic_flag is_taken = ATOMIC_FLAG_INIT;
static _Thread_local unsigned apart;

/* Whether this thread alone may touch them, until it leaves. */
static inline bool enter(void) {
    if (apart > 0) { apart--; return false; }
    if (!atomic_flag_test_and_set_explicit(&is_taken, memory_order_acquire)) return true;
    apart = APART;
    return false;
}

static inline void leave(void) { atomic_flag_clear_explicit(&is_taken, memory_order_release); }

static inline size_t size_at(size_t place) {
    return place < STEPS ? place << STEP_BITS : (STEPS + place % STEPS) << (place / STEPS - 1 + STEP_BITS);
}

/* The place of the greatest size that is not above this one. */
static inline size_t place_below(size_t size) {
    size_t bits = 63 - (size_t)__builtin_clzl(size | 1 << (STEP_BITS + STEPS_BITS));
    return ((bits - STEP_BITS - STEPS_BITS) << STEPS_BITS) + (size >> (bits - STEPS_BITS));
}

static inline struct block *pop(size_t place) {
    struct block *block = kept[place];
    if (block) {
        kept[place] = block->before;
        bytes_kept -= size_at(place);
    }
    return block;
}

static void let_one_go(void) {
    for (size_t tried = 0; tried < SIZES && !kept[leaving]; tried++) leaving = (leaving + 1) % SIZES;
    free(pop(leaving));
}

__attribute__((destructor)) static void let_all_go(void) {
    apart = 0;
    if (!enter()) return;
    for (size_t place = 0; place < SIZES; place++)
        for (struct block *block; (block = pop(place));) free(block);
    leave();
}

/* Where the memory is. A refusal has a place too, which is not used. */
struct tried { bool done; void *at; };
static char nowhere[16];

static inline struct tried tried(struct block *block, size_t place) {
    if (!block) return (struct tried){ false, nowhere };
    block->place = place;
    return (struct tried){ true, block + 1 };
}

struct tried rattle_alloc(size_t size, size_t align) {
    if (size == 0) size = align;
    size_t place = place_below(size - 1) + 1;
    if (place >= SIZES) return tried(malloc(sizeof(struct block) + size), SIZES);
    struct block *block = NULL;
    if (enter()) {
        block = pop(place);
        leave();
    }
    return tried(block ? block : malloc(sizeof *block + size_at(place)), place);
}

struct tried rattle_realloc(void *old, size_t written, size_t size, size_t align) {
    (void)written;
    if (size == 0) size = align;
    size_t place = place_below(size);
    struct block *block = realloc((struct block *)old - 1, sizeof *block + size);
    return tried(block, place > 0 && place < SIZES ? place : SIZES);
}

void rattle_dealloc(void *at) {
    struct block *block = (struct block *)at - 1;
    size_t place = block->place;
    bool is_kept = false;
    if (place < SIZES && enter()) {
        if ((is_kept = bytes_kept + size_at(place) <= MOST)) {
            block->before = kept[place];
            kept[place] = block;
            bytes_kept += size_at(place);
        } else let_one_go();
        leave();
    }
    if (!is_kept) free(block);
}
