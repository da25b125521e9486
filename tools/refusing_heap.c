/* The heap of the library, of which one in N allocations is refused where the environment has REFUSE_EACH=N as the program begins:
 * the Nth, and then each after half as many to one and a half times as many, since what is tried again would meet the refusal at
 * the same place again and again where these were evenly spaced. Then one thread at a time may call. */
#include <stdint.h>
#define rattle_alloc any_alloc
#define rattle_realloc any_realloc
#include "../examples/c/heap.c"
#undef rattle_alloc
#undef rattle_realloc

static unsigned long each, left;
static uint32_t drawn = 1;

__attribute__((constructor)) static void read_each(void) {
    const char *word = getenv("REFUSE_EACH");
    if (word) left = each = strtoul(word, NULL, 10);
}

static bool is_refused(void) {
    if (!each || --left) return false;
    drawn = drawn * 1664525 + 1013904223;
    left = each / 2 + (drawn >> 8) % each + 1;
    return true;
}

struct tried rattle_alloc(size_t size, size_t align) { return is_refused() ? tried(NULL, 0) : any_alloc(size, align); }

struct tried rattle_realloc(void *old, size_t kept, size_t size, size_t align) {
    return is_refused() ? tried(NULL, 0) : any_realloc(old, kept, size, align);
}
