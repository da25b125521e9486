/* c_heap ROUNDS: the library's heap, by one thread, and by four at once in so many rounds: what it gives holds what is written there
 * until it is given back, what is given back serves again, and no more is kept than may be. The status is 1 where that is not so. */
#include <pthread.h>
#include <stdint.h>
#include <stdio.h>
#include <string.h>
#include "heap.c"

enum { THREADS = 4, HELD = 200, LARGEST = 1 << 21 };

static int rounds;

static void expect(bool is_so, const char *what) {
    if (is_so) return;
    printf("not so: %s\n", what);
    exit(1);
}

static void *given(size_t size) {
    struct tried it = rattle_alloc(size, 8);
    expect(it.done && (uintptr_t)it.at % 16 == 0, "a block is given, and aligned");
    return it.at;
}

/* How many bytes are kept, block by block. */
static size_t counted(void) {
    size_t bytes = 0;
    for (size_t place = 0; place < SIZES; place++)
        for (struct block *block = kept[place]; block; block = block->before) bytes += size_at(place);
    return bytes;
}

/* Until a block of this size that was given back serves again. */
static void until_reused(size_t size) {
    for (size_t tried = 0; tried < 2 * MOST / 16; tried++) {
        void *at = given(size);
        rattle_dealloc(at);
        void *again = given(size);
        rattle_dealloc(again);
        if (at == again) return;
    }
    expect(false, "what is given back serves again");
}

static void by_one(void) {
    static void *blocks[4 * MOST / 1000];
    enum { COUNT = sizeof blocks / sizeof *blocks };
    for (size_t size = 1; size < LARGEST; size += 1 + size / 7) {
        expect(size >> 20 || (size_at(place_below(size)) <= size && size < size_at(place_below(size) + 1)), "a size has its place");
        uint8_t *at = memset(given(size), 1, size);
        rattle_dealloc(at);
    }
    until_reused(100), until_reused(20000);
    for (size_t k = 0; k < COUNT; k++) blocks[k] = given(1000);
    for (size_t k = 0; k < COUNT; k++) rattle_dealloc(blocks[k]);
    expect(bytes_kept <= MOST && bytes_kept > MOST / 2 && counted() == bytes_kept, "as much is kept as may be");
    until_reused(200), until_reused(100000);
    expect(bytes_kept <= MOST && counted() == bytes_kept, "no more is kept than may be");
}

struct held { uint8_t *at; size_t size; uint8_t mark; };

/* Whether a block has what was written into it, as far as to this byte. */
static bool is_whole(const struct held *it, size_t size) {
    for (size_t k = 0; k < size; k++)
        if (it->at[k] != it->mark) return false;
    return true;
}

/* Of a random number, small ones mostly. */
static size_t size_of(uint32_t random) { return 1 + (random >> 8) % (random % 50 == 0 ? LARGEST : random % 8 == 0 ? 20000 : 300); }

static void *by_many(void *number) {
    struct held all[HELD] = { { NULL, 0, 0 } };
    uint32_t random = (uint32_t)(uintptr_t)number;
    for (int round = 0; round < rounds; round++) {
        random = random * 1664525 + 1013904223;
        struct held *it = &all[random % HELD];
        size_t size = size_of(random), both = size < it->size ? size : it->size;
        if (it->at && random % 3 == 0) {
            struct tried tried = rattle_realloc(it->at, both, size, 8);
            expect(tried.done, "a block grows");
            it->at = tried.at;
            expect(is_whole(it, both), "what was written stays as a block grows");
        } else {
            if (it->at) expect(is_whole(it, it->size), "what was written stays"), rattle_dealloc(it->at);
            it->at = given(size);
        }
        it->size = size;
        it->mark = (uint8_t)(random >> 24);
        memset(it->at, it->mark, size);
    }
    for (struct held *it = all; it < all + HELD; it++)
        if (it->at) expect(is_whole(it, it->size), "what was written stays"), rattle_dealloc(it->at);
    return NULL;
}

int main(int argc, char **argv) {
    pthread_t threads[THREADS];
    rounds = argc == 2 ? atoi(argv[1]) : 0;
    expect(rounds > 0, "it is told how many rounds there are");
    by_one();
    for (uintptr_t k = 0; k < THREADS; k++) expect(pthread_create(&threads[k], NULL, by_many, (void *)(k + 1)) == 0, "a thread begins");
    for (int k = 0; k < THREADS; k++) pthread_join(threads[k], NULL);
    expect(bytes_kept <= MOST && counted() == bytes_kept, "no more is kept than may be");
    by_one();
    return 0;
}
