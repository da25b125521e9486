/* What the programs of this folder share: the words of a run, clocks, and records whose values tell whether they are whole. */
#ifndef RUN_H
#define RUN_H
#include <inttypes.h>
#include <stdbool.h>
#include <stdio.h>
#include <stdlib.h>
#include <string.h>
#include <sys/resource.h>
#include <time.h>

enum {
    WORDS = 10,                 /* of a run */
    MOST = 256,                 /* records of a group */
    LARGEST = 4096,             /* bytes of a value */
    PART = 8, LEAST = 2 * PART, /* bytes of the number in front of a value, and of the checksum at its end */
    LETTER = 'x'                /* what stands between */
};

/* A run, as its words say. Record k is of partition k / group mod partitions, and a group is sent by one call; with keys it is of
 * the partition of key k mod keys. The first group for each partition opens the connections, and is delivered before the run is
 * measured. */
struct run {
    const char *addresses;
    uint64_t partitions, count, group, size, keys, linger, batch, buffer;
    uint64_t rate;  /* records a second; 0: as fast as it goes */
    uint64_t first; /* how many records are sent before it is measured */
};

static inline struct run run_of(int argc, char **argv) {
    uint64_t numbers[WORDS] = { 0 };
    bool is_meant = argc == WORDS + 1;
    for (int k = 2; is_meant && k <= WORDS; k++) {
        char *end = argv[k];
        numbers[k - 1] = strtoull(argv[k], &end, 10);
        is_meant = end != argv[k] && !*end;
    }
    const uint64_t *n = numbers;
    struct run run = { is_meant ? argv[1] : NULL, n[1], n[2], n[3], n[4], n[5], n[6], n[7], n[8], n[9], n[1] * n[3] };
    is_meant = is_meant && run.first && run.count > run.first && run.group <= MOST && run.count % run.group == 0
        && (run.group == 1 || !run.keys) && run.size >= LEAST && run.size <= LARGEST;
    if (!is_meant) {
        fprintf(stderr, "usage: %s ADDRESSES PARTITIONS COUNT GROUP SIZE KEYS LINGER BATCH BUFFER RATE\n", argv[0]);
        exit(2);
    }
    return run;
}

static inline double seconds(void) {
    struct timespec t;
    clock_gettime(CLOCK_MONOTONIC, &t);
    return (double)t.tv_sec + (double)t.tv_nsec / 1e9;
}

/* Processor seconds of the process, all of its threads, so far. */
static inline double used(void) {
    struct rusage u;
    getrusage(RUSAGE_SELF, &u);
    return (double)(u.ru_utime.tv_sec + u.ru_stime.tv_sec) + (double)(u.ru_utime.tv_usec + u.ru_stime.tv_usec) / 1e6;
}

/* How many records of a run are to be sent by now, where the measured part has begun at that moment. */
static inline uint64_t due_by_now(const struct run *run, double begun) {
    if (!run->rate) return run->count;
    double due = (double)run->first + (seconds() - begun) * (double)run->rate;
    return due < (double)run->count ? (uint64_t)due : run->count;
}

/* Prints what became of a run, and gives a status. Seconds, processor seconds and Produce requests are of the measured part. */
static inline int told(uint64_t delivered, uint64_t failed, double took, double processor, uint64_t requests) {
    printf("delivered %" PRIu64 " failed %" PRIu64 " seconds %.6f processor %.6f requests %" PRIu64 "\n", delivered, failed, took,
        processor, requests);
    return failed ? 1 : 0;
}

static inline uint64_t sum_of(uint64_t number, uint64_t size) {
    uint64_t sum = (number ^ size << 48) * 0x9e3779b97f4a7c15u;
    return (sum ^ sum >> 32) * 0xbf58476d1ce4e5b9u;
}

/* Makes a value out of letters: its number in front, and at its end a checksum of number and size. */
static inline void make_value(uint8_t *value, uint64_t size, uint64_t number) {
    uint64_t sum = sum_of(number, size);
    memcpy(value, &number, PART);
    memcpy(value + size - PART, &sum, PART);
}

/* Whether a value is whole, to its last byte, and its number. */
static inline bool is_value(const uint8_t *value, uint64_t size, uint64_t *number) {
    uint64_t sum;
    if (size < LEAST) return false;
    memcpy(number, value, PART);
    memcpy(&sum, value + size - PART, PART);
    for (uint64_t k = PART; k < size - PART; k++)
        if (value[k] != LETTER) return false;
    return sum == sum_of(*number, size);
}

static inline uint32_t key_of(const struct run *run, uint64_t number) { return (uint32_t)(number % run->keys); }

/* The partition behind this one: a division would take longer than all else that is done here for a record. */
static inline int32_t partition_behind(const struct run *run, int32_t partition) {
    return (uint64_t)partition + 1 < run->partitions ? partition + 1 : 0;
}
#endif
