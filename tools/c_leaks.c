/* Lives of producers before two nodes in memory, for valgrind: whatever comes in a life, all is freed behind it. What the calls
 * are given has a block of its own, so that an access behind its end is told. The status is 1 where a call does not give what it
 * should, or a life that is not cut short does not deliver all that it accepted. */
#include <stdio.h>
#include <stdlib.h>
#include <string.h>
#include "kp.h"

static void *copy_of(const void *bytes, size_t size) {
    void *at = malloc(size);
    if (!at) abort();
    return memcpy(at, bytes, size);
}

/* The library's heap, where the allocation with the number `refused` is refused; 0 is none. */
#define rattle_alloc any_alloc
#define rattle_realloc any_realloc
#include "heap.c"
#undef rattle_alloc
#undef rattle_realloc
static unsigned long allocations, refused;
struct tried rattle_alloc(size_t size, size_t align);
struct tried rattle_realloc(void *old, size_t written, size_t size, size_t align);
struct tried rattle_alloc(size_t size, size_t align) { return ++allocations == refused ? tried(NULL, 0) : any_alloc(size, align); }
struct tried rattle_realloc(void *old, size_t written, size_t size, size_t align) {
    return ++allocations == refused ? tried(NULL, 0) : any_realloc(old, written, size, align);
}

enum { NODES = 2, SLOTS = 4, ROUNDS = 20, ROOM = 1 << 16, STEP_MS = 150 };
enum fault { NONE, LOST, LIES, REFUSED, FAULTS };

static kp_producer producer = KP_NONE;
static uint64_t now = 1000;
static struct { uint8_t asked[ROOM]; size_t len; bool is_open; } slots[SLOTS]; /* by slot what was taken, and is not answered */
static struct { uint8_t bytes[ROOM]; size_t len; } answer;
static unsigned long accepted, delivered;

static void expect(bool is_so, const char *what) {
    if (is_so) return;
    printf("not so: %s\n", what);
    exit(1);
}

/* ---- nodes */

static void put(uint64_t value, int size) {
    while (size-- > 0) answer.bytes[answer.len++] = (uint8_t)(value >> 8 * size);
}

static void put_text(const char *text) {
    put(strlen(text), 2);
    while (*text) put((uint8_t)*text++, 1);
}

static uint64_t number_at(const uint8_t *at, int size) {
    uint64_t value = 0;
    while (size-- > 0) value = value << 8 | *at++;
    return value;
}

/* Each node leads one partition. */
static void put_metadata(void) {
    put(NODES, 4);
    for (uint64_t node = 0; node < NODES; node++) put(node, 4), put_text("host"), put(9092 + node, 4), put(UINT64_MAX, 2);
    put(0, 4), put(1, 4), put(0, 2), put_text("t"), put(0, 1), put(NODES, 4);
    for (uint64_t p = 0; p < NODES; p++) put(0, 2), put(p, 4), put(p, 4), put(1, 4), put(p, 4), put(1, 4), put(p, 4);
}

/* Each batch stands at the offset that is its sequence number, or is refused by a code. */
static void put_produced(const uint8_t *at, uint64_t code) {
    at += 14 + number_at(at + 12, 2) + 15; /* behind the client's name, no transaction, acks, a timeout, and one topic's name */
    uint64_t count = number_at(at, 4);
    put(1, 4), put_text("t"), put(count, 4);
    for (at += 4; count > 0; count--, at += 8 + number_at(at + 4, 4))
        put(number_at(at, 4), 4), put(code, 2), put(code ? UINT64_MAX : number_at(at + 61, 4), 8), put(UINT64_MAX, 8);
    put(0, 4);
}

/* Answers the whole requests at a slot, by answers that come in two pieces. */
static void answer_all(uint32_t slot, uint64_t code) {
    uint8_t *at = slots[slot].asked, *end = at + slots[slot].len;
    while (end - at >= 4 && (uint64_t)(end - at) >= 4 + number_at(at, 4)) {
        uint64_t api = number_at(at + 4, 2);
        answer.len = 4, put(number_at(at + 8, 4), 4);
        if (api == 3) put_metadata();
        else if (api == 22) put(0, 4), put(0, 2), put(1000, 8), put(0, 2);
        else put_produced(at, code);
        size_t len = answer.len;
        answer.len = 0, put(len - 4, 4);
        uint8_t *one = copy_of(answer.bytes, len / 2), *other = copy_of(answer.bytes + len / 2, len - len / 2);
        kp_producer_feed(&producer, slot, one, len / 2, now);
        kp_producer_feed(&producer, slot, other, len - len / 2, now);
        free(one), free(other);
        at += 4 + number_at(at, 4);
    }
    slots[slot].len = (size_t)(end - at);
    memmove(slots[slot].asked, at, slots[slot].len);
}

/* ---- a life */

static int32_t begin(const char *addresses) {
    kp_config config = KP_CONFIG_DEFAULT;
    config.batch_size = 200;
    memset(slots, 0, sizeof slots);
    accepted = delivered = 0;
    return kp_producer_new(&producer, &config, (const uint8_t *)"t", 1, (const uint8_t *)"leaks", 5, (const uint8_t *)addresses,
        strlen(addresses), 7, now);
}

static void end(void) {
    kp_producer_free(&producer);
    kp_producer_free(&producer);
    expect(kp_producer_flush(&producer) == KP_NO_PRODUCER, "what was freed has no producer");
}

static void lose(uint32_t slot) {
    slots[slot].is_open = false, slots[slot].len = 0;
    kp_producer_lost(&producer, slot, now);
}

static void do_actions(void) {
    for (kp_action act; kp_producer_next_action(&producer, now, &act) == KP_OK && act.kind != KP_NOTHING;) {
        uint8_t *host = copy_of("none", 4);
        size_t len = 0;
        uint16_t port = 0;
        expect(kp_producer_address(&producer, act.node, host, 3, &len, &port) == KP_NO_ROOM, "a host has no room");
        expect(kp_producer_address(&producer, act.node, host, 4, &len, &port) == KP_OK && len == 4, "a host has room");
        expect(act.node < SLOTS, "there are so few slots");
        slots[act.node].is_open = act.kind == KP_CONNECT && kp_producer_connected(&producer, act.node, now) == KP_OK;
        if (!slots[act.node].is_open) lose(act.node);
        free(host);
    }
}

static void send_some(void) {
    const uint8_t bytes[50] = "namevakeynogarbage";
    kp_span *spans = copy_of((kp_span[]){ { 4, 2, true }, { 3, 0, true }, { 2, 9, false } }, 3 * sizeof(kp_span));
    uint64_t *lengths = copy_of((uint64_t[]){ 3, 0, 40 }, 3 * sizeof(uint64_t));
    uint8_t *key = copy_of(bytes, 5), *value = copy_of(bytes, 50), *headers = copy_of(bytes, 11), *values = copy_of(bytes, 43);
    kp_ticket ticket;
    size_t count = 0;
    for (int32_t to = -1; to < NODES; to++)
        if (kp_producer_send(&producer, to, to != 0, key, 5, to != 1, value, 50, spans, 3, headers, 11, 1, now, &ticket) == KP_OK)
            accepted++;
    int32_t status = kp_producer_send(&producer, 0, true, key, 0, true, value, 0, spans, 3, headers, 10, 1, now, &ticket);
    expect(status == KP_BAD_LENGTHS || status == KP_OUT_OF_MEMORY, "headers end too soon");
    kp_producer_send_batch(&producer, -1, values, 43, lengths, 3, 1, now, &count);
    accepted += count;
    free(spans), free(lengths), free(key), free(value), free(headers), free(values);
}

/* Takes what there is for a slot, by a small room, or half of it where it is to be lost. */
static void take_all(uint32_t slot, bool is_half) {
    uint8_t *room = copy_of(answer.bytes, 100);
    size_t count = 1;
    for (int piece = 0; count > 0 && slots[slot].len < ROOM - 100 && !(is_half && piece == 2); piece++) {
        kp_producer_take(&producer, slot, now, room, 100, &count); /* where it is refused, the count is 0 */
        memcpy(slots[slot].asked + slots[slot].len, room, count);
        slots[slot].len += count;
    }
    free(room);
}

static void live_once(unsigned round, enum fault fault) {
    const uint8_t lie[] = { 0xFF, 0, 0, 0, 1 };
    bool is_faulty = fault != NONE && round % 4 == 3;
    now += STEP_MS;
    do_actions();
    send_some();
    for (uint32_t slot = 0; slot < SLOTS; slot++) {
        if (!slots[slot].is_open) continue;
        take_all(slot, is_faulty && fault == LOST);
        if (is_faulty && fault == LIES) kp_producer_feed(&producer, slot, lie, sizeof lie, now);
        if (is_faulty && fault == LOST) lose(slot);
        else answer_all(slot, is_faulty && fault == REFUSED ? 6 : 0);
    }
    kp_producer_tick(&producer, now);
    for (kp_report told; round % 2 && kp_producer_reports(&producer, &told, 1) == 1;) delivered += told.outcome == KP_DELIVERED;
}

/* Lives through so many rounds, and then, where it is to close, until all is told. */
static void live(unsigned rounds, enum fault fault, bool closes) {
    kp_state state = { 0 };
    for (unsigned round = 0; round < rounds; round++) live_once(round, fault);
    if (!closes) return;
    kp_producer_flush(&producer), kp_producer_close(&producer);
    for (unsigned round = 0; round < 4 * ROUNDS; round++) live_once(round, NONE);
    kp_producer_state(&producer, &state);
    expect(state.untold == 0 && accepted == delivered && (accepted > 0 || refused), "all that was accepted is delivered");
}

/* Words fit into any room. */
static void say_all(size_t len) {
    uint8_t *room = copy_of(answer.bytes, len);
    for (int32_t code = -2; code < 130; code++) {
        expect(kp_status_words(code, room, len) <= len && kp_error_name(code, room, len) <= len, "words of a code fit");
        expect(kp_outcome_words((uint32_t)code, room, len) <= len, "words of an outcome fit");
    }
    free(room);
}

int main(void) {
    for (size_t len = 0; len < 100; len += 7) say_all(len);
    for (enum fault fault = NONE; fault < FAULTS; fault++)
        begin("host:9092"), live(ROUNDS, fault, true), end();
    for (unsigned rounds = 0; rounds < ROUNDS; rounds++) {
        begin("host:9092,else:1"), live(rounds, LOST, false), end();
        begin("host:9092"), live(rounds, LIES, false), kp_producer_end(&producer), end();
        begin("host:9092"), live(rounds, NONE, false), begin("host:9093"), live(rounds, REFUSED, false);
        expect(begin("host:0") == KP_BAD_ADDRESS, "an address has no port 0");
        expect(kp_producer_flush(&producer) == KP_OK, "who is not replaced goes on"), end();
    }
    do {
        refused += 1 + refused / 64, allocations = 0;
        begin("host:9092"), live(ROUNDS / 2, (enum fault)(refused % FAULTS), true), kp_producer_end(&producer), end();
    } while (allocations >= refused);
    return 0;
}
