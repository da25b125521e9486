/* embed ADDRESSES PARTITIONS COUNT GROUP SIZE KEYS LINGER BATCH BUFFER RATE: publishes the records of a run (run.h) to the topic
 * t by libkp_c.a, in one thread over poll, and prints what became of them and what it took. The status is 0 where all were
 * delivered, 1 where not, and 2 where the words can't be meant. */
#define _POSIX_C_SOURCE 200809L
#include <errno.h>
#include <fcntl.h>
#include <netdb.h>
#include <netinet/in.h>
#include <netinet/tcp.h>
#include <poll.h>
#include <sys/socket.h>
#include <unistd.h>
#include "kp.h"
#include "run.h"

enum {
    CONNECT_MS = 10000,
    NODES = 64,    /* the most that are known at once */
    PIECE = 65536, /* bytes that are written at once */
    HEAD = 6,      /* bytes of a request up to its kind: its length, and an API key */
    /* At no pace so many records go out at once, and at most so many have no report: what lingers, or waits until less is in
     * flight, falls out of the processor's caches. With LINGERS none goes out before its batch is full or has lingered, but for the
     * last ones. With FILLS it sends all that there is room for, as a program does that looks at no report before. */
#ifdef FILLS
    ROUND = 1 << 20, AHEAD = 1 << 30, LETS_LINGER = false
#elif defined LINGERS
    ROUND = 2048, AHEAD = 8192, LETS_LINGER = true
#else
    ROUND = 2048, AHEAD = 4096, LETS_LINGER = false
#endif
};

/* The connection to a node. What the socket has not taken yet is out[from..to]. */
struct line {
    int fd; /* below 0: there is none */
    bool is_open;
    uint64_t until; /* it is to be open before this moment */
    size_t from, to;
    uint64_t head;     /* the last bytes that were written of a request's head */
    size_t seen, left; /* how many of its head were written, and how many are to come behind it */
    uint8_t out[PIECE];
};

static struct run run;
static uint8_t values[MOST * LARGEST];
static kp_producer producer = KP_NONE;
static uint64_t now, sent, delivered, failed, requests;
static struct line lines[NODES];
static struct pollfd polled[NODES];
static uint32_t count; /* of lines */

static void fail(const char *what, int32_t status) {
    uint8_t words[128];
    fprintf(stderr, "embed: %s: %.*s\n", what, (int)kp_status_words(status, words, sizeof words), (char *)words);
    exit(1);
}

static uint64_t millis(clockid_t clock) {
    struct timespec t;
    clock_gettime(clock, &t);
    return (uint64_t)t.tv_sec * 1000 + (uint64_t)t.tv_nsec / 1000000;
}

/* The moment that the library is told. It goes on in steps of linger.ms: the batches that were begun in one step are due at the
 * next, all at once, and a node has those that it leads in one request. None waits for longer than linger.ms. */
static uint64_t coarse(void) {
    uint64_t step = run.linger ? run.linger : 1;
    return millis(CLOCK_MONOTONIC) / step * step;
}

/* ---- connections */

static void lose(uint32_t node) {
    struct line *line = &lines[node];
    if (line->fd >= 0) close(line->fd);
    line->fd = -1;
    line->is_open = false;
    line->from = line->to = line->seen = line->left = 0;
    kp_producer_lost(&producer, node, now);
}

static void begin_connecting(uint32_t node) {
    if (node >= NODES) fail("there are too many nodes", KP_NO_ROOM);
    while (count <= node) lines[count++].fd = -1;
    char host[256] = "", service[6] = "";
    size_t len = 0;
    uint16_t port = 0;
    struct addrinfo hints = { .ai_socktype = SOCK_STREAM, .ai_flags = AI_NUMERICSERV }, *found = NULL;
    int32_t status = kp_producer_address(&producer, node, (uint8_t *)host, sizeof host - 1, &len, &port);
    snprintf(service, sizeof service, "%" PRIu16, port);
    if (status != KP_OK || getaddrinfo(host, service, &hints, &found) != 0) { lose(node); return; }
    int fd = lines[node].fd = socket(found->ai_family, found->ai_socktype, found->ai_protocol), one = 1;
    lines[node].until = now + CONNECT_MS;
    setsockopt(fd, IPPROTO_TCP, TCP_NODELAY, &one, sizeof one);
    if (fd < 0 || fcntl(fd, F_SETFL, O_NONBLOCK) != 0
        || (connect(fd, found->ai_addr, found->ai_addrlen) != 0 && errno != EINPROGRESS)) lose(node);
    freeaddrinfo(found);
}

static void finish_connecting(uint32_t node) {
    int wrong = 1;
    socklen_t len = sizeof wrong;
    getsockopt(lines[node].fd, SOL_SOCKET, SO_ERROR, &wrong, &len);
    if (wrong || kp_producer_connected(&producer, node, now) != KP_OK) lose(node);
    else lines[node].is_open = true;
}

static void read_from(uint32_t node) {
    static uint8_t piece[PIECE];
    ssize_t len = recv(lines[node].fd, piece, sizeof piece, 0);
    if (len > 0) kp_producer_feed(&producer, node, piece, (size_t)len, now); /* where it is refused, KP_CLOSE comes */
    else if (len == 0 || (errno != EAGAIN && errno != EWOULDBLOCK && errno != EINTR)) lose(node);
}

/* Counts the Produce requests, those of API key 0, that begin in these bytes. */
static void count_requests(struct line *line, const uint8_t *at, size_t len) {
    for (size_t step; len > 0; at += step, len -= step) {
        step = line->left == 0 ? 1 : line->left < len ? line->left : len;
        if (line->left > 0) { line->left -= step; continue; }
        line->head = line->head << 8 | *at;
        if (++line->seen < HEAD) continue;
        line->seen = 0;
        line->left = (line->head >> 16 & UINT32_MAX) - 2;
        requests += (line->head & UINT16_MAX) == 0;
    }
}

/* Takes what is to be written, as many requests as there is room for. */
static void fill(uint32_t node) {
    struct line *line = &lines[node];
    line->from = line->to = 0;
    for (size_t len = 1; len > 0 && line->to < PIECE; line->to += len)
        if (kp_producer_take(&producer, node, now, line->out + line->to, PIECE - line->to, &len) == KP_OUT_OF_MEMORY)
            fail("nothing is taken", KP_OUT_OF_MEMORY);
    count_requests(line, line->out, line->to);
}

static void write_to(uint32_t node) {
    struct line *line = &lines[node];
    while (line->is_open) {
        if (line->from == line->to) fill(node);
        if (line->from == line->to) return;
        ssize_t len = send(line->fd, line->out + line->from, line->to - line->from, MSG_NOSIGNAL);
        if (len >= 0) line->from += (size_t)len;
        else if (errno == EAGAIN || errno == EWOULDBLOCK) return;
        else if (errno != EINTR) lose(node);
    }
}

/* ---- records */

/* Sends a record. */
static int32_t send_one(int64_t stamp) {
    static int32_t turn;
    uint32_t key = run.keys ? key_of(&run, sent) : 0;
    make_value(values, run.size, sent);
    int32_t status = kp_producer_send(&producer, run.keys ? -1 : turn, run.keys != 0, (uint8_t *)&key, run.keys ? sizeof key : 0, true,
        values, run.size, &(kp_span){ 0 }, 0, values, 0, stamp, now, &(kp_ticket){ 0 });
    if (status == KP_OK) sent++, turn = partition_behind(&run, turn);
    return status;
}

/* Sends by one call what is not sent of a group. */
static int32_t send_group(int64_t stamp) {
    static uint64_t lengths[MOST];
    uint64_t done = sent % run.group;
    for (uint64_t k = 0; done == 0 && k < run.group; k++) {
        make_value(values + k * run.size, run.size, sent + k);
        lengths[k] = run.size;
    }
    size_t accepted = 0;
    int32_t status = kp_producer_send_batch(&producer, (int32_t)(sent / run.group % run.partitions), values + done * run.size,
        (run.group - done) * run.size, lengths, run.group - done, stamp, now, &accepted);
    sent += accepted;
    return status;
}

/* How many records are to be sent by now. At no pace it is a round more, where few are then sent that have no report. */
static uint64_t due_now(double begun) {
    if (!(begun > 0)) return run.first;
    if (run.rate) return due_by_now(&run, begun);
    uint64_t next = sent + ROUND < run.count ? sent + ROUND : run.count;
    return next <= delivered + failed + AHEAD ? next : sent;
}

/* Sends the records below a number: whether none was refused for now. */
static bool send_until(uint64_t due) {
    int64_t stamp = (int64_t)millis(CLOCK_REALTIME);
    int32_t status = KP_OK;
    while (sent < due && status == KP_OK) status = run.group > 1 ? send_group(stamp) : send_one(stamp);
    kp_state state = { 0 };
    if (status == KP_NOT_READY) kp_producer_state(&producer, &state);
    if (state.phase == KP_FAILED) fail("no broker could be used in time", status);
    if (status != KP_OK && status != KP_NOT_READY && status != KP_BUFFER_FULL) fail("a record is not sent", status);
    return status == KP_OK;
}

static void tell(void) {
    static kp_report got[ROUND];
    for (size_t have; (have = kp_producer_reports(&producer, got, ROUND)) > 0;)
        for (size_t k = 0; k < have; k++)
            if (got[k].outcome == KP_DELIVERED || got[k].outcome == KP_DELIVERED_NO_OFFSET) delivered++; else failed++;
}

/* Waits until a socket is ready, or something is due, or so many milliseconds, and moves bytes. */
static void wait_ready(uint64_t most) {
    uint64_t real = millis(CLOCK_MONOTONIC), due = most > 0 ? kp_producer_next_due(&producer, now) : real;
    if (due > real + most) due = real + most;
    for (uint32_t k = 0; k < count; k++) {
        short writes = !lines[k].is_open || lines[k].from < lines[k].to ? POLLOUT : 0;
        polled[k] = (struct pollfd){ .fd = lines[k].fd, .events = POLLIN | writes };
    }
    poll(polled, count, due > real ? (int)(due - real) : 0);
    now = coarse();
    for (uint32_t k = 0; k < count; k++)
        if (lines[k].is_open && polled[k].revents & ~POLLOUT) read_from(k);
        else if (!lines[k].is_open && polled[k].revents) finish_connecting(k);
        else if (!lines[k].is_open && lines[k].fd >= 0 && now >= lines[k].until) lose(k);
    kp_producer_tick(&producer, now);
}

int main(int argc, char **argv) {
    run = run_of(argc, argv);
    memset(values, LETTER, sizeof values);
    kp_config config = KP_CONFIG_DEFAULT;
    config.linger_ms = run.linger;
    config.batch_size = run.batch;
    config.buffer_memory = run.buffer;
    now = coarse();
    int32_t status = kp_producer_new(&producer, &config, (uint8_t *)"t", 1, (uint8_t *)"embed", 5, (const uint8_t *)run.addresses,
        strlen(run.addresses), millis(CLOCK_REALTIME) ^ (uint64_t)getpid() << 32, now);
    if (status != KP_OK) fail("no producer is made", status);
    double begun = 0, begun_used = 0;
    uint64_t asked = 0;
    for (bool is_closed = false;;) {
        for (kp_action act; kp_producer_next_action(&producer, now, &act) == KP_OK && act.kind != KP_NOTHING;)
            if (act.kind == KP_CONNECT) begin_connecting(act.node); else lose(act.node);
        tell();
        bool goes_on = send_until(due_now(begun)) && !run.rate;
        if (begun > 0 && !run.rate && (!LETS_LINGER || sent == run.count)) kp_producer_flush(&producer);
        if (sent == run.count && !is_closed) is_closed = kp_producer_close(&producer) == KP_OK;
        for (uint32_t k = 0; k < count; k++) write_to(k);
        tell();
        if (delivered + failed == run.count) break;
        if (delivered + failed == run.first && !(begun > 0)) {
            begun = seconds(), begun_used = used(), asked = requests;
        } else wait_ready(goes_on && sent < due_now(begun) ? 0 : run.rate && sent < run.count ? 1 : 1000);
    }
    int result = told(delivered, failed, seconds() - begun, used() - begun_used, requests - asked);
    kp_producer_free(&producer);
    return result;
}
