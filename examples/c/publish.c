/* publish ADDRESSES TOPIC [PARTITION [NAME=VALUE..]]: publishes each line of standard input, with these headers, and prints what
 * became of it: `PARTITION NUMBER OUTCOME DETAIL`. What stands before a line's first tab is its key, partition -1 is any, and a
 * header without `=` has no value. The status is 0 where all were delivered, 1 where not, 2 where the words can't be meant. */
#define _POSIX_C_SOURCE 200809L
#include <errno.h>
#include <fcntl.h>
#include <inttypes.h>
#include <netdb.h>
#include <netinet/in.h>
#include <netinet/tcp.h>
#include <poll.h>
#include <stdio.h>
#include <stdlib.h>
#include <string.h>
#include <sys/socket.h>
#include <time.h>
#include <unistd.h>
#include "kp.h"

enum { CONNECT_MS = 10000, PIECE = 65536 };
/* A node's connection: none where fd is below 0. It is to be open before `until`. The socket has not taken out[from..to] yet. */
struct line { int fd; bool is_open; unsigned tries; uint64_t until; size_t from, to; uint8_t out[PIECE]; };

static kp_producer producer = KP_NONE;
static uint64_t now;
static struct line *lines;
static struct pollfd *polled; /* one of each line, and behind them standard input */
static uint32_t count;
static struct { uint8_t *at; size_t from, to, room; bool has_ended; } text; /* what was read and not sent is at[from..to] */
static struct { int32_t partition; uint8_t *headers; size_t len, count; kp_span *spans; } common; /* what each record has */
static bool all_delivered = true, is_short; /* is_short: memory was refused, and the call is to be made again soon */

static uint64_t millis(clockid_t clock) {
    struct timespec t;
    clock_gettime(clock, &t);
    return (uint64_t)t.tv_sec * 1000 + (uint64_t)t.tv_nsec / 1000000;
}

static void *resized(void *at, size_t size) {
    if (!(at = realloc(at, size))) { fputs("publish: out of memory\n", stderr); exit(1); }
    return at;
}

static void say(const char *what, int32_t status) {
    uint8_t words[128];
    fprintf(stderr, "publish: %s: %.*s\n", what, (int)kp_status_words(status, words, sizeof words), (char *)words);
}

/* Reads the headers of the records. Where there is none, the pointers are not null either. */
static void read_headers(int argc, char **argv) {
    common.spans = resized(NULL, (size_t)argc * sizeof *common.spans);
    common.headers = resized(NULL, 1);
    for (char **word = argv + 4; word < argv + argc; word++) {
        size_t len = strlen(*word), name = strcspn(*word, "="), value = name < len ? len - name - 1 : 0;
        common.headers = resized(common.headers, common.len + len + 1);
        sprintf((char *)common.headers + common.len, "%.*s%s", (int)name, *word, *word + len - value);
        common.spans[common.count++] = (kp_span){ name, value, name < len };
        common.len += name + value;
    }
}

static void lose(uint32_t node) {
    if (lines[node].fd >= 0) close(lines[node].fd);
    lines[node] = (struct line){ .fd = -1, .tries = lines[node].tries + 1 };
    kp_producer_lost(&producer, node, now);
}

/* Begins to connect to a node, at each try to the next of the addresses that its name has. Looking them up may take a while. */
static void begin_connecting(uint32_t node) {
    if (count <= node) lines = resized(lines, (node + 1) * sizeof *lines);
    while (count <= node) lines[count++] = (struct line){ .fd = -1 };
    char host[256] = "", service[6] = "";
    uint16_t port = 0;
    struct addrinfo hints = { .ai_socktype = SOCK_STREAM, .ai_flags = AI_NUMERICSERV }, *found = NULL;
    int32_t status = kp_producer_address(&producer, node, (uint8_t *)host, sizeof host - 1, &(size_t){ 0 }, &port);
    snprintf(service, sizeof service, "%" PRIu16, port);
    if (status != KP_OK || getaddrinfo(host, service, &hints, &found) != 0) { lose(node); return; }
    const struct addrinfo *to = found;
    for (unsigned n = 0; n < lines[node].tries; n++) to = to->ai_next ? to->ai_next : found;
    int fd = socket(to->ai_family, to->ai_socktype, to->ai_protocol), one = 1;
    lines[node] = (struct line){ .fd = fd, .tries = lines[node].tries, .until = now + CONNECT_MS };
    setsockopt(fd, IPPROTO_TCP, TCP_NODELAY, &one, sizeof one);
    bool waits = fd < 0 || fcntl(fd, F_SETFL, O_NONBLOCK) != 0 || connect(fd, to->ai_addr, to->ai_addrlen) != 0;
    if (waits && errno != EINPROGRESS && errno != EINTR) lose(node);
    freeaddrinfo(found);
}

static void finish_connecting(uint32_t node) {
    int wrong = 1;
    getsockopt(lines[node].fd, SOL_SOCKET, SO_ERROR, &wrong, &(socklen_t){ sizeof wrong });
    if (wrong || kp_producer_connected(&producer, node, now) != KP_OK) lose(node); else lines[node].is_open = true;
}

static void read_from(uint32_t node) {
    static uint8_t piece[PIECE];
    ssize_t len = recv(lines[node].fd, piece, sizeof piece, 0);
    if (len > 0) kp_producer_feed(&producer, node, piece, (size_t)len, now); /* where it is refused, KP_CLOSE comes */
    else if (len == 0 || (errno != EAGAIN && errno != EWOULDBLOCK && errno != EINTR)) lose(node);
}

static void write_to(uint32_t node) {
    struct line *line = &lines[node];
    while (line->is_open) {
        if (line->from == line->to) line->from = line->to = 0;
        if (!line->to && kp_producer_take(&producer, node, now, line->out, PIECE, &line->to) == KP_OUT_OF_MEMORY) is_short = true;
        if (!line->to) return;
        ssize_t len = send(line->fd, line->out + line->from, line->to - line->from, MSG_NOSIGNAL);
        if (len >= 0) line->from += (size_t)len;
        else if (errno == EAGAIN || errno == EWOULDBLOCK) return;
        else if (errno != EINTR) lose(node);
    }
}

/* Sends the lines that were read: whether all of them are sent. */
static bool send_lines(void) {
    while (text.from < text.to) {
        const uint8_t *line = text.at + text.from, *end = memchr(line, '\n', text.to - text.from);
        if (!end && !text.has_ended) return true;
        size_t len = end ? (size_t)(end - line) : text.to - text.from;
        const uint8_t *tab = memchr(line, '\t', len), *value = tab ? tab + 1 : line;
        int32_t status = kp_producer_send(&producer, common.partition, tab != NULL, line, tab ? (size_t)(tab - line) : 0, true,
            value, (size_t)(line + len - value), common.spans, common.count, common.headers, common.len,
            (int64_t)millis(CLOCK_REALTIME), now, &(kp_ticket){ 0 });
        if (status == KP_OUT_OF_MEMORY) is_short = true;
        if (status == KP_OUT_OF_MEMORY || status == KP_NOT_READY || status == KP_BUFFER_FULL) return false;
        if (status != KP_OK) { say("a line is not sent", status); all_delivered = false; }
        text.from += len + (end != NULL);
    }
    if (text.has_ended) kp_producer_close(&producer);
    return true;
}

static void read_lines(void) {
    if (text.from > 0) memmove(text.at, text.at + text.from, text.to - text.from);
    text.to -= text.from;
    text.from = 0;
    if (text.room - text.to < PIECE) text.at = resized(text.at, text.room = 2 * text.room + PIECE);
    ssize_t len = read(STDIN_FILENO, text.at + text.to, text.room - text.to);
    if (len > 0) text.to += (size_t)len;
    else if (len == 0 || (errno != EAGAIN && errno != EINTR)) { text.has_ended = true; all_delivered &= len == 0; }
}

static void tell(void) {
    uint8_t words[128];
    for (kp_report r; kp_producer_reports(&producer, &r, 1) == 1;) {
        int len = (int)kp_outcome_words(r.outcome, words, sizeof words);
        printf("%" PRIu32 " %" PRIu64 " %.*s %" PRId64 "\n", r.partition, r.number, len, (char *)words, r.detail);
        if (r.outcome != KP_DELIVERED && r.outcome != KP_DELIVERED_NO_OFFSET) all_delivered = false;
    }
    fflush(stdout);
}

/* Waits until a socket or standard input is ready, or something is due. Lines are read once all that were read are sent. */
static void wait_ready(bool reads) {
    uint64_t due = kp_producer_next_due(&producer, now);
    if (is_short) { due = now + 1; is_short = false; }
    polled = resized(polled, (count + 1) * sizeof *polled);
    polled[count] = (struct pollfd){ .fd = reads ? STDIN_FILENO : -1, .events = POLLIN };
    for (uint32_t k = 0; k < count; k++) {
        short writes = !lines[k].is_open || lines[k].from < lines[k].to ? POLLOUT : 0;
        polled[k] = (struct pollfd){ .fd = lines[k].fd, .events = POLLIN | writes };
        if (lines[k].fd >= 0 && !lines[k].is_open && lines[k].until < due) due = lines[k].until;
    }
    poll(polled, count + 1, due - now > INT32_MAX ? INT32_MAX : (int)(due - now));
    now = millis(CLOCK_MONOTONIC);
}

int main(int argc, char **argv) {
    char *end = "";
    long number = argc > 3 ? strtol(argv[3], &end, 10) : -1;
    bool is_meant = argc > 2 && (argc == 3 || end != argv[3]) && !*end && number >= -1 && number <= INT32_MAX;
    if (!is_meant) { fputs("usage: publish ADDRESSES TOPIC [PARTITION [NAME=VALUE..]]\n", stderr); return 2; }
    common.partition = (int32_t)number;
    now = millis(CLOCK_MONOTONIC);
    int32_t status = kp_producer_new(&producer, &(kp_config)KP_CONFIG_DEFAULT, (uint8_t *)argv[2], strlen(argv[2]),
        (uint8_t *)"publish", 7, (uint8_t *)argv[1], strlen(argv[1]), millis(CLOCK_REALTIME) ^ (uint64_t)getpid() << 32, now);
    if (status != KP_OK) { say("no producer is made", status); return status == KP_OUT_OF_MEMORY ? 1 : 2; }
    read_headers(argc, argv);
    kp_state state = { 0 };
    for (bool all_sent = true;; all_sent = send_lines()) {
        for (kp_action act; kp_producer_next_action(&producer, now, &act) == KP_OK && act.kind != KP_NOTHING;)
            if (act.kind == KP_CONNECT) begin_connecting(act.node); else lose(act.node);
        for (uint32_t k = 0; k < count; k++) write_to(k);
        tell();
        kp_producer_state(&producer, &state);
        if (state.phase == KP_FAILED || (text.has_ended && text.from == text.to && state.untold == 0)) break;
        wait_ready(all_sent && !text.has_ended);
        for (uint32_t k = 0; k < count; k++)
            if (lines[k].is_open && polled[k].revents & ~POLLOUT) read_from(k);
            else if (!lines[k].is_open && polled[k].revents) finish_connecting(k);
            else if (!lines[k].is_open && lines[k].fd >= 0 && now >= lines[k].until) lose(k);
        if (polled[count].revents) read_lines();
        kp_producer_tick(&producer, now);
    }
    for (uint32_t k = 0; k < count; k++) lose(k);
    kp_producer_free(&producer);
    free(lines), free(polled), free(text.at), free(common.headers), free(common.spans);
    if (state.phase == KP_FAILED) fputs("publish: no broker could be used in time\n", stderr);
    return !ferror(stdout) && all_delivered && state.phase != KP_FAILED ? 0 : 1;
}
