/* kp.h: an idempotent Kafka producer of one topic, over the brokers of a cluster, that makes no call on the system.
 *
 * The caller has the sockets and the clock: it connects where it is told to, moves bytes between the connections and the
 * producer, and tells the time. The library starts no thread, opens no file and reads no clock.
 *
 * Linking. The library calls memcpy, memmove and memset, and for memory malloc, realloc and free alone, by rattle_alloc,
 * rattle_realloc and rattle_dealloc: a program that has these three itself has its own used, where it links with libkp.a.
 *
 * What the caller owes:
 * - A kp_producer begins as KP_NONE. Its fields are neither read nor written, and it is never copied: a copy that is freed too
 *   frees the memory twice. It may be moved to another place while no call is made on it, if the old place is not used again.
 * - One call at a time on each producer. Calls may come from different threads, if the caller orders them. No call is made in a
 *   signal handler. A forked child makes no call on a producer of its parent.
 * - One clock: now is in milliseconds of one clock that never goes back, the same in all calls on a producer.
 * - A pointer with a length is of so many elements, and is not null, also where the length is 0. What a call writes to
 *   overlaps nothing else that it is given. Pointers are used during the call only: what is sent is copied.
 * - A bool is false or true.
 *
 * What it may rely on: every call returns, whatever it is given. A call on a producer that is KP_NONE, or was freed, changes
 * nothing and gives KP_NO_PRODUCER, or an argument's fault, or else what stands beside it. A call that is refused changes nothing, but where it says so.
 *
 * A loop: while there are actions, kp_producer_next_action, and connect or close; kp_producer_send what there is to send; for
 * each connection, write what kp_producer_take gives, and kp_producer_feed what was read; kp_producer_tick;
 * kp_producer_reports; then wait until a socket is ready, or until kp_producer_next_due. */
#ifndef KP_H
#define KP_H
#include <stdbool.h>
#include <stddef.h>
#include <stdint.h>
#ifdef __cplusplus
extern "C" {
#endif

/* ---- values */

/* A producer, or none. */
typedef struct kp_producer { void *at; bool full; } kp_producer;
#define KP_NONE { NULL, false }

/* How a producer is configured, by Kafka's names; KP_CONFIG_DEFAULT has Kafka's defaults. Sizes are in bytes. */
typedef struct kp_config {
    uint64_t batch_size;                            /* a batch that has so many bytes is full; 0 to 8388608 */
    uint64_t linger_ms;                             /* how long one that is not full waits; 0 to 86400000 */
    uint64_t buffer_memory;                         /* how many bytes the records may have that are not told of; 100 to 1073741824 */
    uint64_t max_request_size;                      /* how many bytes the batches of a request may have; 100 to 8388608, no less than batch_size */
    uint64_t request_timeout_ms;                    /* how long an answer is awaited; 1 to 2147483647 */
    uint64_t delivery_timeout_ms;                   /* how long a batch has; linger_ms + request_timeout_ms to 2147483647 */
    uint64_t retry_backoff_ms;                      /* how long a batch waits before it is sent again; 0 to 86400000 */
    uint64_t max_in_flight_requests_per_connection; /* 1 to 5 */
    uint64_t sequence_limit;                        /* how many records of a partition have sequence numbers; 1 to 2147483648 */
    uint64_t reconnect_backoff_ms;                  /* how long an address is left alone after its first failure in a row */
    uint64_t reconnect_backoff_max_ms;              /* how long at most */
    uint64_t metadata_max_age_ms;                   /* how often Metadata is asked for where nothing failed */
    uint64_t open_timeout_ms;                       /* for how long the producer tries to be ready, not Kafka's */
    uint64_t keep_to_one;                           /* not 0: all goes to the one address that answered, as through a tunnel */
} kp_config;
#define KP_CONFIG_DEFAULT { 16384, 0, 33554432, 1048576, 30000, 120000, 100, 5, 2147483648u, 50, 1000, 300000, 60000, 0 }

/* What the caller is to do with the connection to a node. */
enum kp_action_kind { KP_NOTHING, KP_CONNECT, KP_CLOSE };
typedef struct kp_action { uint32_t kind, node; } kp_action;

/* The place of an accepted record: how many were accepted for its partition before it. */
typedef struct kp_ticket { uint64_t number; uint32_t partition; } kp_ticket;

/* How long a header's name and value are. Without has_value the value is Kafka's null, and value_len is not looked at. */
typedef struct kp_span { uint64_t name_len, value_len; bool has_value; } kp_span;

enum kp_outcome {
    KP_DELIVERED,           /* it stands in the log; detail is the offset */
    KP_DELIVERED_NO_OFFSET, /* it stands in the log; the broker no longer knows at which offset */
    KP_UNKNOWN,             /* it was sent, and given up before an answer came: it may stand in the log or not */
    KP_REJECTED,            /* the broker refused its batch for good; detail is the error code. It may stand in the log or not,
                               where an earlier attempt was lost */
    KP_EXPIRED,             /* it was never sent: the delivery timeout was over */
    KP_FENCED,              /* it was never sent: its partition was fenced */
    KP_ENDED                /* it was never sent: the producer was ended */
};

/* What became of the record with this ticket. */
typedef struct kp_report { uint64_t number; int64_t detail; uint32_t partition; uint32_t outcome; } kp_report;

/* What became of count records, from the one with this ticket on: of each the number is one more than of the one before it, and so
 * is the detail of KP_DELIVERED; all else is the same. */
typedef struct kp_report_run { uint64_t number; int64_t detail; uint64_t count; uint32_t partition; uint32_t outcome; } kp_report_run;

enum kp_phase { KP_OPENING, KP_READY, KP_FAILED, KP_SPENT };

typedef struct kp_state {
    uint64_t untold;             /* records that were accepted, and of which no report was made */
    uint64_t buffer_used;        /* the memory that they take, of buffer_memory */
    uint64_t requests_in_flight;
    uint64_t nodes;              /* how many nodes and first addresses are known: they are numbered from 0 */
    uint64_t partitions;         /* how many the topic has; 0 before KP_READY */
    uint32_t phase;              /* KP_FAILED: it was not ready in time, and never will be. KP_SPENT: each of its 2,147,483,646
                                    requests went out, and no more does: make another producer */
    int32_t refused;             /* the error code of the last refusal of Metadata or of a producer id; 0: none */
    bool is_flushed;             /* each record that was accepted before the last flush has its report */
} kp_state;

/* ---- statuses */

enum kp_status {
    KP_OK = 0,
    KP_NO_PRODUCER = 1,
    KP_OUT_OF_MEMORY = 2,

    /* kp_producer_send, kp_producer_send_batch: of these the first that applies */
    KP_CLOSED = 3,
    KP_NOT_READY = 4,            /* no broker has given a producer id yet */
    KP_NO_PARTITION = 5,
    KP_TOO_LARGE = 6,
    KP_BUFFER_FULL = 7,          /* with it, the records would take more than buffer_memory: send it again once there are reports;
                                    kp_producer_flush has what lingers go out */
    KP_NUMBERS_SPENT = 8,        /* every correlation id, or every number of the partition's records, was used: another producer
                                    can send it */

    /* connections */
    KP_NO_NODE = 9,
    KP_NO_CONNECTION = 10,       /* there is none to the node, or it was given up */
    KP_BAD_ANSWER = 11,

    /* arguments */
    KP_BAD_TIMESTAMP = 13,       /* below 0 */
    KP_BAD_LENGTHS = 14,         /* they are of other bytes than there are, or a header's name is not UTF-8 */
    KP_NO_ROOM = 15,

    /* kp_producer_new */
    KP_TOPIC_EMPTY = 20,
    KP_TOPIC_TOO_LONG = 21,      /* more than 249 bytes */
    KP_TOPIC_NOT_UTF8 = 22,
    KP_CLIENT_TOO_LONG = 23,     /* more than 249 bytes */
    KP_CLIENT_NOT_UTF8 = 24,
    KP_NO_ADDRESS = 25,
    KP_BAD_ADDRESS = 26,
    KP_TOO_MANY_ADDRESSES = 27,  /* more than 65536 */
    /* the first that applies, in the order of kp_config */
    KP_CONFIG_BATCH_SIZE = 101,
    KP_CONFIG_LINGER = 102,
    KP_CONFIG_BUFFER_MEMORY = 103,
    KP_CONFIG_MAX_REQUEST_SIZE = 104,
    KP_CONFIG_REQUEST_TIMEOUT = 105,
    KP_CONFIG_DELIVERY_TIMEOUT = 106,
    KP_CONFIG_RETRY_BACKOFF = 107,
    KP_CONFIG_MAX_IN_FLIGHT = 108,
    KP_CONFIG_SEQUENCE_LIMIT = 109,
    KP_CONFIG_BATCH_ABOVE_REQUEST = 110
};

/* ---- a producer */

/* Makes a producer of a topic. One that the handle had is freed, but only where KP_OK is given.
 * client: the name in each request, for the brokers' logs; may be empty. addresses: "host:port,host:port", of which the last
 * colon of each parts host and port; ports are 1 to 65535, and an IPv6 host has no brackets. seed: spreads the waits between connections; any number, best
 * another one in each process. */
int32_t kp_producer_new(kp_producer *, const kp_config *, const uint8_t *topic, size_t topic_len, const uint8_t *client,
                        size_t client_len, const uint8_t *addresses, size_t addresses_len, uint64_t seed, uint64_t now);

/* Frees the producer, where there is one: KP_NONE is left. Records that were not told of are forgotten. */
void kp_producer_free(kp_producer *);

/* What is to be seen of it. Nothing changes. */
int32_t kp_producer_state(kp_producer *, kp_state *);

/* ---- connections */

/* What to do next, each told once: call it until it tells KP_NOTHING. KP_CONNECT: connect to the node, and then call
 * kp_producer_connected, or kp_producer_lost where that fails. KP_CLOSE: close its connection, or give up opening it, and then
 * call kp_producer_lost. */
int32_t kp_producer_next_action(kp_producer *, uint64_t now, kp_action *);

/* A node's address. The host, without an end mark, is written to the front of its room, and its length to host_len.
 * KP_NO_NODE; KP_NO_ROOM: it has more than host_room bytes. Nothing changes. */
int32_t kp_producer_address(kp_producer *, uint32_t node, uint8_t *host, size_t host_room, size_t *host_len, uint16_t *port);

/* The connection to the node is open. Where there was one, that is lost. KP_NO_NODE, KP_OUT_OF_MEMORY: close it, and call
 * kp_producer_lost. */
int32_t kp_producer_connected(kp_producer *, uint32_t node, uint64_t now);

/* There is no connection to the node any more, by whoever closed it, or it could not be made. What was in flight is sent again. */
int32_t kp_producer_lost(kp_producer *, uint32_t node, uint64_t now);

/* Takes bytes that are to be written to the node's connection: they are in the front of the room, and count says how many.
 * They count as written: keep what the socket does not take yet, or call kp_producer_lost. Call it until count is 0, which it
 * also is where the call is refused: then the connection is as it was. KP_OUT_OF_MEMORY: call it again after a moment, of
 * which kp_producer_next_due does not tell. */
int32_t kp_producer_take(kp_producer *, uint32_t node, uint64_t now, uint8_t *room, size_t room_len, size_t *count);

/* Hears bytes that were read from the node's connection, in whatever pieces. Where it is refused but for KP_NO_CONNECTION, the
 * connection is given up: KP_CLOSE comes as an action. */
int32_t kp_producer_feed(kp_producer *, uint32_t node, const uint8_t *bytes, size_t len, uint64_t now);

/* ---- time */

/* The time is this: what is late is given up; and in KP_SPENT what is queued, once all that was sent is told of. */
int32_t kp_producer_tick(kp_producer *, uint64_t now);

/* When there may be something to do again, once all that there is was done: after now; UINT64_MAX where there is no such
 * moment, or no producer. now is that of the last kp_producer_tick: what came due since then is told too, and what was due
 * before is not, since it waits for a connection or an answer. Nothing changes. */
uint64_t kp_producer_next_due(kp_producer *, uint64_t now);

/* ---- records */

/* Accepts a record, whose report comes later, and gives its ticket.
 * partition: below 0 it goes to the one of its key (murmur2), and without a key to each in turn. Without has_key or has_value
 * that is Kafka's null. spans: a header each; their names and values stand one after the other in headers. timestamp_ms:
 * since the beginning of 1970, and not below 0. Where it is refused nothing has changed. */
int32_t kp_producer_send(kp_producer *, int32_t partition, bool has_key, const uint8_t *key, size_t key_len, bool has_value,
                         const uint8_t *value, size_t value_len, const kp_span *spans, size_t spans_len, const uint8_t *headers,
                         size_t headers_len, int64_t timestamp_ms, uint64_t now, kp_ticket *);

/* Accepts values that stand one after the other, by their lengths, each as a record without key and headers. It ends at the
 * first that is refused, whose status it gives; accepted says how many were accepted before it. Tickets are not told: the
 * numbers of a partition that is named go up by one, and with a partition below 0 each value goes to the next. */
int32_t kp_producer_send_batch(kp_producer *, int32_t partition, const uint8_t *values, size_t values_len,
                               const uint64_t *lengths, size_t lengths_len, int64_t timestamp_ms, uint64_t now, size_t *accepted);

/* The oldest reports that were not fetched, as many as there are and there is room for: how many. */
size_t kp_producer_reports(kp_producer *, kp_report *room, size_t room_len);

/* The same reports as runs, of which there are few where many go on with each other: how many runs. They are of room_len reports at
 * most: where they are of so many, there may be more. */
size_t kp_producer_report_runs(kp_producer *, kp_report_run *room, size_t room_len);

/* All that was accepted goes out, without lingering; is_flushed tells when all of it has its report. */
int32_t kp_producer_flush(kp_producer *);

/* No record is accepted any more, and all that was goes out. */
int32_t kp_producer_close(kp_producer *);

/* Gives up all that is left: each record that was not told of has its report then. */
int32_t kp_producer_end(kp_producer *);

/* ---- words: each writes text, without an end mark, to the front of the room, as much as fits, and gives its length there */

size_t kp_status_words(int32_t status, uint8_t *room, size_t room_len);
size_t kp_outcome_words(uint32_t outcome, uint8_t *room, size_t room_len);

/* Kafka's name of an error code; of one that it does not know nothing. */
size_t kp_error_name(int32_t code, uint8_t *room, size_t room_len);

#ifdef __cplusplus
}
#endif
#endif
