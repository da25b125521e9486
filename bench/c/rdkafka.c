/* rdkafka ADDRESSES PARTITIONS COUNT GROUP SIZE KEYS LINGER BATCH BUFFER RATE: publishes the records of a run (run.h) to the
 * topic t by librdkafka, and prints what became of them and what it took. The status is 0 where all were delivered, 1 where not,
 * and 2 where the words can't be meant. */
#define _POSIX_C_SOURCE 200809L
#include <stdatomic.h>
#include <librdkafka/rdkafka.h>
#include "run.h"

enum { BETWEEN = 256 }; /* so many records are sent between two looks for reports */

static struct run run;
static uint8_t values[MOST * LARGEST];
static rd_kafka_t *client;
static rd_kafka_topic_t *topic;
static uint64_t sent, delivered, failed;
static double ended, ended_used; /* when the last report came, and what was used by then */
static atomic_uint_fast64_t requests;

static void fail(const char *what) { fprintf(stderr, "rdkafka: %s\n", what); exit(1); }

static void set(rd_kafka_conf_t *conf, const char *name, const char *value) {
    char wrong[256];
    if (rd_kafka_conf_set(conf, name, value, wrong, sizeof wrong) != RD_KAFKA_CONF_OK) fail(wrong);
}

static void set_number(rd_kafka_conf_t *conf, const char *name, uint64_t value) {
    char text[32];
    snprintf(text, sizeof text, "%" PRIu64, value);
    set(conf, name, text);
}

static void tell(rd_kafka_t *of, const rd_kafka_message_t *message, void *opaque) {
    (void)of, (void)opaque;
    if (message->err) failed++; else delivered++;
    if (delivered + failed == run.count) { ended = seconds(); ended_used = used(); }
}

/* Counts Produce requests, in the threads that send them. */
static rd_kafka_resp_err_t count_request(rd_kafka_t *of, int socket, const char *name, int32_t id, int16_t key, int16_t version,
    int32_t correlation, size_t size, void *opaque) {
    (void)of, (void)socket, (void)name, (void)id, (void)version, (void)correlation, (void)size, (void)opaque;
    if (key == 0) atomic_fetch_add_explicit(&requests, 1, memory_order_relaxed);
    return RD_KAFKA_RESP_ERR_NO_ERROR;
}

static rd_kafka_resp_err_t count_requests(rd_kafka_t *of, const rd_kafka_conf_t *conf, void *opaque, char *wrong, size_t len) {
    (void)conf, (void)opaque, (void)wrong, (void)len;
    return rd_kafka_interceptor_add_on_request_sent(of, "count", count_request, NULL);
}

static rd_kafka_conf_t *configured(void) {
    rd_kafka_conf_t *conf = rd_kafka_conf_new();
    set(conf, "bootstrap.servers", run.addresses);
    set(conf, "enable.idempotence", "true");
    set(conf, "acks", "all");
    set(conf, "partitioner", "murmur2");
    set(conf, "socket.nagle.disable", "true");
    set(conf, "log_level", "2"); /* not of each connection that is lost */
    set_number(conf, "max.in.flight.requests.per.connection", 5);
    set_number(conf, "linger.ms", run.linger);
    set_number(conf, "batch.size", run.batch);
    set_number(conf, "queue.buffering.max.kbytes", run.buffer / 1024);
    set_number(conf, "queue.buffering.max.messages", 0); /* no bound but that of bytes */
    set_number(conf, "delivery.timeout.ms", 120000);
    rd_kafka_conf_set_dr_msg_cb(conf, tell);
    rd_kafka_conf_interceptor_add_on_new(conf, "count", count_requests, NULL);
    return conf;
}

/* How many of so many records are sent: those that the buffer is too full for are sent again. */
static uint64_t sent_of(uint64_t count, uint64_t sent, rd_kafka_resp_err_t why) {
    if (sent < count && why != RD_KAFKA_RESP_ERR__QUEUE_FULL) fail(rd_kafka_err2str(why));
    return sent;
}

/* Sends a record: how many are sent. */
static uint64_t send_one(uint64_t number) {
    static int32_t turn;
    uint32_t key = run.keys ? key_of(&run, number) : 0;
    make_value(values, run.size, number);
    int done = rd_kafka_produce(topic, run.keys ? RD_KAFKA_PARTITION_UA : turn, RD_KAFKA_MSG_F_COPY, values, run.size,
        run.keys ? &key : NULL, run.keys ? sizeof key : 0, NULL);
    if (done != 0) return sent_of(1, 0, rd_kafka_last_error());
    turn = partition_behind(&run, turn);
    return 1;
}

/* Sends by one call what is not sent of a group: how many are sent. */
static uint64_t send_group(uint64_t number) {
    static rd_kafka_message_t messages[MOST];
    uint64_t done = number % run.group, count = run.group - done;
    for (uint64_t k = done; k < run.group; k++) {
        uint8_t *value = values + k * run.size;
        if (done == 0) make_value(value, run.size, number + k);
        messages[k] = (rd_kafka_message_t){ .payload = value, .len = run.size };
    }
    int32_t partition = (int32_t)(number / run.group % run.partitions);
    uint64_t sent = (uint64_t)rd_kafka_produce_batch(topic, partition, RD_KAFKA_MSG_F_COPY, messages + done, (int)count);
    return sent_of(count, sent, sent < count ? messages[done + sent].err : RD_KAFKA_RESP_ERR_NO_ERROR);
}

/* Sends the records below a number, or as many as there is room for. */
static void send_until(uint64_t until) {
    for (uint64_t more = 1; sent < until && more > 0; sent += more) more = run.group > 1 ? send_group(sent) : send_one(sent);
}

int main(int argc, char **argv) {
    run = run_of(argc, argv);
    memset(values, LETTER, sizeof values);
    char wrong[256];
    client = rd_kafka_new(RD_KAFKA_PRODUCER, configured(), wrong, sizeof wrong);
    if (!client) fail(wrong);
    topic = rd_kafka_topic_new(client, "t", NULL);
    send_until(run.first);
    while (delivered + failed < sent) rd_kafka_poll(client, 100);
    double begun = seconds(), begun_used = used();
    uint64_t asked = requests;
    while (sent < run.count) {
        uint64_t due = due_by_now(&run, begun), until = due < sent + BETWEEN ? due : sent + BETWEEN;
        send_until(until);
        rd_kafka_poll(client, sent < until || sent >= due ? 1 : 0);
    }
    while (delivered + failed < run.count) rd_kafka_flush(client, 1000);
    int status = told(delivered, failed, ended - begun, ended_used - begun_used, requests - asked);
    rd_kafka_topic_destroy(topic);
    rd_kafka_destroy(client);
    return status;
}
