/* read ADDRESSES PARTITIONS COUNT: reads each partition of the topic t from its beginning to its end by librdkafka's consumer,
 * which checks each batch's checksum, and checks each value (run.h). It prints a line:
 *
 *   read N distinct N repeats N gone N broken N disordered N places N
 *
 * how many records there are, of how many numbers, and how many bear a number that was read before; how many had been in front
 * of those that the cluster still has; how many values are not whole, or of no number below COUNT; how many stand behind one of
 * their partition with a higher number; and a sum over numbers and their partitions, which tells whether two clusters have them
 * alike. The status is 1 where the cluster can't be read, and 2 where the words can't be meant. */
#define _POSIX_C_SOURCE 200809L
#include <librdkafka/rdkafka.h>
#include "run.h"

enum { WAIT_MS = 20000 };

static void fail(const char *what) { fprintf(stderr, "read: %s\n", what); exit(1); }

static void set(rd_kafka_conf_t *conf, const char *name, const char *value) {
    char wrong[256];
    if (rd_kafka_conf_set(conf, name, value, wrong, sizeof wrong) != RD_KAFKA_CONF_OK) fail(wrong);
}

int main(int argc, char **argv) {
    uint64_t partitions = argc == 4 ? strtoull(argv[2], NULL, 10) : 0, count = argc == 4 ? strtoull(argv[3], NULL, 10) : 0;
    if (!partitions || !count) { fputs("usage: read ADDRESSES PARTITIONS COUNT\n", stderr); return 2; }
    char wrong[256];
    rd_kafka_conf_t *conf = rd_kafka_conf_new();
    set(conf, "bootstrap.servers", argv[1]);
    set(conf, "check.crcs", "true");
    set(conf, "enable.partition.eof", "true");
    set(conf, "fetch.wait.max.ms", "10");
    rd_kafka_t *client = rd_kafka_new(RD_KAFKA_CONSUMER, conf, wrong, sizeof wrong);
    if (!client) fail(wrong);
    rd_kafka_topic_t *topic = rd_kafka_topic_new(client, "t", NULL);
    rd_kafka_queue_t *queue = rd_kafka_queue_new(client);
    int64_t *offsets = calloc(partitions, sizeof *offsets); /* of each partition the next one, and the next number at least */
    uint64_t *numbers = calloc(partitions, sizeof *numbers), left = partitions;
    bool *known = calloc(count, sizeof *known);
    if (!offsets || !numbers || !known) fail("out of memory");
    for (uint64_t p = 0; p < partitions; p++)
        if (rd_kafka_consume_start_queue(topic, (int32_t)p, RD_KAFKA_OFFSET_BEGINNING, queue)) fail("a partition is not read");
    uint64_t read = 0, distinct = 0, repeats = 0, gone = 0, broken = 0, disordered = 0, places = 0;
    while (left > 0) {
        rd_kafka_message_t *m = rd_kafka_consume_queue(queue, WAIT_MS);
        if (!m) fail("nothing comes any more");
        uint64_t p = (uint64_t)m->partition, number = 0;
        if (m->err == RD_KAFKA_RESP_ERR__PARTITION_EOF) left--;
        else if (m->err) fail(rd_kafka_message_errstr(m));
        else {
            read++;
            gone += (uint64_t)(m->offset - offsets[p]);
            offsets[p] = m->offset + 1;
            if (!is_value(m->payload, m->len, &number) || number >= count) broken++;
            else if (known[number]) repeats++;
            else {
                known[number] = true;
                distinct++;
                places += (number + 1) * (p + 1);
                if (number < numbers[p]) disordered++; else numbers[p] = number;
            }
        }
        rd_kafka_message_destroy(m);
    }
    printf("read %" PRIu64 " distinct %" PRIu64 " repeats %" PRIu64 " gone %" PRIu64 " broken %" PRIu64 " disordered %" PRIu64
        " places %" PRIu64 "\n", read, distinct, repeats, gone, broken, disordered, places);
    for (uint64_t p = 0; p < partitions; p++) rd_kafka_consume_stop(topic, (int32_t)p);
    rd_kafka_queue_destroy(queue);
    rd_kafka_topic_destroy(topic);
    rd_kafka_destroy(client);
    return 0;
}
