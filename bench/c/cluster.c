/* cluster PARTITIONS [BROKERS]: holds librdkafka's mock cluster of so many brokers (3), with the topic t of so many partitions, of
 * which P is led by broker P mod BROKERS + 1. They listen at the ports that CLUSTER_PORTS names, with commas between them, so that
 * a cluster can be where another one was, or else at free ones. It prints a line, its addresses and librdkafka's version, and then
 * does what each line of standard input says, and prints `done` or `refused`:
 *
 *   move PARTITION BROKER    the partition is led by the broker
 *   down BROKER              the broker hangs up, and takes no connection
 *   up BROKER                it takes connections again
 *   code NUMBER              whoever asks of the topic is answered by this error code, or none where it is 0
 *
 * It ends with its input. The status is 2 where the words can't be meant. */
#define _DEFAULT_SOURCE
#define _POSIX_C_SOURCE 200809L
#include <stdbool.h>
#include <stdio.h>
#include <stdlib.h>
#include <string.h>
#include <time.h>
#include <unistd.h>
#include <netinet/in.h>
#include <sys/socket.h>
#include <sys/syscall.h>
#include <librdkafka/rdkafka.h>
#include <librdkafka/rdkafka_mock.h>

enum { BROKERS = 3, PAUSE_NS = 1000000 };

static const char *ports = ""; /* those that are left */

/* In the place of the C library's: librdkafka asks for any port, and is given the next one. */
int bind(int fd, const struct sockaddr *address, socklen_t size) {
    struct sockaddr_in place = { 0 };
    if (address->sa_family == AF_INET && size == sizeof place) memcpy(&place, address, sizeof place);
    if (place.sin_family == AF_INET && !place.sin_port && *ports) {
        char *rest;
        place.sin_port = htons((uint16_t)strtoul(ports, &rest, 10));
        ports = rest + (*rest == ',');
        address = (const struct sockaddr *)&place;
    }
    return (int)syscall(SYS_bind, fd, address, size);
}

/* A cluster that is called right after it has answered may sleep for a second before it hears the call. */
static void pause_a_moment(void) { nanosleep(&(struct timespec){ .tv_nsec = PAUSE_NS }, NULL); }

static rd_kafka_resp_err_t obey(rd_kafka_mock_cluster_t *cluster, const char *line) {
    int partition, broker, code;
    pause_a_moment();
    if (sscanf(line, "move %d %d", &partition, &broker) == 2)
        return rd_kafka_mock_partition_set_leader(cluster, "t", partition, broker);
    if (sscanf(line, "down %d", &broker) == 1) return rd_kafka_mock_broker_set_down(cluster, broker);
    if (sscanf(line, "up %d", &broker) == 1) return rd_kafka_mock_broker_set_up(cluster, broker);
    if (sscanf(line, "code %d", &code) == 1) {
        rd_kafka_mock_topic_set_error(cluster, "t", (rd_kafka_resp_err_t)code);
        return RD_KAFKA_RESP_ERR_NO_ERROR;
    }
    return RD_KAFKA_RESP_ERR__INVALID_ARG;
}

int main(int argc, char **argv) {
    int partitions = argc == 2 || argc == 3 ? atoi(argv[1]) : 0, brokers = argc == 3 ? atoi(argv[2]) : BROKERS;
    if (partitions < 1 || brokers < 1) { fputs("usage: cluster PARTITIONS [BROKERS]\n", stderr); return 2; }
    if (getenv("CLUSTER_PORTS")) ports = getenv("CLUSTER_PORTS");
    char wrong[256], line[256];
    rd_kafka_conf_t *conf = rd_kafka_conf_new();
    rd_kafka_conf_set_log_cb(conf, NULL);
    rd_kafka_t *client = rd_kafka_new(RD_KAFKA_PRODUCER, conf, wrong, sizeof wrong);
    rd_kafka_mock_cluster_t *cluster = client ? rd_kafka_mock_cluster_new(client, brokers) : NULL;
    bool is_made = cluster && !rd_kafka_mock_topic_create(cluster, "t", partitions, brokers);
    for (int p = 0; is_made && p < partitions; p++) {
        pause_a_moment();
        is_made = !rd_kafka_mock_partition_set_leader(cluster, "t", p, p % brokers + 1);
    }
    if (!is_made) { fputs("cluster: none is made\n", stderr); return 1; }
    printf("%s %s\n", rd_kafka_mock_cluster_bootstraps(cluster), rd_kafka_version_str());
    fflush(stdout);
    while (fgets(line, sizeof line, stdin)) {
        puts(obey(cluster, line) ? "refused" : "done");
        fflush(stdout);
    }
    return 0; /* the cluster goes with the process */
}
