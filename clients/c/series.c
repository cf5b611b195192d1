/* A service that never stops: a cluster that has had its sales is closed, and its successor goes on. Clerks sell meanwhile. It prints the
 * record of the south of each cluster: ./series | ordup check --series */
#include <pthread.h>
#include <stdio.h>
#include <stdlib.h>
#include "ordup_cluster.h"

enum { CLERKS = 4, SALES = 25 /* of a clerk */, MOST = 30 /* updates of a cluster, after which its successor is opened */ };

static pthread_rwlock_t lock = PTHREAD_RWLOCK_INITIALIZER; /* a call of a clerk shares it, and who exchanges the cluster has it alone */
static ordup_cluster *cluster;
static uint32_t tea, south;

static void must(uint32_t status) {
    if (status != ORDUP_DONE) {
        fprintf(stderr, "status %u\n", (unsigned)status);
        exit(1);
    }
}

static int is_full(void) {
    ordup_numbers numbers;
    ordup_cluster_count(cluster, &numbers);
    return numbers.length - numbers.before >= MOST;
}

/* Closes the cluster, and prints its record. */
static void archive(void) {
    size_t size = 0, room;
    must(ordup_cluster_finish(cluster, ORDUP_FOREVER));
    must(ordup_cluster_close(cluster));
    ordup_cluster_record(cluster, south, NULL, 0, &size);
    room = size;
    char *rows = malloc(room);
    must(rows ? ordup_cluster_record(cluster, south, rows, room, &size) : ORDUP_REFUSED_NO_MEMORY);
    fwrite(rows, 1, size, stdout);
    free(rows);
}

/* Puts the successor in the place of a cluster that has had its updates, unless another clerk did. */
static void go_on(void) {
    pthread_rwlock_wrlock(&lock);
    if (is_full()) {
        ordup_cluster *ended = cluster;
        archive();
        must(ordup_cluster_successor(ended, &cluster));
        must(ordup_cluster_start(cluster));
        ordup_cluster_free(ended);
    }
    pthread_rwlock_unlock(&lock);
}

static void *clerk(void *unused) {
    ordup_session session = ORDUP_SESSION; /* it lasts over all clusters */
    ordup_change sale = {tea, ORDUP_ADD, -1};
    ordup_condition enough = {tea, ORDUP_AT_LEAST, 0};
    for (int done = 0; done < SALES; done++) {
        uint64_t number;
        size_t unmet;
        pthread_rwlock_rdlock(&lock);
        must(ordup_cluster_propose_if(cluster, &session, &sale, 1, &enough, 1, ORDUP_FOREVER, &number, &unmet));
        int full = is_full();
        pthread_rwlock_unlock(&lock);
        if (full)
            go_on();
    }
    return unused;
}

int main(void) {
    ordup_setup setup = ORDUP_SETUP;
    pthread_t clerks[CLERKS];
    must(ordup_setup_open(&setup));
    must(ordup_setup_object(&setup, "tea", 3, 1000, &tea));
    must(ordup_setup_site(&setup, "south", 5, 64, &south));
    must(ordup_setup_limit(&setup, south, ORDUP_SCOPE_ALL, 0, 4));
    must(ordup_cluster_open(&setup, 0, &cluster));
    ordup_handle_close(&setup);
    must(ordup_cluster_start(cluster));
    for (int at = 0; at < CLERKS; at++)
        must(pthread_create(&clerks[at], NULL, clerk, NULL) ? ORDUP_REFUSED_NO_MEMORY : ORDUP_DONE);
    for (int at = 0; at < CLERKS; at++)
        pthread_join(clerks[at], NULL);
    archive();
    ordup_cluster_free(cluster);
    return 0;
}
