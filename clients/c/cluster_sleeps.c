/* The threads of a cluster in C sleep and are woken, so many times as is asked for: callers whose update is the head, and whose update is not,
 * appliers, readers, and the keeper, to which a caller leaves each eighth update. A wake-up that is lost is a call that does not end in its
 * time. Link it with -Wl,--wrap= of each function below that begins with __wrap_.
 *
 *     cluster_sleeps SLEEPS */
#define _GNU_SOURCE
#include <pthread.h>
#include <stdatomic.h>
#include <stdio.h>
#include <stdlib.h>

#include "ordup_cluster.h"

enum { SITES = 3, CALLERS = 2, READERS = 2, TIME = 60000 };

int __real_pthread_cond_wait(pthread_cond_t *, pthread_mutex_t *);
int __real_pthread_cond_timedwait(pthread_cond_t *, pthread_mutex_t *, const struct timespec *);

static _Atomic long slept, updates, left, reads;
static _Atomic int wrong;
static long most;
static ordup_cluster *cluster;

int __wrap_pthread_cond_wait(pthread_cond_t *it, pthread_mutex_t *lock) {
    slept++;
    return __real_pthread_cond_wait(it, lock);
}

int __wrap_pthread_cond_timedwait(pthread_cond_t *it, pthread_mutex_t *lock, const struct timespec *end) {
    slept++;
    return __real_pthread_cond_timedwait(it, lock, end);
}

#define MUST(what)                                                     \
    do {                                                               \
        if (!(what)) {                                                 \
            fprintf(stderr, "line %d: not so: %s\n", __LINE__, #what); \
            wrong = 1;                                                 \
        }                                                              \
    } while (0)

static int goes_on(void) {
    return slept < most && !wrong;
}

static void *call(void *which) {
    ordup_session session = ORDUP_SESSION;
    ordup_change change = {0, ORDUP_ADD, 1};
    uint64_t number;
    for (long turn = (long)(uintptr_t)which; goes_on(); turn++) {
        uint32_t status = ordup_cluster_propose(cluster, &session, &change, 1, turn % 8 ? TIME : 0, &number);
        if (turn % 8 == 0 && status == ORDUP_REFUSED_NOT_YET) {
            left++; /* nobody but the keeper acknowledges it, unless another caller does */
            ordup_seen seen;
            ordup_session of = {number};
            MUST(ordup_cluster_read_when_level(cluster, &of, 0, 0, TIME, &seen) == ORDUP_DONE);
            status = ordup_cluster_settle(cluster, &session, number, TIME);
        }
        MUST(status == ORDUP_DONE && session.seen >= number);
        updates++;
    }
    return NULL;
}

/* A reader waits for an update that is not there yet. */
static void *look(void *site) {
    ordup_session session = ORDUP_SESSION;
    while (goes_on()) {
        ordup_seen seen;
        uint64_t awaited = ++session.seen;
        uint32_t status = ordup_cluster_read_when_level(cluster, &session, (uint32_t)(uintptr_t)site, 0, TIME, &seen);
        if (status == ORDUP_REFUSED_BEHIND && !goes_on())
            break; /* the last update was made */
        MUST(status == ORDUP_DONE && seen.applied >= awaited && (uint64_t)seen.value == seen.applied);
        reads++;
    }
    return NULL;
}

int main(int count, char **words) {
    most = count > 1 ? atol(words[1]) : 20000;
    pthread_t callers[CALLERS], readers[READERS];
    ordup_setup setup = ORDUP_SETUP;
    uint32_t id;
    MUST(ordup_setup_open(&setup) == ORDUP_DONE && ordup_setup_object(&setup, "x", 1, 0, &id) == ORDUP_DONE);
    for (uint32_t at = 0; at < SITES; at++)
        MUST(ordup_setup_site(&setup, (const char *[]){"a", "b", "c"}[at], 1, 8, &id) == ORDUP_DONE && id == at);
    MUST(ordup_setup_limit(&setup, 0, ORDUP_SCOPE_COUNT, 0, 0) == ORDUP_DONE);
    MUST(ordup_setup_limit(&setup, 1, ORDUP_SCOPE_COUNT, 0, 2) == ORDUP_DONE);
    MUST(ordup_cluster_open(&setup, 0, &cluster) == ORDUP_DONE && ordup_cluster_start(cluster) == ORDUP_DONE);
    ordup_handle_close(&setup);
    for (uintptr_t it = 0; it < CALLERS; it++)
        pthread_create(&callers[it], NULL, call, (void *)it);
    for (uintptr_t it = 0; it < READERS; it++)
        pthread_create(&readers[it], NULL, look, (void *)(it + 1));
    for (int it = 0; it < CALLERS; it++)
        pthread_join(callers[it], NULL);
    MUST(ordup_cluster_finish(cluster, TIME) == ORDUP_DONE);
    ordup_cluster_stop(cluster);
    for (int it = 0; it < READERS; it++)
        pthread_join(readers[it], NULL);
    MUST(ordup_cluster_close(cluster) == ORDUP_DONE);
    ordup_cluster_free(cluster);
    printf("%ld sleeps, %ld updates, %ld of them left to the keeper, %ld reads that waited: %s\n", (long)slept, (long)updates, (long)left,
           (long)reads, wrong ? "wrong" : "each was woken");
    return wrong;
}
