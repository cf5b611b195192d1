/* Refuses each allocation, each lock, each condition and each thread that a cluster in C asks for, one in turn, and then all from it on
 * until a call says so. A call that says so left what it gives as it was, and is made again. What comes of it in the end is then what
 * comes of a run in which nothing is refused, and each block of memory, each lock and each thread is given back. Link it with
 * -Wl,--wrap= of each function below that begins with __wrap_. */
#define _GNU_SOURCE
#include <pthread.h>
#include <stdatomic.h>
#include <stdio.h>
#include <stdlib.h>
#include <string.h>
#include <time.h>

#include "ordup_cluster.h"

void *__real_malloc(size_t);
void *__real_realloc(void *, size_t);
void *__real_aligned_alloc(size_t, size_t);
void __real_free(void *);
int __real_pthread_mutex_init(pthread_mutex_t *, const pthread_mutexattr_t *);
int __real_pthread_mutex_destroy(pthread_mutex_t *);
int __real_pthread_condattr_init(pthread_condattr_t *);
int __real_pthread_condattr_setclock(pthread_condattr_t *, clockid_t);
int __real_pthread_condattr_destroy(pthread_condattr_t *);
int __real_pthread_cond_init(pthread_cond_t *, const pthread_condattr_t *);
int __real_pthread_cond_destroy(pthread_cond_t *);
int __real_pthread_create(pthread_t *, const pthread_attr_t *, void *(*)(void *), void *);
int __real_pthread_join(pthread_t, void **);

static _Atomic long asked, refused_at, refused, blocks, locks, threads;
static long tried_at, said;
static int all_later;

static int is_refused(void) {
    long now = ++asked;
    int is = refused_at && (now == refused_at || (all_later && now > refused_at));
    refused += is;
    return is;
}

void *__wrap_malloc(size_t bytes) {
    void *block = is_refused() ? NULL : __real_malloc(bytes);
    blocks += block != NULL;
    return block;
}
void *__wrap_realloc(void *block, size_t bytes) {
    void *moved = is_refused() ? NULL : __real_realloc(block, bytes);
    blocks += moved && !block;
    return moved;
}
void *__wrap_aligned_alloc(size_t aligned, size_t bytes) {
    void *block = is_refused() ? NULL : __real_aligned_alloc(aligned, bytes);
    blocks += block != NULL;
    return block;
}
void __wrap_free(void *block) {
    blocks -= block != NULL;
    __real_free(block);
}
int __wrap_pthread_mutex_init(pthread_mutex_t *it, const pthread_mutexattr_t *how) {
    int no = is_refused() ? 12 : __real_pthread_mutex_init(it, how);
    locks += !no;
    return no;
}
int __wrap_pthread_mutex_destroy(pthread_mutex_t *it) {
    locks--;
    return __real_pthread_mutex_destroy(it);
}
int __wrap_pthread_condattr_init(pthread_condattr_t *it) {
    int no = is_refused() ? 12 : __real_pthread_condattr_init(it);
    locks += !no;
    return no;
}
int __wrap_pthread_condattr_setclock(pthread_condattr_t *it, clockid_t clock) {
    return is_refused() ? 22 : __real_pthread_condattr_setclock(it, clock);
}
int __wrap_pthread_condattr_destroy(pthread_condattr_t *it) {
    locks--;
    return __real_pthread_condattr_destroy(it);
}
int __wrap_pthread_cond_init(pthread_cond_t *it, const pthread_condattr_t *how) {
    int no = is_refused() ? 11 : __real_pthread_cond_init(it, how);
    locks += !no;
    return no;
}
int __wrap_pthread_cond_destroy(pthread_cond_t *it) {
    locks--;
    return __real_pthread_cond_destroy(it);
}
int __wrap_pthread_create(pthread_t *it, const pthread_attr_t *how, void *(*run)(void *), void *given) {
    int no = is_refused() ? 11 : __real_pthread_create(it, how, run, given);
    threads += !no;
    return no;
}
int __wrap_pthread_join(pthread_t it, void **ended) {
    threads--;
    return __real_pthread_join(it, ended);
}

/* Each site is compared at the close. One is told to be mixed, which no call can bring about. */
static long compared, mixed_at;
uint32_t __real_ordup_book_compare(ordup_handle *, ordup_handle *);
uint32_t __wrap_ordup_book_compare(ordup_handle *book, ordup_handle *site) {
    return ++compared == mixed_at ? ORDUP_REFUSED_MIXED : __real_ordup_book_compare(book, site);
}

static void fail(int line, const char *what) {
    printf("line %d: refused %ld%s: not so: %s\n", line, tried_at, all_later ? " and all later ones" : "", what);
    exit(1);
}
#define MUST(what) ((what) ? (void)0 : fail(__LINE__, #what))

/* Whether a call said that memory was refused. Then no more is. */
static int is_short(uint32_t status) {
    if (status != ORDUP_REFUSED_NO_MEMORY)
        return 0;
    MUST(refused);
    said++;
    refused_at = 0;
    return 1;
}

/* A call, again where memory was refused, after which this must be as it was. */
#define AGAIN(call, wanted, as_it_was)                \
    do {                                              \
        uint32_t status_;                             \
        while (is_short(status_ = (call)))            \
            MUST(as_it_was);                          \
        if (status_ != (uint32_t)(wanted))            \
            fail(__LINE__, #call);                    \
    } while (0)

enum { NO = 77, UPDATES = 12, SITES = 2, ROOM = 1 << 14 };

struct result {
    char rows[SITES][ROOM];
    size_t bytes[SITES], count;
    int64_t values[SITES][2];
    uint64_t place, applied;
    ordup_charged read;
    ordup_ended ended;
    ordup_site_numbers site;
    ordup_lag lags[4];
};

/* Proposals without threads; then each applier runs as it does after `stop`; then close, records, and a successor with threads. */
static void calls(struct result *out) {
    ordup_setup setup = ORDUP_SETUP;
    ordup_cluster *cluster = NULL, *successor = NULL;
    ordup_session session = ORDUP_SESSION;
    ordup_query query = ORDUP_QUERY;
    uint32_t id = NO, both[2] = {0, 1};
    memset(out, 0, sizeof *out);
    out->place = NO;
    AGAIN(ordup_setup_open(&setup), ORDUP_DONE, setup.at == NULL && setup.mark == 0);
    AGAIN(ordup_setup_object(&setup, "x", 1, 0, &id), ORDUP_DONE, id == NO);
    AGAIN(ordup_setup_object(&setup, "y", 1, 5, &id), ORDUP_DONE, id == 0);
    AGAIN(ordup_setup_site(&setup, "a", 1, 4, &id), ORDUP_DONE, id == 1);
    AGAIN(ordup_setup_site(&setup, "b", 1, 64, &id), ORDUP_DONE, id == 0);
    AGAIN(ordup_setup_group(&setup, "g", 1, both, 2, &id), ORDUP_DONE, id == 1);
    AGAIN(ordup_setup_limit(&setup, 0, ORDUP_SCOPE_ALL, 0, 1000000), ORDUP_DONE, 1);
    AGAIN(ordup_setup_limit(&setup, 0, ORDUP_SCOPE_GROUP, 0, 1000000), ORDUP_DONE, 1);
    AGAIN(ordup_cluster_open(&setup, 3, &cluster), ORDUP_DONE, cluster == NULL);
    ordup_handle_close(&setup);
    for (int i = 0; i < UPDATES; i++) {
        ordup_change changes[2] = {{0, ORDUP_ADD, i}, {1, ORDUP_MUL, 2}};
        ordup_condition kept[2] = {{0, ORDUP_AT_MOST, 1000}, {1, ORDUP_AT_LEAST, 0}}, never = {1, ORDUP_AT_MOST, 4};
        uint64_t number = NO, before = session.seen;
        size_t unmet = NO;
        uint32_t status;
        while (is_short(status = ordup_cluster_propose_if(cluster, &session, changes, 2, &never, 1, 0, &number, &unmet)))
            MUST(number == NO && unmet == NO && session.seen == before);
        MUST(status == ORDUP_UNMET && number == NO && unmet == 0);
        while (is_short(status = i % 2 ? ordup_cluster_propose_if(cluster, &session, changes, 2, kept, 2, 0, &number, &unmet)
                                       : ordup_cluster_propose(cluster, &session, changes, 2, 0, &number)))
            MUST(number == NO && session.seen == before);
        MUST(status == ORDUP_DONE || status == ORDUP_REFUSED_NOT_YET);
        MUST(number == (uint64_t)i + 4);
        if (status == ORDUP_REFUSED_NOT_YET) {
            MUST(refused && session.seen == before);
            said++;
            refused_at = 0;
        }
    }
    AGAIN(ordup_cluster_begin(cluster, 0, 1000, &query), ORDUP_DONE, query.handle.at == NULL && query.cluster == NULL);
    AGAIN(ordup_cluster_query_read(&query, 0, &out->read), ORDUP_DONE, out->read.total == 0);
    AGAIN(ordup_cluster_query_end(&query, &out->ended), ORDUP_DONE, out->ended.place == 0);
    AGAIN(ordup_cluster_relimit(cluster, 0, ORDUP_SCOPE_COUNT, 0, 50, &out->place), ORDUP_DONE, out->place == NO);
    ordup_cluster_stop(cluster);
    /* A turn sends what has room, and an applier takes it, until all is there. */
    for (int turn = 0; turn < 8; turn++) {
        for (uint32_t at = 0; at < SITES; at++)
            AGAIN(ordup_cluster_applier(cluster, at), ORDUP_DONE, 1);
        AGAIN(ordup_cluster_close(cluster), ORDUP_DONE, 1);
    }
    for (uint32_t at = 0; at < SITES; at++) {
        AGAIN(ordup_cluster_record(cluster, at, out->rows[at], ROOM, &out->bytes[at]), ORDUP_DONE, out->bytes[at] == 0);
        ordup_seen seen;
        session.seen = 3 + UPDATES;
        AGAIN(ordup_cluster_read(cluster, &session, at, 0, &seen), ORDUP_DONE, 1);
        AGAIN(ordup_cluster_read_many(cluster, &session, at, both, 2, out->values[at], &out->applied), ORDUP_DONE, 1);
        MUST(seen.value == out->values[at][0] && seen.applied == out->applied && out->applied == 3 + UPDATES);
    }
    AGAIN(ordup_cluster_site_count(cluster, 0, &out->site), ORDUP_DONE, out->site.sent == 0);
    AGAIN(ordup_cluster_lags(cluster, 0, out->lags, 4, &out->count), ORDUP_DONE, out->count == 0);
    AGAIN(ordup_cluster_successor(cluster, &successor), ORDUP_DONE, successor == NULL);
    ordup_cluster_free(cluster);
    long before = threads;
    AGAIN(ordup_cluster_start(successor), ORDUP_DONE, threads == before);
    refused_at = 0;
    ordup_change change = {0, ORDUP_ADD, 1};
    uint64_t number;
    AGAIN(ordup_cluster_propose(successor, &session, &change, 1, ORDUP_FOREVER, &number), ORDUP_DONE, 1);
    AGAIN(ordup_cluster_finish(successor, ORDUP_FOREVER), ORDUP_DONE, 1);
    AGAIN(ordup_cluster_close(successor), ORDUP_DONE, 1);
    ordup_cluster_free(successor);
    MUST(blocks == 0 && locks == 0 && threads == 0);
}

static void sleep_ms(long ms) {
    nanosleep(&(struct timespec){.tv_nsec = ms * 1000000}, NULL);
}

/* Once a turn was refused memory, the keeper tries again and again, and no caller waits for ever. */
static void keeper(void) {
    ordup_setup setup = ORDUP_SETUP;
    ordup_cluster *cluster = NULL, *successor = NULL;
    ordup_session session = ORDUP_SESSION;
    ordup_change change = {0, ORDUP_ADD, 1};
    uint64_t number = 0, given_up = 0;
    uint32_t id;
    ordup_setup_open(&setup);
    ordup_setup_object(&setup, "x", 1, 0, &id);
    ordup_setup_site(&setup, "a", 1, 4, &id);
    ordup_setup_limit(&setup, 0, ORDUP_SCOPE_ALL, 0, 0);
    MUST(ordup_cluster_open(&setup, 0, &cluster) == ORDUP_DONE && ordup_cluster_start(cluster) == ORDUP_DONE);
    ordup_handle_close(&setup);
    all_later = 0;
    for (int at = 1; at <= 200; at++) {
        asked = 0;
        refused = 0;
        refused_at = 1 + at % 7;
        uint32_t status = ordup_cluster_propose(cluster, &session, &change, 1, ORDUP_FOREVER, &number);
        if (status == ORDUP_REFUSED_NOT_YET) {
            given_up++;
            status = ordup_cluster_settle(cluster, &session, number, ORDUP_FOREVER);
        }
        refused_at = 0;
        MUST(status == ORDUP_DONE || (status == ORDUP_REFUSED_NO_MEMORY && refused));
    }
    /* So it does where it is refused more than once. */
    uint32_t status = ORDUP_DONE;
    for (int at = 0; at < 10000 && status != ORDUP_REFUSED_NOT_YET; at++) {
        all_later = 1;
        asked = 0;
        refused_at = 1 + at % 7;
        status = ordup_cluster_propose(cluster, &session, &change, 1, ORDUP_FOREVER, &number);
        MUST(status == ORDUP_DONE || status == ORDUP_REFUSED_NOT_YET || status == ORDUP_REFUSED_NO_MEMORY);
        if (status != ORDUP_REFUSED_NOT_YET)
            refused_at = 0;
    }
    MUST(status == ORDUP_REFUSED_NOT_YET);
    /* It rests between two attempts. */
    struct timespec at, from;
    clock_gettime(CLOCK_PROCESS_CPUTIME_ID, &from);
    sleep_ms(200);
    clock_gettime(CLOCK_PROCESS_CPUTIME_ID, &at);
    MUST((at.tv_sec - from.tv_sec) * 1000 + (at.tv_nsec - from.tv_nsec) / 1000000 < 20);
    MUST(ordup_cluster_settle(cluster, &session, number, 0) == ORDUP_REFUSED_NOT_YET);
    refused_at = 0;
    ordup_numbers numbers = {.acknowledged = 0};
    for (int look = 0; look < 1000 && numbers.acknowledged < number; look++) {
        sleep_ms(5);
        ordup_cluster_count(cluster, &numbers);
    }
    MUST(ordup_cluster_settle(cluster, &session, number, 0) == ORDUP_DONE);
    MUST(ordup_cluster_settle(cluster, &session, number, ORDUP_FOREVER) == ORDUP_DONE);
    MUST(ordup_cluster_finish(cluster, ORDUP_FOREVER) == ORDUP_DONE);
    compared = 0;
    mixed_at = 1;
    MUST(ordup_cluster_close(cluster) == ORDUP_REFUSED_MIXED && ordup_cluster_successor(cluster, &successor) == ORDUP_OPEN);
    MUST(ordup_cluster_close(cluster) == ORDUP_DONE && compared == 2 && !successor);
    ordup_cluster_free(cluster);
    MUST(blocks == 0 && locks == 0 && threads == 0);
    printf("%lu proposals of 200 were numbered and then refused memory; ", (unsigned long)given_up);
}

int main(void) {
    static struct result wanted, given;
    long tried = 0, told = 0;
    calls(&wanted);
    MUST(!refused && wanted.bytes[0] && wanted.values[0][0] == UPDATES * (UPDATES - 1) / 2 && wanted.values[1][1] == 5 << UPDATES);
    MUST(wanted.place == 3 + UPDATES + 1);
    for (all_later = 0; all_later < 2; all_later++) {
        asked = 0;
        refused_at = 0;
        calls(&given);
        long all = asked;
        for (long at = 1; at <= all; at++, tried++) {
            asked = 0;
            refused = 0;
            said = 0;
            tried_at = at;
            refused_at = at;
            calls(&given);
            told += said > 0;
            MUST(refused || at > all - 64);
            MUST(!memcmp(&given, &wanted, sizeof given));
        }
    }
    keeper();
    printf("%ld refusals, of which the calls told %ld\n", tried, told);
    return told ? 0 : 1;
}
