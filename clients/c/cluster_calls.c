/* Each call of ordup_cluster.h with what it answers where nothing is wrong, where something is, and where it is misused; that a refused
 * call leaves what it gives as it was; that a limit in time ends a wait, that `stop` does, and that signals and cancellation do not. */
#define _GNU_SOURCE
#include <pthread.h>
#include <signal.h>
#include <stdatomic.h>
#include <stdio.h>
#include <stdlib.h>
#include <string.h>
#include <time.h>
#include <unistd.h>

#include "ordup_cluster.h"

static int wrong, tried;

#define MUST(what)                                                        \
    do {                                                                  \
        tried++;                                                          \
        if (!(what)) {                                                    \
            fprintf(stderr, "line %d: not so: %s\n", __LINE__, #what);    \
            wrong = 1;                                                    \
        }                                                                 \
    } while (0)
#define IS(call, wanted)                                                                                     \
    do {                                                                                                     \
        uint32_t status_ = (call);                                                                           \
        tried++;                                                                                             \
        if (status_ != (uint32_t)(wanted)) {                                                                 \
            fprintf(stderr, "line %d: %u instead of %u: %s\n", __LINE__, status_, (unsigned)(wanted), #call); \
            wrong = 1;                                                                                       \
        }                                                                                                    \
    } while (0)

enum { TEA, RYE, SHOP = 0, YARD = 1, NO = 77 };
static const uint64_t MOST_BEFORE = 1000000000000000000u;

static double seconds(clockid_t clock) {
    struct timespec at;
    clock_gettime(clock, &at);
    return (double)at.tv_sec + (double)at.tv_nsec * 1e-9;
}

/* Two objects, two sites; the first one is forced for each update. */
static void declare(ordup_setup *setup) {
    uint32_t id = NO;
    IS(ordup_setup_open(setup), ORDUP_DONE);
    IS(ordup_setup_open(setup), ORDUP_OPEN);
    IS(ordup_setup_object(setup, "tea", 3, 40, &id), ORDUP_DONE);
    IS(ordup_setup_object(setup, "tea", 3, 40, &id), ORDUP_REFUSED + 5);
    IS(ordup_setup_object(setup, "rye", 3, 0, &id), ORDUP_DONE);
    MUST(id == RYE);
    IS(ordup_setup_site(setup, "shop", 4, 4, &id), ORDUP_DONE);
    IS(ordup_setup_site(setup, "yard", 4, 1, &id), ORDUP_DONE);
    MUST(id == YARD);
    IS(ordup_setup_limit(setup, SHOP, ORDUP_SCOPE_COUNT, 0, 0), ORDUP_DONE);
}

static ordup_cluster *opened(uint64_t before) {
    ordup_setup setup = ORDUP_SETUP;
    ordup_cluster *cluster = NULL;
    declare(&setup);
    IS(ordup_cluster_open(&setup, before, &cluster), ORDUP_DONE);
    ordup_handle_close(&setup);
    return cluster;
}

static void opening(void) {
    ordup_setup setup = ORDUP_SETUP, book = ORDUP_HANDLE;
    ordup_cluster *const none = (ordup_cluster *)&setup, *cluster = none;
    IS(ordup_cluster_open(&setup, 0, &cluster), ORDUP_CLOSED);
    IS(ordup_setup_open(&setup), ORDUP_DONE);
    IS(ordup_cluster_open(&setup, 0, &cluster), ORDUP_REFUSED_EMPTY);
    IS(ordup_cluster_open(&setup, MOST_BEFORE + 1, &cluster), ORDUP_REFUSED_LOG_FULL);
    ordup_handle_close(&setup);
    declare(&setup);
    IS(ordup_book_open(&setup, 1, &book), ORDUP_DONE);
    IS(ordup_cluster_open(&book, 0, &cluster), ORDUP_OTHER);
    MUST(cluster == none);
    ordup_handle_close(&book);
    IS(ordup_cluster_open(&setup, MOST_BEFORE, &cluster), ORDUP_DONE);
    MUST(ordup_cluster_sites(cluster) == 2);
    ordup_numbers numbers;
    ordup_cluster_count(cluster, &numbers);
    MUST(numbers.before == MOST_BEFORE && numbers.length == MOST_BEFORE && numbers.acknowledged == MOST_BEFORE);
    IS(ordup_cluster_join(cluster), ORDUP_CLOSED);
    ordup_cluster_free(cluster);
    ordup_cluster_free(NULL);
    ordup_handle_close(&setup);
    ordup_handle_close(&setup);
}

static void misuse(void) {
    ordup_cluster *cluster = opened(5), *const none = (ordup_cluster *)&cluster, *successor = none, *other = opened(5);
    ordup_session session = ORDUP_SESSION;
    ordup_change change = {TEA, ORDUP_ADD, 1}, no_object = {9, ORDUP_ADD, 1}, no_operation = {TEA, 9, 1}, twice[2] = {change, change};
    ordup_change over = {TEA, ORDUP_SET, INT64_MAX}, take = {TEA, ORDUP_TAKE, 9};
    ordup_query query = ORDUP_QUERY;
    ordup_charged charged = {.value = NO, .total = NO};
    ordup_ended ended = {.place = NO};
    ordup_seen seen = {NO, NO};
    ordup_site_numbers site = {.sent = NO};
    ordup_lag lag = {.amount = NO};
    uint64_t number = NO, applied = NO;
    int64_t values[2] = {NO, NO};
    uint32_t objects[2] = {TEA, 9};
    size_t size = NO;
    char rows[1];

    IS(ordup_cluster_propose(cluster, &session, &no_object, 1, 0, &number), ORDUP_REFUSED_UNKNOWN_OBJECT);
    IS(ordup_cluster_propose(cluster, &session, &take, 1, 0, &number), ORDUP_REFUSED_UNKNOWN_OBJECT);
    IS(ordup_cluster_propose(cluster, &session, &no_operation, 1, 0, &number), ORDUP_REFUSED + 1);
    IS(ordup_cluster_propose(cluster, &session, twice, 2, 0, &number), ORDUP_REFUSED_REPEATED);
    IS(ordup_cluster_propose(cluster, &session, twice, 0, 0, &number), ORDUP_REFUSED_EMPTY);
    IS(ordup_cluster_propose(cluster, &session, &over, 1, 0, &number), ORDUP_REFUSED_OUT_OF_RANGE);
    IS(ordup_cluster_settle(cluster, &session, 0, 0), ORDUP_REFUSED_OUT_OF_RANGE);
    IS(ordup_cluster_settle(cluster, &session, 6, 0), ORDUP_REFUSED_OUT_OF_RANGE);
    IS(ordup_cluster_settle(cluster, &session, UINT64_MAX, 0), ORDUP_REFUSED_OUT_OF_RANGE);
    IS(ordup_cluster_read(cluster, &session, 2, TEA, &seen), ORDUP_REFUSED_UNKNOWN_SITE);
    IS(ordup_cluster_read(cluster, &session, SHOP, 9, &seen), ORDUP_REFUSED_UNKNOWN_OBJECT);
    IS(ordup_cluster_read(cluster, &session, SHOP, UINT32_MAX, &seen), ORDUP_REFUSED_UNKNOWN_OBJECT);
    IS(ordup_cluster_read_when_level(cluster, &session, UINT32_MAX, TEA, ORDUP_FOREVER, &seen), ORDUP_REFUSED_UNKNOWN_SITE);
    IS(ordup_cluster_read_many(cluster, &session, 2, objects, 2, values, &applied), ORDUP_REFUSED_UNKNOWN_SITE);
    IS(ordup_cluster_read_many(cluster, &session, SHOP, objects, 2, values, &applied), ORDUP_REFUSED_UNKNOWN_OBJECT);
    IS(ordup_cluster_read_many_when_level(cluster, &session, 2, objects, 2, 9, values, &applied), ORDUP_REFUSED_UNKNOWN_SITE);
    IS(ordup_cluster_begin(cluster, 2, 1, &query), ORDUP_REFUSED_UNKNOWN_SITE);
    IS(ordup_cluster_begin(cluster, SHOP, MOST_BEFORE + 1, &query), ORDUP_REFUSED_OUT_OF_RANGE);
    IS(ordup_cluster_query_read(&query, TEA, &charged), ORDUP_CLOSED);
    IS(ordup_cluster_query_end(&query, &ended), ORDUP_CLOSED);
    IS(ordup_cluster_relimit(cluster, 2, ORDUP_SCOPE_ALL, 0, 1, &number), ORDUP_REFUSED_UNKNOWN_SITE);
    IS(ordup_cluster_relimit(cluster, UINT32_MAX, ORDUP_SCOPE_ALL, 0, 1, &number), ORDUP_REFUSED_UNKNOWN_SITE);
    IS(ordup_cluster_relimit(cluster, SHOP, ORDUP_SCOPE_OBJECT, 9, 1, &number), ORDUP_REFUSED_UNKNOWN_OBJECT);
    IS(ordup_cluster_relimit(cluster, SHOP, ORDUP_SCOPE_GROUP, 0, 1, &number), ORDUP_REFUSED_UNKNOWN_GROUP);
    IS(ordup_cluster_relimit(cluster, SHOP, ORDUP_SCOPE_ALL, 0, MOST_BEFORE + 1, &number), ORDUP_REFUSED_OUT_OF_RANGE);
    IS(ordup_cluster_applier(cluster, 2), ORDUP_REFUSED_UNKNOWN_SITE);
    IS(ordup_cluster_site_count(cluster, 2, &site), ORDUP_REFUSED_UNKNOWN_SITE);
    IS(ordup_cluster_lags(cluster, 2, &lag, 1, &size), ORDUP_REFUSED_UNKNOWN_SITE);
    IS(ordup_cluster_record(cluster, 2, rows, 1, &size), ORDUP_REFUSED_UNKNOWN_SITE);
    IS(ordup_cluster_successor(cluster, &successor), ORDUP_OPEN);
    MUST(session.seen == 0 && number == NO && applied == NO && size == NO && seen.value == NO && seen.applied == NO && lag.amount == NO);
    MUST(site.sent == NO && values[0] == NO && values[1] == NO && charged.total == NO && ended.place == NO && successor == none);
    ordup_numbers numbers;
    ordup_cluster_count(cluster, &numbers);
    MUST(numbers.length == 5);

    /* A query of one cluster at a site of another. */
    IS(ordup_cluster_begin(cluster, SHOP, 1, &query), ORDUP_DONE);
    IS(ordup_cluster_begin(other, SHOP, 1, &query), ORDUP_OPEN);
    query.cluster = other;
    IS(ordup_cluster_query_read(&query, TEA, &charged), ORDUP_FOREIGN);
    query.cluster = cluster;
    IS(ordup_cluster_query_read(&query, 9, &charged), ORDUP_REFUSED_UNKNOWN_OBJECT);
    MUST(charged.value == NO && charged.total == NO);
    IS(ordup_cluster_query_read(&query, TEA, &charged), ORDUP_DONE);
    MUST(charged.value == 40 && charged.import == 0 && charged.total == 0);
    ordup_cluster_free(cluster);
    IS(ordup_cluster_query_end(&query, &ended), ORDUP_DONE);
    MUST(ended.place == 5 && ended.sum == 40 && ended.total == 0 && ended.reads == 1);
    IS(ordup_cluster_query_end(&query, &ended), ORDUP_CLOSED);
    IS(ordup_cluster_query_read(&query, TEA, &charged), ORDUP_CLOSED);
    ordup_cluster_free(other);
}

/* The limits in time of waits for what does not come, since no site has an applier. */
static void times(void) {
    ordup_cluster *cluster = opened(0), *successor = NULL;
    ordup_session session = ORDUP_SESSION, ahead = {1};
    ordup_change change = {TEA, ORDUP_ADD, -3};
    ordup_seen seen = {NO, NO};
    uint64_t number = NO, place = NO;
    size_t unmet = NO;
    ordup_condition enough = {TEA, ORDUP_AT_LEAST, INT64_MAX};
    IS(ordup_cluster_propose_if(cluster, &session, &change, 1, &enough, 1, 0, &number, &unmet), ORDUP_UNMET);
    MUST(unmet == 0 && number == NO && session.seen == 0);
    IS(ordup_cluster_propose(cluster, &session, &change, 1, 0, &number), ORDUP_REFUSED_NOT_YET);
    MUST(number == 1 && session.seen == 0);
    double begun = seconds(CLOCK_MONOTONIC);
    IS(ordup_cluster_propose(cluster, &session, &change, 1, 30, &number), ORDUP_REFUSED_NOT_YET);
    MUST(number == 2 && session.seen == 0 && seconds(CLOCK_MONOTONIC) - begun >= 0.03);
    begun = seconds(CLOCK_MONOTONIC);
    IS(ordup_cluster_settle(cluster, &session, 1, 30), ORDUP_REFUSED_NOT_YET);
    MUST(session.seen == 0 && seconds(CLOCK_MONOTONIC) - begun >= 0.03);
    begun = seconds(CLOCK_MONOTONIC);
    IS(ordup_cluster_finish(cluster, 30), ORDUP_REFUSED_NOT_YET);
    IS(ordup_cluster_finish(cluster, 0), ORDUP_REFUSED_NOT_YET);
    MUST(seconds(CLOCK_MONOTONIC) - begun >= 0.03);
    begun = seconds(CLOCK_MONOTONIC);
    IS(ordup_cluster_read_when_level(cluster, &ahead, YARD, TEA, 30, &seen), ORDUP_REFUSED_BEHIND);
    IS(ordup_cluster_read(cluster, &ahead, YARD, TEA, &seen), ORDUP_REFUSED_BEHIND);
    MUST(seconds(CLOCK_MONOTONIC) - begun >= 0.03 && seen.value == NO && seen.applied == 0 && ahead.seen == 1);
    IS(ordup_cluster_relimit(cluster, SHOP, ORDUP_SCOPE_ALL, 0, 9, &place), ORDUP_REFUSED_HEAD_PENDING);
    MUST(place == NO);
    /* What began without threads goes on with them. */
    IS(ordup_cluster_start(cluster), ORDUP_DONE);
    IS(ordup_cluster_start(cluster), ORDUP_OPEN);
    IS(ordup_cluster_settle(cluster, &session, 2, ORDUP_FOREVER), ORDUP_DONE);
    IS(ordup_cluster_settle(cluster, &session, 2, 0), ORDUP_DONE);
    MUST(session.seen == 2);
    IS(ordup_cluster_read_when_level(cluster, &session, YARD, TEA, ORDUP_FOREVER, &seen), ORDUP_DONE);
    MUST(seen.value == 34 && seen.applied == 2);
    IS(ordup_cluster_relimit(cluster, SHOP, ORDUP_SCOPE_ALL, 0, 9, &place), ORDUP_DONE);
    MUST(place == 3);
    IS(ordup_cluster_finish(cluster, ORDUP_FOREVER), ORDUP_DONE);
    /* Close stops and joins. */
    IS(ordup_cluster_close(cluster), ORDUP_DONE);
    IS(ordup_cluster_propose(cluster, &session, &change, 1, 0, &number), ORDUP_REFUSED_STOPPED);
    IS(ordup_cluster_start(cluster), ORDUP_REFUSED_STOPPED);
    IS(ordup_cluster_join(cluster), ORDUP_CLOSED);
    MUST(number == 2);
    char rows[4096] = {0};
    size_t bytes = NO, written = NO;
    IS(ordup_cluster_record(cluster, SHOP, rows, 0, &bytes), ORDUP_MORE);
    IS(ordup_cluster_record(cluster, SHOP, rows, sizeof rows, &written), ORDUP_DONE);
    MUST(written == bytes && bytes < sizeof rows && !memcmp(rows, "ordup,", 6) && strstr(rows, ",shop,"));
    IS(ordup_cluster_successor(cluster, &successor), ORDUP_DONE);
    ordup_cluster_free(cluster);
    IS(ordup_cluster_read(successor, &session, SHOP, TEA, &seen), ORDUP_DONE);
    MUST(seen.value == 34 && seen.applied == 2);
    IS(ordup_cluster_settle(successor, &session, 2, 0), ORDUP_DONE);
    IS(ordup_cluster_settle(successor, &session, 3, 0), ORDUP_REFUSED_OUT_OF_RANGE);
    IS(ordup_cluster_propose(successor, &session, &change, 1, 0, &number), ORDUP_REFUSED_NOT_YET);
    MUST(number == 3);
    /* A cluster with an update that is not acknowledged has no successor. It stays. */
    ordup_cluster *third = NULL;
    IS(ordup_cluster_close(successor), ORDUP_DONE);
    IS(ordup_cluster_successor(successor, &third), ORDUP_REFUSED_NOT_YET);
    MUST(third == NULL);
    /* An applier that runs after `stop` applies what was sent. */
    IS(ordup_cluster_applier(successor, SHOP), ORDUP_DONE);
    IS(ordup_cluster_close(successor), ORDUP_DONE);
    IS(ordup_cluster_successor(successor, &third), ORDUP_DONE);
    ordup_cluster_free(third);
    ordup_cluster_free(successor);
}

/* Threads that wait for any time, and what ends that. */
struct waiter { ordup_cluster *cluster; int what; uint32_t status; _Atomic int begun, returned; };
static _Atomic int signals;

static void count_signal(int signal) {
    (void)signal;
    signals++;
}

/* It has a frame of its own, since AddressSanitizer does not see that the frame of a thread that is cancelled ends. */
__attribute__((noinline)) static void wait_long(struct waiter *it) {
    ordup_session session = ORDUP_SESSION, ahead = {2};
    ordup_change change = {TEA, ORDUP_ADD, 1};
    ordup_seen seen;
    uint64_t number, applied;
    int64_t value;
    uint32_t object = TEA;
    it->begun = 1;
    if (it->what == 0)
        it->status = ordup_cluster_propose(it->cluster, &session, &change, 1, ORDUP_FOREVER, &number);
    else if (it->what == 1)
        it->status = ordup_cluster_settle(it->cluster, &session, 1, ORDUP_FOREVER);
    else if (it->what == 2)
        it->status = ordup_cluster_finish(it->cluster, ORDUP_FOREVER);
    else if (it->what == 3)
        it->status = ordup_cluster_read_when_level(it->cluster, &ahead, SHOP, TEA, ORDUP_FOREVER, &seen);
    else
        it->status = ordup_cluster_read_many_when_level(it->cluster, &ahead, YARD, &object, 1, ORDUP_FOREVER, &value, &applied);
    it->returned = 1;
}

static void *wait_then_end(void *given) {
    wait_long(given);
    pthread_testcancel();
    return given;
}

static void sleep_ms(long ms) {
    nanosleep(&(struct timespec){.tv_nsec = ms * 1000000}, NULL);
}

static void waits(void) {
    enum { WAITERS = 5 };
    ordup_cluster *cluster = opened(0);
    ordup_session session = ORDUP_SESSION;
    ordup_change change = {TEA, ORDUP_ADD, 1};
    struct waiter them[WAITERS];
    pthread_t threads[WAITERS];
    uint64_t number;
    void *ended;
    signal(SIGUSR1, count_signal);
    IS(ordup_cluster_propose(cluster, &session, &change, 1, 0, &number), ORDUP_REFUSED_NOT_YET);
    for (int i = 0; i < WAITERS; i++) {
        memset(&them[i], 0, sizeof them[i]);
        them[i].cluster = cluster, them[i].what = i, them[i].status = NO;
        pthread_create(&threads[i], NULL, wait_then_end, &them[i]);
    }
    for (int i = 0; i < WAITERS; i++)
        while (!them[i].begun)
            sleep_ms(1);
    sleep_ms(30);
    double cpu = seconds(CLOCK_PROCESS_CPUTIME_ID);
    sleep_ms(300);
    MUST(seconds(CLOCK_PROCESS_CPUTIME_ID) - cpu < 0.01);
    for (int i = 0; i < WAITERS; i++) {
        pthread_kill(threads[i], SIGUSR1);
        pthread_cancel(threads[i]);
    }
    sleep_ms(50);
    MUST(signals > 0);
    for (int i = 0; i < WAITERS; i++)
        MUST(!them[i].returned);
    ordup_cluster_stop(cluster);
    for (int i = 0; i < WAITERS; i++) {
        pthread_join(threads[i], &ended);
        MUST(them[i].returned && ended == PTHREAD_CANCELED);
        MUST(them[i].status == (uint32_t)(i < 3 ? ORDUP_REFUSED_NOT_YET : ORDUP_REFUSED_BEHIND));
    }
    ordup_cluster_free(cluster);
}

/* A cluster at rest takes nothing, and its threads take no signals. */
static void rest(void) {
    ordup_cluster *cluster = opened(0);
    ordup_session session = ORDUP_SESSION;
    ordup_change change = {TEA, ORDUP_ADD, 1};
    uint64_t number;
    IS(ordup_cluster_start(cluster), ORDUP_DONE);
    IS(ordup_cluster_propose(cluster, &session, &change, 1, ORDUP_FOREVER, &number), ORDUP_DONE);
    /* What nobody waits for is finished: more updates than the feed of the second site has room for. */
    for (int i = 0; i < 20; i++) {
        uint32_t status = ordup_cluster_propose(cluster, &session, &change, 1, 0, &number);
        MUST((status == ORDUP_DONE || status == ORDUP_REFUSED_NOT_YET) && number == (uint64_t)i + 2);
    }
    ordup_site_numbers yard = {.applied = 0};
    ordup_numbers numbers = {.acknowledged = 0};
    for (int look = 0; look < 1000 && (yard.applied < 21 || numbers.acknowledged < 21); look++) {
        sleep_ms(5);
        ordup_cluster_count(cluster, &numbers);
        IS(ordup_cluster_site_count(cluster, YARD, &yard), ORDUP_DONE);
    }
    MUST(numbers.length == 21 && numbers.acknowledged == 21 && yard.applied == 21);
    IS(ordup_cluster_settle(cluster, &session, 21, 0), ORDUP_DONE);
    sleep_ms(30);
    double cpu = seconds(CLOCK_PROCESS_CPUTIME_ID);
    sleep_ms(500);
    MUST(seconds(CLOCK_PROCESS_CPUTIME_ID) - cpu < 0.005);
    sigset_t one, was;
    sigemptyset(&one);
    sigaddset(&one, SIGUSR2);
    signal(SIGUSR2, count_signal);
    signals = 0;
    pthread_sigmask(SIG_BLOCK, &one, &was);
    kill(getpid(), SIGUSR2);
    sleep_ms(20);
    MUST(signals == 0);
    pthread_sigmask(SIG_SETMASK, &was, NULL);
    MUST(signals == 1);
    /* It is stopped and joined as it is freed. */
    ordup_cluster_free(cluster);
}

/* `stop` comes at any time: each call then ends, and the sites hold what they applied. */
static void *call_until_stopped(void *given) {
    ordup_cluster *cluster = given;
    ordup_session session = ORDUP_SESSION;
    ordup_change change = {TEA, ORDUP_ADD, 1};
    for (uint32_t status = ORDUP_DONE, i = 0; status != ORDUP_REFUSED_STOPPED; i++) {
        uint64_t number = 0, seen = session.seen;
        ordup_seen out;
        status = ordup_cluster_propose(cluster, &session, &change, 1, i % 3 ? ORDUP_FOREVER : 0, &number);
        if (status == ORDUP_REFUSED_NOT_YET && session.seen == seen)
            status = ordup_cluster_settle(cluster, &session, number, ORDUP_FOREVER);
        if (status == ORDUP_DONE && session.seen < number)
            return "an update is not seen";
        if (status != ORDUP_DONE && status != ORDUP_REFUSED_NOT_YET && status != ORDUP_REFUSED_STOPPED)
            return "a proposal";
        uint32_t read = ordup_cluster_read_when_level(cluster, &session, i % 2, TEA, ORDUP_FOREVER, &out);
        if (read != ORDUP_DONE && read != ORDUP_REFUSED_BEHIND)
            return "a read";
    }
    return NULL;
}

static void storms(void) {
    enum { CALLERS = 4, STORMS = 60 };
    pthread_t threads[CALLERS];
    for (int storm = 0; storm < STORMS; storm++) {
        ordup_cluster *cluster = opened(0);
        IS(ordup_cluster_start(cluster), ORDUP_DONE);
        for (int i = 0; i < CALLERS; i++)
            pthread_create(&threads[i], NULL, call_until_stopped, cluster);
        nanosleep(&(struct timespec){.tv_nsec = storm * 37 % 41 * 50000}, NULL);
        ordup_cluster_stop(cluster);
        for (int i = 0; i < CALLERS; i++) {
            void *said;
            pthread_join(threads[i], &said);
            MUST(!said);
        }
        IS(ordup_cluster_close(cluster), ORDUP_DONE);
        ordup_numbers numbers;
        ordup_cluster_count(cluster, &numbers);
        for (uint32_t at = 0; at < 2; at++) {
            ordup_site_numbers site;
            IS(ordup_cluster_site_count(cluster, at, &site), ORDUP_DONE);
            /* The close sends what the last reports allow, and nobody applies it. */
            MUST(site.reported == site.applied && site.applied <= site.sent && site.sent <= numbers.length);
        }
        ordup_cluster_free(cluster);
    }
}

/* Conditions, groups, and the numbers of sites. */
static void conditions(void) {
    ordup_setup setup = ORDUP_SETUP;
    ordup_cluster *cluster = NULL;
    ordup_session session = ORDUP_SESSION;
    ordup_change sale[2] = {{TEA, ORDUP_ADD, -30}, {RYE, ORDUP_ADD, 1}};
    ordup_condition kept[2] = {{RYE, ORDUP_AT_MOST, 1}, {TEA, ORDUP_AT_LEAST, 0}}, unknown = {9, ORDUP_AT_LEAST, 0};
    uint32_t group = NO, both[2] = {TEA, RYE};
    uint64_t number = NO;
    size_t unmet = NO, count = NO;
    ordup_site_numbers site;
    ordup_lag lags[4];
    declare(&setup);
    IS(ordup_setup_group(&setup, "all", 3, both, 2, &group), ORDUP_DONE);
    IS(ordup_setup_limit(&setup, YARD, ORDUP_SCOPE_GROUP, group, 100), ORDUP_DONE);
    IS(ordup_setup_limit(&setup, YARD, ORDUP_SCOPE_ALL, 0, 200), ORDUP_DONE);
    IS(ordup_cluster_open(&setup, 7, &cluster), ORDUP_DONE);
    ordup_handle_close(&setup);
    IS(ordup_cluster_lags(cluster, YARD, lags, 1, &count), ORDUP_MORE);
    MUST(count == 2);
    IS(ordup_cluster_start(cluster), ORDUP_DONE);
    IS(ordup_cluster_propose_if(cluster, &session, sale, 2, &unknown, 1, 0, &number, &unmet), ORDUP_REFUSED_UNKNOWN_OBJECT);
    MUST(number == NO && unmet == NO);
    IS(ordup_cluster_propose_if(cluster, &session, sale, 2, kept, 2, ORDUP_FOREVER, &number, &unmet), ORDUP_DONE);
    MUST(number == 8 && unmet == NO && session.seen == 8);
    IS(ordup_cluster_propose_if(cluster, &session, sale, 2, kept, 2, ORDUP_FOREVER, &number, &unmet), ORDUP_UNMET);
    MUST(number == 8 && unmet == 0);
    IS(ordup_cluster_propose_if(cluster, &session, sale, 1, kept, 2, ORDUP_FOREVER, &number, &unmet), ORDUP_UNMET);
    MUST(number == 8 && unmet == 1);
    IS(ordup_cluster_finish(cluster, ORDUP_FOREVER), ORDUP_DONE);
    IS(ordup_cluster_close(cluster), ORDUP_DONE);
    IS(ordup_cluster_site_count(cluster, SHOP, &site), ORDUP_DONE);
    MUST(site.sent == 8 && site.applied == 8 && site.reported == 8 && site.rounds == 1);
    IS(ordup_cluster_site_count(cluster, YARD, &site), ORDUP_DONE);
    MUST(site.sent == 8 && site.applied == 8 && site.reported == 8 && site.rounds == 0);
    IS(ordup_cluster_lags(cluster, YARD, lags, 4, &count), ORDUP_DONE);
    MUST(count == 2 && lags[0].amount + lags[1].amount == 300 && lags[0].weight == 0 && lags[1].weight == 0);
    IS(ordup_cluster_lags(cluster, SHOP, lags, 4, &count), ORDUP_DONE);
    MUST(count == 1 && lags[0].kind == ORDUP_SCOPE_COUNT && lags[0].amount == 0 && lags[0].weight == 0);
    ordup_cluster_free(cluster);
}

int main(void) {
    opening();
    misuse();
    times();
    waits();
    rest();
    storms();
    conditions();
    printf("%d things tried\n", tried);
    return wrong;
}
