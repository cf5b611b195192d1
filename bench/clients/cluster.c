/* cluster WAY LOAD THREADS SECONDS: measures a cluster of a program in C, or a plain lock and an array, and prints a number.
 * bench/clients/clusters tells the loads, and runs it. */
#define _GNU_SOURCE
#include <pthread.h>
#include <stdatomic.h>
#include <stdio.h>
#include <stdlib.h>
#include <string.h>
#include <time.h>
#include <unistd.h>

#include "ordup_cluster.h"

enum { SITES = 4, OBJECTS = 64, CLUSTERS = 100, UPDATES = 100000 };

static double seconds(clockid_t clock) {
    struct timespec at;
    clock_gettime(clock, &at);
    return (double)at.tv_sec + (double)at.tv_nsec * 1e-9;
}

static void rest(double passed) {
    nanosleep(&(struct timespec){(time_t)passed, (long)((passed - (double)(time_t)passed) * 1e9)}, NULL);
}

static void fail(const char *what) {
    fprintf(stderr, "cluster: %s\n", what);
    exit(1);
}

/* ---- callers ---- */

/* A thread that makes its calls batch by batch, one for each object in a batch, until it is over. */
struct caller {
    _Alignas(128) uint32_t at;
    void (*batch)(struct caller *);
    uint64_t most, made;
    double rate;
    ordup_session session;
    int64_t sum;
};

/* How many updates there may be, after which a load ends: a log has a million. */
static uint64_t most_updates = UINT64_MAX;
static _Atomic int over;
static pthread_barrier_t start;

static void *call(void *given) {
    struct caller *it = given;
    pthread_barrier_wait(&start);
    double begun = seconds(CLOCK_MONOTONIC);
    do {
        it->batch(it);
        it->made += OBJECTS;
    } while (!atomic_load_explicit(&over, memory_order_relaxed) && it->made < it->most);
    it->rate = (double)it->made / (seconds(CLOCK_MONOTONIC) - begun);
    if (it->made >= it->most)
        over = 1;
    return NULL;
}

/* How many calls a second so many threads make, beside one more where there is `beside`. */
static double rate(void (*batch)(struct caller *), int threads, int is_apart, uint64_t most, void (*beside)(struct caller *), double passed) {
    static struct caller callers[17];
    pthread_t them[17];
    int all = threads + (beside != NULL);
    double sum = 0;
    pthread_barrier_init(&start, NULL, (unsigned)all + 1);
    for (int i = 0; i < all; i++) {
        callers[i] = (struct caller){.at = is_apart ? (uint32_t)i % SITES : 0, .batch = batch, .most = most};
        if (i == threads) {
            callers[i].batch = beside;
            callers[i].most = most_updates;
        }
        if (pthread_create(&them[i], NULL, call, &callers[i]))
            fail("a thread is refused");
    }
    pthread_barrier_wait(&start);
    rest(passed);
    over = 1;
    for (int i = 0; i < all; i++) {
        pthread_join(them[i], NULL);
        sum += i < threads ? callers[i].rate : 0;
    }
    return sum;
}

/* ---- ordup ---- */

static ordup_cluster *cluster;

static ordup_cluster *open_cluster(int64_t limit) {
    ordup_setup setup = ORDUP_SETUP;
    ordup_cluster *opened;
    uint32_t id;
    char name[16];
    ordup_setup_open(&setup);
    for (int i = 0; i < OBJECTS; i++)
        ordup_setup_object(&setup, name, (size_t)sprintf(name, "x%d", i), 0, &id);
    for (int i = 0; i < SITES; i++) {
        ordup_setup_site(&setup, name, (size_t)sprintf(name, "s%d", i), 1024, &id);
        if (limit >= 0)
            ordup_setup_limit(&setup, id, ORDUP_SCOPE_ALL, 0, (uint64_t)limit);
    }
    if (ordup_cluster_open(&setup, 0, &opened) || ordup_cluster_start(opened))
        fail("the cluster is not open");
    ordup_handle_close(&setup);
    return opened;
}

static void read_ordup(struct caller *it) {
    ordup_seen seen;
    for (uint32_t i = 0; i < OBJECTS; i++) {
        if (ordup_cluster_read(cluster, &it->session, it->at, i, &seen))
            fail("a read");
        it->sum += seen.value;
    }
}

static void update_ordup(struct caller *it) {
    uint64_t number;
    for (uint32_t i = 0; i < OBJECTS; i++) {
        ordup_change change = {i, ORDUP_ADD, i & 1 ? -1 : 1};
        if (ordup_cluster_propose(cluster, &it->session, &change, 1, ORDUP_FOREVER, &number))
            fail("an update");
    }
}

static double idle(double passed) {
    ordup_session session = ORDUP_SESSION;
    ordup_change change = {0, ORDUP_ADD, 1};
    uint64_t number;
    if (ordup_cluster_propose(cluster, &session, &change, 1, ORDUP_FOREVER, &number))
        fail("an update");
    rest(0.1);
    double used = seconds(CLOCK_PROCESS_CPUTIME_ID);
    rest(passed);
    return seconds(CLOCK_PROCESS_CPUTIME_ID) - used;
}

/* How many bytes are resident. */
static double resident(void) {
    long pages;
    FILE *file = fopen("/proc/self/statm", "r");
    if (!file || fscanf(file, "%*d %ld", &pages) != 1)
        fail("statm");
    fclose(file);
    return (double)pages * (double)sysconf(_SC_PAGESIZE);
}

static double of_a_cluster(void) {
    double before = resident();
    for (int i = 0; i < CLUSTERS; i++)
        open_cluster(-1);
    return (resident() - before) / CLUSTERS;
}

static double of_an_update(void) {
    struct caller it = {.most = UPDATES};
    double before = resident();
    for (; it.made < UPDATES; it.made += OBJECTS)
        update_ordup(&it);
    if (ordup_cluster_finish(cluster, ORDUP_FOREVER))
        fail("the end");
    return (resident() - before) / (double)it.made;
}

/* ---- a plain lock and an array ---- */

static struct plain {
    _Alignas(128) pthread_mutex_t lock;
    int64_t values[OBJECTS];
    uint64_t applied;
    pthread_cond_t sent;
} plain[SITES];

static void read_plain(struct caller *it) {
    struct plain *here = &plain[it->at];
    for (int i = 0; i < OBJECTS; i++) {
        pthread_mutex_lock(&here->lock);
        it->sum += here->values[i];
        if (here->applied > it->session.seen)
            it->session.seen = here->applied;
        pthread_mutex_unlock(&here->lock);
    }
}

static void apply_plain(struct plain *here, int object) {
    pthread_mutex_lock(&here->lock);
    here->values[object] += object & 1 ? -1 : 1;
    here->applied++;
    pthread_mutex_unlock(&here->lock);
}

static void update_plain(struct caller *it) {
    (void)it;
    for (int i = 0; i < OBJECTS; i++)
        for (int at = 0; at < SITES; at++)
            apply_plain(&plain[at], i);
}

/* A round: the log grows, four threads that sleep apply it, and wake the caller. */
static pthread_mutex_t log_lock = PTHREAD_MUTEX_INITIALIZER;
static pthread_cond_t told = PTHREAD_COND_INITIALIZER;
static uint64_t logged, told_by[SITES], may_lag;
static int is_stopped;

static void *apply_all(void *given) {
    struct plain *here = given;
    uint64_t *tells = &told_by[here - plain];
    pthread_mutex_lock(&log_lock);
    for (;;) {
        while (*tells == logged && !is_stopped)
            pthread_cond_wait(&here->sent, &log_lock);
        if (*tells == logged)
            break;
        pthread_mutex_unlock(&log_lock);
        apply_plain(here, 0);
        pthread_mutex_lock(&log_lock);
        ++*tells;
        pthread_cond_broadcast(&told);
    }
    pthread_mutex_unlock(&log_lock);
    return NULL;
}

static int all_have(uint64_t number) {
    for (int at = 0; at < SITES; at++)
        if (told_by[at] + may_lag < number)
            return 0;
    return 1;
}

static void round_plain(struct caller *it) {
    (void)it;
    for (int i = 0; i < OBJECTS; i++) {
        pthread_mutex_lock(&log_lock);
        uint64_t number = ++logged;
        for (int at = 0; at < SITES; at++)
            pthread_cond_signal(&plain[at].sent);
        while (!all_have(number))
            pthread_cond_wait(&told, &log_lock);
        pthread_mutex_unlock(&log_lock);
    }
}

static double rounds_plain(int threads, uint64_t lag, double passed) {
    pthread_t appliers[SITES];
    may_lag = lag;
    for (int at = 0; at < SITES; at++)
        if (pthread_create(&appliers[at], NULL, apply_all, &plain[at]))
            fail("a thread is refused");
    double made = rate(round_plain, threads, 0, UINT64_MAX, NULL, passed);
    pthread_mutex_lock(&log_lock);
    is_stopped = 1;
    for (int at = 0; at < SITES; at++)
        pthread_cond_signal(&plain[at].sent);
    pthread_mutex_unlock(&log_lock);
    for (int at = 0; at < SITES; at++)
        pthread_join(appliers[at], NULL);
    return made;
}

/* ---- loads ---- */

static double measure(int is_ordup, const char *load, int threads, double passed) {
    int64_t limit = -1;
    sscanf(load, "round-%ld", &limit);
    if (is_ordup && !strcmp(load, "memory"))
        return of_a_cluster();
    if (is_ordup) {
        cluster = open_cluster(strcmp(load, "idle") ? limit : 0);
        most_updates = 900000;
    }
    if (!strncmp(load, "reads-", 6))
        return rate(is_ordup ? read_ordup : read_plain, threads, strcmp(load, "reads-one") != 0, UINT64_MAX,
                    strcmp(load, "reads-beside") ? NULL : is_ordup ? update_ordup : update_plain, passed);
    if (!strcmp(load, "update") || (is_ordup && limit >= 0))
        return rate(is_ordup ? update_ordup : update_plain, threads, 0, most_updates / (uint64_t)threads, NULL, passed);
    if (limit >= 0)
        return rounds_plain(threads, (uint64_t)limit, passed);
    if (is_ordup && !strcmp(load, "idle"))
        return idle(passed);
    if (is_ordup && !strcmp(load, "memory-update"))
        return of_an_update();
    fail("there is no such load");
    return 0;
}

int main(int count, char **words) {
    int threads = count == 5 ? atoi(words[3]) : 0;
    if (threads < 1 || threads > 16)
        fail("usage: cluster ordup|array LOAD THREADS SECONDS");
    for (int at = 0; at < SITES; at++) {
        pthread_mutex_init(&plain[at].lock, NULL);
        pthread_cond_init(&plain[at].sent, NULL);
    }
    printf("%.9g\n", measure(!strcmp(words[1], "ordup"), words[2], threads, atof(words[4])));
    return 0;
}
