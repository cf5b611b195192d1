/* The threads of a cluster in C: callers that propose, some with conditions, settle, and read what they wrote, readers whose values are
 * compared with the log afterwards, queries, a changer of limits, and one who looks at the numbers. Then the cluster is closed, and its
 * successor goes on, so many times as there are epochs. It prints what was done, and ends with status 0 where all that ordup_cluster.h
 * promises was seen.
 *
 *     cluster_threads EPOCHS SETS [FOLDER]
 *
 * SETS is how many updates each caller makes in an epoch. FOLDER gets the records: EPOCH_SITE.csv. */
#define _GNU_SOURCE
#include <pthread.h>
#include <sched.h>
#include <stdatomic.h>
#include <stdio.h>
#include <stdlib.h>
#include <string.h>

#include "ordup_cluster.h"

enum { SITES = 4, CALLERS = 4, READERS = 4, FULL = 9, SAMPLES = 1 << 16, FIRST = 1000 };
/* The objects: one for each caller, two that are shared, and the stock. */
enum { SHARED = CALLERS, STOCK = CALLERS + 2, OBJECTS = CALLERS + 3 };

static ordup_cluster *cluster;
static _Atomic int wrong, over;
static _Atomic uint64_t done, reads_in_all, waited, behind, queries, imported, relimits, samples_in_all, sales, unsold;
static int sets, epochs;

/* What each update added, by its number, to the caller's own object, to the shared ones, and to the stock. */
static struct change { uint8_t caller; int8_t own, shared[2], stock; } *changes;

struct sample { uint64_t applied; int64_t value; uint32_t object; };
static struct sample *samples[READERS];
static size_t sampled[READERS];

#define MUST(what)                                                        \
    do {                                                                  \
        if (!(what)) {                                                    \
            fprintf(stderr, "line %d: not so: %s\n", __LINE__, #what);    \
            wrong = 1;                                                    \
        }                                                                 \
    } while (0)

static uint32_t next(uint64_t *state) {
    *state ^= *state << 13, *state ^= *state >> 7, *state ^= *state << 17;
    return (uint32_t)(*state >> 33);
}

/* A caller: each update adds 1 to its own object, and something to the shared ones. Each fourth one sells from the stock, which must not
 * pass 0, or fills it where that fails, to at most FULL. It has one session for all epochs. */
struct caller { uint32_t me; uint64_t state; ordup_session session; int64_t own; };

static void *call(void *given) {
    struct caller *it = given;
    for (int set = 0; set < sets; set++) {
        struct change made = {(uint8_t)it->me, 1, {(int8_t)(next(&it->state) % 7), (int8_t)(next(&it->state) % 3)}, 0};
        ordup_change list[4] = {{it->me, ORDUP_ADD, 1}, {SHARED, ORDUP_ADD, made.shared[0]}, {SHARED + 1, ORDUP_ADD, made.shared[1]}};
        uint64_t number = 0, seen = it->session.seen, timeout = next(&it->state) % 4 ? ORDUP_FOREVER : 0;
        size_t unmet = 99;
        uint32_t status = ORDUP_UNMET;
        for (int attempt = 0; set % 4 == 1 && attempt < 2 && status == ORDUP_UNMET; attempt++) {
            ordup_condition kept[2] = {{SHARED, ORDUP_AT_LEAST, 0}, {STOCK, ORDUP_AT_LEAST, 0}};
            made.stock = -(int8_t)(1 + next(&it->state) % 4);
            if (attempt) {
                made.stock = (int8_t)(1 + next(&it->state) % 6);
                kept[1] = (ordup_condition){STOCK, ORDUP_AT_MOST, FULL};
            }
            list[3] = (ordup_change){STOCK, ORDUP_ADD, made.stock};
            status = ordup_cluster_propose_if(cluster, &it->session, list, 4, kept, 2, timeout, &number, &unmet);
            if (status == ORDUP_UNMET) {
                MUST(unmet == 1 && number == 0 && it->session.seen == seen);
                made.stock = 0;
                unsold++;
            } else {
                sales++;
            }
        }
        if (status == ORDUP_UNMET)
            status = ordup_cluster_propose(cluster, &it->session, list, 3, timeout, &number);
        /* Each fourth time it did not wait, and settles what it then has to. */
        if (status == ORDUP_REFUSED_NOT_YET) {
            MUST(it->session.seen == seen);
            status = ordup_cluster_settle(cluster, &it->session, number, ORDUP_FOREVER);
            waited++;
        }
        MUST(status == ORDUP_DONE && it->session.seen >= number && number > seen);
        if (status != ORDUP_DONE)
            return NULL;
        changes[number] = made;
        it->own++;
        done++;
        if (set % 8 == 0) {
            uint32_t mine = it->me, all[3] = {mine, SHARED, SHARED + 1};
            int64_t values[3];
            uint64_t applied;
            ordup_seen out;
            MUST(ordup_cluster_read_when_level(cluster, &it->session, (it->me + 1) % SITES, mine, ORDUP_FOREVER, &out) == ORDUP_DONE);
            MUST(out.applied >= number && out.value == it->own && it->session.seen == out.applied);
            status = ordup_cluster_read_many_when_level(cluster, &it->session, it->me % SITES, all, 3, ORDUP_FOREVER, values, &applied);
            MUST(status == ORDUP_DONE && applied >= out.applied && values[0] == it->own);
            reads_in_all += 2;
        }
    }
    return NULL;
}

/* A reader goes from site to site with one session. The shared objects only grow, so they never shrink for it. */
static void *look(void *which) {
    uint32_t me = (uint32_t)(uintptr_t)which;
    uint64_t state = 1234567 + me;
    int64_t last[2] = {0, 0};
    ordup_session session = ORDUP_SESSION;
    while (!over) {
        ordup_seen out = {-1, 0};
        uint32_t at = next(&state) % 8 ? me : next(&state) % SITES, object = next(&state) % OBJECTS;
        uint64_t seen = session.seen;
        uint32_t status = ordup_cluster_read(cluster, &session, at, object, &out);
        if (status == ORDUP_REFUSED_BEHIND) {
            MUST(out.applied < seen && out.value == -1 && session.seen == seen);
            behind++;
            continue;
        }
        MUST(status == ORDUP_DONE && out.applied >= seen && session.seen == out.applied);
        reads_in_all++;
        MUST(object != STOCK || (out.value >= 0 && out.value <= FULL));
        if (object == SHARED || object == SHARED + 1) {
            MUST(out.value >= last[object - SHARED]);
            last[object - SHARED] = out.value;
        }
        if (sampled[me] < SAMPLES && next(&state) % 8 == 0)
            samples[me][sampled[me]++] = (struct sample){out.applied, out.value, object};
        if (next(&state) % 64 == 0) {
            ordup_query query = ORDUP_QUERY;
            ordup_charged answer;
            ordup_ended end;
            uint64_t total = 0, limit = next(&state) % 40, reads = 0;
            int64_t sum = 0;
            MUST(ordup_cluster_begin(cluster, at, limit, &query) == ORDUP_DONE);
            MUST(ordup_cluster_begin(cluster, at, limit, &query) == ORDUP_OPEN);
            for (object = 0; object < OBJECTS; object++) {
                status = ordup_cluster_query_read(&query, object, &answer);
                MUST(status == ORDUP_DONE || status == ORDUP_REFUSED_OVER_IMPORT);
                if (status == ORDUP_DONE) {
                    total += answer.import, sum += answer.value, reads++;
                    MUST(answer.total == total && total <= limit);
                } else {
                    imported++;
                }
            }
            MUST(ordup_cluster_query_end(&query, &end) == ORDUP_DONE);
            MUST(end.total == total && end.sum == sum && end.reads == reads && end.place >= FIRST);
            MUST(ordup_cluster_query_end(&query, &end) == ORDUP_CLOSED);
            queries++;
        }
    }
    return NULL;
}

static void *change_limits(void *none) {
    uint64_t state = 99;
    while (!over) {
        uint64_t place = 0;
        uint32_t status = ordup_cluster_relimit(cluster, 2 + next(&state) % 2, ORDUP_SCOPE_ALL, 0, 5 + next(&state) % 30, &place);
        MUST(status == ORDUP_DONE ? place > FIRST : place == 0);
        MUST(status == ORDUP_DONE || status == ORDUP_REFUSED_HEAD_PENDING || status == ORDUP_REFUSED_LAG_OVER ||
             status == ORDUP_REFUSED_TOO_MANY);
        relimits += status == ORDUP_DONE;
        for (int turn = 0; turn < 64 && !over; turn++)
            sched_yield();
    }
    return none;
}

static void *count_all(void *none) {
    ordup_numbers was, is;
    ordup_cluster_count(cluster, &was);
    while (!over) {
        ordup_cluster_count(cluster, &is);
        MUST(is.before == was.before && is.length >= was.length && is.acknowledged >= was.acknowledged && is.acknowledged <= is.length);
        was = is;
        for (uint32_t at = 0; at < SITES; at++) {
            ordup_site_numbers site;
            ordup_lag lags[4];
            size_t count = 99;
            MUST(ordup_cluster_site_count(cluster, at, &site) == ORDUP_DONE);
            MUST(site.reported <= site.applied && site.applied <= site.sent);
            MUST(ordup_cluster_lags(cluster, at, lags, 4, &count) == ORDUP_DONE && count <= 4);
            for (size_t limit = 0; limit < count; limit++)
                MUST(lags[limit].weight <= lags[limit].amount);
        }
        sched_yield();
    }
    return none;
}

static void open_first(void) {
    ordup_setup setup = ORDUP_SETUP;
    uint32_t id;
    char name[16];
    MUST(ordup_setup_open(&setup) == ORDUP_DONE);
    for (int i = 0; i < OBJECTS; i++)
        MUST(ordup_setup_object(&setup, name, (size_t)sprintf(name, "x%d", i), 0, &id) == ORDUP_DONE && id == (uint32_t)i);
    for (int i = 0; i < SITES; i++)
        MUST(ordup_setup_site(&setup, name, (size_t)sprintf(name, "s%d", i), i == 1 ? 1 : 16, &id) == ORDUP_DONE && id == (uint32_t)i);
    /* Each update waits for the first site; the second one has no limit and a feed of one; the others have limits that are changed. */
    MUST(ordup_setup_limit(&setup, 0, ORDUP_SCOPE_COUNT, 0, 0) == ORDUP_DONE);
    MUST(ordup_setup_limit(&setup, 2, ORDUP_SCOPE_ALL, 0, 10) == ORDUP_DONE);
    MUST(ordup_setup_limit(&setup, 3, ORDUP_SCOPE_ALL, 0, 20) == ORDUP_DONE);
    MUST(ordup_setup_limit(&setup, 3, ORDUP_SCOPE_OBJECT, 0, 3) == ORDUP_DONE);
    MUST(ordup_cluster_open(&setup, FIRST, &cluster) == ORDUP_DONE);
    ordup_handle_close(&setup);
    MUST(ordup_cluster_sites(cluster) == SITES);
}

/* What was read is what the updates add up to. */
static void compare(uint64_t length) {
    int64_t(*after)[OBJECTS] = calloc(length + 1, sizeof *after);
    for (uint64_t number = FIRST + 1; number <= length; number++) {
        memcpy(after[number], after[number - 1], sizeof *after);
        MUST(changes[number].own == 1);
        after[number][changes[number].caller] += 1;
        after[number][SHARED] += changes[number].shared[0];
        after[number][SHARED + 1] += changes[number].shared[1];
        after[number][STOCK] += changes[number].stock;
        MUST(after[number][STOCK] >= 0 && after[number][STOCK] <= FULL);
    }
    for (int reader = 0; reader < READERS; reader++) {
        for (size_t at = 0; at < sampled[reader]; at++) {
            struct sample *it = &samples[reader][at];
            MUST(it->applied >= FIRST && it->applied <= length && it->value == after[it->applied][it->object]);
        }
        samples_in_all += sampled[reader];
        sampled[reader] = 0;
    }
    for (uint32_t at = 0; at < SITES; at++) {
        for (uint32_t object = 0; object < OBJECTS; object++) {
            ordup_session session = {length};
            ordup_seen out;
            MUST(ordup_cluster_read(cluster, &session, at, object, &out) == ORDUP_DONE);
            MUST(out.applied == length && out.value == after[length][object]);
        }
    }
    free(after);
}

static void write_records(const char *folder, int epoch) {
    for (uint32_t at = 0; at < SITES; at++) {
        char none[1], path[512];
        size_t bytes = 0, written = 0;
        MUST(ordup_cluster_record(cluster, at, none, 0, &bytes) == ORDUP_MORE);
        char *rows = malloc(bytes);
        MUST(ordup_cluster_record(cluster, at, rows, bytes, &written) == ORDUP_DONE && written == bytes);
        snprintf(path, sizeof path, "%s/%d_%u.csv", folder, epoch, (unsigned)at);
        FILE *file = fopen(path, "w");
        MUST(file && fwrite(rows, 1, written, file) == written && fclose(file) == 0);
        free(rows);
    }
}

/* The threads of the program itself run the appliers and the keeper in each second epoch. */
static void *apply(void *at) {
    MUST(ordup_cluster_applier(cluster, (uint32_t)(uintptr_t)at) == ORDUP_DONE);
    return NULL;
}

static void *keep(void *none) {
    ordup_cluster_keeper(cluster);
    return none;
}

static void run_epoch(struct caller *callers, int is_own) {
    pthread_t threads[SITES + 1], readers[READERS + 2], them[CALLERS];
    over = 0;
    if (!is_own)
        MUST(ordup_cluster_start(cluster) == ORDUP_DONE && ordup_cluster_start(cluster) == ORDUP_OPEN);
    for (uintptr_t at = 0; at < SITES && is_own; at++)
        pthread_create(&threads[at], NULL, apply, (void *)at);
    if (is_own)
        pthread_create(&threads[SITES], NULL, keep, NULL);
    for (uintptr_t reader = 0; reader < READERS; reader++)
        pthread_create(&readers[reader], NULL, look, (void *)reader);
    pthread_create(&readers[READERS], NULL, change_limits, NULL);
    pthread_create(&readers[READERS + 1], NULL, count_all, NULL);
    for (int caller = 0; caller < CALLERS; caller++)
        pthread_create(&them[caller], NULL, call, &callers[caller]);
    for (int caller = 0; caller < CALLERS; caller++)
        pthread_join(them[caller], NULL);
    MUST(ordup_cluster_finish(cluster, ORDUP_FOREVER) == ORDUP_DONE);
    over = 1;
    for (int reader = 0; reader < READERS + 2; reader++)
        pthread_join(readers[reader], NULL);
    ordup_cluster_stop(cluster);
    for (int at = 0; at <= SITES && is_own; at++)
        pthread_join(threads[at], NULL);
    MUST(ordup_cluster_join(cluster) == (is_own ? ORDUP_CLOSED : ORDUP_DONE));
}

int main(int count, char **words) {
    epochs = count > 1 ? atoi(words[1]) : 2, sets = count > 2 ? atoi(words[2]) : 300;
    changes = calloc((size_t)FIRST + (size_t)epochs * CALLERS * (size_t)sets + 1, sizeof *changes);
    for (int reader = 0; reader < READERS; reader++)
        samples[reader] = malloc(SAMPLES * sizeof **samples);
    struct caller callers[CALLERS];
    for (uint32_t me = 0; me < CALLERS; me++)
        callers[me] = (struct caller){me, 88172645463325252u + me, ORDUP_SESSION, 0};
    open_first();
    for (int epoch = 0; epoch < epochs && !wrong; epoch++) {
        ordup_cluster *successor = NULL;
        uint64_t length = FIRST + (uint64_t)(epoch + 1) * CALLERS * (uint64_t)sets;
        run_epoch(callers, epoch % 2);
        MUST(ordup_cluster_successor(cluster, &successor) == ORDUP_OPEN);
        MUST(ordup_cluster_close(cluster) == ORDUP_DONE);
        ordup_numbers numbers;
        ordup_cluster_count(cluster, &numbers);
        MUST(numbers.length == length && numbers.acknowledged == length);
        compare(length);
        if (count > 3)
            write_records(words[3], epoch);
        MUST(ordup_cluster_successor(cluster, &successor) == ORDUP_DONE);
        ordup_cluster_free(cluster);
        cluster = successor;
        if (!cluster)
            return 1;
    }
    ordup_cluster_free(cluster);
    for (int reader = 0; reader < READERS; reader++)
        free(samples[reader]);
    free(changes);
    printf("%lu updates, %lu settled later, %lu with conditions met, %lu not met, %lu limits changed, %lu reads, %lu of them compared with "
           "the log, %lu behind, %lu queries, %lu over: %s\n",
           (unsigned long)done, (unsigned long)waited, (unsigned long)sales, (unsigned long)unsold, (unsigned long)relimits,
           (unsigned long)reads_in_all, (unsigned long)samples_in_all, (unsigned long)behind, (unsigned long)queries, (unsigned long)imported,
           wrong ? "wrong" : "as promised");
    return wrong;
}
