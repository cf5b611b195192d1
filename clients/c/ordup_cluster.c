/* A cluster: the calls of ordup_holds.h under locks of this file, and threads that sleep and wake. Nothing of it is proved; what each of
 * those calls does is. checks/waking has models of the waits, whose comments name the steps of these functions.
 *
 * The book lies under one lock, and each site under one of its own. No lock is taken while another is held. A hold of the book looks at
 * what the sites told, settles, and sends. Who brings something about that another may wait for rings a bell after it:
 *
 * - A hold that sent something rings `sent`, on which appliers sleep.
 * - A hold that acknowledged updates rings the bell in `heads` of each of them and of the one after, the new head. A caller sleeps on
 *   that of its update until it is the head, and then on `told`.
 * - An applier rings the bell of its site after each update, for readers, and `told` once its feed is empty or it has applied some more.
 *   A site that the head waits for is sent no update after it, so most often the head is the last of its feed.
 * - What an applier told is news until a hold has looked at it, which `looked` says. A caller whose update is the head makes a hold for
 *   them. Where work is left, and there are news, and no such caller, the keeper is rung: by who told, by who ended the hold that did not
 *   see them, or by the caller who leaves. */
#define _GNU_SOURCE
#include "ordup_cluster.h"

#include <pthread.h>
#include <signal.h>
#include <stdatomic.h>
#include <stdbool.h>
#include <stdlib.h>
#include <string.h>
#include <time.h>

enum { LINE = 64, LOOKS = 64, HEADS = 16, MOST_SITES = 16, APPLIED_UNTOLD = 32, RETRY_MS = 10 };

/* The most updates that may come before a cluster. */
static const uint64_t MOST_BEFORE = 1000000000000000000u;

/* ---- bells ---- */

/* A count that sleepers compare with what it was. Who waits listens, then looks for what it waits for, and sleeps only where the bell did
 * not ring since it listened. */
typedef struct bell {
    _Alignas(LINE) _Atomic uint64_t rung;
    _Atomic uint32_t sleepers;
    bool is_open;
    pthread_mutex_t lock;
    pthread_cond_t woken;
} bell;

static bool open_condition(pthread_cond_t *woken) {
    pthread_condattr_t monotonic;
    if (pthread_condattr_init(&monotonic))
        return false;
    bool is_open = !pthread_condattr_setclock(&monotonic, CLOCK_MONOTONIC) && !pthread_cond_init(woken, &monotonic);
    pthread_condattr_destroy(&monotonic);
    return is_open;
}

static bool open_bell(bell *it) {
    atomic_init(&it->rung, 0);
    atomic_init(&it->sleepers, 0);
    if (pthread_mutex_init(&it->lock, NULL))
        return false;
    it->is_open = open_condition(&it->woken);
    if (!it->is_open)
        pthread_mutex_destroy(&it->lock);
    return it->is_open;
}

static void close_bell(bell *it) {
    if (it->is_open) {
        pthread_cond_destroy(&it->woken);
        pthread_mutex_destroy(&it->lock);
    }
}

static uint64_t listen(bell *it) {
    return atomic_load(&it->rung);
}

static void ring(bell *it) {
    atomic_fetch_add(&it->rung, 1);
    if (atomic_load(&it->sleepers)) {
        pthread_mutex_lock(&it->lock);
        pthread_cond_broadcast(&it->woken);
        pthread_mutex_unlock(&it->lock);
    }
}

static void relax(void) {
#if defined __x86_64__
    __builtin_ia32_pause();
#endif
}

/* Sleeps until the bell rang after this was heard, or until a moment; with none, for any time. */
static void wait_for(bell *it, uint64_t heard, const struct timespec *end) {
    for (int look = 0; look < LOOKS; look++) {
        if (listen(it) != heard)
            return;
        relax();
    }
    int state;
    pthread_setcancelstate(PTHREAD_CANCEL_DISABLE, &state);
    atomic_fetch_add(&it->sleepers, 1);
    pthread_mutex_lock(&it->lock);
    bool in_time = true;
    while (listen(it) == heard && in_time)
        in_time = !(end ? pthread_cond_timedwait(&it->woken, &it->lock, end) : pthread_cond_wait(&it->woken, &it->lock));
    pthread_mutex_unlock(&it->lock);
    atomic_fetch_sub(&it->sleepers, 1);
    pthread_setcancelstate(state, &state);
}

/* The moment so many milliseconds from now. */
static struct timespec in_ms(uint64_t ms) {
    struct timespec at;
    clock_gettime(CLOCK_MONOTONIC, &at);
    at.tv_sec += (time_t)(ms / 1000);
    at.tv_nsec += (long)(ms % 1000) * 1000000;
    if (at.tv_nsec >= 1000000000) {
        at.tv_sec++;
        at.tv_nsec -= 1000000000;
    }
    return at;
}

/* The end of a wait, in `at`; or none. */
static const struct timespec *end_of(uint64_t timeout_ms, struct timespec *at) {
    if (timeout_ms == ORDUP_FOREVER)
        return NULL;
    *at = in_ms(timeout_ms);
    return at;
}

/* Whether there is an end, and it is over. */
static bool is_past(const struct timespec *end) {
    struct timespec at;
    if (!end)
        return false;
    clock_gettime(CLOCK_MONOTONIC, &at);
    return at.tv_sec > end->tv_sec || (at.tv_sec == end->tv_sec && at.tv_nsec >= end->tv_nsec);
}

/* ---- a cluster ---- */

typedef struct site {
    _Alignas(LINE) pthread_mutex_t lock;
    ordup_handle handle;
    bool has_lock;
    uint32_t index;
    ordup_cluster *cluster;
    pthread_t applier;
    bell moved; /* readers sleep on it */
} site;

struct ordup_cluster {
    uint64_t before;
    uint32_t sites;
    bool has_lock, has_gate, is_started, is_closed;
    bool has_no_start; /* under `gate`: a thread was refused, and those that `start` began end at once */
    pthread_mutex_t gate;
    pthread_t keeper;
    _Atomic bool stopped;
    _Alignas(LINE) pthread_mutex_t lock; /* of the book, and of `last` */
    ordup_handle book;
    ordup_told last; /* what the last hold told */
    /* Of the last hold, for those that have no lock. They are written in this order, under it. */
    _Alignas(LINE) _Atomic uint64_t logged;
    _Atomic uint64_t acked;
    _Atomic bool has_work;
    _Atomic uint64_t looked;  /* how often `told` had rung before it looked at the sites */
    _Atomic uint32_t turners; /* how many callers make holds until they leave */
    bell sent;                /* appliers sleep on it */
    bell told;                /* the head's caller sleeps on it */
    bell work;                /* the keeper sleeps on it */
    bell heads[HEADS];        /* a caller sleeps on that of its update until that is the head */
    site at[];
};

typedef struct proposal {
    const ordup_change *changes;
    size_t count;
    const ordup_condition *conditions;
    size_t condition_count;
} proposal;

/* The keeper makes a hold where work is left, and a site told something that no hold has looked at, and no caller will. */
static void hand_on(ordup_cluster *it) {
    if (!atomic_load(&it->has_work))
        return;
    uint64_t looked = atomic_load(&it->looked);
    if (looked != listen(&it->told) && !atomic_load(&it->turners))
        ring(&it->work);
}

static void ring_heads(ordup_cluster *it, uint64_t after, uint64_t acked) {
    for (uint64_t number = after + 1; number <= acked + 1 && number <= after + HEADS; number++)
        ring(&it->heads[number % HEADS]);
}

/* What a hold of the book changed is told to those who sleep. After one that was refused memory a hold may change what no site told, and
 * rings as if one had. It does not where it was refused again and changed nothing, or the keeper would not rest. */
static void tell(ordup_cluster *it, const ordup_told *was, const ordup_told *is) {
    if (is->sent != was->sent)
        ring(&it->sent);
    if (is->acked != was->acked)
        ring_heads(it, was->acked, is->acked);
    if (was->is_starved && (!is->is_starved || is->acked != was->acked))
        ring(&it->told);
    hand_on(it);
}

/* What a hold did, for those that have no lock. */
static void publish(ordup_cluster *it, uint64_t heard) {
    atomic_store(&it->logged, it->last.logged);
    atomic_store(&it->acked, it->last.acked);
    atomic_store(&it->has_work, it->last.has_work);
    atomic_store(&it->looked, heard);
}

/* A hold of the book, in which a set is numbered and a turn is made. */
static uint32_t number(ordup_cluster *it, const proposal *set, ordup_told *is) {
    pthread_mutex_lock(&it->lock);
    uint64_t heard = listen(&it->told);
    ordup_told was = it->last;
    *is = was;
    uint32_t status = ordup_book_propose(&it->book, set->changes, set->count, set->conditions, set->condition_count, is);
    if (status == ORDUP_DONE) {
        it->last = *is;
        publish(it, heard);
    }
    pthread_mutex_unlock(&it->lock);
    if (status == ORDUP_DONE)
        tell(it, &was, is);
    return status;
}

/* A hold of the book, in which a turn is made, unless there is nothing new for it. */
static uint32_t turn(ordup_cluster *it, ordup_told *is) {
    uint32_t status = ORDUP_DONE;
    pthread_mutex_lock(&it->lock);
    uint64_t heard = listen(&it->told);
    ordup_told was = it->last;
    *is = was;
    if (was.is_starved || atomic_load(&it->looked) != heard)
        status = ordup_book_turn(&it->book, is);
    if (status == ORDUP_DONE) {
        it->last = *is;
        publish(it, heard);
    }
    pthread_mutex_unlock(&it->lock);
    if (status == ORDUP_DONE)
        tell(it, &was, is);
    return status;
}

/* Whether an update is acknowledged; of the number 0, whether no work is left. */
static bool is_reached(ordup_cluster *it, uint64_t number) {
    return number ? atomic_load(&it->acked) >= number : !atomic_load(&it->has_work);
}

/* Waits until an update is acknowledged, or for the number 0 until no work is left, and makes turns meanwhile if that is its to do. It
 * answers the status. */
static uint32_t until(ordup_cluster *it, uint64_t number, uint64_t timeout_ms) {
    if (is_reached(it, number))
        return ORDUP_DONE;
    if (timeout_ms == 0)
        return ORDUP_REFUSED_NOT_YET;
    struct timespec at;
    const struct timespec *end = end_of(timeout_ms, &at);
    bell *head = &it->heads[number % HEADS];
    bool turns = false;
    uint32_t status = ORDUP_DONE;
    for (;;) {
        bool is_late = is_past(end);
        uint64_t heard_of_head = listen(head), heard = listen(&it->told), looked = atomic_load(&it->looked);
        if (is_reached(it, number))
            break;
        if (is_late || atomic_load(&it->stopped)) {
            status = ORDUP_REFUSED_NOT_YET;
            break;
        }
        if (number > atomic_load(&it->acked) + 1) {
            wait_for(head, heard_of_head, end);
            continue;
        }
        if (!turns)
            atomic_fetch_add(&it->turners, 1);
        turns = true;
        if (looked == heard) {
            wait_for(&it->told, heard, end);
            continue;
        }
        ordup_told told;
        status = turn(it, &told);
        if (status == ORDUP_DONE && told.is_starved) {
            ring(&it->work);
            status = is_reached(it, number) ? ORDUP_DONE : ORDUP_REFUSED_NOT_YET;
            break;
        }
        if (status != ORDUP_DONE)
            break;
    }
    if (turns) {
        atomic_fetch_sub(&it->turners, 1);
        hand_on(it);
    }
    return status;
}

static void see(ordup_session *session, uint64_t number) {
    if (session->seen < number)
        session->seen = number;
}

/* ---- opening ---- */

/* Opens the locks and bells of a cluster, whose other bytes are in order. */
static bool open_waits(ordup_cluster *it) {
    it->has_lock = !pthread_mutex_init(&it->lock, NULL);
    it->has_gate = !pthread_mutex_init(&it->gate, NULL);
    bool is_open = it->has_lock && it->has_gate && open_bell(&it->sent) && open_bell(&it->told) && open_bell(&it->work);
    for (int head = 0; head < HEADS && is_open; head++)
        is_open = open_bell(&it->heads[head]);
    for (uint32_t index = 0; index < it->sites && is_open; index++) {
        it->at[index].has_lock = !pthread_mutex_init(&it->at[index].lock, NULL);
        is_open = it->at[index].has_lock && open_bell(&it->at[index].moved);
    }
    return is_open;
}

/* A cluster of a book and of its sites, which it takes where it answers DONE. */
static uint32_t open_cluster(const ordup_handle *book, const ordup_handle *handles, uint32_t sites, uint64_t before,
                             ordup_cluster **cluster) {
    size_t bytes = (sizeof(ordup_cluster) + sites * sizeof(site) + LINE - 1) / LINE * LINE;
    ordup_cluster *it = aligned_alloc(LINE, bytes);
    if (!it)
        return ORDUP_REFUSED_NO_MEMORY;
    memset(it, 0, bytes);
    it->before = before;
    it->sites = sites;
    if (!open_waits(it)) {
        ordup_cluster_free(it);
        return ORDUP_REFUSED_NO_MEMORY;
    }
    it->book = *book;
    for (uint32_t index = 0; index < sites; index++) {
        it->at[index].handle = handles[index];
        it->at[index].cluster = it;
        it->at[index].index = index;
    }
    *cluster = it;
    return ORDUP_DONE;
}

/* Opens the sites of a book, and says how many there are. */
static uint32_t open_sites(ordup_handle *book, ordup_handle *handles, uint32_t *sites) {
    ordup_handle one = ORDUP_HANDLE;
    uint32_t index, status;
    while ((status = ordup_site_open(book, &one, &index)) == ORDUP_DONE) {
        if (index >= MOST_SITES) {
            ordup_handle_close(&one);
            return ORDUP_OTHER;
        }
        handles[index] = one;
        one = (ordup_handle)ORDUP_HANDLE;
        ++*sites;
    }
    return status == ORDUP_REFUSED_UNKNOWN_SITE ? ORDUP_DONE : status;
}

uint32_t ordup_cluster_open(ordup_setup *setup, uint64_t before, ordup_cluster **cluster) {
    static _Atomic uint64_t clusters;
    ordup_handle book = ORDUP_HANDLE, handles[MOST_SITES] = {ORDUP_HANDLE};
    uint32_t sites = 0;
    if (before > MOST_BEFORE)
        return ORDUP_REFUSED_LOG_FULL;
    uint32_t status = ordup_book_open(setup, atomic_fetch_add(&clusters, 1), &book);
    if (status == ORDUP_DONE)
        status = open_sites(&book, handles, &sites);
    if (status == ORDUP_DONE)
        status = open_cluster(&book, handles, sites, before, cluster);
    if (status != ORDUP_DONE) {
        for (uint32_t index = 0; index < MOST_SITES; index++)
            ordup_handle_close(&handles[index]);
        ordup_handle_close(&book);
    }
    return status;
}

uint32_t ordup_cluster_sites(const ordup_cluster *it) {
    return it->sites;
}

/* ---- threads ---- */

uint32_t ordup_cluster_applier(ordup_cluster *it, uint32_t at) {
    if (at >= it->sites)
        return ORDUP_REFUSED_UNKNOWN_SITE;
    site *here = &it->at[at];
    int untold = 0;
    for (;;) {
        uint64_t heard = listen(&it->sent), number;
        bool stopping = atomic_load(&it->stopped);
        pthread_mutex_lock(&here->lock);
        uint32_t status = ordup_site_apply(&here->handle, &number);
        pthread_mutex_unlock(&here->lock);
        if (status == ORDUP_DONE) {
            ring(&here->moved);
            untold++;
        }
        if (untold && (status != ORDUP_DONE || untold == APPLIED_UNTOLD)) {
            ring(&it->told);
            hand_on(it);
            untold = 0;
        }
        if (status == ORDUP_DONE)
            continue;
        if (stopping)
            return ORDUP_DONE;
        wait_for(&it->sent, heard, NULL);
    }
}

void ordup_cluster_keeper(ordup_cluster *it) {
    for (;;) {
        uint64_t heard = listen(&it->work);
        bool stopping = atomic_load(&it->stopped);
        ordup_told told = {0};
        if (atomic_load(&it->has_work))
            turn(it, &told);
        if (stopping)
            return;
        /* Where memory was refused nobody rings once there is some, so it tries again, as long as work is left. */
        struct timespec soon;
        wait_for(&it->work, heard, end_of(told.is_starved ? RETRY_MS : ORDUP_FOREVER, &soon));
    }
}

void ordup_cluster_stop(ordup_cluster *it) {
    atomic_store(&it->stopped, true);
    ring(&it->sent);
    ring(&it->told);
    ring(&it->work);
    for (int head = 0; head < HEADS; head++)
        ring(&it->heads[head]);
    for (uint32_t index = 0; index < it->sites; index++)
        ring(&it->at[index].moved);
}

/* Whether the threads that `start` began are all there. */
static bool is_let_in(ordup_cluster *it) {
    pthread_mutex_lock(&it->gate);
    bool is_let = !it->has_no_start;
    pthread_mutex_unlock(&it->gate);
    return is_let;
}

static void *run_applier(void *given) {
    site *here = given;
    if (is_let_in(here->cluster))
        ordup_cluster_applier(here->cluster, here->index);
    return NULL;
}

static void *run_keeper(void *given) {
    if (is_let_in(given))
        ordup_cluster_keeper(given);
    return NULL;
}

/* Waits until so many appliers have ended. */
static void join_appliers(ordup_cluster *it, uint32_t count) {
    for (uint32_t index = 0; index < count; index++)
        pthread_join(it->at[index].applier, NULL);
}

uint32_t ordup_cluster_start(ordup_cluster *it) {
    if (it->is_started)
        return ORDUP_OPEN;
    if (atomic_load(&it->stopped))
        return ORDUP_REFUSED_STOPPED;
    sigset_t all, mine;
    uint32_t made = 0;
    sigfillset(&all);
    pthread_mutex_lock(&it->gate);
    pthread_sigmask(SIG_SETMASK, &all, &mine);
    while (made < it->sites && !pthread_create(&it->at[made].applier, NULL, run_applier, &it->at[made]))
        made++;
    it->is_started = made == it->sites && !pthread_create(&it->keeper, NULL, run_keeper, it);
    it->has_no_start = !it->is_started;
    pthread_sigmask(SIG_SETMASK, &mine, NULL);
    pthread_mutex_unlock(&it->gate);
    if (it->is_started)
        return ORDUP_DONE;
    join_appliers(it, made);
    return ORDUP_REFUSED_NO_MEMORY;
}

uint32_t ordup_cluster_join(ordup_cluster *it) {
    if (!it->is_started)
        return ORDUP_CLOSED;
    int state;
    pthread_setcancelstate(PTHREAD_CANCEL_DISABLE, &state);
    join_appliers(it, it->sites);
    pthread_join(it->keeper, NULL);
    pthread_setcancelstate(state, &state);
    it->is_started = false;
    return ORDUP_DONE;
}

/* ---- updates ---- */

uint32_t ordup_cluster_propose_if(ordup_cluster *it, ordup_session *session, const ordup_change *changes, size_t count,
                                  const ordup_condition *conditions, size_t condition_count, uint64_t timeout_ms, uint64_t *given,
                                  size_t *unmet) {
    if (atomic_load(&it->stopped))
        return ORDUP_REFUSED_STOPPED;
    proposal set = {changes, count, conditions, condition_count};
    ordup_told told;
    uint32_t status = number(it, &set, &told);
    if (status == ORDUP_UNMET)
        *unmet = (size_t)told.unmet;
    if (status != ORDUP_DONE)
        return status;
    *given = it->before + told.number;
    if (told.is_starved)
        ring(&it->work);
    status = until(it, told.number, told.is_starved ? 0 : timeout_ms);
    if (status == ORDUP_DONE)
        see(session, *given);
    return status;
}

uint32_t ordup_cluster_propose(ordup_cluster *it, ordup_session *session, const ordup_change *changes, size_t count,
                               uint64_t timeout_ms, uint64_t *given) {
    static const ordup_condition none[1];
    size_t unmet;
    return ordup_cluster_propose_if(it, session, changes, count, none, 0, timeout_ms, given, &unmet);
}

uint32_t ordup_cluster_settle(ordup_cluster *it, ordup_session *session, uint64_t number, uint64_t timeout_ms) {
    if (number == 0 || number > it->before + atomic_load(&it->logged))
        return ORDUP_REFUSED_OUT_OF_RANGE;
    uint32_t status = number > it->before ? until(it, number - it->before, timeout_ms) : ORDUP_DONE;
    if (status == ORDUP_DONE)
        see(session, number);
    return status;
}

uint32_t ordup_cluster_finish(ordup_cluster *it, uint64_t timeout_ms) {
    return until(it, 0, timeout_ms);
}

/* ---- reads ---- */

/* How many updates of this cluster a session has seen. */
static uint64_t seen_here(const ordup_cluster *it, const ordup_session *session) {
    return session->seen > it->before ? session->seen - it->before : 0;
}

uint32_t ordup_cluster_read(ordup_cluster *it, ordup_session *session, uint32_t at, uint32_t object, ordup_seen *out) {
    if (at >= it->sites)
        return ORDUP_REFUSED_UNKNOWN_SITE;
    site *here = &it->at[at];
    uint64_t least = seen_here(it, session);
    ordup_seen seen;
    pthread_mutex_lock(&here->lock);
    uint32_t status = ordup_site_read(&here->handle, object, least, &seen);
    pthread_mutex_unlock(&here->lock);
    if (status == ORDUP_DONE) {
        *out = (ordup_seen){seen.value, it->before + seen.applied};
        see(session, out->applied);
    } else if (status == ORDUP_REFUSED_BEHIND) {
        out->applied = it->before + seen.applied;
    }
    return status;
}

uint32_t ordup_cluster_read_many(ordup_cluster *it, ordup_session *session, uint32_t at, const uint32_t *objects, size_t count,
                                 int64_t *values, uint64_t *applied) {
    if (at >= it->sites)
        return ORDUP_REFUSED_UNKNOWN_SITE;
    site *here = &it->at[at];
    uint64_t least = seen_here(it, session), there;
    pthread_mutex_lock(&here->lock);
    uint32_t status = ordup_site_read_many(&here->handle, objects, count, least, values, count, &there);
    pthread_mutex_unlock(&here->lock);
    if (status == ORDUP_DONE || status == ORDUP_REFUSED_BEHIND)
        *applied = it->before + there;
    if (status == ORDUP_DONE)
        see(session, *applied);
    return status;
}

/* A read that may be made again and again. */
typedef struct reading {
    uint32_t site;
    const uint32_t *objects;
    size_t count;
    int64_t *values;
    uint64_t *applied;
    uint32_t object;
    ordup_seen *out; /* of `object` alone; or none */
} reading;

static uint32_t read_once(ordup_cluster *it, ordup_session *session, const reading *read) {
    if (read->out)
        return ordup_cluster_read(it, session, read->site, read->object, read->out);
    return ordup_cluster_read_many(it, session, read->site, read->objects, read->count, read->values, read->applied);
}

static uint32_t read_level(ordup_cluster *it, ordup_session *session, const reading *read, uint64_t timeout_ms) {
    uint32_t status = read_once(it, session, read);
    if (status != ORDUP_REFUSED_BEHIND || timeout_ms == 0)
        return status;
    struct timespec at;
    const struct timespec *end = end_of(timeout_ms, &at);
    bell *moved = &it->at[read->site].moved;
    for (;;) {
        uint64_t heard = listen(moved);
        bool is_over = is_past(end) || atomic_load(&it->stopped);
        status = read_once(it, session, read);
        if (status != ORDUP_REFUSED_BEHIND || is_over)
            return status;
        wait_for(moved, heard, end);
    }
}

uint32_t ordup_cluster_read_when_level(ordup_cluster *it, ordup_session *session, uint32_t at, uint32_t object, uint64_t timeout_ms,
                                       ordup_seen *out) {
    reading read = {.site = at, .object = object, .out = out};
    return read_level(it, session, &read, timeout_ms);
}

uint32_t ordup_cluster_read_many_when_level(ordup_cluster *it, ordup_session *session, uint32_t at, const uint32_t *objects, size_t count,
                                            uint64_t timeout_ms, int64_t *values, uint64_t *applied) {
    reading read = {.site = at, .objects = objects, .count = count, .values = values, .applied = applied};
    return read_level(it, session, &read, timeout_ms);
}

uint32_t ordup_cluster_begin(ordup_cluster *it, uint32_t at, uint64_t import_limit, ordup_query *query) {
    if (at >= it->sites)
        return ORDUP_REFUSED_UNKNOWN_SITE;
    pthread_mutex_lock(&it->lock);
    uint32_t status = ordup_query_open(&it->book, import_limit, &query->handle);
    pthread_mutex_unlock(&it->lock);
    if (status == ORDUP_DONE) {
        query->cluster = it;
        query->before = it->before;
        query->site = at;
    }
    return status;
}

uint32_t ordup_cluster_query_read(ordup_query *query, uint32_t object, ordup_charged *out) {
    if (!query->cluster)
        return ORDUP_CLOSED;
    site *here = &query->cluster->at[query->site];
    ordup_charged answer;
    pthread_mutex_lock(&here->lock);
    uint32_t status = ordup_query_read(&query->handle, &here->handle, object, &answer);
    pthread_mutex_unlock(&here->lock);
    if (status == ORDUP_DONE) {
        answer.place += query->before;
        *out = answer;
    }
    return status;
}

uint32_t ordup_cluster_query_end(ordup_query *query, ordup_ended *out) {
    if (!query->cluster)
        return ORDUP_CLOSED;
    ordup_ended answer;
    uint32_t status = ordup_query_end(&query->handle, &answer);
    if (status == ORDUP_DONE) {
        answer.place += query->before;
        *out = answer;
        *query = (ordup_query)ORDUP_QUERY;
    }
    return status;
}

/* ---- limits, numbers, records ---- */

uint32_t ordup_cluster_relimit(ordup_cluster *it, uint32_t at, uint32_t kind, uint32_t id, uint64_t amount, uint64_t *place) {
    uint64_t from;
    pthread_mutex_lock(&it->lock);
    uint32_t status = ordup_book_relimit(&it->book, at, kind, id, amount, &from);
    pthread_mutex_unlock(&it->lock);
    if (status == ORDUP_DONE)
        *place = it->before + from;
    return status;
}

void ordup_cluster_count(const ordup_cluster *it, ordup_numbers *out) {
    uint64_t acked = atomic_load(&it->acked);
    *out = (ordup_numbers){it->before, it->before + atomic_load(&it->logged), it->before + acked};
}

uint32_t ordup_cluster_site_count(ordup_cluster *it, uint32_t at, ordup_site_numbers *out) {
    if (at >= it->sites)
        return ORDUP_REFUSED_UNKNOWN_SITE;
    site *here = &it->at[at];
    ordup_seen seen;
    ordup_progress progress;
    pthread_mutex_lock(&here->lock);
    uint32_t status = ordup_site_read(&here->handle, 0, 0, &seen);
    pthread_mutex_unlock(&here->lock);
    if (status != ORDUP_DONE)
        return status;
    pthread_mutex_lock(&it->lock);
    status = ordup_book_progress(&it->book, at, &progress);
    pthread_mutex_unlock(&it->lock);
    if (status != ORDUP_DONE)
        return status;
    /* What was reported meanwhile was applied meanwhile. */
    uint64_t applied = seen.applied < progress.reported ? progress.reported : seen.applied;
    *out = (ordup_site_numbers){it->before + progress.sent, it->before + applied, it->before + progress.reported, progress.rounds};
    return ORDUP_DONE;
}

uint32_t ordup_cluster_lags(ordup_cluster *it, uint32_t at, ordup_lag *lags, size_t room, size_t *count) {
    if (at >= it->sites)
        return ORDUP_REFUSED_UNKNOWN_SITE;
    ordup_lag lag;
    uint32_t limits = 0, limit = 0;
    pthread_mutex_lock(&it->lock);
    while (ordup_book_lag(&it->book, at, limits, &lag) == ORDUP_DONE)
        limits++;
    for (; limits <= room && limit < limits; limit++)
        ordup_book_lag(&it->book, at, limit, &lags[limit]);
    pthread_mutex_unlock(&it->lock);
    *count = limits;
    return limits <= room ? ORDUP_DONE : ORDUP_MORE;
}

uint32_t ordup_cluster_record(ordup_cluster *it, uint32_t at, char *rows, size_t room, size_t *written) {
    size_t bytes;
    pthread_mutex_lock(&it->lock);
    uint32_t status = ordup_book_record(&it->book, at, rows, room, &bytes);
    pthread_mutex_unlock(&it->lock);
    if (status == ORDUP_DONE || status == ORDUP_MORE)
        *written = bytes;
    return status;
}

/* ---- closing ---- */

/* Stops a cluster and joins its threads, where that was not done. */
static void end_threads(ordup_cluster *it) {
    if (!atomic_load(&it->stopped))
        ordup_cluster_stop(it);
    ordup_cluster_join(it);
}

uint32_t ordup_cluster_close(ordup_cluster *it) {
    ordup_told told;
    end_threads(it);
    /* What the sites applied to the end is reported. */
    uint32_t status = turn(it, &told);
    if (status == ORDUP_DONE && told.is_starved)
        status = ORDUP_REFUSED_NO_MEMORY;
    for (uint32_t index = 0; index < it->sites && status == ORDUP_DONE; index++)
        status = ordup_book_compare(&it->book, &it->at[index].handle);
    it->is_closed = status == ORDUP_DONE;
    return status;
}

uint32_t ordup_cluster_successor(ordup_cluster *it, ordup_cluster **successor) {
    if (!it->is_closed)
        return ORDUP_OPEN;
    ordup_setup setup = ORDUP_SETUP;
    uint32_t status = ordup_book_successor(&it->book, &setup);
    if (status == ORDUP_DONE)
        status = ordup_cluster_open(&setup, it->before + it->last.logged, successor);
    ordup_handle_close(&setup);
    return status;
}

void ordup_cluster_free(ordup_cluster *it) {
    if (!it)
        return;
    if (it->is_started)
        end_threads(it);
    for (uint32_t index = 0; index < it->sites; index++) {
        site *here = &it->at[index];
        ordup_handle_close(&here->handle);
        close_bell(&here->moved);
        if (here->has_lock)
            pthread_mutex_destroy(&here->lock);
    }
    ordup_handle_close(&it->book);
    for (int head = 0; head < HEADS; head++)
        close_bell(&it->heads[head]);
    close_bell(&it->work);
    close_bell(&it->told);
    close_bell(&it->sent);
    if (it->has_gate)
        pthread_mutex_destroy(&it->gate);
    if (it->has_lock)
        pthread_mutex_destroy(&it->lock);
    free(it);
}
