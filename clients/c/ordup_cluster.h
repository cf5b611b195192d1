/* ordup: a replicated store with a proved bound on its lag, which the threads of a program share.
 *
 *     ordup_setup setup = ORDUP_SETUP;
 *     ordup_cluster *cluster;
 *     uint32_t tea, shop;
 *     ordup_setup_open(&setup);
 *     ordup_setup_object(&setup, "tea", 3, 40, &tea);
 *     ordup_setup_site(&setup, "shop", 4, 64, &shop);
 *     ordup_setup_limit(&setup, shop, ORDUP_SCOPE_ALL, 0, 10);
 *     ordup_cluster_open(&setup, 0, &cluster);
 *     ordup_handle_close(&setup);
 *     ordup_cluster_start(cluster);
 *
 *     ordup_session session = ORDUP_SESSION;                    // one for each thread
 *     ordup_change sale = {tea, ORDUP_ADD, -3};
 *     ordup_seen seen;
 *     uint64_t number;
 *     ordup_cluster_propose(cluster, &session, &sale, 1, 1000, &number);                  // a second at most
 *     ordup_cluster_read_when_level(cluster, &session, shop, tea, 1000, &seen);           // it sees the sale
 *
 *     ordup_cluster_finish(cluster, ORDUP_FOREVER);
 *     ordup_cluster_stop(cluster);
 *     ordup_cluster_join(cluster);
 *     ordup_cluster_close(cluster);
 *     ordup_cluster_free(cluster);
 *
 * Updates are numbered in one order, from 1, or from where the cluster that this one follows ended: all numbers here go on. An update is
 * acknowledged once each site that its limits name has applied it. What holds of the book, of a site and of a query is proved, and told in
 * ordup_holds.h. The locks and the waits around it are C, which nothing proves: they are tested, and models of the waits are checked.
 *
 * A call returns ORDUP_DONE or says why not. What it gives is then as it was, unless something else is said here.
 *
 * - Any thread may make any call at any time, but `open`, `start`, `join`, `close`, `successor` and `free`: those of one cluster are made
 *   by one thread, and nobody calls a cluster that is being freed. One thread at a time uses a session or a query.
 * - No pointer is null, unless for an array of no elements, and none overlap.
 * - No call is made from a signal handler, or in the forked child of a process: the clusters of the parent are lost there, and have no
 *   threads. A signal that comes while a call waits does not end the wait.
 * - No call is a point of cancellation: a thread that is cancelled ends after the call. So deferred cancellation does no harm, which is how
 *   threads begin. A thread with asynchronous cancellation makes no call.
 * - A call has 128 KB of stack.
 *
 * Who waits sleeps, and what it waits for wakes it. A cluster at rest takes no time of a processor. Times are in milliseconds, of a clock
 * that nobody sets: 0 waits for nothing, ORDUP_FOREVER for any time. After `stop` nothing waits. */
#ifndef ORDUP_CLUSTER_H
#define ORDUP_CLUSTER_H

#include <stddef.h>
#include <stdint.h>

#ifdef __cplusplus
extern "C" {
#endif

#include "ordup_holds.h"

#define ORDUP_FOREVER UINT64_MAX

/* The refusals that a cluster gives, and their numbers as in docs/FORMATS.md. The declarations have others. */
enum {
    ORDUP_REFUSED_UNKNOWN_OBJECT = ORDUP_REFUSED + 6,
    ORDUP_REFUSED_UNKNOWN_GROUP = ORDUP_REFUSED + 7,
    ORDUP_REFUSED_UNKNOWN_SITE = ORDUP_REFUSED + 8,
    ORDUP_REFUSED_OUT_OF_RANGE = ORDUP_REFUSED + 9,
    ORDUP_REFUSED_TOO_MANY = ORDUP_REFUSED + 10,
    ORDUP_REFUSED_EMPTY = ORDUP_REFUSED + 11,
    ORDUP_REFUSED_REPEATED = ORDUP_REFUSED + 12,
    ORDUP_REFUSED_LOG_FULL = ORDUP_REFUSED + 13,
    ORDUP_REFUSED_NOTHING_TO_APPLY = ORDUP_REFUSED + 16,
    ORDUP_REFUSED_OVER_IMPORT = ORDUP_REFUSED + 20,
    ORDUP_REFUSED_BEHIND = ORDUP_REFUSED + 21,
    ORDUP_REFUSED_NOT_YET = ORDUP_REFUSED + 22,
    ORDUP_REFUSED_STOPPED = ORDUP_REFUSED + 23,
    ORDUP_REFUSED_HEAD_PENDING = ORDUP_REFUSED + 24,
    ORDUP_REFUSED_LAG_OVER = ORDUP_REFUSED + 25,
    ORDUP_REFUSED_NO_MEMORY = ORDUP_REFUSED + 26,
    ORDUP_REFUSED_MIXED = ORDUP_REFUSED + 27
};

/* What is declared, by the ordup_setup_ functions of ordup_holds.h, before a cluster is opened. `ordup_handle_close` closes it. */
typedef ordup_handle ordup_setup;
#define ORDUP_SETUP {0, 0}

typedef struct ordup_cluster ordup_cluster;

/* How many updates its calls have seen, in all clusters that follow one another. All zero it has seen none. */
typedef struct ordup_session {
    uint64_t seen;
} ordup_session;
#define ORDUP_SESSION {0}

/* A query at a site of a cluster, or none. Its members belong to these functions. All zero it is none. */
typedef struct ordup_query {
    ordup_handle handle;
    ordup_cluster *cluster;
    uint64_t before;
    uint32_t site;
} ordup_query;
#define ORDUP_QUERY {{0, 0}, 0, 0, 0}

/* Of a cluster: how many updates came before it, how many there are with these, and how many of those are acknowledged. */
typedef struct ordup_numbers {
    uint64_t before, length, acknowledged;
} ordup_numbers;

/* Of a site: how many updates it was sent, has applied, and has reported, those before the cluster among them; and its rounds in this
 * cluster, which are how many of its updates waited for the site. */
typedef struct ordup_site_numbers {
    uint64_t sent, applied, reported, rounds;
} ordup_site_numbers;

/* ---- opening and closing ---- */

/* Opens a cluster of what was declared, which stays as it is, after `before` updates of the clusters that it follows.
 *
 * CLOSED or OTHER: `setup` is no setup. REFUSED_LOG_FULL: `before` is over 10^18. REFUSED_EMPTY: there is no object or no site.
 * REFUSED_NO_MEMORY: memory was refused, or a lock. */
uint32_t ordup_cluster_open(ordup_setup *setup, uint64_t before, ordup_cluster **cluster);

/* How many sites there are. */
uint32_t ordup_cluster_sites(const ordup_cluster *cluster);

/* Starts an applier for each site and a keeper, in threads of their own, which take no signals.
 *
 * OPEN: they were started, and not joined. REFUSED_STOPPED: the cluster was stopped. REFUSED_NO_MEMORY: a thread was refused, and there is
 * none. */
uint32_t ordup_cluster_start(ordup_cluster *cluster);

/* Ends the appliers, each once its site has applied what was sent, and the keeper. Proposals are refused from now on, and who waits is
 * woken and answered. */
void ordup_cluster_stop(ordup_cluster *cluster);

/* Waits until the threads that `start` began have ended, which is after `stop`. CLOSED: there are none. */
uint32_t ordup_cluster_join(ordup_cluster *cluster);

/* In place of `start`, for a program with threads of its own: each runs in one of these until `stop`. A cluster has one applier for each
 * site and one keeper, which finishes what no caller waits for. Without its applier a site applies nothing. Without a keeper a caller may
 * wait for the whole of its time. REFUSED_UNKNOWN_SITE: there is no such site. */
uint32_t ordup_cluster_applier(ordup_cluster *cluster, uint32_t site);
void ordup_cluster_keeper(ordup_cluster *cluster);

/* Compares each site with the log, once all other threads have left the cluster. It stops the cluster and joins its threads where that was
 * not done. What is left answers reads, queries, records and numbers.
 *
 * REFUSED_MIXED: a site does not hold the serial result of the updates that it applied: a bug of ordup, or a program that kept no rule of
 * this file. REFUSED_NO_MEMORY: it was not compared; ask again. */
uint32_t ordup_cluster_close(ordup_cluster *cluster);

/* Opens the cluster that goes on from one that is closed: with the same declarations, each object at its last value, and numbers that go
 * on. Both are freed, each by itself.
 *
 * OPEN: it is not closed. REFUSED_NOT_YET: an update is not acknowledged. REFUSED_LOG_FULL: as for `open`. REFUSED_NO_MEMORY. */
uint32_t ordup_cluster_successor(ordup_cluster *cluster, ordup_cluster **successor);

/* Gives the memory of a cluster back, once all other threads have left it. It stops the cluster and joins its threads where that was not
 * done. A null pointer is none. */
void ordup_cluster_free(ordup_cluster *cluster);

/* ---- updates ---- */

/* Numbers a message set as the next update, and waits until it is acknowledged. The session has then seen it.
 *
 * REFUSED_NOT_YET: it is numbered and `*number` is written, but it is not acknowledged: the time is over, the cluster was stopped, or
 * memory was refused after it was numbered. It stands, and `settle` waits for it. With each other answer nothing was numbered:
 * REFUSED_STOPPED, REFUSED_UNKNOWN_OBJECT, REFUSED_OUT_OF_RANGE, REFUSED_TOO_MANY, REFUSED_EMPTY, REFUSED_REPEATED, REFUSED_LOG_FULL,
 * REFUSED_NO_MEMORY, or ORDUP_REFUSED + 1 for an operation that there is not. */
uint32_t ordup_cluster_propose(ordup_cluster *cluster, ordup_session *session, const ordup_change *changes, size_t count,
                               uint64_t timeout_ms, uint64_t *number);

/* The same, if each condition is met: an object is at least, or at most, a number after the update and all before it.
 *
 * UNMET: one is not met, `*unmet` is the index of the first of these, and nothing was numbered. The other answers are those of `propose`,
 * where an object may be one of a condition. */
uint32_t ordup_cluster_propose_if(ordup_cluster *cluster, ordup_session *session, const ordup_change *changes, size_t count,
                                  const ordup_condition *conditions, size_t condition_count, uint64_t timeout_ms, uint64_t *number,
                                  size_t *unmet);

/* Waits until an update is acknowledged. The session has then seen it.
 *
 * REFUSED_OUT_OF_RANGE: no update has this number. REFUSED_NOT_YET: as for `propose`. */
uint32_t ordup_cluster_settle(ordup_cluster *cluster, ordup_session *session, uint64_t number, uint64_t timeout_ms);

/* Waits until all updates are acknowledged and sent to each site, which then applies them, also after `stop`. REFUSED_NOT_YET: as for
 * `propose`. */
uint32_t ordup_cluster_finish(ordup_cluster *cluster, uint64_t timeout_ms);

/* ---- reads ---- */

/* Reads an object at a site, which has applied all that the session has seen. The session has then seen what the site has applied. It takes
 * the lock of the site alone, and waits for nobody else.
 *
 * REFUSED_BEHIND: the site has not applied what the session has seen, and `out->applied` tells what it has. REFUSED_UNKNOWN_SITE,
 * REFUSED_UNKNOWN_OBJECT. */
uint32_t ordup_cluster_read(ordup_cluster *cluster, ordup_session *session, uint32_t site, uint32_t object, ordup_seen *out);

/* The same of several objects, whose values are all of one state. They are `count` objects and as many values. REFUSED_BEHIND: `*applied`
 * tells what the site has applied. */
uint32_t ordup_cluster_read_many(ordup_cluster *cluster, ordup_session *session, uint32_t site, const uint32_t *objects, size_t count,
                                 int64_t *values, uint64_t *applied);

/* The same two, which wait until the site has applied what the session has seen. REFUSED_BEHIND: not in this time. */
uint32_t ordup_cluster_read_when_level(ordup_cluster *cluster, ordup_session *session, uint32_t site, uint32_t object, uint64_t timeout_ms,
                                       ordup_seen *out);
uint32_t ordup_cluster_read_many_when_level(ordup_cluster *cluster, ordup_session *session, uint32_t site, const uint32_t *objects,
                                            size_t count, uint64_t timeout_ms, int64_t *values, uint64_t *applied);

/* Begins a query at a site, which imports at most so much: what its reads miss of the updates that are acknowledged now. `query` is none.
 *
 * OPEN: `query` is one that has not ended. REFUSED_UNKNOWN_SITE, REFUSED_OUT_OF_RANGE for the limit, REFUSED_NO_MEMORY. */
uint32_t ordup_cluster_begin(ordup_cluster *cluster, uint32_t site, uint64_t import_limit, ordup_query *query);

/* Reads an object for a query: its value, what that imports, what all reads of the query import, how many updates were acknowledged as it
 * began, and how many reads it made.
 *
 * CLOSED: `query` is none. REFUSED_UNKNOWN_OBJECT, REFUSED_TOO_MANY after 256 reads, REFUSED_OVER_IMPORT. */
uint32_t ordup_cluster_query_read(ordup_query *query, uint32_t object, ordup_charged *out);

/* Ends a query: how many updates were acknowledged as it began, the sums of its values and of its imports, and how many reads there were.
 * The query is none then. CLOSED: it was none. Each query is ended, be it after its cluster was freed. */
uint32_t ordup_cluster_query_end(ordup_query *query, ordup_ended *out);

/* ---- limits, numbers, records ---- */

/* Changes the limit of a site on a scope, or begins one. `*place` is the number of the first update that it is for.
 *
 * The scope is ORDUP_SCOPE_OBJECT or ORDUP_SCOPE_GROUP with its id, ORDUP_SCOPE_ALL or ORDUP_SCOPE_COUNT. Refusals: REFUSED_UNKNOWN_OBJECT,
 * REFUSED_UNKNOWN_GROUP, REFUSED_UNKNOWN_SITE, REFUSED_OUT_OF_RANGE, REFUSED_TOO_MANY, REFUSED_HEAD_PENDING while an update waits for
 * sites, REFUSED_LAG_OVER where the site lags by more now, REFUSED_NO_MEMORY. */
uint32_t ordup_cluster_relimit(ordup_cluster *cluster, uint32_t site, uint32_t kind, uint32_t id, uint64_t amount, uint64_t *place);

/* The numbers of a cluster. It takes no lock. */
void ordup_cluster_count(const ordup_cluster *cluster, ordup_numbers *out);

/* The numbers of a site: reported <= applied <= sent. It takes the lock of the site, and then that of the book. REFUSED_UNKNOWN_SITE. */
uint32_t ordup_cluster_site_count(ordup_cluster *cluster, uint32_t site, ordup_site_numbers *out);

/* Each limit of a site, and what the site lags by beside it, all of one moment. `*count` is how many there are. MORE: these are more than
 * `room`, and none was written. REFUSED_UNKNOWN_SITE: `*count` is as it was. */
uint32_t ordup_cluster_lags(ordup_cluster *cluster, uint32_t site, ordup_lag *lags, size_t room, size_t *count);

/* The record of a site in this cluster, for an auditor: the bytes that `ordup check` takes. `*written` is how many there are. MORE: these
 * are more than `room`, and none was written. Proposals wait meanwhile. REFUSED_UNKNOWN_SITE, REFUSED_NO_MEMORY: `*written` is as it
 * was. */
uint32_t ordup_cluster_record(ordup_cluster *cluster, uint32_t site, char *rows, size_t room, size_t *written);

#ifdef __cplusplus
}
#endif
#endif
