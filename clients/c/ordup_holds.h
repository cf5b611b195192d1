/* ordup: a replicated store with a proved bound on its lag, whose book, sites and queries are handles. It is for programs with locks and a
 * scheduler of their own, and for bindings of languages with these. ordup_cluster.c puts locks and waits around it, for programs in C.
 *
 * A call does what is done in one hold of a lock: of the book, of a site, or of what is declared. It takes no lock, waits for nobody and
 * starts no thread. The feed between the book and a site lies inside the library, so the two have locks of their own: calls on them need no
 * order. What each call does is proved, whatever the order of calls and from whichever thread they come, as long as the caller keeps to
 * this:
 *
 * - One call at a time runs on a handle. A lock orders two of them, or a thread's start or join, or a sequentially consistent atomic.
 * - The bytes of a handle are zero, or as the last call left them, and only one copy of it is used.
 * - No pointer is null, not even for no elements. Each points to as many as its size says, and none of them overlap.
 * - The rest is as in ordup.h: signal handlers, the stack, the allocator and the processor.
 *
 * A call on a handle that is closed answers ORDUP_CLOSED, on one of another kind ORDUP_OTHER, and one that would open an open handle
 * ORDUP_OPEN. A refusal is ORDUP_REFUSED and its number of docs/FORMATS.md, as 126 for NoMemory. After each status but ORDUP_DONE all is as
 * it was, unless something else is said here. */
#ifndef ORDUP_HOLDS_H
#define ORDUP_HOLDS_H

#include "ordup.h" /* ORDUP_DONE, ORDUP_MORE, ORDUP_CLOSED, ORDUP_OPEN */

#ifdef __cplusplus
extern "C" {
#endif

/* A handle that is open, or none. Its members belong to the library. All zero it is none. */
typedef struct ordup_handle {
    void *at;
    uint64_t mark;
} ordup_handle;
#define ORDUP_HANDLE {0, 0}

/* What a call returns, beside what ordup.h has. */
enum {
    ORDUP_OTHER = 10,    /* the handle is of another kind */
    ORDUP_FOREIGN = 11,  /* the handles are of two clusters */
    ORDUP_UNMET = 12,    /* a condition is not met */
    ORDUP_REFUSED = 100  /* and the number of the refusal */
};

/* One change of a message set: `operand` is its number, or of ORDUP_TAKE the object whose value is taken. */
typedef struct ordup_change {
    uint32_t object, op;
    int64_t operand;
} ordup_change;
enum { ORDUP_ADD, ORDUP_SET, ORDUP_MUL, ORDUP_MAX, ORDUP_MIN, ORDUP_TAKE };

/* What a limit weighs: an object or a group by its id, or all, or the count of updates, which have none. */
enum { ORDUP_SCOPE_OBJECT, ORDUP_SCOPE_GROUP, ORDUP_SCOPE_ALL, ORDUP_SCOPE_COUNT };

/* What the value of an object must be after an update for this to be numbered. */
typedef struct ordup_condition {
    uint32_t object, bound;
    int64_t number;
} ordup_condition;
enum { ORDUP_AT_LEAST, ORDUP_AT_MOST };

/* After a hold of the book: the number of the update, or 0 where none was numbered; how many updates are acknowledged, how many there are,
 * and how many were sent, over all sites; whether the turn was refused memory; and whether something is left for a turn: an update that is
 * not acknowledged, or not sent to each site. */
typedef struct ordup_told {
    uint64_t number, acked, logged, sent, unmet;
    uint32_t is_starved, has_work;
} ordup_told;

/* A value that was read at a site, and how many updates the site had applied. */
typedef struct ordup_seen {
    int64_t value;
    uint64_t applied;
} ordup_seen;

/* A read of a query: the value, what it imports, what all reads import; and its reference and how many reads there were. */
typedef struct ordup_charged {
    int64_t value;
    uint64_t import, total, place, reads;
} ordup_charged;

/* A query that ended: its reference, the sum of its values, the sum of its imports, and how many reads it made. */
typedef struct ordup_ended {
    uint64_t place;
    int64_t sum;
    uint64_t total, reads;
} ordup_ended;

/* What the book knows of a site: how many updates it was sent and has reported, and its forced rounds. */
typedef struct ordup_progress {
    uint64_t sent, reported, rounds;
} ordup_progress;

/* A limit of a site as it is now, and what the acknowledged updates weigh on its scope that the site has not reported. */
typedef struct ordup_lag {
    uint32_t kind, id;
    uint64_t amount, weight;
} ordup_lag;

/* Opens declarations, of which there are none yet. NoMemory. */
uint32_t ordup_setup_open(ordup_handle *setup);

/* Declares an object, a group of objects, or a site with the capacity of its feed, and tells its id: these count from 0. Refusals: BadName,
 * NameTaken, OutOfRange, TooMany, NoMemory; of a group UnknownObject, Empty and Repeated too. */
uint32_t ordup_setup_object(ordup_handle *setup, const char *name, size_t size, int64_t initial, uint32_t *id);
uint32_t ordup_setup_group(ordup_handle *setup, const char *name, size_t size, const uint32_t *objects, size_t count, uint32_t *id);
uint32_t ordup_setup_site(ordup_handle *setup, const char *name, size_t size, uint64_t capacity, uint32_t *id);

/* Declares a limit of a site on a scope. Refusals: Syntax for no scope, UnknownObject, UnknownGroup, UnknownSite, OutOfRange, TooMany,
 * Repeated, NoMemory. */
uint32_t ordup_setup_limit(ordup_handle *setup, uint32_t site, uint32_t kind, uint32_t id, uint64_t amount);

/* Opens the book of a cluster of what is declared, which stays. `cluster` is a number by which the caller tells its clusters apart: the
 * library compares it. Refusals: Empty, NoMemory. */
uint32_t ordup_book_open(ordup_handle *setup, uint64_t cluster, ordup_handle *book);

/* Opens the last site of a book that no handle has had yet, and tells its id. Refusals: UnknownSite where each has one, NoMemory, and then
 * the site stays in the book. */
uint32_t ordup_site_open(ordup_handle *book, ordup_handle *site, uint32_t *index);

/* Numbers a message set as the next update, where the state after it meets the conditions, and makes a turn. ORDUP_UNMET: `told->unmet` is
 * the index of the first condition that is not met, and nothing else is written. Refusals: Syntax for no operation and no bound,
 * UnknownObject, OutOfRange, TooMany, Empty, Repeated, LogFull, NoMemory. */
uint32_t ordup_book_propose(ordup_handle *book, const ordup_change *changes, size_t count, const ordup_condition *conditions,
                            size_t condition_count, ordup_told *told);

/* Makes a turn: it hears each site, acknowledges what it may, and sends while feeds have room. Where memory is refused amid it, what was
 * made before stands, and `is_starved` says so. */
uint32_t ordup_book_turn(ordup_handle *book, ordup_told *told);

/* Changes a limit of a site, or begins one, and tells the place from which it holds. Refusals: Syntax for no scope, UnknownObject,
 * UnknownGroup, UnknownSite, OutOfRange, TooMany, HeadPending, LagOver, NoMemory. */
uint32_t ordup_book_relimit(ordup_handle *book, uint32_t site, uint32_t kind, uint32_t id, uint64_t amount, uint64_t *place);

/* Tells what the book knows of a site, and a limit by its index in the order in which the scopes were first limited. Refusals: UnknownSite,
 * and OutOfRange for an index behind the last limit. */
uint32_t ordup_book_progress(ordup_handle *book, uint32_t site, ordup_progress *progress);
uint32_t ordup_book_lag(ordup_handle *book, uint32_t site, uint32_t limit, ordup_lag *lag);

/* Applies the next update that was sent to a site, and tells its number. The refusal NothingToApply: there is none. */
uint32_t ordup_site_apply(ordup_handle *site, uint64_t *number);

/* Reads an object at a site that has applied at least `seen` updates. Refusals: UnknownObject; Behind, and then the value and `applied` are
 * told all the same. */
uint32_t ordup_site_read(ordup_handle *site, uint32_t object, uint64_t seen, ordup_seen *out);

/* The same of several objects, of one state. ORDUP_MORE: there are more than `value_count`, and nothing is written. */
uint32_t ordup_site_read_many(ordup_handle *site, const uint32_t *objects, size_t count, uint64_t seen, int64_t *values,
                              size_t value_count, uint64_t *applied);

/* Opens a query that imports at most so much, whose reference is what is acknowledged now. Refusals: OutOfRange, NoMemory. */
uint32_t ordup_query_open(ordup_handle *book, uint64_t limit, ordup_handle *query);

/* Reads an object for a query at a site of its cluster. ORDUP_FOREIGN: it is of another one. Refusals: UnknownObject, TooMany,
 * OverImport. */
uint32_t ordup_query_read(ordup_handle *query, ordup_handle *site, uint32_t object, ordup_charged *out);

/* Ends a query, and closes its handle. */
uint32_t ordup_query_end(ordup_handle *query, ordup_ended *out);

/* Compares a site with the log of its book. ORDUP_FOREIGN: it is of another cluster. Refusals: Mixed where it does not hold the serial
 * result of the updates that it applied, or these are fewer than it reported or more than it was sent; UnknownSite; NoMemory. */
uint32_t ordup_book_compare(ordup_handle *book, ordup_handle *site);

/* Writes the record of a site, which `ordup check` takes, and tells its length. ORDUP_MORE: it is longer than `size`, and no byte of it is
 * written. Refusals: UnknownSite, NoMemory, and then the length is 0. */
uint32_t ordup_book_record(ordup_handle *book, uint32_t site, char *rows, size_t size, size_t *written);

/* Opens the declarations of the successor of a book, with its last values as the first ones. Refusals: NotYet where an update is not
 * acknowledged, NoMemory. */
uint32_t ordup_book_successor(ordup_handle *book, ordup_handle *setup);

/* Closes a handle, if it is open, and gives its memory back. */
void ordup_handle_close(ordup_handle *handle);

#ifdef __cplusplus
}
#endif
#endif
