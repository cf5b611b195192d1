/* ordup: a replicated store with a proved bound on its lag, in the process of its caller.
 *
 * A store takes the lines of docs/FORMATS.md and gives their answers: the same bytes as `ordup run` reads and writes.
 *
 *     ordup_store store = ORDUP_STORE;
 *     char answers[8192];
 *     size_t taken, written;
 *     if (ordup_open(&store) != ORDUP_DONE) return 1;
 *     ordup_run(&store, "object tea 40", 13, &taken, answers, sizeof answers, &written);
 *     fwrite(answers, 1, written, stdout);                        // ok object tea
 *     ordup_close(&store);
 *
 * Link with libordup.a, or with libordup.so. Both need nothing but the C library, Linux, and a 64-bit x86 processor of the level
 * x86-64-v2. The archive is position independent and shows only the names of ordup's headers; in a shared library
 * -Wl,--exclude-libs,ALL hides these.
 *
 * The library does what this file says as long as its caller keeps to this:
 *
 * - A store is all zero, or as the last call left it, and only one copy of it is used.
 * - No pointer is null, not even for no bytes. Each points to as many bytes as its size says, and none of them overlap.
 * - One call at a time runs on a store. Threads may take turns under a lock. Calls on different stores need no order.
 * - No call is made from a signal handler, or in the forked child of a process with threads.
 * - A call has 128 KB of stack. With less the system ends the process.
 * - malloc, realloc and free are of one allocator, whose blocks are aligned to 16 bytes.
 *
 * These functions start no thread, lock nothing, and have no state outside the stores. The caller has the buffers, and the 16 bytes of a
 * store. The store takes the rest by malloc: for each update, for each open query, and for answers that were not given yet. A log has
 * at most 1,000,000 updates; the successor begins with what ordup_next gives. How many bytes a store takes in all is not limited.
 */
#ifndef ORDUP_H
#define ORDUP_H

#include <stddef.h>
#include <stdint.h>

#ifdef __cplusplus
extern "C" {
#endif

/* The version of these functions, which ordup_version returns, and with which the name of the shared library ends. A version may add
 * functions and statuses, and changes none. */
#define ORDUP_VERSION 1

/* A store that is open, or none. Its members belong to the library: do not read or write them. Between two calls its bytes may be
 * moved, as long as only one copy is used from then on. */
typedef struct ordup_store {
    void *held;
    uint64_t mark;
} ordup_store;

/* No store. All bytes are zero. */
#define ORDUP_STORE {0, 0}

/* What a call returns. */
enum {
    ORDUP_DONE = 0,         /* all was done, and all bytes were given */
    ORDUP_MORE = 1,         /* there are more bytes than there was room for */
    ORDUP_CLOSED = 2,       /* there is no store */
    ORDUP_OPEN = 3,         /* of ordup_open: there is a store already, and it is as it was */
    ORDUP_NO_MEMORY = 4,    /* memory was refused; nothing is lost */
    ORDUP_NOT_STARTED = 5,  /* no `start` was accepted */
    ORDUP_UNKNOWN_SITE = 6, /* of ordup_record: no such site is declared */
    ORDUP_MALFORMED = 7,    /* of the checks: a row breaks a rule of the format */
    ORDUP_TOO_LONG = 8,     /* of ordup_check: the record has more bytes than a record may have */
    ORDUP_NOT_YET = 9       /* of ordup_next: an update is not acknowledged yet */
};

/* The version of the library that is linked: ORDUP_VERSION of the header that it was built with. */
uint32_t ordup_version(void);

/* Opens a store where there is none.
 *
 * DONE: the store is open, and before its first line. OPEN: it was open, and is as it was. NO_MEMORY: there is none. */
uint32_t ordup_open(ordup_store *store);

/* Answers the lines of a text, and then gives the next answers, as many bytes as there is room for.
 *
 * A line ends with LF. The last one needs none, and a text of no bytes has no line. Each answer ends with LF.
 *
 * `*taken` is how many bytes of the text were taken, which are whole lines: all of them, unless memory was refused. `*written` is
 * how many bytes of `answers` were written. No others are changed.
 *
 * DONE: all lines were taken, and all answers were given. MORE: all lines were taken, and the next call gives more answers, before
 * those of its own lines. It may have no lines, and then memory is not refused: ordup_run(&store, "", 0, &taken, answers, room,
 * &written).
 * NO_MEMORY: the lines in the first `*taken` bytes were taken, and their answers are given or kept, as always. The store is as
 * these lines leave it. The text from there on may be given again. CLOSED: `*taken` and `*written` are 0. */
uint32_t ordup_run(ordup_store *store, const char *text, size_t bytes, size_t *taken, char *answers, size_t room,
                   size_t *written);

/* Gives the record of a site, for an auditor: the bytes that `ordup record SITE` prints. The store is as it was.
 *
 * `*written` is how many bytes the record has. DONE: it was written. MORE: it has more than `room` bytes, and none was written.
 * Call again with room for `*written`. Else `*written` is 0, and nothing was written: CLOSED, NOT_STARTED, UNKNOWN_SITE or
 * NO_MEMORY. */
uint32_t ordup_record(ordup_store *store, const char *site, size_t bytes, char *record, size_t room, size_t *written);

/* Checks a record, and gives the line that `ordup check` prints: `yes N`, `no ROW REASON` or `malformed ROW`, and LF. It needs no
 * store.
 *
 * `*written` is how many bytes the line has, at most 64. DONE: it was written, and the record is valid (`yes`) or not (`no`).
 * MALFORMED: it was written, and the text is no record: the row is the first that breaks a rule. MORE: it has more than `room`
 * bytes, and none was written. Else `*written` is 0, and nothing was written: TOO_LONG (more than 8 GiB, and no row of the first
 * 8 GiB breaks a rule) or NO_MEMORY. */
uint32_t ordup_check(const char *record, size_t bytes, char *verdict, size_t room, size_t *written);

/* Checks the records of a site, one after another, of a store and of those that go on from it, and gives the line that
 * `ordup check --series` prints: `yes N`, `no RECORD ROW REASON` or `malformed RECORD ROW`, and LF. It needs no store.
 *
 * `*written` is how many bytes the line has, at most 64. DONE: it was written, and the series is valid (`yes`) or not (`no`).
 * MALFORMED: it was written, and the text is no series: the row of the record is the first that breaks a rule. MORE: it has more
 * than `room` bytes, and none was written. Else `*written` is 0, and nothing was written: NO_MEMORY. */
uint32_t ordup_check_series(const char *records, size_t bytes, char *verdict, size_t room, size_t *written);

/* Gives the declarations of the successor, which begins with what this store ends with: the bytes that `ordup next` prints. The
 * store is as it was.
 *
 * `*written` is how many bytes they have. DONE: they were written. MORE: they have more than `room` bytes, and none was written.
 * Call again with room for `*written`. Else `*written` is 0, and nothing was written: CLOSED, NOT_STARTED, NOT_YET (an update is
 * not acknowledged) or NO_MEMORY. */
uint32_t ordup_next(ordup_store *store, char *lines, size_t room, size_t *written);

/* Closes a store, if there is one, and gives its memory back. */
void ordup_close(ordup_store *store);

#ifdef __cplusplus
}
#endif
#endif
