/* A stand-in for the library, which refuses memory and counts what is closed: for the tests of the bindings alone.
 *
 * Of its first text a store takes the first line, if another one follows, answers `ok start`, and refuses memory. Lines of a later
 * text are taken without an answer, and counted as given again. ordup_next says the counts. */
#include <stdio.h>
#include <string.h>

#include "ordup.h"

static unsigned closed, given_again;

enum { NONE, OPENED, ASKED };

uint32_t ordup_version(void) {
    return ORDUP_VERSION;
}

uint32_t ordup_open(ordup_store *store) {
    store->mark = OPENED;
    return ORDUP_DONE;
}

uint32_t ordup_run(ordup_store *store, const char *text, size_t bytes, size_t *taken, char *answers, size_t room, size_t *written) {
    static const char answer[] = "ok start\n";
    const char *end = bytes ? memchr(text, '\n', bytes - 1) : NULL;
    *taken = *written = 0;
    if (bytes && store->mark == OPENED) {
        store->mark = ASKED;
        if (end && room >= strlen(answer)) {
            *taken = (size_t)(end + 1 - text);
            *written = strlen(answer);
            memcpy(answers, answer, *written);
        }
        return ORDUP_NO_MEMORY;
    }
    given_again += bytes > 0;
    *taken = bytes;
    return ORDUP_DONE;
}

uint32_t ordup_record(ordup_store *store, const char *site, size_t bytes, char *record, size_t room, size_t *written) {
    (void)store, (void)site, (void)bytes, (void)record, (void)room;
    *written = 0;
    return ORDUP_NO_MEMORY;
}

uint32_t ordup_check(const char *record, size_t bytes, char *verdict, size_t room, size_t *written) {
    (void)record, (void)bytes, (void)verdict, (void)room;
    *written = 0;
    return ORDUP_TOO_LONG;
}

uint32_t ordup_check_series(const char *records, size_t bytes, char *verdict, size_t room, size_t *written) {
    (void)records, (void)bytes, (void)verdict, (void)room;
    *written = 0;
    return ORDUP_NO_MEMORY;
}

uint32_t ordup_next(ordup_store *store, char *lines, size_t room, size_t *written) {
    (void)store;
    *written = (size_t)snprintf(lines, room, "closed %u, given again %u\n", closed, given_again);
    return ORDUP_DONE;
}

void ordup_close(ordup_store *store) {
    closed += store->mark != NONE;
    store->mark = NONE;
}
