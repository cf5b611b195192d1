/* Refuses each allocation of some calls in turn, and then all from it on until a call says so. What was not done for that is asked
 * again. The answers, the record, the verdicts and the successor are then those of a run in which nothing was refused, and each block
 * of memory is given back. Link it with -Wl,--wrap=malloc,--wrap=realloc,--wrap=free. */
#include <stdio.h>
#include <stdlib.h>
#include <string.h>

#include "ordup.h"

enum { ROOM = 1 << 16 };

void *__real_malloc(size_t bytes);
void *__real_realloc(void *block, size_t bytes);
void __real_free(void *block);

static long asked, refused_at, tried_at, refused, blocks;
static int all_later;

static int is_refused(void) {
    asked++;
    int is = refused_at && (asked == refused_at || (all_later && asked > refused_at));
    refused += is;
    return is;
}

void *__wrap_malloc(size_t bytes) {
    void *block = is_refused() ? NULL : __real_malloc(bytes);
    blocks += block != NULL;
    return block;
}

void *__wrap_realloc(void *block, size_t bytes) {
    void *moved = is_refused() ? NULL : __real_realloc(block, bytes);
    blocks += moved && !block;
    return moved;
}

void __wrap_free(void *block) {
    blocks -= block != NULL;
    __real_free(block);
}

static void fail(const char *what) {
    printf("allocation %ld%s: %s\n", tried_at, all_later ? " and all later ones" : "", what);
    exit(1);
}

/* How often a call said that memory was refused. Where that was so it is refused no more. */
static long said;

static int is_short(uint32_t status) {
    if (status != ORDUP_NO_MEMORY)
        return 0;
    if (!refused)
        fail("a call says that memory was refused, and none was");
    said++;
    return 1;
}

/* All that the calls give: the answers, the record of a, the verdicts on it and on the series that it begins, and the successor. */
struct given {
    char text[4 * ROOM];
    size_t bytes;
};

static void run(ordup_store *store, const char *text, size_t room, struct given *given) {
    size_t rest = strlen(text), taken, written;
    for (uint32_t status = ORDUP_MORE; status != ORDUP_DONE;) {
        char *at = given->text + given->bytes;
        memset(at, 0, room);
        status = ordup_run(store, text, rest, &taken, at, room, &written);
        if (taken > rest || written > room || (written && memchr(at, 0, written)) || at[written])
            fail("more was taken or written than there was, or less");
        if (taken && taken < rest && text[taken - 1] != '\n')
            fail("a part of a line was taken");
        text += taken, rest -= taken, given->bytes += written;
        if (is_short(status))
            refused_at = 0;
        else if (rest || (status != ORDUP_DONE && (status != ORDUP_MORE || written != room)))
            fail("the status of ordup_run");
    }
}

/* What a call gives that gives all or nothing. */
#define WHOLE(CALL)                                                     \
    do {                                                                \
        size_t written;                                                 \
        char *at = given->text + given->bytes;                          \
        while (is_short(CALL)) {                                        \
            if (written || *at)                                         \
                fail("something was written");                          \
            refused_at = 0;                                             \
        }                                                               \
        if (!written)                                                   \
            fail("nothing was written: " #CALL);                        \
        given->bytes += written;                                        \
    } while (0)

static const char *const LINES =
    "object x 0\nobject y 10\ngroup g x y\nsite a 2\nsite b 2\nlimit a object x 5\nlimit b group g 9\nstart\n"
    "propose add:x:6 take:y:x\nsettle\nsend a\napply a\nreport a\nsend b\napply b\nreport b\nsettle\nbegin q a 9\nread q x\n"
    "# nothing\n\nrelimit a count 4\npropose add:x:1 max:y:3\nsettle\nshow a\nread q y\nend q\ncertify a\nbad\nshow b";

/* A record that goes on from the one of a. */
static const char *const NEXT = "ordup,1,a,0\nobject,1,x,7\nobject,2,y,3\nmember,1,g,x\nmember,2,g,y\n";

/* Makes the calls, with so much room for answers, and all lines by one call or one at a time. */
static void calls(size_t room, int at_once, struct given *given) {
    ordup_store store = ORDUP_STORE;
    memset(given, 0, sizeof *given);
    while (is_short(ordup_open(&store))) {
        if (store.held || store.mark)
            fail("there is a store that was not opened");
        refused_at = 0;
    }
    for (const char *line = LINES; *line;) {
        size_t bytes = at_once ? strlen(line) : strcspn(line, "\n") + (strchr(line, '\n') != NULL);
        char text[ROOM];
        memcpy(text, line, bytes);
        text[bytes] = 0;
        run(&store, text, room, given);
        line += bytes;
    }
    char *record = given->text + given->bytes;
    WHOLE(ordup_record(&store, "a", 1, at, ROOM, &written));
    size_t bytes = strlen(record);
    char series[ROOM];
    sprintf(series, "%s%s", record, NEXT);
    WHOLE(ordup_check(record, bytes, at, ROOM, &written));
    WHOLE(ordup_check_series(series, strlen(series), at, ROOM, &written));
    WHOLE(ordup_next(&store, at, ROOM, &written));
    run(&store, "show a", room, given); /* the store is as it was */
    ordup_close(&store);
    if (blocks)
        fail("memory was not given back");
}

int main(void) {
    static const size_t rooms[] = {ROOM, 5};
    static struct given wanted, given;
    long tried = 0, told = 0;
    calls(ROOM, 1, &wanted);
    if (refused || !strstr(wanted.text, "\nyes 1\nyes 1\n"))
        fail("nothing is refused, and this is not what was to come");
    for (int form = 0; form < 8; form++) {
        size_t room = rooms[form & 1];
        int at_once = form >> 1 & 1;
        all_later = 0, refused_at = 0, asked = 0;
        calls(room, at_once, &given);
        long all = asked;
        if (!all)
            fail("no memory was asked for");
        all_later = form >> 2 & 1;
        for (long at = 1; at <= all; at++, tried++) {
            refused_at = tried_at = at, asked = refused = said = 0;
            calls(room, at_once, &given);
            if (!refused)
                fail("it was not refused");
            told += said > 0;
            if (given.bytes != wanted.bytes || memcmp(given.text, wanted.text, wanted.bytes))
                fail("what was given is not what is given where nothing is refused");
        }
    }
    printf("%ld refusals, of which the calls told %ld, and did without in the others\n", tried, told);
    return told ? 0 : 1;
}
