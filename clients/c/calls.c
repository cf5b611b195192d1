/* Tests what each call returns and writes, in each case but that of refused memory, which refuse.c has. */
#include <stdio.h>
#include <stdlib.h>
#include <string.h>

#include "ordup.h"

#define IS(what)                                                     \
    do {                                                             \
        count++;                                                     \
        if (!(what)) {                                               \
            printf("calls.c:%d: it is not so: %s\n", __LINE__, #what); \
            failed++;                                                \
        }                                                            \
    } while (0)

enum { ROOM = 1 << 20, UNTOUCHED = 0x5a };

static int count, failed;
static char given[ROOM];
static size_t taken, written;

/* The text of no more bytes than `room`, and UNTOUCHED after them, is what a call wrote. */
static int wrote(const char *text, size_t room) {
    size_t bytes = strlen(text);
    if (written != bytes || bytes > room || memcmp(given, text, bytes))
        return 0;
    for (size_t at = bytes; at < ROOM; at++)
        if (given[at] != UNTOUCHED)
            return 0;
    return 1;
}

static int wrote_nothing(void) {
    for (size_t at = 0; at < ROOM; at++)
        if (given[at] != UNTOUCHED)
            return 0;
    return 1;
}

static void clear(void) {
    memset(given, UNTOUCHED, ROOM);
    taken = written = 12345;
}

static uint32_t run(ordup_store *store, const char *text, size_t room) {
    clear();
    return ordup_run(store, text, strlen(text), &taken, given, room, &written);
}

static uint32_t record(ordup_store *store, const char *site, size_t room) {
    clear();
    return ordup_record(store, site, strlen(site), given, room, &written);
}

static uint32_t next(ordup_store *store, size_t room) {
    clear();
    return ordup_next(store, given, room, &written);
}

static uint32_t check(const char *rows, size_t room) {
    clear();
    return ordup_check(rows, strlen(rows), given, room, &written);
}

static uint32_t check_series(const char *rows, size_t room) {
    clear();
    return ordup_check_series(rows, strlen(rows), given, room, &written);
}

static const char SETUP[] = "object x 0\nobject y 10\nsite a 4\nlimit a object x 5\nstart";
static const char DECLARED[] = "ok object x\nok object y\nok site a\nok limit a\nok start\n";
static const char RECORD[] = "ordup,1,a,2\nobject,1,x,0\nobject,2,y,10\nlimit,1,object:x,5\n"
                             "change,1,1,add:x:5\nchange,2,1,add:x:1\nround,1,2,-\nwindow,1,0,2\n";
/* The first record ends with 34 bags of tea, and the second one begins with these. */
static const char SERIES[] = "ordup,2,a,2\nobject,1,tea,40\nlimit,1,object:tea,5@1\nlimit,2,object:tea,3@2\n"
                             "change,1,1,add:tea:-4\nchange,2,1,add:tea:-2\nround,1,2,-\nwindow,1,0,2\n"
                             "ordup,2,a,3\nobject,1,tea,34\nlimit,1,object:tea,4@1\nlimit,2,object:tea,1@3\n"
                             "change,1,1,add:tea:-3\nchange,2,1,add:tea:-2\nchange,3,1,add:tea:-1\nreport,3,2,-\n"
                             "round,1,2,-\nwindow,1,0,2\n";

static void where_there_is_no_store(void) {
    ordup_store store = ORDUP_STORE;
    IS(run(&store, "start", ROOM) == ORDUP_CLOSED && !taken && !written && wrote_nothing());
    IS(record(&store, "a", ROOM) == ORDUP_CLOSED && !written && wrote_nothing());
    IS(next(&store, ROOM) == ORDUP_CLOSED && !written && wrote_nothing());
    ordup_close(&store);
    IS(ordup_open(&store) == ORDUP_DONE);
    IS(ordup_open(&store) == ORDUP_OPEN);
    IS(run(&store, "object x 1", ROOM) == ORDUP_DONE && wrote("ok object x\n", ROOM));
    IS(ordup_open(&store) == ORDUP_OPEN);
    IS(run(&store, "object x 1", ROOM) == ORDUP_DONE && wrote("refused 5 NameTaken\n", ROOM));
    ordup_close(&store);
    ordup_close(&store);
    IS(run(&store, "start", ROOM) == ORDUP_CLOSED && !taken && !written && wrote_nothing());
    IS(ordup_open(&store) == ORDUP_DONE);
    IS(run(&store, "object x 1", ROOM) == ORDUP_DONE && wrote("ok object x\n", ROOM));
    ordup_close(&store);
}

static void lines_have_their_answers(void) {
    ordup_store store = ORDUP_STORE, moved;
    IS(ordup_open(&store) == ORDUP_DONE);
    IS(run(&store, "", ROOM) == ORDUP_DONE && !taken && wrote("", ROOM));
    IS(run(&store, "\n# nothing\n   \n", ROOM) == ORDUP_DONE && taken == 15 && wrote("", ROOM));
    IS(run(&store, SETUP, ROOM) == ORDUP_DONE && taken == strlen(SETUP) && wrote(DECLARED, ROOM));
    memcpy(&moved, &store, sizeof store);
    memset(&store, 0, sizeof store);
    IS(run(&moved, "propose add:x:6\nsettle\nbad\n", ROOM) == ORDUP_DONE);
    IS(wrote("ok proposed 1\nok round 1 a\nrefused 1 Syntax\n", ROOM));
    clear();
    IS(ordup_run(&moved, "settle\0\n", 8, &taken, given, ROOM, &written) == ORDUP_DONE && wrote("refused 1 Syntax\n", ROOM));
    ordup_close(&moved);
}

/* Whatever room there is, the parts of the answers are the answers, and each call but the last fills its room. */
static void answers_come_in_parts(void) {
    static const size_t rooms[] = {1, 2, 3, 7, 20, 21, 22, 64};
    static char all[ROOM];
    for (size_t it = 0; it < sizeof rooms / sizeof *rooms; it++) {
        size_t room = rooms[it], bytes = 0;
        ordup_store store = ORDUP_STORE;
        IS(ordup_open(&store) == ORDUP_DONE);
        IS(run(&store, SETUP, 0) == ORDUP_MORE && taken == strlen(SETUP) && !written && wrote_nothing());
        uint32_t status = ORDUP_MORE;
        for (int calls = 0; status == ORDUP_MORE && calls < 1000; calls++) {
            /* these lines are answered after what was kept */
            status = run(&store, calls ? "" : "settle\nshow a", room);
            IS(status == ORDUP_DONE || (status == ORDUP_MORE && written == room));
            for (size_t at = written; at < ROOM; at++)
                if (given[at] != UNTOUCHED)
                    IS(!"bytes after those that were written are as they were");
            memcpy(all + bytes, given, written);
            bytes += written;
        }
        all[bytes] = 0;
        IS(status == ORDUP_DONE && !strncmp(all, DECLARED, strlen(DECLARED)));
        IS(!strcmp(all + strlen(DECLARED), "refused 17 NothingToSettle\nok show a sent 0 applied 0 reported 0 rounds 0 x=0 y=10\n"));
        ordup_close(&store);
    }
}

static void records_are_told_and_checked(void) {
    ordup_store store = ORDUP_STORE;
    IS(ordup_open(&store) == ORDUP_DONE);
    IS(record(&store, "a", ROOM) == ORDUP_NOT_STARTED && !written && wrote_nothing());
    IS(run(&store, SETUP, ROOM) == ORDUP_DONE);
    IS(record(&store, "b", ROOM) == ORDUP_UNKNOWN_SITE && !written && wrote_nothing());
    IS(record(&store, "", ROOM) == ORDUP_UNKNOWN_SITE && !written && wrote_nothing());
    IS(run(&store, "propose add:x:5\nsettle\npropose add:x:1\nsettle", 3) == ORDUP_MORE);
    for (size_t room = 0; room < strlen(RECORD); room += 40)
        IS(record(&store, "a", room) == ORDUP_MORE && written == strlen(RECORD) && wrote_nothing());
    IS(record(&store, "a", strlen(RECORD)) == ORDUP_DONE && wrote(RECORD, strlen(RECORD)));
    IS(run(&store, "", ROOM) == ORDUP_DONE && wrote("proposed 1\nok acked 1\nok proposed 2\nok round 2 a\n", ROOM));
    ordup_close(&store);

    IS(check(RECORD, ROOM) == ORDUP_DONE && wrote("yes 1\n", ROOM));
    IS(check(RECORD, 6) == ORDUP_DONE && wrote("yes 1\n", 6));
    IS(check(RECORD, 5) == ORDUP_MORE && written == 6 && wrote_nothing());
    char rows[sizeof RECORD];
    memcpy(rows, RECORD, sizeof rows);
    *strstr(rows, "x,5") = 'y'; /* a limit on the other object, which does not move */
    IS(check(rows, ROOM) == ORDUP_DONE && wrote("no 8 WindowLight\n", ROOM));
    IS(check("ordup,1,a,2\nobject,1,x,0\n", ROOM) == ORDUP_MALFORMED && wrote("malformed 3\n", ROOM));
    IS(check("", ROOM) == ORDUP_MALFORMED && wrote("malformed 1\n", ROOM));
    IS(check("", 11) == ORDUP_MORE && written == 12 && wrote_nothing());
}

static void series_are_checked(void) {
    IS(check_series(SERIES, ROOM) == ORDUP_DONE && wrote("yes 2\n", ROOM));
    IS(check_series(SERIES, 5) == ORDUP_MORE && written == 6 && wrote_nothing());
    IS(check_series(SERIES, 6) == ORDUP_DONE && wrote("yes 2\n", 6));
    IS(check_series(RECORD, ROOM) == ORDUP_DONE && wrote("yes 1\n", ROOM));
    char rows[sizeof SERIES];
    memcpy(rows, SERIES, sizeof rows);
    strstr(rows, "tea,34")[5] = '5'; /* the second record begins with a bag more */
    IS(check_series(rows, 14) == ORDUP_MORE && written == 15 && wrote_nothing());
    IS(check_series(rows, 15) == ORDUP_DONE && wrote("no 2 2 NotNext\n", 15));
    strstr(rows, ",a,3")[1] = 'b'; /* and it is of another site */
    IS(check_series(rows, ROOM) == ORDUP_DONE && wrote("no 2 1 NotNext\n", ROOM));
    strstr(rows, "report,3")[7] = '4'; /* and it has a report at the decision of an update that was not decided */
    IS(check_series(rows, ROOM) == ORDUP_MALFORMED && wrote("malformed 2 8\n", ROOM));
    IS(check_series("", 13) == ORDUP_MORE && written == 14 && wrote_nothing());
    IS(check_series("", 14) == ORDUP_MALFORMED && wrote("malformed 1 1\n", 14));
}

/* The objects begin with the values of the whole log, and the limits are those in force. */
static void successor_is_declared(void) {
    static const char before[] = "object x 0\nobject y 10\nsite a 4\nlimit a object x 5\nstart\n";
    static const char after[] = "object x 5\nobject y 12\nsite a 4\nlimit a object x 7\nstart\n";
    ordup_store store = ORDUP_STORE, following = ORDUP_STORE;
    IS(ordup_open(&store) == ORDUP_DONE);
    IS(next(&store, ROOM) == ORDUP_NOT_STARTED && !written && wrote_nothing());
    IS(run(&store, SETUP, ROOM) == ORDUP_DONE);
    IS(next(&store, ROOM) == ORDUP_DONE && wrote(before, ROOM));
    IS(run(&store, "propose add:x:5 set:y:12", ROOM) == ORDUP_DONE);
    IS(next(&store, ROOM) == ORDUP_NOT_YET && !written && wrote_nothing());
    IS(run(&store, "settle\nrelimit a object x 7", ROOM) == ORDUP_DONE && wrote("ok acked 1\nok relimit a 2\n", ROOM));
    IS(next(&store, strlen(after) - 1) == ORDUP_MORE && written == strlen(after) && wrote_nothing());
    IS(next(&store, strlen(after)) == ORDUP_DONE && wrote(after, strlen(after)));
    IS(run(&store, "show a", ROOM) == ORDUP_DONE && wrote("ok show a sent 0 applied 0 reported 0 rounds 0 x=0 y=10\n", ROOM));
    ordup_close(&store);
    IS(ordup_open(&following) == ORDUP_DONE && run(&following, after, ROOM) == ORDUP_DONE && wrote(DECLARED, ROOM));
    ordup_close(&following);
}

int main(void) {
    IS(ordup_version() == ORDUP_VERSION);
    where_there_is_no_store();
    lines_have_their_answers();
    answers_come_in_parts();
    records_are_told_and_checked();
    series_are_checked();
    successor_is_declared();
    printf("%d statements, %d are not so\n", count, failed);
    return failed ? 1 : 0;
}
