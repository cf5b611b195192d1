/* Tells how much stack the calls take, in a thread whose stack was filled with one byte before, and fails where that is more than the
 * 128 KB of ordup.h: at the sizes of docs/FORMATS.md, with 64 changes an update. */
#include <pthread.h>
#include <stdio.h>
#include <stdlib.h>
#include <string.h>

#include "ordup.h"

enum { STACK = 1 << 20, MOST = 128 << 10, FILLED = 0x5a, ROOM = 1 << 22 };

static char answers[ROOM], text[ROOM];
static int failed;

static size_t write_load(void) {
    size_t n = 0;
#define LINE(...) n += (size_t)sprintf(text + n, __VA_ARGS__)
    for (int object = 0; object < 256; object++)
        LINE("object object_%d %d\n", object, object);
    for (int group = 0; group < 32; group++) {
        LINE("group g%d", group);
        for (int member = 0; member < 64; member++)
            LINE(" object_%d", group + member);
        LINE("\n");
    }
    for (int site = 0; site < 16; site++) {
        LINE("site s%d 1024\nlimit s%d all 7\n", site, site);
        for (int group = 0; group < 32; group++)
            LINE("limit s%d group g%d 5\n", site, group);
        for (int object = 0; object < 31; object++)
            LINE("limit s%d object object_%d 3\n", site, object);
    }
    LINE("start\n");
    for (int update = 0; update < 50; update++) {
        LINE("propose");
        for (int change = 0; change < 64; change++)
            LINE(" add:object_%d:%d", change + update, update);
        LINE("\nsettle\n");
        for (int site = 0; site < 16; site++)
            LINE("send s%d\napply s%d\nreport s%d\n", site, site, site);
        LINE("settle\nbegin q%d s1 9\nread q%d object_3\nend q%d\nshow s3\ncertify s4\nrelimit s5 all %d\n", update, update, update, update);
    }
    return n;
}

static void *make_calls(void *bytes) {
    ordup_store store = ORDUP_STORE;
    size_t taken, written, length;
    failed |= ordup_open(&store) != ORDUP_DONE;
    failed |= ordup_run(&store, text, *(size_t *)bytes, &taken, answers, ROOM, &written) != ORDUP_DONE;
    failed |= memmem(answers, written, "refused 1 ", 10) != NULL || memmem(answers, written, "ok acked 50\n", 12) == NULL;
    failed |= ordup_record(&store, "s1", 2, text, ROOM, &length) != ORDUP_DONE;
    failed |= ordup_check(text, length, answers, ROOM, &written) != ORDUP_DONE || memcmp(answers, "yes ", 4);
    memcpy(text + length, text, length); /* object_1, in row 3, does not begin with what it ended with */
    failed |= ordup_check_series(text, 2 * length, answers, ROOM, &written) != ORDUP_DONE || memcmp(answers, "no 2 3 NotNext\n", 15);
    ordup_next(&store, answers, ROOM, &written);
    ordup_close(&store);
    return NULL;
}

int main(void) {
    char *stack = aligned_alloc(4096, STACK);
    size_t bytes = write_load(), untouched = 0;
    pthread_attr_t attributes;
    pthread_t thread;
    memset(stack, FILLED, STACK);
    if (pthread_attr_init(&attributes) || pthread_attr_setstack(&attributes, stack, STACK))
        return 1;
    if (pthread_create(&thread, &attributes, make_calls, &bytes) || pthread_join(thread, NULL))
        return 1;
    while (untouched < STACK && stack[untouched] == FILLED)
        untouched++;
    printf("%zu bytes of stack, with the thread's own%s\n", STACK - untouched, failed ? ", and a call failed" : "");
    return failed || STACK - untouched > MOST;
}
