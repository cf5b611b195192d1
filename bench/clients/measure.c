/* measure FILE LINES: runs the lines of a file, so many by each call. Writes the answers, and on standard error the seconds that the
 * calls took. */
#include <stdio.h>
#include <stdlib.h>
#include <string.h>
#include <time.h>

#include "ordup.h"

static char text[1 << 24], answers[1 << 24];

static double now(void) {
    struct timespec time;
    clock_gettime(CLOCK_MONOTONIC, &time);
    return (double)time.tv_sec + (double)time.tv_nsec * 1e-9;
}

int main(int count, char **words) {
    FILE *file = count == 3 ? fopen(words[1], "r") : NULL;
    if (!file)
        return 2;
    size_t bytes = fread(text, 1, sizeof text, file), lines = strtoul(words[2], NULL, 10), used = 0, taken, written;
    ordup_store store = ORDUP_STORE;
    if (!lines || ordup_open(&store) != ORDUP_DONE)
        return 1;
    double start = now();
    for (const char *at = text; at < text + bytes;) {
        const char *end = at;
        for (size_t line = 0; line < lines && end < text + bytes; line++)
            end = (const char *)memchr(end, '\n', (size_t)(text + bytes - end)) + 1;
        if (ordup_run(&store, at, (size_t)(end - at), &taken, answers + used, sizeof answers - used, &written) != ORDUP_DONE)
            return 1;
        used += written;
        at = end;
    }
    fprintf(stderr, "%.6f\n", now() - start);
    fwrite(answers, 1, used, stdout);
    ordup_close(&store);
    return 0;
}
