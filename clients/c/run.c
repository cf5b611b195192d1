/* Runs a script from the standard input through the library, and writes its answers: as `ordup run`. */
#include <stdio.h>
#include <stdlib.h>

#include "ordup.h"

int main(void) {
    ordup_store store = ORDUP_STORE;
    char *line = NULL, answers[8192];
    size_t room = 0, taken, written;
    ssize_t length;
    uint32_t status = ordup_open(&store);
    while (status == ORDUP_DONE && (length = getline(&line, &room, stdin)) > 0) {
        status = ordup_run(&store, line, (size_t)length, &taken, answers, sizeof answers, &written);
        fwrite(answers, 1, written, stdout);
        while (status == ORDUP_MORE) { /* a long answer */
            status = ordup_run(&store, "", 0, &taken, answers, sizeof answers, &written);
            fwrite(answers, 1, written, stdout);
        }
    }
    if (status != ORDUP_DONE)
        fprintf(stderr, "status %u\n", (unsigned)status);
    free(line);
    ordup_close(&store);
    return status == ORDUP_DONE ? 0 : 1;
}
