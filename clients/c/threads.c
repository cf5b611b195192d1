/* Runs a plan from the standard input in a cluster, and prints what came of it, as `ordup threads CALLERS` but for the last lines:
 *
 *     threads CALLERS [EPOCHS FOLDER]
 *
 * EPOCHS clusters, one after the other, share the sets evenly. FOLDER gets the record of each site in each: EPOCH_SITE.csv. */
#define _GNU_SOURCE
#include <pthread.h>
#include <stdatomic.h>
#include <stdio.h>
#include <stdlib.h>
#include <string.h>

#include "ordup_cluster.h"

enum { OBJECTS = 256, GROUPS = 32, SITES = 16, CHANGES = 64, CALLERS = 16, NAME = 17 };

static void must(int is, const char *what) {
    if (!is) {
        fprintf(stderr, "threads: not so: %s\n", what);
        exit(1);
    }
}
#define MUST(what) must(!!(what), #what)

/* Names, each with its id. */
struct names { uint32_t count; char at[OBJECTS][NAME]; };
static struct names objects, groups, sites;

static uint32_t find(const struct names *in, const char *name) {
    uint32_t id = 0;
    while (id < in->count && strcmp(in->at[id], name))
        id++;
    MUST(id < in->count);
    return id;
}

static void declare(struct names *in, const char *name, uint32_t id) {
    MUST(id == in->count && id < OBJECTS && strlen(name) < NAME);
    strcpy(in->at[in->count++], name);
}

static struct set { ordup_change changes[CHANGES]; size_t count; } *sets;
static size_t set_count, callers, from, to;
static ordup_setup setup = ORDUP_SETUP;
static ordup_cluster *cluster;
static ordup_session sessions[CALLERS];
static _Atomic unsigned refused, pending;

static char *word(char **rest) {
    char *it = strsep(rest, " ");
    MUST(it);
    return it;
}

static ordup_change read_change(char *text) {
    static const char *const operations[] = {"add", "set", "mul", "max", "min", "take"};
    const char *operation = strsep(&text, ":"), *object = strsep(&text, ":");
    MUST(text);
    uint32_t op = ORDUP_ADD;
    while (op < ORDUP_TAKE && strcmp(operations[op], operation))
        op++;
    return (ordup_change){find(&objects, object), op, op == ORDUP_TAKE ? (int64_t)find(&objects, text) : strtoll(text, NULL, 10)};
}

static void read_limit(char *rest) {
    uint32_t site = find(&sites, word(&rest)), kind = ORDUP_SCOPE_COUNT, id = 0;
    const char *scope = word(&rest);
    if (!strcmp(scope, "object"))
        kind = ORDUP_SCOPE_OBJECT, id = find(&objects, word(&rest));
    else if (!strcmp(scope, "group"))
        kind = ORDUP_SCOPE_GROUP, id = find(&groups, word(&rest));
    else if (!strcmp(scope, "all"))
        kind = ORDUP_SCOPE_ALL;
    MUST(ordup_setup_limit(&setup, site, kind, id, strtoull(word(&rest), NULL, 10)) == ORDUP_DONE);
}

static void read_line(char *line) {
    const char *command = word(&line);
    uint32_t id, status = ORDUP_DONE, members[CHANGES];
    size_t count = 0;
    if (!strcmp(command, "propose")) {
        sets = realloc(sets, (set_count + 1) * sizeof *sets);
        MUST(sets);
        struct set *it = &sets[set_count++];
        for (it->count = 0; line && it->count < CHANGES;)
            it->changes[it->count++] = read_change(word(&line));
    } else if (!strcmp(command, "limit")) {
        read_limit(line);
    } else if (strcmp(command, "start")) {
        const char *name = word(&line);
        if (!strcmp(command, "group")) {
            while (line && count < CHANGES)
                members[count++] = find(&objects, word(&line));
            status = ordup_setup_group(&setup, name, strlen(name), members, count, &id);
        } else if (!strcmp(command, "site")) {
            status = ordup_setup_site(&setup, name, strlen(name), strtoull(word(&line), NULL, 10), &id);
        } else {
            MUST(!strcmp(command, "object"));
            status = ordup_setup_object(&setup, name, strlen(name), strtoll(word(&line), NULL, 10), &id);
        }
        MUST(status == ORDUP_DONE);
        declare(*command == 'g' ? &groups : *command == 's' ? &sites : &objects, name, id);
    }
}

static void *call(void *which) {
    size_t me = (size_t)(uintptr_t)which;
    for (size_t set = from; set < to; set++) {
        uint64_t number;
        if (set % callers != me)
            continue;
        uint32_t status = ordup_cluster_propose(cluster, &sessions[me], sets[set].changes, sets[set].count, ORDUP_FOREVER, &number);
        MUST(status == ORDUP_DONE || status == ORDUP_REFUSED_NOT_YET || status == ORDUP_REFUSED_OUT_OF_RANGE || status == ORDUP_REFUSED_LOG_FULL);
        pending += status == ORDUP_REFUSED_NOT_YET;
        refused += status == ORDUP_REFUSED_OUT_OF_RANGE || status == ORDUP_REFUSED_LOG_FULL;
    }
    return NULL;
}

static void write_record(const char *folder, size_t epoch, uint32_t site) {
    char none[1], path[512];
    size_t bytes = 0, written = 0;
    MUST(ordup_cluster_record(cluster, site, none, 0, &bytes) == ORDUP_MORE);
    char *rows = malloc(bytes);
    MUST(rows && ordup_cluster_record(cluster, site, rows, bytes, &written) == ORDUP_DONE);
    snprintf(path, sizeof path, "%s/%zu_%u.csv", folder, epoch, (unsigned)site);
    FILE *file = fopen(path, "w");
    MUST(file && fwrite(rows, 1, written, file) == written && fclose(file) == 0);
    free(rows);
}

static void run_epoch(void) {
    pthread_t threads[CALLERS];
    MUST(ordup_cluster_start(cluster) == ORDUP_DONE);
    for (uintptr_t me = 0; me < callers; me++)
        MUST(!pthread_create(&threads[me], NULL, call, (void *)me));
    for (size_t me = 0; me < callers; me++)
        pthread_join(threads[me], NULL);
    MUST(ordup_cluster_finish(cluster, ORDUP_FOREVER) == ORDUP_DONE);
    MUST(ordup_cluster_close(cluster) == ORDUP_DONE);
}

static void print_site(uint32_t site, uint64_t rounds) {
    ordup_site_numbers of;
    MUST(ordup_cluster_site_count(cluster, site, &of) == ORDUP_DONE);
    printf("site %s applied %lu rounds %lu", sites.at[site], (unsigned long)of.applied, (unsigned long)rounds);
    for (uint32_t object = 0; object < objects.count; object++) {
        ordup_seen seen;
        MUST(ordup_cluster_read(cluster, &sessions[0], site, object, &seen) == ORDUP_DONE);
        printf(" %s=%ld", objects.at[object], (long)seen.value);
    }
    putchar('\n');
}

int main(int count, char **words) {
    MUST(count == 2 || count == 4);
    char *line = NULL;
    size_t room = 0, epochs = count > 2 ? strtoull(words[2], NULL, 10) : 1;
    uint64_t rounds[SITES] = {0};
    callers = strtoull(words[1], NULL, 10);
    MUST(callers >= 1 && callers <= CALLERS && epochs >= 1);
    MUST(ordup_setup_open(&setup) == ORDUP_DONE);
    while (getline(&line, &room, stdin) > 0) {
        line[strcspn(line, "\n")] = 0;
        read_line(line);
    }
    free(line);
    MUST(ordup_cluster_open(&setup, 0, &cluster) == ORDUP_DONE);
    ordup_handle_close(&setup);
    for (size_t epoch = 0; epoch < epochs; epoch++) {
        ordup_cluster *last = cluster;
        if (epoch) {
            MUST(ordup_cluster_successor(last, &cluster) == ORDUP_DONE);
            ordup_cluster_free(last);
        }
        from = to;
        to = set_count * (epoch + 1) / epochs;
        run_epoch();
        for (uint32_t site = 0; site < sites.count; site++) {
            ordup_site_numbers of;
            MUST(ordup_cluster_site_count(cluster, site, &of) == ORDUP_DONE);
            rounds[site] += of.rounds;
            if (count > 2)
                write_record(words[3], epoch, site);
        }
    }
    ordup_numbers numbers;
    ordup_cluster_count(cluster, &numbers);
    printf("log %lu\nrefused %u\npending %u\n", (unsigned long)numbers.length, refused, pending);
    for (uint32_t site = 0; site < sites.count; site++)
        print_site(site, rounds[site]);
    ordup_cluster_free(cluster);
    free(sets);
    return 0;
}
