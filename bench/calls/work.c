/* Times a store as it is asked on standard input: `durable N`, `unforced N` and `read N`, each answered by the seconds it took, and `last`, by the number.
 *
 *     PROGRAM FOLDER COMMITS LAUNCHER [OPTION].. */
#define _GNU_SOURCE
#include "calls.h"
#include <inttypes.h>
#include <stdio.h>
#include <stdlib.h>
#include <string.h>
#include <time.h>

static uint64_t number = 0;

void fail(const char *what) {
    fprintf(stderr, "calls: %s\n", what);
    exit(1);
}

static double now(void) {
    struct timespec it;
    clock_gettime(CLOCK_MONOTONIC, &it);
    return (double)it.tv_sec + 1e-9 * (double)it.tv_nsec;
}

static void commit(uint64_t times, bool durable) {
    while (times-- > 0) store_commit(++number, durable);
    if (!durable) store_force();
}

int main(int count, char **words) {
    char what[16];
    uint64_t times;
    if (count < 4) return 2;
    store_open(words[1], strtoull(words[2], NULL, 10), words + 3);
    while (scanf("%15s %" SCNu64, what, &times) == 2) {
        double began = now();
        if (strcmp(what, "last") == 0) {
            printf("%" PRIu64 "\n", store_read(1));
        } else {
            if (strcmp(what, "read") == 0 && store_read(times) != number) fail("a commit is lost");
            if (strcmp(what, "read") != 0) commit(times, strcmp(what, "durable") == 0);
            printf("%.9f\n", now() - began);
        }
        fflush(stdout);
    }
    store_close();
    return 0;
}
