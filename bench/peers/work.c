/* The work of the bench, over one of the stores.
   work load FOLDER SEED COUNT    the rounds that `heap load SEED COUNT` plays; objects that the root lets go are removed; prints how many are left
   work commits FOLDER N          N transactions of one write each, every one durable; prints the seconds
   work fill FOLDER N             N objects in one list */
#define _POSIX_C_SOURCE 200809L
#include "store.h"
#include <stdio.h>
#include <stdlib.h>
#include <string.h>
#include <time.h>

static uint64_t last_id;

void fail(const char *what) {
    fprintf(stderr, "work: %s\n", what);
    exit(1);
}

static unsigned draw(uint64_t *seed) {
    *seed = (*seed * 1103515245 + 12345) % 2147483648;
    return (unsigned)(*seed / 65536);
}

/* Removes a list of objects, of which nothing else is left that refers to one. */
static void let_go(uint64_t id) {
    while (id) {
        uint64_t next = store_get(id).next;
        store_remove(id);
        id = next;
    }
}

static void play_round(uint64_t i, uint64_t *seed) {
    unsigned length = draw(seed) % 8, field = draw(seed) % 4, action = draw(seed) % 8;
    int is_linked = length >= 2 && action >= 4;
    uint64_t old, id = 0;
    store_begin();
    old = store_root(field);
    if (action) {
        struct object made = {length, length ? i : 0, is_linked ? old : 0};
        id = ++last_id;
        store_add(id, &made);
    }
    store_set_root(field, id);
    if (!action || !is_linked) let_go(old);
    if (action == 1) store_abort();
    else store_commit();
}

static void load(uint64_t seed, uint64_t count) {
    unsigned long objects = 1;
    for (uint64_t i = 1; i <= count; i++) play_round(i, &seed);
    store_begin();
    for (unsigned field = 0; field < ROOT_FIELDS; field++)
        for (uint64_t id = store_root(field); id; id = store_get(id).next) objects++;
    store_commit();
    printf("objects %lu\n", objects);
}

static void commits(uint64_t n) {
    struct timespec from, to;
    clock_gettime(CLOCK_MONOTONIC, &from);
    for (uint64_t i = 1; i <= n; i++) {
        store_begin();
        store_set_root(0, i);
        store_commit();
    }
    clock_gettime(CLOCK_MONOTONIC, &to);
    printf("%.6f\n", (double)(to.tv_sec - from.tv_sec) + (double)(to.tv_nsec - from.tv_nsec) / 1e9);
}

static void fill(uint64_t n) {
    store_begin();
    for (uint64_t i = 1; i <= n; i++) {
        struct object made = {2, i, i - 1};
        store_add(i, &made);
    }
    store_set_root(0, n);
    store_commit();
}

int main(int argc, char **argv) {
    if (argc < 4) fail("load FOLDER SEED COUNT, commits FOLDER N, or fill FOLDER N");
    if (!strcmp(argv[1], "load") && argc == 5) {
        store_open(argv[2], IN_MEMORY);
        load(strtoull(argv[3], 0, 10), strtoull(argv[4], 0, 10));
    } else if (!strcmp(argv[1], "commits")) {
        store_open(argv[2], DURABLE);
        commits(strtoull(argv[3], 0, 10));
    } else if (!strcmp(argv[1], "fill")) {
        store_open(argv[2], UNSYNCED);
        fill(strtoull(argv[3], 0, 10));
    } else {
        fail("no such work");
    }
    store_close();
    return 0;
}
