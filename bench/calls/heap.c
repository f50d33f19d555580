/* The heap: field 0 of the root. Over the library, or with the client for C behind a pipe. */
#include "calls.h"
#include "stable_heap.h"
#include <stddef.h>

static sh_heap *heap;

static void check(sh_result result) {
    if (result != SH_OK) fail(sh_last_error(heap)->text);
}

void store_open(const char *folder, uint64_t commits, char **launcher) {
    sh_error error;
    /* (a commit of one write takes 37 bytes of the log) */
    heap = sh_open(folder, (const char *const *)launcher, 1, (unsigned)(65536 + 40 * commits), &error);
    if (!heap) fail(error.text);
    store_commit(0, true);
}

void store_close(void) { sh_close(heap); }

void store_commit(uint64_t number, bool durable) {
    sh_transaction *t;
    sh_object root;
    check(sh_begin(heap, &t));
    check(sh_root(t, &root));
    check(sh_put(t, root, 0, number));
    check(sh_commit(t, durable));
}

void store_force(void) { check(sh_force(heap, NULL)); }

uint64_t store_read(uint64_t times) {
    sh_transaction *t;
    sh_object root;
    sh_value value = {0};
    check(sh_begin(heap, &t));
    check(sh_root(t, &root));
    while (times-- > 0) check(sh_get(t, root, 0, &value));
    check(sh_abort(t));
    return value.number;
}
