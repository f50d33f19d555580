/* What both makings of stable_heap.h share: a transaction, and work that is tried again. It is included once, by stable_heap.c for a heap behind a
 * pipe, and by clients/lib/stable_heap_lib.c for one in the program's own process. */
#include <stdlib.h>
#include <time.h>

enum { SESSIONS = 32, HANDLES = 64 };

struct sh_transaction {
    sh_heap *heap;
    bool active;
    uint64_t number;
    bool taken[HANDLES];
    sh_error refusal;
};

static sh_error error_of(sh_heap *heap);
static void set_error(sh_heap *heap, const sh_error *error);

static sh_result fail(sh_error *error, sh_result result, const char *text) {
    memset(error, 0, sizeof *error);
    error->result = result;
    snprintf(error->text, sizeof error->text, "%s", text);
    return result;
}

/* ---- work that is tried again */

static void pause_after(int attempt) {
    long most = 1000000L << (attempt < 8 ? attempt : 8);
    struct timespec pause = {0, rand() % most};
    nanosleep(&pause, NULL);
}

static sh_result run_once(sh_heap *heap, sh_work work, void *context, bool durable) {
    sh_transaction *transaction;
    sh_result result = sh_begin(heap, &transaction);
    if (result != SH_OK) return result;
    result = work(transaction, context);
    if (result == SH_OK) return sh_commit(transaction, durable);
    sh_error error = error_of(heap);
    sh_abort(transaction);
    set_error(heap, &error);
    return result;
}

sh_result sh_run(sh_heap *heap, sh_work work, void *context, bool durable, int attempts) {
    sh_result result = SH_BUSY;
    for (int attempt = 0; attempt < attempts && result == SH_BUSY; attempt++) {
        if (attempt > 0) pause_after(attempt);
        result = run_once(heap, work, context, durable);
    }
    return result;
}
