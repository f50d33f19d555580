/* Four threads count in one heap over the library. A forked child has none, and is told so at once, also if a thread had the heap's lock.
 *
 *     threads FOLDER */
#include "stable_heap.h"

#include <pthread.h>
#include <stdatomic.h>
#include <stdio.h>
#include <sys/wait.h>
#include <unistd.h>

enum { THREADS = 4, EACH = 200, EVENTS = 400, CHILDREN = 40 };

static sh_result add_one(sh_transaction *t, void *context) {
    sh_object root;
    sh_value value;
    (void)context;
    SH_TRY(sh_root(t, &root));
    SH_TRY(sh_get(t, root, 0, &value));
    return sh_put(t, root, 0, value.number + 1);
}

static void *count(void *heap) {
    for (int i = 0; i < EACH; i++) {
        if (sh_run(heap, add_one, NULL, i % 50 == 0, 1000) != SH_OK) printf("a thread gave up\n");
    }
    return NULL;
}

static sh_result read_sum(sh_transaction *t, void *context) {
    sh_object root;
    sh_value value;
    SH_TRY(sh_root(t, &root));
    SH_TRY(sh_get(t, root, 0, &value));
    *(uint64_t *)context = value.number;
    return SH_OK;
}

static atomic_bool forked;

/* Has the heap's lock nearly always. */
static void *hold(void *heap) {
    static sh_event events[EVENTS];
    static sh_reply replies[EVENTS];
    for (int i = 0; i < EVENTS; i++) events[i] = (sh_event){SH_EVENT_LEN, 9, 0, 0, 0};
    while (!forked) sh_batch(heap, events, EVENTS, true, replies, NULL);
    return NULL;
}

/* All calls of a child, in a transaction that was begun before it was forked. */
static int child(sh_heap *heap, sh_transaction *t) {
    sh_transaction *other;
    sh_object root;
    sh_event event = {SH_EVENT_FORCE, 0, 0, 0, 0};
    sh_reply reply;
    alarm(20);
    bool told = sh_force(heap, NULL) == SH_PROTOCOL && sh_reopen(heap) == SH_PROTOCOL && sh_begin(heap, &other) == SH_PROTOCOL;
    told = told && sh_root(t, &root) == SH_PROTOCOL && sh_abort(t) == SH_PROTOCOL && sh_commit(t, true) == SH_PROTOCOL;
    told = told && sh_batch(heap, &event, 1, true, &reply, NULL) == SH_PROTOCOL && sh_run(heap, read_sum, NULL, true, 2) == SH_PROTOCOL;
    return !told;
}

static void fork_children(sh_heap *heap) {
    pthread_t holder;
    sh_transaction *t;
    sh_begin(heap, &t);
    pthread_create(&holder, NULL, hold, heap);
    for (int i = 0; i < CHILDREN; i++) {
        int status = 1;
        pid_t one = fork();
        if (one == 0) _exit(child(heap, t));
        waitpid(one, &status, 0);
        if (status != 0) {
            printf("a forked child has a heap, or waits for its lock\n");
            break;
        }
    }
    forked = true;
    pthread_join(holder, NULL);
    sh_abort(t);
}

int main(int words, char **word) {
    pthread_t threads[THREADS];
    sh_error error;
    uint64_t sum = 0;
    sh_heap *heap = words == 2 ? sh_open_here(word[1], 4, 65536, &error) : NULL;
    if (!heap) return 2;
    fork_children(heap);
    for (int i = 0; i < THREADS; i++) pthread_create(&threads[i], NULL, count, heap);
    for (int i = 0; i < THREADS; i++) pthread_join(threads[i], NULL);
    if (sh_run(heap, read_sum, &sum, true, 1) != SH_OK) printf("the sum can't be read\n");
    sh_close(heap);
    printf("four threads counted to %d\n", (int)sum);
    return 0;
}
