/* Refuses memory to the library, and looks that nothing is lost by it, and that the heap goes on once there is memory.
 *
 *     memory FOLDER
 *
 * It is linked with -Wl,--wrap=malloc,--wrap=realloc,--wrap=free,--wrap=pthread_mutex_unlock, over a library that opens the heap again after
 * MOST_EVENTS = 60 events. */
#include "stable_heap.h"

#include <malloc.h>
#include <pthread.h>
#include <stdio.h>
#include <unistd.h>

enum { COMMITS = 16, BATCHES = 1200 };

void *__real_malloc(size_t size);
void *__real_realloc(void *old, size_t size);
void __real_free(void *old);

static uint64_t granted = UINT64_MAX, refused, held;
static bool only_one; /* whether those behind the one that is refused are granted */

static bool refuses(void) {
    if (granted > 0) {
        granted -= granted < UINT64_MAX;
        return false;
    }
    if (only_one) granted = UINT64_MAX;
    refused++;
    return true;
}

void *__wrap_malloc(size_t size) {
    void *made = refuses() ? NULL : __real_malloc(size);
    if (made) held += malloc_usable_size(made);
    return made;
}

void *__wrap_realloc(void *old, size_t size) {
    size_t before = old ? malloc_usable_size(old) : 0;
    void *made = refuses() ? NULL : __real_realloc(old, size);
    if (made) held += malloc_usable_size(made) - before;
    return made;
}

void __wrap_free(void *old) {
    if (old) held -= malloc_usable_size(old);
    __real_free(old);
}

static int failed = 0;

#define CHECK(claim)                                                  \
    do {                                                              \
        if (!(claim)) {                                               \
            printf("%s:%d: not so: %s\n", __FILE__, __LINE__, #claim); \
            failed = 1;                                               \
        }                                                             \
    } while (0)

static const char *folder;

static sh_heap *open_heap(void) {
    sh_error error;
    return sh_open_here(folder, 1, 65536, &error);
}

static sh_heap *new_heap(void) {
    char path[4096];
    snprintf(path, sizeof path, "%s/heap.img", folder);
    unlink(path);
    return open_heap();
}

static sh_result write_number(sh_transaction *t, void *number) {
    sh_object root;
    SH_TRY(sh_root(t, &root));
    return sh_put(t, root, 0, *(uint64_t *)number);
}

/* The number in the root. */
static uint64_t found(sh_heap *heap) {
    sh_transaction *t;
    sh_object root;
    sh_value value = {0};
    if (sh_begin(heap, &t) != SH_OK) return UINT64_MAX;
    CHECK(sh_root(t, &root) == SH_OK && sh_get(t, root, 0, &value) == SH_OK);
    CHECK(sh_abort(t) == SH_OK);
    return value.number;
}

static void asked_reopening(void) {
    sh_heap *heap = new_heap();
    uint64_t number = 7, now = 0;
    sh_result result = SH_NO_MEMORY;
    CHECK(sh_run(heap, write_number, &number, true, 1) == SH_OK);
    for (uint64_t n = 0; result != SH_OK && !failed; n++) {
        granted = n;
        result = sh_reopen(heap);
        granted = 0;
        if (result != SH_OK) CHECK(result == SH_NO_MEMORY && sh_reopen(heap) == SH_NO_MEMORY);
        granted = UINT64_MAX;
        if (n % 2 == 0) CHECK(found(heap) == number);
        CHECK(sh_force(heap, &now) == SH_OK && now == (result != SH_OK));
        CHECK(found(heap) == number);
    }
    CHECK(refused > 0);
    sh_close(heap);
}

/* Commits where allocation n of them is refused, and those behind it too until the call has ended or not. Whether one was refused. */
static bool commits_with_one_refused(uint64_t n, bool one) {
    sh_heap *heap = new_heap();
    uint64_t number = 0, commits = 0, left = n;
    refused = 0;
    only_one = one;
    for (int i = 0; i < COMMITS; i++) {
        uint64_t next = number + 1;
        granted = refused ? UINT64_MAX : left;
        sh_result result = sh_run(heap, write_number, &next, i % 4 == 3, 1);
        left = granted;
        granted = UINT64_MAX;
        CHECK(result == SH_OK || (refused && result == SH_NO_MEMORY));
        if (result == SH_OK) number = next;
        CHECK(found(heap) == number);
    }
    CHECK(sh_force(heap, &commits) == SH_OK && commits == number);
    sh_close(heap);
    heap = open_heap();
    CHECK(found(heap) == number);
    sh_close(heap);
    return refused > 0;
}

static void any_allocation(bool one) {
    uint64_t n = 0;
    while (commits_with_one_refused(n, one) && !failed) n++;
    CHECK(n > 0);
}

static sh_heap *between; /* another thread forces this heap as soon as its lock is free, and then memory is refused */

int __real_pthread_mutex_unlock(pthread_mutex_t *lock);

int __wrap_pthread_mutex_unlock(pthread_mutex_t *lock) {
    sh_heap *heap = between;
    int result = __real_pthread_mutex_unlock(lock);
    between = NULL;
    if (heap) {
        sh_force(heap, NULL);
        granted = 0;
    }
    return result;
}

/* A durable commit that is answered SH_NO_MEMORY was not made, whatever another thread does meanwhile. */
static void commit_or_nothing(void) {
    sh_heap *heap = new_heap();
    only_one = false;
    for (uint64_t calls = 0, number = 0; calls < 140 && !failed; calls++) {
        uint64_t next = number + 1;
        unsigned fields;
        sh_transaction *t;
        CHECK(sh_reopen(heap) == SH_OK && sh_begin(heap, &t) == SH_OK && write_number(t, &next) == SH_OK);
        for (uint64_t i = 0; i < calls; i++) CHECK(sh_len(t, (sh_object){0}, &fields) == SH_OK);
        between = heap;
        sh_result result = sh_commit(t, true);
        granted = UINT64_MAX;
        CHECK(result == SH_OK || result == SH_NO_MEMORY);
        if (result == SH_OK) number = next;
        CHECK(found(heap) == number);
    }
    sh_close(heap);
}

/* The same short batch again and again, whose last event is this one: the heap takes no more memory, and counts all commits. */
static void batches(uint64_t last, uint64_t commits) {
    sh_heap *heap = new_heap();
    sh_event events[] = {{SH_EVENT_BEGIN, 7, 0, 0, 0}, {SH_EVENT_ROOT, 7, 0, 0, 0}, {SH_EVENT_PUT, 7, 0, 0, 1}, {SH_EVENT_SEAL, 7, 0, 0, 0},
                         {last, 7, 0, 0, 0}};
    size_t count = sizeof events / sizeof *events;
    sh_reply replies[5];
    uint64_t first = 0, now = 0;
    if (last != SH_EVENT_FORCE) events[--count - 1].op = last;
    for (int i = 0; i < BATCHES && !failed; i++) {
        CHECK(sh_batch(heap, events, count, false, replies, NULL) == SH_OK);
        if (last == SH_EVENT_FORCE) CHECK(replies[4].code == SH_REPLY_DURABLE && replies[4].numbers[0] == (uint64_t)i + 1);
        if (i == 100) first = held;
    }
    CHECK(held < first + 65536);
    CHECK(sh_force(heap, &now) == SH_OK && now == commits);
    sh_close(heap);
}

int main(int count, char **words) {
    if (count != 2) return 2;
    folder = words[1];
    asked_reopening();
    any_allocation(true);
    any_allocation(false);
    commit_or_nothing();
    if (!failed) printf("memory was refused: what was said is there, and the heap goes on\n");
    batches(SH_EVENT_FORCE, BATCHES);
    batches(SH_EVENT_SEAL, BATCHES);
    batches(SH_EVENT_ABORT, 0);
    if (!failed) printf("batches shorten the history too\n");
    return failed;
}
