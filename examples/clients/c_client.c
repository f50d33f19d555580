/* Tries clients/c/stable_heap.c.
 *
 *     c_client FOLDER LAUNCHER [OPTION]..
 *
 * FOLDER is an empty folder. It prints what went wrong, and its exit status is 1 then. */
#include "stable_heap.h"

#include <stdio.h>
#include <string.h>

static int failed = 0;

#define CHECK(claim)                                                        \
    do {                                                                    \
        if (!(claim)) {                                                     \
            fprintf(stderr, "%s:%d: not so: %s\n", __FILE__, __LINE__, #claim); \
            failed = 1;                                                     \
        }                                                                   \
    } while (0)

static const char *folder;
static const char *const *command;

static sh_heap *open_heap(void) {
    sh_error error;
    sh_heap *heap = sh_open(folder, command, 1, 65536, &error);
    if (!heap) fprintf(stderr, "the heap can't be opened: %s\n", error.text);
    CHECK(heap != NULL);
    return heap;
}

static sh_transaction *begin(sh_heap *heap, sh_object *root) {
    sh_transaction *t = NULL;
    CHECK(sh_begin(heap, &t) == SH_OK);
    CHECK(sh_root(t, root) == SH_OK);
    return t;
}

/* The number in a field of the root, or UINT64_MAX where there is none. */
static uint64_t root_number(sh_heap *heap, unsigned field) {
    sh_object root;
    sh_value value;
    sh_transaction *t = begin(heap, &root);
    CHECK(sh_get(t, root, field, &value) == SH_OK);
    CHECK(sh_commit(t, false) == SH_OK);
    return value.kind == SH_NUMBER ? value.number : UINT64_MAX;
}

static void commit_outlives_the_process(void) {
    sh_object root, made;
    sh_value value;
    unsigned fields = 0;
    bool same = false;
    sh_heap *heap = open_heap();
    sh_transaction *t = begin(heap, &root);
    CHECK(sh_new(t, 2, &made) == SH_OK);
    CHECK(sh_put(t, made, 0, (UINT64_C(1) << 62) - 1) == SH_OK);
    CHECK(sh_link(t, made, 1, made) == SH_OK);
    CHECK(sh_link(t, root, 3, made) == SH_OK);
    CHECK(sh_commit(t, true) == SH_OK);
    sh_close(heap);
    heap = open_heap();
    t = begin(heap, &root);
    CHECK(sh_get(t, root, 3, &value) == SH_OK && value.kind == SH_OBJECT);
    made = value.object;
    CHECK(sh_len(t, made, &fields) == SH_OK && fields == 2);
    CHECK(sh_get(t, made, 0, &value) == SH_OK && value.number == (UINT64_C(1) << 62) - 1);
    CHECK(sh_get(t, made, 1, &value) == SH_OK && value.kind == SH_OBJECT);
    CHECK(sh_same(t, made, value.object, &same) == SH_OK && same);
    CHECK(sh_clear(t, root, 3) == SH_OK);
    CHECK(sh_get(t, root, 3, &value) == SH_OK && value.kind == SH_NULL);
    CHECK(sh_abort(t) == SH_OK);
    sh_close(heap);
}

static void refusal_is_not_committed_over(sh_heap *heap) {
    sh_object root;
    sh_transaction *t = begin(heap, &root);
    CHECK(sh_put(t, root, 0, 70) == SH_OK);
    CHECK(sh_put(t, root, 4, 30) == SH_BAD_FIELD);
    CHECK(sh_put(t, root, 1, 30) == SH_OK);
    CHECK(sh_commit(t, true) == SH_BAD_FIELD);
    CHECK(root_number(heap, 0) == UINT64_MAX);
    CHECK(root_number(heap, 1) == UINT64_MAX);
}

static void refusals_have_their_numbers(sh_heap *heap) {
    sh_object root, made;
    sh_transaction *t = begin(heap, &root);
    CHECK(sh_put(t, root, 0, UINT64_C(1) << 62) == SH_RANGE);
    CHECK(sh_new(t, 511, &made) == SH_RANGE);
    for (int i = 0; i < 8; i++) CHECK(sh_new(t, 510, &made) == SH_OK);
    CHECK(sh_new(t, 0, &made) == SH_VOLATILE_FULL);
    CHECK(sh_last_error(heap)->numbers[0] == 4096);
    CHECK(sh_abort(t) == SH_OK);
}

static void refused_seal_aborts(sh_heap *heap) {
    sh_object root, made;
    sh_transaction *t = begin(heap, &root);
    CHECK(sh_new(t, 60, &made) == SH_OK);
    CHECK(sh_link(t, root, 0, made) == SH_OK);
    CHECK(sh_commit(t, true) == SH_EXHAUSTED);
    CHECK(sh_last_error(heap)->numbers[0] == 62);
    CHECK(root_number(heap, 0) == UINT64_MAX);
}

static void busy_names_the_holder(sh_heap *heap) {
    sh_object root, other;
    sh_transaction *first = begin(heap, &root), *second = begin(heap, &other);
    CHECK(sh_put(first, root, 0, 7) == SH_OK);
    CHECK(sh_put(second, other, 1, 8) == SH_BUSY);
    CHECK(sh_last_error(heap)->numbers[0] == sh_number(first));
    CHECK(sh_commit(first, false) == SH_OK);
    CHECK(sh_commit(second, false) == SH_BUSY);
    CHECK(root_number(heap, 0) == 7);
    CHECK(root_number(heap, 1) == UINT64_MAX);
}

static void handles_run_out(sh_heap *heap) {
    sh_object root, made = {0};
    sh_transaction *t = begin(heap, &root);
    for (int i = 1; i < 64; i++) CHECK(sh_new(t, 0, &made) == SH_OK);
    CHECK(sh_new(t, 0, &made) == SH_OUT_OF_HANDLES);
    CHECK(sh_put(t, made, 0, 7) == SH_BAD_HANDLE);
    made.handle = 5;
    CHECK(sh_drop(t, made) == SH_OK);
    CHECK(sh_len(t, made, &(unsigned){0}) == SH_BAD_HANDLE);
    CHECK(sh_new(t, 0, &made) == SH_OK && made.handle == 5);
    CHECK(sh_commit(t, true) == SH_OUT_OF_HANDLES);
}

static void sessions_run_out(sh_heap *heap) {
    sh_transaction *all[32], *more;
    for (int i = 0; i < 32; i++) CHECK(sh_begin(heap, &all[i]) == SH_OK);
    CHECK(sh_begin(heap, &more) == SH_OUT_OF_SESSIONS);
    for (int i = 0; i < 32; i++) CHECK(sh_abort(all[i]) == SH_OK);
}

static void forced_later(sh_heap *heap) {
    uint64_t before = 0, after = 0;
    CHECK(sh_force(heap, &before) == SH_OK);
    root_number(heap, 0);
    root_number(heap, 0);
    CHECK(sh_force(heap, &after) == SH_OK && after == before + 2);
    CHECK(sh_flush(heap, 2) == SH_NO_SUCH_PAGE);
    CHECK(sh_flush(heap, 0) == SH_OK);
}

static void collected_beside_a_transaction(sh_heap *heap) {
    sh_object root;
    sh_transaction *t = begin(heap, &root);
    bool more = true;
    CHECK(sh_put(t, root, 3, 5) == SH_OK);
    CHECK(sh_flip(heap) == SH_OK && sh_flip(heap) == SH_OK);
    while (more) CHECK(sh_scan(heap, &more) == SH_OK);
    CHECK(sh_scan(heap, NULL) == SH_OK);
    CHECK(sh_commit(t, true) == SH_OK);
    CHECK(root_number(heap, 3) == 5);
}

static void opened_again(sh_heap *heap) {
    sh_object root;
    uint64_t commits = 1;
    sh_transaction *t = begin(heap, &root);
    CHECK(sh_put(t, root, 2, 9) == SH_OK);
    CHECK(sh_reopen(heap) == SH_UNFINISHED);
    CHECK(sh_commit(t, false) == SH_OK);
    CHECK(sh_reopen(heap) == SH_OK);
    CHECK(sh_force(heap, &commits) == SH_OK && commits == 0);
    CHECK(root_number(heap, 2) == 9);
}

static void heap_is_in_use(void) {
    sh_error error;
    CHECK(sh_open(folder, command, 1, 65536, &error) == NULL);
    CHECK(error.result == SH_IN_USE && error.status == 10);
}

static void what_is_no_heap_is_left_alone(void) {
    char path[4096], text[8] = "";
    sh_error error;
    snprintf(path, sizeof path, "%s/heap.img", folder);
    FILE *file = fopen(path, "w");
    fputs("a text", file);
    fclose(file);
    CHECK(sh_open(folder, command, 1, 65536, &error) == NULL);
    CHECK(error.result == SH_NOT_A_HEAP && error.status == 7);
    file = fopen(path, "r");
    CHECK(fgets(text, sizeof text, file) && strcmp(text, "a text") == 0);
    fclose(file);
}

int main(int count, char **words) {
    if (count < 3) return 2;
    folder = words[1];
    command = (const char *const *)words + 2;
    commit_outlives_the_process();
    sh_heap *heap = open_heap();
    refusal_is_not_committed_over(heap);
    refusals_have_their_numbers(heap);
    refused_seal_aborts(heap);
    busy_names_the_holder(heap);
    handles_run_out(heap);
    sessions_run_out(heap);
    forced_later(heap);
    collected_beside_a_transaction(heap);
    opened_again(heap);
    heap_is_in_use();
    sh_close(heap);
    what_is_no_heap_is_left_alone();
    return failed;
}
