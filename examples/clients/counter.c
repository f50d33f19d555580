/* Counts up in field 0 of the root, and says each number once its commit is durable.
 *
 *     counter FOLDER COUNT LAUNCHER [OPTION]..
 *
 * First it says what it found. Where a call is not done it says its result, and that of one more commit. */
#include "stable_heap.h"

#include <inttypes.h>
#include <stdio.h>
#include <stdlib.h>

static sh_result read_number(sh_transaction *t, void *context) {
    uint64_t *number = context;
    sh_object root;
    sh_value value;
    SH_TRY(sh_root(t, &root));
    SH_TRY(sh_get(t, root, 0, &value));
    *number = value.number;
    return SH_OK;
}

static sh_result write_number(sh_transaction *t, void *context) {
    sh_object root;
    SH_TRY(sh_root(t, &root));
    return sh_put(t, root, 0, *(uint64_t *)context);
}

int main(int count, char **words) {
    sh_error error;
    uint64_t number = 0;
    if (count < 4) return 2;
    sh_heap *heap = sh_open(words[1], (const char *const *)words + 3, 1, 1048576, &error);
    if (!heap) {
        printf("closed %d\n", error.result);
        return 1;
    }
    sh_result result = sh_run(heap, read_number, &number, false, 1);
    if (result == SH_OK) printf("found %" PRIu64 "\n", number);
    fflush(stdout);
    for (uint64_t last = number + strtoull(words[2], NULL, 10); result == SH_OK && number < last;) {
        number++;
        result = sh_run(heap, write_number, &number, true, 1);
        if (result == SH_OK) printf("%" PRIu64 "\n", number);
        fflush(stdout);
    }
    if (result != SH_OK) printf("refused %d, and then %d\n", result, sh_run(heap, write_number, &number, true, 1));
    sh_close(heap);
    return result != SH_OK;
}
