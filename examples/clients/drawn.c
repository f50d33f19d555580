/* Makes drawn events on a new heap, and prints each with its answer: through the pipe and through the library the same ones.
 *
 *     drawn FOLDER SEED COUNT BATCH LAUNCHER [OPTION]..
 *
 * Each BATCH of them is made at once. */
#include "stable_heap.h"

#include <inttypes.h>
#include <stdio.h>
#include <stdlib.h>

enum { MOST = 4096 };

static uint64_t state;

static uint64_t draw(uint64_t below) {
    state = state * UINT64_C(6364136223846793005) + UINT64_C(1442695040888963407);
    return (state >> 33) % below;
}

/* An event of one of three sessions, with few handles and fields, so that most are not refused; some numbers are past their limits. */
static sh_event drawn(void) {
    static const unsigned char weights[] = {16, 14, 8, 14, 3, 12, 2, 14, 3, 3, 3, 1, 3, 3, 2, 6};
    uint64_t left = draw(107), which = 0;
    while (left >= weights[which]) left -= weights[which++];
    sh_event event = {SH_EVENT_BEGIN + which, 1 + draw(3), draw(4), draw(4), draw(4)};
    if (event.op == SH_EVENT_PUT) event.c = draw(50) == 0 ? UINT64_C(1) << 62 : draw(1000000);
    if (event.op == SH_EVENT_FLUSH) event.a = draw(9);
    if (event.op == SH_EVENT_NEW && draw(40) == 0) event.b = 509 + draw(3);
    return event;
}

static int spent(const char *text) {
    fprintf(stderr, "drawn: %s\n", text);
    return 1;
}

int main(int count, char **words) {
    static sh_event events[MOST];
    static sh_reply replies[MOST];
    sh_error error;
    if (count < 6) return spent("FOLDER SEED COUNT BATCH LAUNCHER");
    size_t left = strtoul(words[3], NULL, 10), batch = strtoul(words[4], NULL, 10), made;
    state = strtoull(words[2], NULL, 10);
    if (batch < 1 || batch > MOST) return spent("no such batch");
    sh_heap *heap = sh_open(words[1], (const char *const *)words + 5, 4, 16384, &error);
    if (!heap) return spent(error.text);
    for (size_t some; left > 0; left -= some) {
        some = left < batch ? left : batch;
        for (size_t i = 0; i < some; i++) events[i] = drawn();
        sh_batch(heap, events, some, true, replies, &made);
        if (made < some) return spent(sh_last_error(heap)->text);
        for (size_t i = 0; i < some; i++) {
            const sh_event *e = &events[i];
            const sh_reply *r = &replies[i];
            printf("%" PRIu64 " %" PRIu64 " %" PRIu64 " %" PRIu64 " %" PRIu64, e->op, e->s, e->a, e->b, e->c);
            printf(" -> %" PRIu64 " %" PRIu64 " %" PRIu64 " %" PRIu64 "\n", r->code, r->numbers[0], r->numbers[1], r->numbers[2]);
        }
    }
    sh_close(heap);
    return 0;
}
