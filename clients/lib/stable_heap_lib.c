#define _GNU_SOURCE
#include "stable_heap.h"

#include "heap_c.h"

#include <errno.h>
#include <fcntl.h>
#include <inttypes.h>
#include <limits.h>
#include <pthread.h>
#include <signal.h>
#include <stdio.h>
#include <stdlib.h>
#include <string.h>
#include <sys/file.h>
#include <sys/stat.h>
#include <unistd.h>

#include "heap_runs.h"

enum { PIECE = 65536, SUPER = 64 };

/* After so many events the heap is opened again, which frees what its history takes. */
#ifndef MOST_EVENTS
#define MOST_EVENTS UINT64_C(2000000)
#endif

struct sh_heap {
    void *room;      /* where the heap lies */
    int file;        /* what it tells is made there */
    uint64_t drained; /* how many of the told calls have been made */
    pid_t owner;
    bool closed;     /* memory was refused for opening it again, which comes before the next event */
    uint64_t before; /* the commits that were durable when it was opened again by itself */
    pthread_mutex_t lock;
    sh_error error;
    sh_transaction transactions[SESSIONS];
};

static const struct {
    const char *word;
    sh_result result;
} refusals[] = {
    {"failed", SH_DISK_FAULT},
    {"alreadyactive", SH_PROTOCOL},
    {"notactive", SH_PROTOCOL},
    {"numbersspent", SH_NUMBERS_SPENT},
    {"badhandle", SH_BAD_HANDLE},
    {"range", SH_RANGE},
    {"badfield", SH_BAD_FIELD},
    {"nosuchpage", SH_NO_SUCH_PAGE},
    {"busy", SH_BUSY},
    {"volatilefull", SH_VOLATILE_FULL},
    {"exhausted", SH_EXHAUSTED},
    {"logfull", SH_LOG_FULL},
    {"diskfault", SH_DISK_FAULT},
    {"stopped", SH_DISK_FAULT},
};

static uint64_t call(sh_heap *heap, uint64_t op, uint64_t a, uint64_t b, uint64_t c) {
    return heap_c_call(heap->room, op, 0, a, b, c);
}

static uint64_t last(sh_heap *heap, uint64_t number) {
    return call(heap, HC_LAST, number, 0, 0);
}

/* The number that is asked for, or 0 where there is none. */
static uint64_t number_of(sh_heap *heap, uint64_t op, uint64_t a, uint64_t b) {
    return call(heap, op, a, b, 0) == HC_NUMBER ? last(heap, 0) : 0;
}

/* ---- the file */

static bool write_whole(int file, const unsigned char *bytes, size_t length, off_t at) {
    while (length > 0) {
        ssize_t now = pwrite(file, bytes, length, at);
        if (now < 0 && errno == EINTR) continue;
        if (now <= 0) return false;
        bytes += now;
        length -= (size_t)now;
        at += now;
    }
    return true;
}

/* The bytes of a told write from one on, at most a piece of them. */
static void copy_told(sh_heap *heap, uint64_t item, uint64_t from, unsigned char *piece, size_t length) {
    for (size_t done = 0; done < length; done += 8) {
        uint64_t word = number_of(heap, HC_BYTES, item, from + done);
        for (size_t i = 0; i < 8 && done + i < length; i++) piece[done + i] = (unsigned char)(word >> (8 * i));
    }
}

static bool make_write(sh_heap *heap, uint64_t item) {
    static const size_t most = 4096;
    unsigned char piece[4096];
    uint64_t at = last(heap, 0), length = last(heap, 1);
    for (uint64_t done = 0; done < length; done += most) {
        size_t now = length - done < most ? (size_t)(length - done) : most;
        copy_told(heap, item, done, piece, now);
        if (!write_whole(heap->file, piece, now, (off_t)(at + done))) return false;
    }
    return true;
}

static bool make_item(sh_heap *heap, uint64_t item) {
    uint64_t kind = call(heap, HC_ITEM, item, 0, 0);
    if (kind == HC_WRITE) return make_write(heap, item);
    return kind == HC_SYNC && fdatasync(heap->file) == 0;
}

/* Makes what was told, in its order. After a call that failed none is made any more, and the heap can only be closed. */
static bool drain(sh_heap *heap) {
    uint64_t told = number_of(heap, HC_TOLD, 0, 0);
    if (told <= heap->drained) return true;
    for (; heap->drained < told; heap->drained++) {
        if (!make_item(heap, heap->drained)) {
            call(heap, HC_FAIL, 0, 0, 0);
            return false;
        }
    }
    if (call(heap, HC_DONE, 0, 0, 0) == HC_OK) heap->drained = 0;
    return true;
}

static bool hand_in(sh_heap *heap, const unsigned char *bytes, size_t length) {
    for (size_t done = 0; done < length; done += 8) {
        uint64_t word = 0;
        size_t count = length - done < 8 ? length - done : 8;
        for (size_t i = 0; i < count; i++) word |= (uint64_t)bytes[done + i] << (8 * i);
        if (call(heap, HC_MORE, word, count, 0) != HC_OK) return false;
    }
    return true;
}

static bool is_zero(const unsigned char *bytes, size_t length) {
    return length == 0 || (bytes[0] == 0 && memcmp(bytes, bytes + 1, length - 1) == 0);
}

static uint32_t number_at(const unsigned char *bytes) {
    return (uint32_t)bytes[0] | (uint32_t)bytes[1] << 8 | (uint32_t)bytes[2] << 16 | (uint32_t)bytes[3] << 24;
}

static uint64_t plan_size(uint64_t pages, uint64_t log_bytes) {
    return SUPER + log_bytes + 2112 * pages;
}

/* The bytes that the heap takes of which these are the first ones, or no more than these where they are no heap's. */
static uint64_t heap_size(const unsigned char *super) {
    uint64_t pages = number_at(super + 12), log_bytes = number_at(super + 16);
    bool is_heap = memcmp(super + 1, "stbheap", 7) == 0 && pages <= 16384 && log_bytes <= 1073741824;
    return is_heap ? plan_size(pages, log_bytes) : SUPER;
}

/* Reads a piece of the file. What lies past its end is zeros. */
static bool read_piece(int file, unsigned char *piece, size_t length, off_t at) {
    size_t done = 0;
    while (done < length) {
        ssize_t now = pread(file, piece + done, length - done, at + (off_t)done);
        if (now < 0 && errno == EINTR) continue;
        if (now < 0) return false;
        if (now == 0) break;
        done += (size_t)now;
    }
    memset(piece + done, 0, length - done);
    return true;
}

static sh_result read_image(sh_heap *heap) {
    static const char *unread = "the file can't be read";
    unsigned char *piece = malloc(PIECE);
    sh_result result = piece ? SH_OK : fail(&heap->error, SH_NO_MEMORY, "there is no memory");
    if (result == SH_OK && !read_piece(heap->file, piece, SUPER, 0)) result = fail(&heap->error, SH_DISK_FAULT, unread);
    uint64_t size = result == SH_OK ? heap_size(piece) : 0;
    for (uint64_t at = 0; at < size && result == SH_OK; at += PIECE) {
        size_t now = size - at < PIECE ? (size_t)(size - at) : PIECE;
        if (!read_piece(heap->file, piece, now, (off_t)at)) {
            result = fail(&heap->error, SH_DISK_FAULT, unread);
        } else {
            bool taken = is_zero(piece, now) ? call(heap, HC_ZEROS, now, 0, 0) == HC_OK : hand_in(heap, piece, now);
            if (!taken) result = fail(&heap->error, SH_NO_MEMORY, "there is no memory");
        }
    }
    free(piece);
    return result;
}

static sh_result make_heap(sh_heap *heap, unsigned pages, unsigned log_bytes) {
    if (call(heap, HC_ZEROS, plan_size(pages, log_bytes), 0, 0) != HC_OK) return fail(&heap->error, SH_NO_MEMORY, "there is no memory");
    uint64_t answer = call(heap, HC_FORMAT, pages, log_bytes, 1);
    if (answer == HC_NO_MEMORY) return fail(&heap->error, SH_NO_MEMORY, "there is no memory");
    if (answer == HC_PAST_LIMITS) return fail(&heap->error, SH_ENDED, "a heap can't have so many pages, or such a log");
    if (answer != HC_OK || !drain(heap)) return fail(&heap->error, SH_DISK_FAULT, "the file can't be written");
    return SH_OK;
}

static sh_result opening_error(sh_heap *heap, uint64_t answer) {
    static const char *const places[] = {"batch", "record", "reserve", "page", "address"};
    char text[96];
    switch (answer) {
        case HC_NO_MEMORY: return fail(&heap->error, SH_NO_MEMORY, "there is no memory");
        case HC_NOT_HEAP: return fail(&heap->error, SH_NOT_A_HEAP, "the file holds no heap");
        case HC_DAMAGED:
            snprintf(text, sizeof text, "the heap is damaged: %s %" PRIu64, places[last(heap, 0) % 5], last(heap, 1));
            return fail(&heap->error, SH_DAMAGED, text);
        default: return fail(&heap->error, SH_DISK_FAULT, "the heap can't be opened");
    }
}

static sh_result open_heap(sh_heap *heap) {
    uint64_t answer = call(heap, HC_OPEN, 0, 0, 0);
    heap->closed = answer != HC_OK;
    sh_result result = answer == HC_OK ? SH_OK : opening_error(heap, answer);
    if (!drain(heap)) return fail(&heap->error, SH_DISK_FAULT, "the file can't be written");
    return result;
}

/* A descriptor past those of the standard streams. */
static int past_streams(int file) {
    if (file > 2 || file < 0) return file;
    int other = fcntl(file, F_DUPFD_CLOEXEC, 3);
    close(file);
    return other;
}

static bool sync_folder(const char *folder) {
    int file = open(folder, O_RDONLY | O_DIRECTORY | O_CLOEXEC);
    bool synced = file >= 0 && fsync(file) == 0;
    if (file >= 0) close(file);
    return synced;
}

/* Opens the file or creates it, and holds it for this program alone. What it then reads is on the disk. */
static sh_result take_file(sh_heap *heap, const char *folder, off_t *size) {
    char path[PATH_MAX];
    struct stat found;
    snprintf(path, sizeof path, "%s/heap.img", folder);
    /* (what is no regular file is not even opened) */
    if (stat(path, &found) == 0 && !S_ISREG(found.st_mode)) return fail(&heap->error, SH_DISK_FAULT, "heap.img is no regular file");
    heap->file = past_streams(open(path, O_RDWR | O_CREAT | O_CLOEXEC, 0666));
    if (heap->file < 0) return fail(&heap->error, SH_DISK_FAULT, "heap.img can't be opened");
    if (flock(heap->file, LOCK_EX | LOCK_NB) != 0) {
        bool held = errno == EWOULDBLOCK;
        return fail(&heap->error, held ? SH_IN_USE : SH_DISK_FAULT, held ? "another program has the heap open" : "heap.img can't be locked");
    }
    if (fstat(heap->file, &found) != 0 || !S_ISREG(found.st_mode)) return fail(&heap->error, SH_DISK_FAULT, "heap.img is no regular file");
    if (fdatasync(heap->file) != 0 || !sync_folder(folder)) return fail(&heap->error, SH_DISK_FAULT, "heap.img can't be synced");
    *size = found.st_size;
    return SH_OK;
}

/* ---- events */

static bool is_refusal(uint64_t code) {
    return code >= SH_REPLY_FAILED && code < SH_REFUSALS_END;
}

/* Notes why an event was not done. */
static sh_result refused(sh_heap *heap, const sh_reply *reply) {
    size_t which = (size_t)(reply->code - SH_REPLY_FAILED);
    char text[128];
    snprintf(text, sizeof text, "%s %" PRIu64 " %" PRIu64 " %" PRIu64, refusals[which].word, reply->numbers[0], reply->numbers[1], reply->numbers[2]);
    fail(&heap->error, refusals[which].result, text);
    memcpy(heap->error.numbers, reply->numbers, sizeof heap->error.numbers);
    return refusals[which].result;
}

/* Says of a reply whether the event was done. */
static sh_result judge(sh_heap *heap, const sh_reply *reply) {
    if (reply->code >= SH_REPLY_BEGUN && reply->code < SH_REPLIES_END) return SH_OK;
    if (is_refusal(reply->code)) return refused(heap, reply);
    switch (reply->code) {
        case HC_NO_MEMORY: return fail(&heap->error, SH_NO_MEMORY, "there is no memory");
        case HC_BROKEN: return fail(&heap->error, SH_DISK_FAULT, "a call on the file has failed");
        default: return fail(&heap->error, SH_PROTOCOL, "no event of a session");
    }
}

/* Makes an event and what it tells, and only then answers. The heap is locked. */
static sh_result step(sh_heap *heap, const sh_event *event, sh_reply *reply) {
    reply->code = heap_c_call(heap->room, event->op, event->s, event->a, event->b, event->c);
    for (unsigned i = 0; i < 3; i++) reply->numbers[i] = last(heap, i);
    if (!drain(heap)) {
        memset(reply, 0, sizeof *reply);
        reply->code = SH_REPLY_DISK_FAULT;
        return fail(&heap->error, SH_DISK_FAULT, "a call on the file has failed");
    }
    if (reply->code == SH_REPLY_DURABLE) reply->numbers[0] += heap->before;
    return judge(heap, reply);
}

/* Closes the heap, of which so many commits are durable and nothing else is under way, and opens it again. */
static sh_result open_again(sh_heap *heap, uint64_t durable) {
    if (call(heap, HC_CLOSE, 0, 0, 0) == HC_OK) {
        heap->closed = true;
        heap->before = durable;
    }
    return open_heap(heap);
}

static bool is_idle(sh_heap *heap) {
    return number_of(heap, HC_FIGURE, HC_ACTIVE, 0) == 0;
}

/* Opens the heap again where its history has grown long and no transaction is active. If it can't be done now, a later event does it. */
static void shorten_history(sh_heap *heap) {
    if (number_of(heap, HC_FIGURE, HC_HISTORY, 0) < MOST_EVENTS || !is_idle(heap)) return;
    sh_event force = {SH_EVENT_FORCE, 0, 0, 0, 0};
    sh_error error = heap->error;
    sh_reply reply;
    if (step(heap, &force, &reply) == SH_OK) open_again(heap, reply.numbers[0]);
    heap->error = error;
}

/* Makes an event, for which the heap is first opened where it was left closed. The heap is locked. */
static sh_result make_event(sh_heap *heap, const sh_event *event, sh_reply *reply) {
    memset(reply, 0, sizeof *reply);
    if (event->op < SH_EVENT_BEGIN) return fail(&heap->error, SH_PROTOCOL, "no event");
    sh_result result = heap->closed ? open_heap(heap) : SH_OK;
    if (result == SH_OK) return step(heap, event, reply);
    reply->code = result == SH_NO_MEMORY ? HC_NO_MEMORY : HC_BROKEN;
    return result;
}

/* Makes an event, and shortens the history where it may have left no transaction active. */
static sh_result make_and_shorten(sh_heap *heap, const sh_event *event, sh_reply *reply) {
    sh_result result = make_event(heap, event, reply);
    if (result == SH_OK && event->op >= SH_EVENT_SEAL) shorten_history(heap);
    return result;
}

/* Takes the heap's lock. A forked child has no heap, and the lock may be one of a thread that it has not. */
static sh_result enter(sh_heap *heap) {
    if (getpid() != heap->owner) return fail(&heap->error, SH_PROTOCOL, "a forked child has no heap");
    pthread_mutex_lock(&heap->lock);
    return SH_OK;
}

/* Gives the heap's lock back, and the result. */
static sh_result leave(sh_heap *heap, sh_result result) {
    pthread_mutex_unlock(&heap->lock);
    return result;
}

static sh_result locked_event(sh_heap *heap, const sh_event *event, sh_reply *reply) {
    SH_TRY(enter(heap));
    return leave(heap, make_and_shorten(heap, event, reply));
}

static sh_event event_in(const sh_transaction *transaction, uint64_t op, uint64_t a, uint64_t b, uint64_t c) {
    return (sh_event){op, (uint64_t)(transaction - transaction->heap->transactions) + 1, a, b, c};
}

/* Asks in the transaction's session, and notes the first call of it that was not done. */
static sh_result ask_in(sh_transaction *transaction, sh_reply *reply, uint64_t op, uint64_t a, uint64_t b, uint64_t c) {
    sh_heap *heap = transaction->heap;
    sh_event event = event_in(transaction, op, a, b, c);
    SH_TRY(enter(heap));
    sh_result result = make_event(heap, &event, reply);
    if (result != SH_OK && transaction->refusal.result == SH_OK) transaction->refusal = heap->error;
    return leave(heap, result);
}

sh_result sh_batch(sh_heap *heap, const sh_event *events, size_t count, bool go_on, sh_reply *replies, size_t *made) {
    sh_result first = SH_OK;
    sh_error error = {0};
    size_t done = 0;
    if (made) *made = 0;
    SH_TRY(enter(heap));
    while (done < count && (first == SH_OK || go_on)) {
        /* (a force comes right behind what it forces: then it needs no memory) */
        bool forced_next = done + 1 < count && events[done + 1].op == SH_EVENT_FORCE;
        sh_result result = (forced_next ? make_event : make_and_shorten)(heap, &events[done], &replies[done]);
        done++;
        if (result != SH_OK && first == SH_OK) {
            first = result;
            error = heap->error;
        }
    }
    if (first != SH_OK) heap->error = error;
    if (made) *made = done;
    return leave(heap, first);
}

/* ---- the heap */

static void free_heap(sh_heap *heap) {
    if (heap->file >= 0) close(heap->file);
    heap_c_close(heap->room);
    free(heap->room);
    pthread_mutex_destroy(&heap->lock);
    free(heap);
}

static sh_heap *new_heap(void) {
    sh_heap *heap = calloc(1, sizeof *heap);
    size_t size = (heap_c_size() + 15) / 16 * 16;
    void *room = heap ? aligned_alloc(16, size) : NULL;
    if (!room) {
        free(heap);
        return NULL;
    }
    heap->room = room;
    heap->file = -1;
    heap->owner = getpid();
    pthread_mutex_init(&heap->lock, NULL);
    heap_c_open(room);
    return heap;
}

/* The exit status with which the heap's process would have ended. */
static int status_of(sh_result result) {
    switch (result) {
        case SH_NO_MEMORY: return 1;
        case SH_DISK_FAULT: return 6;
        case SH_NOT_A_HEAP: return 7;
        case SH_DAMAGED: return 8;
        case SH_IN_USE: return 10;
        default: return 2;
    }
}

/* A library that was made with QUICK=1 says so, once. */
static void say_quick(void) {
#ifdef NOTHING_IS_PROVED
    static volatile sig_atomic_t said;
    if (!said) fputs("stable_heap: QUICK: NOTHING IS PROVED of this library\n", stderr);
    said = 1;
#endif
}

sh_heap *sh_open_here(const char *folder, unsigned pages, unsigned log_bytes, sh_error *error) {
    off_t size = 0;
    say_quick();
    sh_heap *heap = new_heap();
    if (!heap) {
        fail(error, SH_NO_MEMORY, "there is no memory");
        return NULL;
    }
    sh_result result = take_file(heap, folder, &size);
    if (result == SH_OK) result = size == 0 ? make_heap(heap, pages, log_bytes) : read_image(heap);
    if (result == SH_OK) result = open_heap(heap);
    if (result == SH_OK) return heap;
    *error = heap->error;
    error->status = status_of(result);
    free_heap(heap);
    return NULL;
}

sh_heap *sh_open(const char *folder, const char *const *command, unsigned pages, unsigned log_bytes, sh_error *error) {
    (void)command;
    return sh_open_here(folder, pages, log_bytes, error);
}

/* Aborts all transactions, and forces what was sealed. */
static void end_all(sh_heap *heap) {
    sh_reply reply;
    /* (a session may have got its transaction by a batch; one that has none is refused, which changes nothing) */
    for (uint64_t session = 1; session <= SESSIONS; session++) {
        sh_event abort = {SH_EVENT_ABORT, session, 0, 0, 0};
        step(heap, &abort, &reply);
    }
    sh_event force = {SH_EVENT_FORCE, 0, 0, 0, 0};
    step(heap, &force, &reply);
}

void sh_close(sh_heap *heap) {
    if (enter(heap) == SH_OK) {
        /* (one that was closed has nothing under way) */
        if (!heap->closed) end_all(heap);
        leave(heap, SH_OK);
    }
    free_heap(heap);
}

const sh_error *sh_last_error(const sh_heap *heap) {
    return &heap->error;
}

sh_result sh_force(sh_heap *heap, uint64_t *commits) {
    sh_reply reply;
    sh_event event = {SH_EVENT_FORCE, 0, 0, 0, 0};
    sh_result result = locked_event(heap, &event, &reply);
    if (result == SH_OK && commits) *commits = reply.numbers[0];
    return result;
}

sh_result sh_flush(sh_heap *heap, unsigned page) {
    sh_reply reply;
    sh_event event = {SH_EVENT_FLUSH, 0, page, 0, 0};
    return locked_event(heap, &event, &reply);
}

sh_result sh_flip(sh_heap *heap) {
    sh_reply reply;
    sh_event event = {SH_EVENT_FLIP, 0, 0, 0, 0};
    return locked_event(heap, &event, &reply);
}

sh_result sh_scan(sh_heap *heap, bool *more) {
    sh_reply reply;
    sh_event event = {SH_EVENT_SCAN, 0, 0, 0, 0};
    sh_result result = locked_event(heap, &event, &reply);
    if (result == SH_OK && more) *more = reply.code == SH_REPLY_SCANNED;
    return result;
}

/* Forces, closes the heap and opens it; one that memory left closed is only opened. */
static sh_result reopen(sh_heap *heap) {
    sh_reply reply;
    sh_event force = {SH_EVENT_FORCE, 0, 0, 0, 0};
    if (heap->closed) return open_heap(heap);
    SH_TRY(step(heap, &force, &reply));
    return is_idle(heap) ? open_again(heap, reply.numbers[0]) : fail(&heap->error, SH_UNFINISHED, "unfinished");
}

sh_result sh_reopen(sh_heap *heap) {
    SH_TRY(enter(heap));
    sh_result result = reopen(heap);
    if (result == SH_OK) heap->before = 0;
    return leave(heap, result);
}

/* ---- transactions */

static sh_result begin_in(sh_heap *heap, sh_transaction *free_one) {
    sh_reply reply;
    free_one->heap = heap;
    sh_event event = event_in(free_one, SH_EVENT_BEGIN, 0, 0, 0);
    SH_TRY(make_event(heap, &event, &reply));
    memset(free_one, 0, sizeof *free_one);
    free_one->heap = heap;
    free_one->number = reply.numbers[0];
    free_one->active = true;
    return SH_OK;
}

sh_result sh_begin(sh_heap *heap, sh_transaction **transaction) {
    sh_transaction *free_one = heap->transactions, *end = free_one + SESSIONS;
    SH_TRY(enter(heap));
    while (free_one < end && free_one->active) free_one++;
    sh_result result = free_one < end ? begin_in(heap, free_one) : fail(&heap->error, SH_OUT_OF_SESSIONS, "32 transactions are active");
    if (result == SH_OK) *transaction = free_one;
    return leave(heap, result);
}

/* The last error; in a forked child, whose heap nobody else has, without the lock. */
static sh_error error_of(sh_heap *heap) {
    bool locked = enter(heap) == SH_OK;
    sh_error error = heap->error;
    if (locked) leave(heap, SH_OK);
    return error;
}

static void set_error(sh_heap *heap, const sh_error *error) {
    if (enter(heap) != SH_OK) return;
    heap->error = *error;
    leave(heap, SH_OK);
}

/* Aborts the transaction, whose place is free then for another one. */
static sh_result abort_in(sh_transaction *transaction) {
    sh_event event = event_in(transaction, SH_EVENT_ABORT, 0, 0, 0);
    sh_reply reply;
    transaction->active = false;
    return make_and_shorten(transaction->heap, &event, &reply);
}

sh_result sh_abort(sh_transaction *transaction) {
    sh_heap *heap = transaction->heap;
    SH_TRY(enter(heap));
    return leave(heap, abort_in(transaction));
}

/* Seals the transaction, unless a call of it was refused: a refusal aborts it. */
static sh_result seal(sh_transaction *transaction) {
    sh_heap *heap = transaction->heap;
    sh_event event = event_in(transaction, SH_EVENT_SEAL, 0, 0, 0);
    sh_reply reply;
    sh_error refusal = transaction->refusal;
    if (refusal.result == SH_OK && make_event(heap, &event, &reply) != SH_OK) refusal = heap->error;
    if (refusal.result == SH_OK) {
        transaction->active = false;
        return SH_OK;
    }
    abort_in(transaction);
    heap->error = refusal;
    return refusal.result;
}

/* Seals and forces with nothing in between: the force of what was sealed just now needs no memory, so SH_NO_MEMORY says that nothing was sealed. */
sh_result sh_commit(sh_transaction *transaction, bool durable) {
    sh_heap *heap = transaction->heap;
    sh_event force = {SH_EVENT_FORCE, 0, 0, 0, 0};
    sh_reply reply;
    SH_TRY(enter(heap));
    sh_result result = seal(transaction);
    if (result == SH_OK && durable) result = make_event(heap, &force, &reply);
    if (result == SH_OK) shorten_history(heap);
    return leave(heap, result);
}

uint64_t sh_number(const sh_transaction *transaction) {
    return transaction->number;
}

/* ---- objects */

static sh_result take_handle(sh_transaction *transaction, sh_object *object) {
    for (int handle = 0; handle < HANDLES; handle++) {
        if (!transaction->taken[handle]) {
            transaction->taken[handle] = true;
            object->handle = handle;
            return SH_OK;
        }
    }
    /* (the heap refuses each call that names this one) */
    object->handle = HANDLES;
    sh_error error;
    fail(&error, SH_OUT_OF_HANDLES, "the transaction holds 64 objects");
    set_error(transaction->heap, &error);
    if (transaction->refusal.result == SH_OK) transaction->refusal = error;
    return SH_OUT_OF_HANDLES;
}

static uint64_t held(sh_object object) {
    return (uint64_t)object.handle;
}

sh_result sh_root(sh_transaction *transaction, sh_object *root) {
    sh_reply reply;
    sh_result result = take_handle(transaction, root);
    return result == SH_OK ? ask_in(transaction, &reply, SH_EVENT_ROOT, held(*root), 0, 0) : result;
}

sh_result sh_new(sh_transaction *transaction, unsigned fields, sh_object *made) {
    sh_reply reply;
    sh_result result = take_handle(transaction, made);
    return result == SH_OK ? ask_in(transaction, &reply, SH_EVENT_NEW, held(*made), fields, 0) : result;
}

sh_result sh_get(sh_transaction *transaction, sh_object object, unsigned field, sh_value *value) {
    sh_reply reply;
    memset(value, 0, sizeof *value);
    sh_result result = take_handle(transaction, &value->object);
    if (result != SH_OK) return result;
    result = ask_in(transaction, &reply, SH_EVENT_GET, held(object), field, held(value->object));
    if (result == SH_OK && reply.code == SH_REPLY_REF) {
        value->kind = SH_OBJECT;
        return SH_OK;
    }
    transaction->taken[value->object.handle] = false;
    if (result == SH_OK && reply.code == SH_REPLY_INT) {
        value->kind = SH_NUMBER;
        value->number = reply.numbers[0];
    }
    return result;
}

sh_result sh_put(sh_transaction *transaction, sh_object object, unsigned field, uint64_t number) {
    sh_reply reply;
    return ask_in(transaction, &reply, SH_EVENT_PUT, held(object), field, number);
}

sh_result sh_clear(sh_transaction *transaction, sh_object object, unsigned field) {
    sh_reply reply;
    return ask_in(transaction, &reply, SH_EVENT_CLEAR, held(object), field, 0);
}

sh_result sh_link(sh_transaction *transaction, sh_object object, unsigned field, sh_object referred) {
    sh_reply reply;
    return ask_in(transaction, &reply, SH_EVENT_LINK, held(object), field, held(referred));
}

sh_result sh_len(sh_transaction *transaction, sh_object object, unsigned *fields) {
    sh_reply reply;
    sh_result result = ask_in(transaction, &reply, SH_EVENT_LEN, held(object), 0, 0);
    if (result == SH_OK) *fields = (unsigned)reply.numbers[0];
    return result;
}

sh_result sh_same(sh_transaction *transaction, sh_object object, sh_object other, bool *same) {
    sh_reply reply;
    sh_result result = ask_in(transaction, &reply, SH_EVENT_SAME, held(object), held(other), 0);
    if (result == SH_OK) *same = reply.code == SH_REPLY_YES;
    return result;
}

sh_result sh_drop(sh_transaction *transaction, sh_object object) {
    sh_reply reply;
    sh_result result = ask_in(transaction, &reply, SH_EVENT_DROP, held(object), 0, 0);
    if (result == SH_OK) transaction->taken[object.handle] = false;
    return result;
}
