#define _XOPEN_SOURCE 700
#include "stable_heap.h"

#include <errno.h>
#include <fcntl.h>
#include <inttypes.h>
#include <limits.h>
#include <stdarg.h>
#include <stdio.h>
#include <stdlib.h>
#include <string.h>
#include <sys/socket.h>
#include <sys/stat.h>
#include <sys/wait.h>
#include <unistd.h>

#include "heap_runs.h"

enum { LINE = 128, MOST_WORDS = 32 };

struct sh_heap {
    pid_t child;
    int line;
    char buffer[512];
    size_t filled;
    sh_error error;
    sh_transaction transactions[SESSIONS];
};

static const struct {
    const char *word;
    sh_result result;
} replies[] = {
    {"busy", SH_BUSY},
    {"logfull", SH_LOG_FULL},
    {"exhausted", SH_EXHAUSTED},
    {"volatilefull", SH_VOLATILE_FULL},
    {"range", SH_RANGE},
    {"badfield", SH_BAD_FIELD},
    {"badhandle", SH_BAD_HANDLE},
    {"nosuchpage", SH_NO_SUCH_PAGE},
    {"numbersspent", SH_NUMBERS_SPENT},
    {"unfinished", SH_UNFINISHED},
    {"notactive", SH_PROTOCOL},
    {"alreadyactive", SH_PROTOCOL},
    {"diskfault", SH_DISK_FAULT},
    {"stopped", SH_DISK_FAULT},
    {"failed", SH_DISK_FAULT},
};

static sh_error error_of(sh_heap *heap) {
    return heap->error;
}

static void set_error(sh_heap *heap, const sh_error *error) {
    heap->error = *error;
}

/* ---- the process */

static sh_result result_of(int status) {
    switch (status) {
        case 6: return SH_DISK_FAULT;
        case 7: return SH_NOT_A_HEAP;
        case 8: return SH_DAMAGED;
        case 10: return SH_IN_USE;
        default: return SH_ENDED;
    }
}

static sh_result status_error(sh_error *error, int status) {
    sh_result result = result_of(status);
    char text[64];
    snprintf(text, sizeof text, "the heap's process ended with status %d", status);
    fail(error, result, text);
    error->status = status;
    return result;
}

/* (a signal of the caller's may cut a wait short, and so a read and a write) */
static int wait_for(pid_t child) {
    int status = 0;
    while (waitpid(child, &status, 0) < 0) {
        if (errno != EINTR) return -1;
    }
    return WIFEXITED(status) ? WEXITSTATUS(status) : 128 + WTERMSIG(status);
}

/* Becomes the command with more words, in the folder. It doesn't return. */
static void become(const char *folder, const char *const *command, const char *const *more) {
    char path[PATH_MAX];
    const char *words[MOST_WORDS] = {0};
    int count = 0;
    for (; *command && count < MOST_WORDS / 2; command++) words[count++] = *command;
    for (; *more; more++) words[count++] = *more;
    if (strchr(words[0], '/') && realpath(words[0], path)) words[0] = path;
    /* (it changes none of the words, for all that its type says) */
    if (chdir(folder) == 0) execvp(words[0], (char *const *)(uintptr_t)words);
    _exit(127);
}

static sh_result make_heap(const char *folder, const char *const *command, unsigned pages, unsigned log_bytes, sh_error *error) {
    char page_word[16], log_word[16];
    snprintf(page_word, sizeof page_word, "%u", pages);
    snprintf(log_word, sizeof log_word, "%u", log_bytes);
    const char *more[] = {"format", page_word, log_word, "1", NULL};
    pid_t child = fork();
    if (child < 0) return fail(error, SH_ENDED, "no process can be started");
    if (child == 0) {
        int nothing = open("/dev/null", O_RDWR);
        dup2(nothing, 0);
        dup2(nothing, 1);
        become(folder, command, more);
    }
    int status = wait_for(child);
    return status == 0 ? SH_OK : status_error(error, status);
}

static bool has_file(const char *folder) {
    char path[PATH_MAX];
    struct stat found;
    snprintf(path, sizeof path, "%s/heap.img", folder);
    return stat(path, &found) == 0 && !(S_ISREG(found.st_mode) && found.st_size == 0);
}

/* A socket is the process's standard input and output: a write into a process that is gone is an error then, and no signal. */
static sh_result start(sh_heap *heap, const char *folder, const char *const *command) {
    const char *more[] = {"session", NULL};
    int ends[2];
    if (socketpair(AF_UNIX, SOCK_STREAM, 0, ends) != 0) return fail(&heap->error, SH_ENDED, "no socket can be made");
    fcntl(ends[0], F_SETFD, FD_CLOEXEC);
    heap->child = fork();
    if (heap->child == 0) {
        dup2(ends[1], 0);
        dup2(ends[1], 1);
        close(ends[1]);
        become(folder, command, more);
    }
    close(ends[1]);
    heap->line = ends[0];
    return heap->child < 0 ? fail(&heap->error, SH_ENDED, "no process can be started") : SH_OK;
}

static sh_result ended(sh_heap *heap) {
    if (heap->child <= 0) return fail(&heap->error, SH_ENDED, "the heap's process has ended");
    int status = wait_for(heap->child);
    heap->child = 0;
    return status_error(&heap->error, status);
}

/* ---- lines */

static bool send_line(sh_heap *heap, const char *line) {
    size_t length = strlen(line), sent = 0;
    while (sent < length) {
        ssize_t now = send(heap->line, line + sent, length - sent, MSG_NOSIGNAL);
        if (now < 0 && errno == EINTR) continue;
        if (now <= 0) return false;
        sent += (size_t)now;
    }
    return true;
}

/* The next line, without its newline. */
static bool read_line(sh_heap *heap, char *line, size_t room) {
    char *newline;
    while (!(newline = memchr(heap->buffer, '\n', heap->filled))) {
        ssize_t now = read(heap->line, heap->buffer + heap->filled, sizeof heap->buffer - heap->filled);
        if (now < 0 && errno == EINTR) continue;
        if (now <= 0) return false;
        heap->filled += (size_t)now;
    }
    size_t length = (size_t)(newline - heap->buffer);
    snprintf(line, room, "%.*s", (int)length, heap->buffer);
    heap->filled -= length + 1;
    memmove(heap->buffer, newline + 1, heap->filled);
    return true;
}

/* Says of a reply whether the call was done. */
static sh_result judge(sh_heap *heap, const char *answer, const char *reply) {
    char word[LINE];
    uint64_t *numbers = heap->error.numbers;
    if (sscanf(reply, "%127s", word) != 1) return fail(&heap->error, SH_PROTOCOL, answer);
    for (size_t i = 0; i < sizeof replies / sizeof *replies; i++) {
        if (strcmp(word, replies[i].word) != 0) continue;
        fail(&heap->error, replies[i].result, answer);
        sscanf(reply, "%*s %" SCNu64 " %" SCNu64 " %" SCNu64, numbers, numbers + 1, numbers + 2);
        return replies[i].result;
    }
    return SH_OK;
}

/* Sends the event, and gives what stands behind the arrow of its answer. */
static sh_result ask(sh_heap *heap, const char *event, char *reply) {
    char line[LINE], answer[2 * LINE];
    size_t length = strlen(event);
    snprintf(line, sizeof line, "%s\n", event);
    if (heap->child <= 0 || !send_line(heap, line) || !read_line(heap, answer, sizeof answer)) return ended(heap);
    if (strncmp(answer, event, length) != 0 || strncmp(answer + length, " -> ", 4) != 0) return fail(&heap->error, SH_PROTOCOL, answer);
    snprintf(reply, LINE, "%s", answer + length + 4);
    return judge(heap, answer, reply);
}

/* Notes the first call of the transaction that was not done. */
static void note_refusal(sh_transaction *transaction) {
    if (transaction->refusal.result == SH_OK) transaction->refusal = transaction->heap->error;
}

/* Asks in the transaction's session. */
static sh_result ask_in(sh_transaction *transaction, char *reply, const char *format, ...) {
    char event[LINE];
    int session = (int)(transaction - transaction->heap->transactions) + 1;
    int length = snprintf(event, sizeof event, "%d ", session);
    va_list words;
    va_start(words, format);
    vsnprintf(event + length, sizeof event - (size_t)length, format, words);
    va_end(words);
    sh_result result = ask(transaction->heap, event, reply);
    if (result != SH_OK) note_refusal(transaction);
    return result;
}

/* ---- the heap */

sh_heap *sh_open(const char *folder, const char *const *command, unsigned pages, unsigned log_bytes, sh_error *error) {
    if (!has_file(folder) && make_heap(folder, command, pages, log_bytes, error) != SH_OK) return NULL;
    sh_heap *heap = calloc(1, sizeof *heap);
    if (!heap) {
        fail(error, SH_ENDED, "there is no memory");
        return NULL;
    }
    heap->line = -1;
    /* The first answer says that the heap is open. */
    if (start(heap, folder, command) != SH_OK || sh_force(heap, NULL) != SH_OK) {
        *error = heap->error;
        sh_close(heap);
        return NULL;
    }
    return heap;
}

void sh_close(sh_heap *heap) {
    char rest[256];
    if (heap->line >= 0) {
        shutdown(heap->line, SHUT_WR);
        ssize_t now;
        do now = read(heap->line, rest, sizeof rest);
        while (now > 0 || (now < 0 && errno == EINTR));
        close(heap->line);
    }
    if (heap->child > 0) wait_for(heap->child);
    free(heap);
}

const sh_error *sh_last_error(const sh_heap *heap) {
    return &heap->error;
}

sh_result sh_force(sh_heap *heap, uint64_t *commits) {
    char reply[LINE];
    sh_result result = ask(heap, "force", reply);
    if (result == SH_OK && commits) sscanf(reply, "durable %" SCNu64, commits);
    return result;
}

sh_result sh_flush(sh_heap *heap, unsigned page) {
    char event[LINE], reply[LINE];
    snprintf(event, sizeof event, "flush %u", page);
    return ask(heap, event, reply);
}

sh_result sh_flip(sh_heap *heap) {
    char reply[LINE];
    return ask(heap, "flip", reply);
}

sh_result sh_scan(sh_heap *heap, bool *more) {
    char reply[LINE];
    sh_result result = ask(heap, "scan", reply);
    if (result == SH_OK && more) *more = strncmp(reply, "scanned ", 8) == 0;
    return result;
}

sh_result sh_reopen(sh_heap *heap) {
    char reply[LINE];
    SH_TRY(sh_force(heap, NULL));
    SH_TRY(ask(heap, "reopen", reply));
    /* The first answer says that the heap is open. */
    return sh_force(heap, NULL);
}

/* ---- many events at once */

/* So many lines are sent before their answers are read: few enough for both to lie in the socket. */
enum { AT_ONCE = 128 };

static const struct {
    const char *word;
    int numbers;
} event_lines[] = {
    {"begin", 0}, {"root", 1}, {"new", 2}, {"put", 3},  {"clear", 2}, {"link", 3},  {"drop", 1}, {"get", 3},
    {"same", 2},  {"len", 1},  {"seal", 0}, {"abort", 0}, {"force", 0}, {"flush", 1}, {"flip", 0}, {"scan", 0},
};

static const char *const reply_words[] = {
    "begun",   "done",   "null",    "int",        "ref",     "yes",       "no",   "len",     "sealed",
    "aborted", "durable", "flipped", "collecting", "scanned", "collected", "idle", "flushed", "clean",
};

static const char *const refusal_words[] = {
    "failed",     "alreadyactive", "notactive", "numbersspent", "badhandle", "range",   "badfield",
    "nosuchpage", "busy",          "volatilefull", "exhausted", "logfull",   "diskfault", "stopped",
};

static bool is_event(const sh_event *event) {
    bool of_session = event->s >= 1 && event->s <= SESSIONS;
    return event->op >= SH_EVENT_BEGIN && event->op < SH_EVENTS_END && (event->op >= SH_EVENT_FORCE || of_session);
}

/* The event's line, without its newline. */
static void spell(const sh_event *event, char *line) {
    size_t which = (size_t)(event->op - SH_EVENT_BEGIN);
    const uint64_t numbers[] = {event->a, event->b, event->c};
    int length = 0;
    if (event->op < SH_EVENT_FORCE) length = snprintf(line, LINE, "%" PRIu64 " ", event->s);
    length += snprintf(line + length, (size_t)(LINE - length), "%s", event_lines[which].word);
    for (int i = 0; i < event_lines[which].numbers; i++) length += snprintf(line + length, (size_t)(LINE - length), " %" PRIu64, numbers[i]);
}

static uint64_t code_of(const char *word, const char *const *words, size_t count, uint64_t first) {
    for (size_t i = 0; i < count; i++) {
        if (strcmp(word, words[i]) == 0) return first + i;
    }
    return 0;
}

static void read_reply(const char *text, sh_reply *reply) {
    char word[LINE] = "";
    uint64_t *numbers = reply->numbers;
    memset(reply, 0, sizeof *reply);
    sscanf(text, "%127s %" SCNu64 " %" SCNu64 " %" SCNu64, word, numbers, numbers + 1, numbers + 2);
    reply->code = code_of(word, reply_words, sizeof reply_words / sizeof *reply_words, SH_REPLY_BEGUN);
    if (reply->code == 0) reply->code = code_of(word, refusal_words, sizeof refusal_words / sizeof *refusal_words, SH_REPLY_FAILED);
}

/* Reads the answer to an event that was sent. */
static sh_result take_answer(sh_heap *heap, const sh_event *event, sh_reply *reply) {
    char line[LINE], answer[2 * LINE];
    spell(event, line);
    size_t length = strlen(line);
    if (!read_line(heap, answer, sizeof answer)) return ended(heap);
    if (strncmp(answer, line, length) != 0 || strncmp(answer + length, " -> ", 4) != 0) return fail(&heap->error, SH_PROTOCOL, answer);
    read_reply(answer + length + 4, reply);
    return judge(heap, answer, answer + length + 4);
}

static bool send_events(sh_heap *heap, const sh_event *events, size_t count) {
    char line[LINE + 1];
    for (size_t i = 0; i < count; i++) {
        spell(&events[i], line);
        strcat(line, "\n");
        if (heap->child <= 0 || !send_line(heap, line)) return false;
    }
    return true;
}

/* Sends the next lines: where what stands behind a refusal is not to be made, no more than one. How many there are, or 0. */
static size_t send_some(sh_heap *heap, const sh_event *events, size_t count, bool go_on) {
    size_t some = 0, most = go_on ? AT_ONCE : 1;
    while (some < count && some < most && is_event(&events[some])) some++;
    if (some == 0) fail(&heap->error, SH_PROTOCOL, "no event of a session");
    else if (!send_events(heap, events, some)) ended(heap);
    else return some;
    return 0;
}

sh_result sh_batch(sh_heap *heap, const sh_event *events, size_t count, bool go_on, sh_reply *replies, size_t *made) {
    sh_error first = {0};
    size_t done = 0, sent = 0;
    while (done < count && (first.result == SH_OK || go_on)) {
        if (done == sent) sent += send_some(heap, events + done, count - done, go_on);
        bool lost = done == sent;
        if (!lost) {
            replies[done].code = 0;
            if (take_answer(heap, &events[done], &replies[done]) == SH_OK) heap->error.result = SH_OK;
            lost = replies[done].code == 0;
        }
        if (heap->error.result != SH_OK && (first.result == SH_OK || lost)) first = heap->error;
        if (lost) break;
        done++;
    }
    if (first.result != SH_OK) heap->error = first;
    if (made) *made = done;
    return first.result;
}

/* ---- transactions */

sh_result sh_begin(sh_heap *heap, sh_transaction **transaction) {
    char reply[LINE];
    sh_transaction *free_one = heap->transactions, *end = free_one + SESSIONS;
    while (free_one < end && free_one->active) free_one++;
    if (free_one == end) return fail(&heap->error, SH_OUT_OF_SESSIONS, "32 transactions are active");
    memset(free_one, 0, sizeof *free_one);
    free_one->heap = heap;
    sh_result result = ask_in(free_one, reply, "begin");
    if (result != SH_OK) return result;
    sscanf(reply, "begun %" SCNu64, &free_one->number);
    free_one->active = true;
    *transaction = free_one;
    return SH_OK;
}

sh_result sh_abort(sh_transaction *transaction) {
    char reply[LINE];
    transaction->active = false;
    return ask_in(transaction, reply, "abort");
}

sh_result sh_commit(sh_transaction *transaction, bool durable) {
    char reply[LINE];
    if (transaction->refusal.result == SH_OK) ask_in(transaction, reply, "seal");
    if (transaction->refusal.result == SH_OK) {
        transaction->active = false;
        return durable ? sh_force(transaction->heap, NULL) : SH_OK;
    }
    sh_abort(transaction);
    transaction->heap->error = transaction->refusal;
    return transaction->refusal.result;
}

uint64_t sh_number(const sh_transaction *transaction) {
    return transaction->number;
}

/* ---- objects */

static sh_result take_handle(sh_transaction *transaction, sh_object *object) {
    for (int handle = 0; handle < HANDLES; handle++) {
        if (!transaction->taken[handle]) {
            transaction->taken[handle] = true;
            object->handle = handle;
            return SH_OK;
        }
    }
    /* (the heap refuses each call that names this one) */
    object->handle = HANDLES;
    fail(&transaction->heap->error, SH_OUT_OF_HANDLES, "the transaction holds 64 objects");
    note_refusal(transaction);
    return SH_OUT_OF_HANDLES;
}

sh_result sh_root(sh_transaction *transaction, sh_object *root) {
    char reply[LINE];
    sh_result result = take_handle(transaction, root);
    return result == SH_OK ? ask_in(transaction, reply, "root %d", root->handle) : result;
}

sh_result sh_new(sh_transaction *transaction, unsigned fields, sh_object *made) {
    char reply[LINE];
    sh_result result = take_handle(transaction, made);
    return result == SH_OK ? ask_in(transaction, reply, "new %d %u", made->handle, fields) : result;
}

sh_result sh_get(sh_transaction *transaction, sh_object object, unsigned field, sh_value *value) {
    char reply[LINE];
    memset(value, 0, sizeof *value);
    sh_result result = take_handle(transaction, &value->object);
    if (result != SH_OK) return result;
    result = ask_in(transaction, reply, "get %d %u %d", object.handle, field, value->object.handle);
    if (result == SH_OK && strcmp(reply, "ref") == 0) {
        value->kind = SH_OBJECT;
        return SH_OK;
    }
    transaction->taken[value->object.handle] = false;
    if (result == SH_OK && sscanf(reply, "int %" SCNu64, &value->number) == 1) value->kind = SH_NUMBER;
    return result;
}

sh_result sh_put(sh_transaction *transaction, sh_object object, unsigned field, uint64_t number) {
    char reply[LINE];
    return ask_in(transaction, reply, "put %d %u %" PRIu64, object.handle, field, number);
}

sh_result sh_clear(sh_transaction *transaction, sh_object object, unsigned field) {
    char reply[LINE];
    return ask_in(transaction, reply, "clear %d %u", object.handle, field);
}

sh_result sh_link(sh_transaction *transaction, sh_object object, unsigned field, sh_object referred) {
    char reply[LINE];
    return ask_in(transaction, reply, "link %d %u %d", object.handle, field, referred.handle);
}

sh_result sh_len(sh_transaction *transaction, sh_object object, unsigned *fields) {
    char reply[LINE];
    sh_result result = ask_in(transaction, reply, "len %d", object.handle);
    if (result == SH_OK) sscanf(reply, "len %u", fields);
    return result;
}

sh_result sh_same(sh_transaction *transaction, sh_object object, sh_object other, bool *same) {
    char reply[LINE];
    sh_result result = ask_in(transaction, reply, "same %d %d", object.handle, other.handle);
    if (result == SH_OK) *same = strcmp(reply, "yes") == 0;
    return result;
}

sh_result sh_drop(sh_transaction *transaction, sh_object object) {
    char reply[LINE];
    sh_result result = ask_in(transaction, reply, "drop %d", object.handle);
    if (result == SH_OK) transaction->taken[object.handle] = false;
    return result;
}
