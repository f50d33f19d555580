/* A client of the stable heap: a crash-safe heap of objects in a file, with atomic transactions. C99 and POSIX.
 *
 * The heap is the file heap.img of a folder. A process of its own, `heap session`, works on it: each call sends it one line and reads the
 * answer. So the heap keeps its guarantee whatever the program does: if it dies, that is a crash of the heap's client, and what was
 * committed is there.
 *
 * Each call gives SH_OK or says why it was not done; sh_last_error has the numbers and a text. A call that the heap refuses changes nothing
 * but the transaction: it can't be committed any more, and sh_commit aborts it and gives that refusal again.
 *
 * A heap may have 32 transactions side by side. Threads that share one need a lock of their own around each call. */
#ifndef STABLE_HEAP_H
#define STABLE_HEAP_H

#include "heap_numbers.h"

#include <stdbool.h>
#include <stddef.h>
#include <stdint.h>

typedef enum {
    SH_OK,
    /* Refusals. */
    SH_BUSY,          /* another transaction has locked the object: numbers[0] is its number */
    SH_LOG_FULL,      /* the log has no room: its used bytes, those needed, those kept for the ends of transactions */
    SH_EXHAUSTED,     /* the space has no room for new objects: words needed, free, owed */
    SH_VOLATILE_FULL, /* the transaction has no room for a new object: numbers[0] of its 4,096 words are used */
    SH_RANGE,         /* a number that is not below 2^62, or an object of more than 510 fields */
    SH_BAD_FIELD,     /* the object has no such field */
    SH_BAD_HANDLE,    /* no object is held there */
    SH_NO_SUCH_PAGE,
    SH_NUMBERS_SPENT, /* all transaction numbers are used */
    SH_UNFINISHED,    /* the heap can't be opened again now: a transaction is active, or was sealed and not forced */
    /* What this client can't do. The first is as good as a refusal. */
    SH_OUT_OF_HANDLES,  /* the transaction holds 64 objects: sh_drop frees one */
    SH_OUT_OF_SESSIONS, /* 32 transactions are active */
    /* The heap's process has ended, or has to be ended: sh_close is all that can follow. */
    SH_DISK_FAULT, /* the file can't be read or written */
    SH_IN_USE,     /* another program has the heap open */
    SH_NOT_A_HEAP,
    SH_DAMAGED,
    SH_ENDED,    /* for another reason: `status` is its exit status */
    SH_PROTOCOL, /* it answered what it should not, or a forked child called */
    /* Memory was refused. In the program's own process a call of which that is said did nothing, and may be made again once there is memory. */
    SH_NO_MEMORY
} sh_result;

/* Leaves a function that gives a result with what a call gave, where it was not done. */
#define SH_TRY(call)                         \
    do {                                     \
        sh_result done = (call);             \
        if (done != SH_OK) return done;      \
    } while (0)

typedef struct {
    sh_result result;
    uint64_t numbers[3];
    int status;
    char text[160];
} sh_error;

typedef struct sh_heap sh_heap;
typedef struct sh_transaction sh_transaction;

/* An object, as its transaction sees it. It is good until it is dropped or the transaction ends. */
typedef struct {
    int handle;
} sh_object;

typedef enum { SH_NULL, SH_NUMBER, SH_OBJECT } sh_kind;

/* What a field holds: `number` or `object` by its kind. */
typedef struct {
    sh_kind kind;
    uint64_t number;
    sh_object object;
} sh_value;

/* Opens the heap in the folder, which is there. Where it has no heap.img, or an empty one, a heap is made with spaces of that many pages and
 * a log of that many bytes; what holds something else is never written over. `command` is the launcher with its options, ended by NULL; a
 * relative path is one of the caller's folder. Where NULL comes back, `error` says why. */
sh_heap *sh_open(const char *folder, const char *const *command, unsigned pages, unsigned log_bytes, sh_error *error);

/* Ends the heap's process and frees the heap with its transactions: those that are active are aborted, and what was sealed is forced. */
void sh_close(sh_heap *heap);

/* With the library of clients/lib the heap is in the program's own process: sh_open takes no launcher then, so `command` may be NULL, and this call is the
 * same without it. The client of clients/c has none of that name. */
sh_heap *sh_open_here(const char *folder, unsigned pages, unsigned log_bytes, sh_error *error);

/* The last call that was not done. */
const sh_error *sh_last_error(const sh_heap *heap);

/* Puts all that was sealed on the disk. `commits`, unless it is NULL, is how many are there since the heap was opened. */
sh_result sh_force(sh_heap *heap, uint64_t *commits);

/* Stores a page, so that the next opening redoes less. */
sh_result sh_flush(sh_heap *heap, unsigned page);

/* Begins a collection, unless one is under way; transactions may be active, and go on. Then each scan goes on by one page. `more`, unless it is
 * NULL, is whether there is more to do; where there is none, the words of objects that nothing reached at the flip are free. */
sh_result sh_flip(sh_heap *heap);
sh_result sh_scan(sh_heap *heap, bool *more);

/* Closes the heap and opens it again, in the same process: the memory is free then that each call has taken for the heap's history, and the
 * commits that sh_force tells are counted anew. It is refused while a transaction is active. In the program's own process, where memory is refused for
 * it, the next call opens the heap. */
sh_result sh_reopen(sh_heap *heap);

/* Many events at once, by their numbers (heap_numbers.h): a session from 1 to 32 and three numbers behind each. It stops behind the first one that
 * is refused, unless it is to go on, and gives the result of that, or of the first. `made` is how many were answered, in `replies`. A session is
 * asked either by batches or as a transaction of sh_begin, which takes the least one that it knows to be free. */
typedef struct {
    uint64_t op, s, a, b, c;
} sh_event;

typedef struct {
    uint64_t code, numbers[3];
} sh_reply;

sh_result sh_batch(sh_heap *heap, const sh_event *events, size_t count, bool go_on, sh_reply *replies, size_t *made);

sh_result sh_begin(sh_heap *heap, sh_transaction **transaction);

/* Ends the transaction, whatever it gives: where the seal or an earlier call was refused, it is aborted. If it is not to be durable at once
 * it is so after the next force; a crash before that takes it back, with all that later transactions made of it. */
sh_result sh_commit(sh_transaction *transaction, bool durable);
sh_result sh_abort(sh_transaction *transaction);

/* The transaction's number, which SH_BUSY names. */
uint64_t sh_number(const sh_transaction *transaction);

/* The root object, from which all others are found. It has four fields. */
sh_result sh_root(sh_transaction *transaction, sh_object *root);

/* A new object of empty fields. It stays if it can be reached from the root when the transaction ends. */
sh_result sh_new(sh_transaction *transaction, unsigned fields, sh_object *made);

/* What the field holds. An object that is found is one more that the transaction holds. */
sh_result sh_get(sh_transaction *transaction, sh_object object, unsigned field, sh_value *value);
sh_result sh_put(sh_transaction *transaction, sh_object object, unsigned field, uint64_t number);
sh_result sh_clear(sh_transaction *transaction, sh_object object, unsigned field);
sh_result sh_link(sh_transaction *transaction, sh_object object, unsigned field, sh_object referred);
sh_result sh_len(sh_transaction *transaction, sh_object object, unsigned *fields);
sh_result sh_same(sh_transaction *transaction, sh_object object, sh_object other, bool *same);

/* Frees the handle. The object stays. */
sh_result sh_drop(sh_transaction *transaction, sh_object object);

/* Does the work in a transaction and commits it. Work that does not give SH_OK is aborted; where that is SH_BUSY it is done again in a new
 * transaction, after a pause that grows, until so many attempts were made. */
typedef sh_result (*sh_work)(sh_transaction *transaction, void *context);
sh_result sh_run(sh_heap *heap, sh_work work, void *context, bool durable, int attempts);

#endif
