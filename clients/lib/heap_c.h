/* The four calls of libheap_c.a, and what can be asked by them. That they are safe is proved, and what each question does to the heap below them and
 * is answered: crates/heap_embed/README.md. That they are called as is said here is not proved.
 *
 * The room has heap_c_size() bytes, aligned to 16. From heap_c_open to heap_c_close the heap lies in it: nothing else may touch it, and only
 * one call at a time may use it. */
#ifndef HEAP_C_H
#define HEAP_C_H

#include <stddef.h>
#include <stdint.h>

size_t heap_c_size(void);
void heap_c_open(void *room);
uint64_t heap_c_call(void *room, uint64_t op, uint64_t s, uint64_t a, uint64_t b, uint64_t c);
void heap_c_close(void *room);

/* What is asked besides events, with its numbers a, b, c. */
enum {
    HC_MORE = 1, /* b bytes more of the image, at most 8, from the lowest one of a on */
    HC_ZEROS,    /* a zeros more of it */
    HC_FORMAT,   /* an empty heap in it: pages, log bytes, first transaction number */
    HC_OPEN,
    HC_TOLD,  /* how many changes are told: HC_NUMBER */
    HC_ITEM,  /* what change a is: HC_WRITE with its place and length, or HC_SYNC */
    HC_BYTES, /* eight bytes of what change a writes, from its byte b on: HC_NUMBER */
    HC_DONE,  /* all that was told is made */
    HC_FAIL,  /* a call of the host's failed */
    HC_LAST,  /* gives number a of the last answer, in place of a code */
    HC_FIGURE, /* figure a of the heap: HC_NUMBER */
    HC_CLOSE
};

/* The figures of an open heap. */
enum { HC_HISTORY, HC_COMMITS, HC_PENDING, HC_FAILED_AT, HC_ACTIVE };

/* Answers that are no replies; those are in heap_numbers.h. */
enum {
    HC_OK,
    HC_NO_MEMORY,
    HC_NOT_HEAP,
    HC_DAMAGED, /* the kind of the place: batch, record, reserve, page, address; and its number */
    HC_BROKEN,
    HC_NOT_AN_ASK,
    HC_NOT_NOW,
    HC_TOO_SMALL, /* the image's bytes, and those that the heap takes */
    HC_PAST_LIMITS,
    HC_WRITE,
    HC_SYNC,
    HC_NO_ITEM,
    HC_UNSYNCED,
    HC_NUMBER /* the number that was asked for is the first one of the answer */
};

#endif
