/* The numbers by which events and answers are spelled, where they are not spelled as lines: those of crates/heap_embed. */
#ifndef HEAP_NUMBERS_H
#define HEAP_NUMBERS_H

/* Events. Behind the number stand the session and the event's numbers, in the order of a script's line. */
enum {
    SH_EVENT_BEGIN = 32,
    SH_EVENT_ROOT,
    SH_EVENT_NEW,
    SH_EVENT_PUT,
    SH_EVENT_CLEAR,
    SH_EVENT_LINK,
    SH_EVENT_DROP,
    SH_EVENT_GET,
    SH_EVENT_SAME,
    SH_EVENT_LEN,
    SH_EVENT_SEAL,
    SH_EVENT_ABORT,
    SH_EVENT_FORCE,
    SH_EVENT_FLUSH,
    SH_EVENT_FLIP,
    SH_EVENT_SCAN,
    SH_EVENTS_END
};

/* What an event is answered. Behind the code stand the numbers that the reply says. */
enum {
    SH_REPLY_BEGUN = 32,
    SH_REPLY_DONE,
    SH_REPLY_NULL,
    SH_REPLY_INT,
    SH_REPLY_REF,
    SH_REPLY_YES,
    SH_REPLY_NO,
    SH_REPLY_LEN,
    SH_REPLY_SEALED,
    SH_REPLY_ABORTED,
    SH_REPLY_DURABLE,
    SH_REPLY_FLIPPED,
    SH_REPLY_COLLECTING,
    SH_REPLY_SCANNED,
    SH_REPLY_COLLECTED,
    SH_REPLY_IDLE,
    SH_REPLY_FLUSHED,
    SH_REPLY_CLEAN,
    SH_REPLIES_END,
    /* refusals */
    SH_REPLY_FAILED = 64,
    SH_REPLY_ALREADY_ACTIVE,
    SH_REPLY_NOT_ACTIVE,
    SH_REPLY_NUMBERS_SPENT,
    SH_REPLY_BAD_HANDLE,
    SH_REPLY_RANGE,
    SH_REPLY_BAD_FIELD,
    SH_REPLY_NO_SUCH_PAGE,
    SH_REPLY_BUSY,
    SH_REPLY_VOLATILE_FULL,
    SH_REPLY_EXHAUSTED,
    SH_REPLY_LOG_FULL,
    SH_REPLY_DISK_FAULT,
    SH_REPLY_STOPPED,
    SH_REFUSALS_END
};

#endif
