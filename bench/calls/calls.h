/* What bench/calls.py asks of a store in C: a number that commits write, and reads of it in a transaction. */
#ifndef CALLS_H
#define CALLS_H
#include <stdbool.h>
#include <stdint.h>

/* Opens an empty store in a folder, for that many commits. `launcher` is that of the heap, behind a pipe. */
void store_open(const char *folder, uint64_t commits, char **launcher);
void store_close(void);

/* One transaction that writes the number. One that is not durable is on the disk after the next force. */
void store_commit(uint64_t number, bool durable);
void store_force(void);

/* Reads the number that often, in one transaction, and gives it. */
uint64_t store_read(uint64_t times);

/* Ends the bench. */
void fail(const char *what);
#endif
