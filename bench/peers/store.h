/* What the bench asks of another store: objects under numbers from 1 on, and a root of four fields that refer to objects. */
#ifndef STORE_H
#define STORE_H
#include <stdint.h>

enum { ROOT_FIELDS = 4 };

/* An object: how many fields it has, the number in the first, and the object that the second refers to, or 0. */
struct object {
    uint64_t length, number, next;
};

/* Where a store keeps what is committed: in memory as far as it can, in files that are not synced, or on the disk when a commit returns. */
enum keeping { IN_MEMORY, UNSYNCED, DURABLE };

/* Opens an empty store in a folder. */
void store_open(const char *folder, enum keeping keeping);
void store_close(void);

/* One transaction at a time; all else is called in one. */
void store_begin(void);
void store_commit(void);
void store_abort(void);

/* The object that a field of the root refers to, or 0. */
uint64_t store_root(unsigned field);
void store_set_root(unsigned field, uint64_t id);

struct object store_get(uint64_t id);
void store_add(uint64_t id, const struct object *object);
void store_remove(uint64_t id);

/* Ends the bench. */
void fail(const char *what);
#endif
