/* What a store of values under numbers gives, over which `values.c` keeps objects. */
#ifndef VALUES_H
#define VALUES_H
#include <stddef.h>
#include <stdint.h>

/* Puts a value of so many bytes, or copies one, under a key; all in the transaction that is open. */
void value_put(uint64_t key, const void *bytes, size_t size);
void value_get(uint64_t key, void *bytes, size_t size);
void value_remove(uint64_t key);
#endif
