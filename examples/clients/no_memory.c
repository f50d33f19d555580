/* Preloaded into a program: once refuse_memory(true) was called, libstable_heap.so is refused all memory, and nothing else is. */
#define _GNU_SOURCE
#include <dlfcn.h>
#include <stdbool.h>
#include <stddef.h>
#include <string.h>

void *__libc_malloc(size_t size);
void *__libc_realloc(void *old, size_t size);

static bool refuses = false;

void refuse_memory(bool now) {
    refuses = now;
}

static bool is_refused(const void *caller) {
    Dl_info info;
    return refuses && dladdr(caller, &info) && info.dli_fname && strstr(info.dli_fname, "libstable_heap.so");
}

void *malloc(size_t size) {
    return is_refused(__builtin_return_address(0)) ? NULL : __libc_malloc(size);
}

void *realloc(void *old, size_t size) {
    return is_refused(__builtin_return_address(0)) ? NULL : __libc_realloc(old, size);
}
