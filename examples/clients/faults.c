/* Preloaded into a program: writes down its calls on files, and has one of them fail.
 *
 *     FAULT_LOG=FILE [FAULT_BYTES=FILE] [FAULT_AT=N FAULT_KIND=eio|enospc|short] LD_PRELOAD=faults.so PROGRAM ..
 *
 * A line is the call, the last part of the file's name, and of what is read or written the place and the length. FAULT_BYTES gets the bytes of each write, one
 * behind the other. "short" reads or writes half of the bytes, and does not fail. */
#define _GNU_SOURCE
#include <dlfcn.h>
#include <errno.h>
#include <fcntl.h>
#include <limits.h>
#include <stdarg.h>
#include <stdio.h>
#include <stdlib.h>
#include <string.h>
#include <sys/file.h>
#include <sys/types.h>
#include <unistd.h>

static int calls = 0;

/* Appends to the file that the variable names. */
static void append(const char *variable, const void *bytes, size_t length) {
    const char *path = getenv(variable);
    FILE *file = path ? fopen(path, "a") : NULL;
    if (!file) return;
    fwrite(bytes, 1, length, file);
    fclose(file);
}

static const char *last_part(const char *path) {
    const char *slash = strrchr(path, '/');
    return slash ? slash + 1 : path;
}

static void note(const char *call, int fails, const char *path, long at, long length) {
    char line[PATH_MAX + 64];
    int size = snprintf(line, sizeof line, "%s%s %s %ld %ld\n", fails ? "failed-" : "", call, last_part(path), at, length);
    append("FAULT_LOG", line, (size_t)size);
}

/* The kind of fault that this call has. */
static const char *fault(void) {
    const char *at = getenv("FAULT_AT"), *kind = getenv("FAULT_KIND");
    return ++calls == (at ? atoi(at) : 0) && kind ? kind : "";
}

static int failed(const char *kind) {
    if (strcmp(kind, "eio") == 0) errno = EIO;
    else if (strcmp(kind, "enospc") == 0) errno = ENOSPC;
    else return 0;
    return 1;
}

static size_t cut(const char *kind, size_t length) {
    return strcmp(kind, "short") == 0 && length > 1 ? length / 2 : length;
}

/* Notes a call on an open file, and says whether it fails. */
static int fails(const char *call, int file, const char *kind, long at, long length) {
    char link[32], path[PATH_MAX] = "";
    int it = failed(kind), error = errno;
    snprintf(link, sizeof link, "/proc/self/fd/%d", file);
    if (readlink(link, path, sizeof path - 1) < 0) path[0] = '\0';
    note(call, it, path, at, length);
    errno = error;
    return it;
}

int open(const char *path, int flags, ...) {
    static int (*real)(const char *, int, ...);
    if (!real) real = (int (*)(const char *, int, ...))dlsym(RTLD_NEXT, "open");
    va_list rest;
    va_start(rest, flags);
    int mode = va_arg(rest, int), it = failed(fault()), error = errno;
    va_end(rest);
    note("open", it, path, 0, 0);
    errno = error;
    return it ? -1 : real(path, flags, mode);
}

int flock(int file, int operation) {
    static int (*real)(int, int);
    if (!real) real = (int (*)(int, int))dlsym(RTLD_NEXT, "flock");
    return fails("lock", file, fault(), 0, 0) ? -1 : real(file, operation);
}

ssize_t pread(int file, void *bytes, size_t length, off_t at) {
    static ssize_t (*real)(int, void *, size_t, off_t);
    if (!real) real = (ssize_t (*)(int, void *, size_t, off_t))dlsym(RTLD_NEXT, "pread");
    const char *kind = fault();
    return fails("read", file, kind, (long)at, (long)length) ? -1 : real(file, bytes, cut(kind, length), at);
}

ssize_t pwrite(int file, const void *bytes, size_t length, off_t at) {
    static ssize_t (*real)(int, const void *, size_t, off_t);
    if (!real) real = (ssize_t (*)(int, const void *, size_t, off_t))dlsym(RTLD_NEXT, "pwrite");
    const char *kind = fault();
    if (fails("write", file, kind, (long)at, (long)length)) return -1;
    append("FAULT_BYTES", bytes, length);
    return real(file, bytes, cut(kind, length), at);
}

int fdatasync(int file) {
    static int (*real)(int);
    if (!real) real = (int (*)(int))dlsym(RTLD_NEXT, "fdatasync");
    return fails("sync", file, fault(), 0, 0) ? -1 : real(file);
}

int fsync(int file) {
    static int (*real)(int);
    if (!real) real = (int (*)(int))dlsym(RTLD_NEXT, "fsync");
    return fails("sync", file, fault(), 0, 0) ? -1 : real(file);
}
