#!/usr/bin/env python3
"""Plays a script with an allocator that refuses everything from the N-th allocation on, for each N.

    examples/tools/refused.py PROGRAM

PROGRAM is what `rt run` leaves as out/ends_without_memory in crates/ends_without_memory. It ends with 0 where each event was done; with 1
where one lacked memory that may, and all that was left to end was ended then; and with 2 where an abort, a force or a seal that makes nothing
stable lacked memory, or an event was refused. The last may never be. The allocator is a library of C, put before the C library's own.
"""
import os
import subprocess
import sys
import tempfile

SHIM = r"""
#include <errno.h>
#include <stddef.h>
#include <stdlib.h>
void *__libc_malloc(size_t);
void *__libc_calloc(size_t, size_t);
void *__libc_realloc(void *, size_t);
void *__libc_memalign(size_t, size_t);
static long left = -1;
static int refused(void) {
    if (left < 0) left = atol(getenv("REFUSED_FROM"));
    if (left > 1) { left--; return 0; }
    errno = ENOMEM;
    return 1;
}
void *malloc(size_t n) { return refused() ? NULL : __libc_malloc(n); }
void *calloc(size_t m, size_t n) { return refused() ? NULL : __libc_calloc(m, n); }
void *realloc(void *p, size_t n) { return refused() ? NULL : __libc_realloc(p, n); }
void *aligned_alloc(size_t a, size_t n) { return refused() ? NULL : __libc_memalign(a, n); }
int posix_memalign(void **p, size_t a, size_t n) { return refused() || !(*p = __libc_memalign(a, n)) ? ENOMEM : 0; }
"""
# More allocations than the script makes.
MOST = 100_000


def status(program, shim, first):
    return subprocess.run([program], env={"LD_PRELOAD": shim, "REFUSED_FROM": str(first)}, stdin=subprocess.DEVNULL).returncode


def main():
    if len(sys.argv) != 2:
        sys.exit(__doc__)
    with tempfile.TemporaryDirectory() as folder:
        with open(f"{folder}/shim.c", "w", encoding="ascii") as file:
            file.write(SHIM)
        shim = f"{folder}/shim.so"
        subprocess.run(["cc", "-shared", "-fPIC", "-O1", "-o", shim, f"{folder}/shim.c"], check=True)
        for first in range(1, MOST):
            ended = status(os.path.abspath(sys.argv[1]), shim, first)
            if ended == 0 and first == 1:
                sys.exit("it ran without memory: it is not linked to the C library's allocator")
            if ended == 0:
                print(f"{first - 1} allocations: with each of them refused, and all behind it, no end of a transaction and no force lacked memory")
                return
            if ended != 1:
                sys.exit(f"with all refused from allocation {first} on it ended with {ended}")
    sys.exit(f"it makes more than {MOST} allocations")


main()
