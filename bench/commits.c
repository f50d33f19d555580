/* Writes and syncs twice a commit, as a force of one write does, into a file that has its full size already.
   commits FILE N: N commits; prints the seconds. */
#define _POSIX_C_SOURCE 200809L
#include <fcntl.h>
#include <stdio.h>
#include <stdlib.h>
#include <string.h>
#include <time.h>
#include <unistd.h>

enum { BATCH = 37 };

int main(int argc, char **argv) {
    int fd = argc == 3 ? open(argv[1], O_RDWR) : -1;
    long n = argc == 3 ? atol(argv[2]) : 0;
    char batch[BATCH], gate = 1;
    struct timespec from, to;
    if (fd < 0) return 1;
    memset(batch, 7, sizeof batch);
    clock_gettime(CLOCK_MONOTONIC, &from);
    for (long at = 64; n > 0; n--, at += BATCH) {
        if (pwrite(fd, batch, BATCH, at + 1) != BATCH || fdatasync(fd)) return 1;
        if (pwrite(fd, &gate, 1, at) != 1 || fdatasync(fd)) return 1;
    }
    clock_gettime(CLOCK_MONOTONIC, &to);
    printf("%.6f\n", (double)(to.tv_sec - from.tv_sec) + (double)(to.tv_nsec - from.tv_nsec) / 1e9);
    return 0;
}
