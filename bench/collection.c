/* Copies as many objects as a collection does, each into another space and into a log, behind the nine bytes that a record has before
   its words, with twelve bytes for each reference; then it writes the log to a file, and syncs.
   collection FILE DIRECTORIES LEAF TIMES ROUNDS: directories of 512 words, each with 509 leaves of LEAF words, copied so many times, and
   all of it so many rounds, each of which fills the same log anew; prints the seconds of processor time. */
#define _POSIX_C_SOURCE 200809L
#include <fcntl.h>
#include <stdint.h>
#include <stdio.h>
#include <stdlib.h>
#include <string.h>
#include <time.h>
#include <unistd.h>

enum { DIRECTORY = 512, LEAVES = 509, FRONT = 9, REFERENCE = 12 };

static unsigned char *copied(unsigned char *log, uint64_t *to, const uint64_t *from, size_t words) {
    memcpy(to, from, 8 * words);
    memset(log, 7, FRONT);
    memcpy(log + FRONT, from, 8 * words);
    return log + FRONT + 8 * words;
}

static void store(int fd, const unsigned char *log, const unsigned char *end) {
    for (const unsigned char *at = log; at < end;) {
        ssize_t written = write(fd, at, end - at);
        if (written <= 0) exit(1);
        at += written;
    }
    if (fdatasync(fd)) exit(1);
}

int main(int argc, char **argv) {
    if (argc != 6) return 1;
    size_t directories = strtoul(argv[2], 0, 10), leaf = strtoul(argv[3], 0, 10), times = strtoul(argv[4], 0, 10), rounds = strtoul(argv[5], 0, 10);
    size_t words = directories * (DIRECTORY + LEAVES * leaf), objects = directories * (1 + LEAVES);
    size_t bytes = times * (8 * words + objects * (FRONT + REFERENCE));
    uint64_t *spaces[2] = {malloc(8 * words), malloc(8 * words)};
    unsigned char *log = malloc(bytes), *end = log;
    int fd = open(argv[1], O_RDWR | O_CREAT, 0600);
    if (!spaces[0] || !spaces[1] || !log || fd < 0) return 1;
    memset(spaces[0], 1, 8 * words);
    memset(spaces[1], 2, 8 * words);
    memset(log, 3, bytes);
    clock_t began = clock();
    for (size_t round = 0; round < rounds; round++) {
        end = log;
        for (size_t time = 0; time < times; time++) {
            const uint64_t *from = spaces[time % 2];
            uint64_t *to = spaces[1 - time % 2];
            for (size_t at = 0, object = 0; object < objects; object++) {
                size_t size = object % (1 + LEAVES) == 0 ? DIRECTORY : leaf;
                end = copied(end, to + at, from + at, size);
                memset(end, 8, REFERENCE);
                end += REFERENCE;
                at += size;
            }
        }
        store(fd, log, end);
    }
    printf("%.6f\n", (double)(clock() - began) / CLOCKS_PER_SEC);
    volatile uint64_t last = spaces[times % 2][words - 1];
    (void)last;
    return (size_t)(end - log) != bytes;
}
