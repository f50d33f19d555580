/* Two parts of bench/openings.py.
   openings run PROGRAM WORD..: runs the program with its output thrown away; prints the seconds of processor time that it took, the KiB of memory
   that it had at most, and its status. A process this small starts it, since the memory of the one that starts it counts too.
   openings read IMAGE: what a decoder in C makes of an image by docs/FORMATS.md: it reads the superblock, the frames that count and the log, and
   redoes the records on the pages that lack them; prints how many commits and records it found, and the number in field 0 of the root. The bench's
   images have only Updates and Commits, which leave no loser, so other kinds are refused, no undo entry is kept, and no words are walked. */
#define _DEFAULT_SOURCE
#include <fcntl.h>
#include <stdint.h>
#include <stdio.h>
#include <stdlib.h>
#include <string.h>
#include <sys/resource.h>
#include <sys/wait.h>
#include <unistd.h>

enum { PIECE = 65536, SUPER = 64, FRAME = 528, PAGE_WORDS = 64, UPDATE = 1, COMMIT = 5, UPDATE_BYTES = 27, COMMIT_BYTES = 5 };
/* END: the root is all that stands in the words, since only a Base or a Copy puts more there. */
enum { END = 6, ROOT_HEADER = 17, ROOT_FIELD = 2 };

/* Bytes of the image up to an end, read in pieces as the program reads them: a log is not held as a whole. */
typedef struct { int fd; off_t next, end; size_t at, filled; unsigned char piece[PIECE]; } Bytes;
typedef struct { size_t pages; uint64_t *words, *lsns, commits, records; } Heap;

static _Noreturn void fail(const char *why) {
    fprintf(stderr, "openings: %s\n", why);
    exit(1);
}

static int run(char **words) {
    struct rusage used;
    int status;
    pid_t child = fork();
    if (child == 0) {
        int out = open("/dev/null", O_WRONLY);
        if (out < 0 || dup2(out, 1) < 0 || dup2(out, 2) < 0) _exit(127);
        execv(words[0], words);
        _exit(127);
    }
    if (child < 0 || wait4(child, &status, 0, &used) != child || !WIFEXITED(status)) return 1;
    double whole = (double)(used.ru_utime.tv_sec + used.ru_stime.tv_sec), rest = (double)(used.ru_utime.tv_usec + used.ru_stime.tv_usec);
    printf("%.6f %ld %d\n", whole + rest / 1e6, used.ru_maxrss, WEXITSTATUS(status));
    return 0;
}

/* Numbers are written out like this, and not as loops, since gcc makes one load of each then. */
static uint32_t u16_at(const unsigned char *b) { return b[0] | (uint32_t)b[1] << 8; }
static uint32_t u32_at(const unsigned char *b) { return b[0] | (uint32_t)b[1] << 8 | (uint32_t)b[2] << 16 | (uint32_t)b[3] << 24; }
static uint64_t u64_at(const unsigned char *b) { return u32_at(b) | (uint64_t)u32_at(b + 4) << 32; }

/* Keeps the bytes that are left, in front, so that what is taken is never cut by the end of a piece. */
static void fill(Bytes *bytes) {
    size_t left = bytes->filled - bytes->at, room = PIECE - left;
    if (bytes->end - bytes->next < (off_t)room) room = (size_t)(bytes->end - bytes->next);
    memmove(bytes->piece, bytes->piece + bytes->at, left);
    if (pread(bytes->fd, bytes->piece + left, room, bytes->next) != (ssize_t)room) fail("the image can't be read, or is cut off");
    bytes->next += (off_t)room;
    bytes->at = 0;
    bytes->filled = left + room;
}

static const unsigned char *take(Bytes *bytes, size_t n) {
    if (bytes->filled - bytes->at < n) fill(bytes);
    if (bytes->filled < n) fail("a batch is cut off by the log's end");
    bytes->at += n;
    return bytes->piece + bytes->at - n;
}

static uint64_t *zeros(size_t n) {
    uint64_t *made = calloc(n, sizeof *made);
    if (!made) fail("out of memory");
    return made;
}

/* Gives the bytes of the log, behind which the frames lie. */
static uint32_t read_super(int fd, Heap *heap) {
    static const unsigned char rest[40];
    unsigned char super[SUPER];
    if (pread(fd, super, SUPER, 0) != SUPER || memcmp(super, "\1stbheap\1\0\0", 12) || memcmp(super + 24, rest, sizeof rest)) fail("not a heap");
    uint32_t pages = u32_at(super + 12), log_bytes = u32_at(super + 16);
    if (pages - 1 >= 16384 || log_bytes < 64 || log_bytes > 1 << 30 || !u32_at(super + 20)) fail("not a heap");
    heap->pages = 2 * (size_t)pages;
    heap->words = zeros(heap->pages * PAGE_WORDS);
    heap->lsns = zeros(heap->pages);
    return log_bytes;
}

static void read_page(const unsigned char *frames, uint64_t *words, uint64_t *lsn) {
    const unsigned char *other = frames + FRAME;
    int is_first = frames[0] == 1, is_second = other[0] == 1;
    if (!is_first && !is_second) return;
    const unsigned char *frame = is_second && (!is_first || u64_at(other + 8) > u64_at(frames + 8)) ? other : frames;
    *lsn = u64_at(frame + 8);
    for (size_t w = 0; w < PAGE_WORDS; w++) words[w] = u64_at(frame + 16 + 8 * w);
}

static void read_pages(int fd, uint32_t log_bytes, Heap *heap) {
    Bytes frames = { .fd = fd, .next = SUPER + (off_t)log_bytes };
    frames.end = frames.next + 2 * FRAME * (off_t)heap->pages;
    heap->words[0] = ROOT_HEADER;
    for (size_t p = 0; p < heap->pages; p++) read_page(take(&frames, 2 * FRAME), heap->words + p * PAGE_WORDS, heap->lsns + p);
}

static int is_field_word(uint64_t w) {
    return w == 0 || w % 4 == 1 || (w % 4 == 2 && w / 4 < 2097152) || (w % 4 == 3 && w / 4 < 4096);
}

/* An Update from its transaction's number on: t, object, field, old word, new word. */
static void redo(Heap *heap, const unsigned char *fields) {
    uint64_t address = (uint64_t)u32_at(fields + 4) + 2 + u16_at(fields + 8), word = u64_at(fields + 18);
    if (address >= END || !is_field_word(u64_at(fields + 10)) || !is_field_word(word)) fail("an Update that is none, or may not follow");
    uint64_t *lsn = heap->lsns + address / PAGE_WORDS;
    if (*lsn >= heap->records) return;
    heap->words[address] = word;
    *lsn = heap->records;
}

/* Reads a record of at most so many bytes; gives its length. */
static uint32_t read_record(Bytes *log, uint32_t most, Heap *heap) {
    int kind = *take(log, 1);
    if (kind != UPDATE && kind != COMMIT) fail("a record of a kind that is none of the bench's");
    uint32_t size = kind == UPDATE ? UPDATE_BYTES : COMMIT_BYTES;
    if (size > most) fail("a record is cut off by its batch's end");
    const unsigned char *fields = take(log, size - 1);
    /* 0 and the greatest are no transaction's numbers */
    if (u32_at(fields) - 1 >= UINT32_MAX - 1) fail("a record of no transaction");
    heap->records++;
    if (kind == UPDATE) redo(heap, fields);
    else heap->commits++;
    return size;
}

static void read_log(int fd, uint32_t log_bytes, Heap *heap) {
    Bytes log = { .fd = fd, .next = SUPER, .end = SUPER + (off_t)log_bytes };
    while (*take(&log, 1) == 1) {
        uint32_t left = u32_at(take(&log, 4));
        while (left > 0) left -= read_record(&log, left, heap);
    }
}

static int read_image(const char *image) {
    Heap heap = { 0 };
    int fd = open(image, O_RDONLY);
    if (fd < 0) fail("the image can't be opened");
    uint32_t log_bytes = read_super(fd, &heap);
    read_pages(fd, log_bytes, &heap);
    read_log(fd, log_bytes, &heap);
    for (size_t p = 0; p < heap.pages; p++) if (heap.lsns[p] > heap.records) fail("a page is ahead of the log");
    printf("commits %llu\nrecords %llu\n", (unsigned long long)heap.commits, (unsigned long long)heap.records);
    printf("root %llu\n", (unsigned long long)heap.words[ROOT_FIELD] / 4);
    return 0;
}

int main(int argc, char **argv) {
    if (argc > 2 && !strcmp(argv[1], "run")) return run(argv + 2);
    if (argc == 3 && !strcmp(argv[1], "read")) return read_image(argv[2]);
    return 2;
}
