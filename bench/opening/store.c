// A store to open, and the yardstick for opening it: each reached block read once by pread. `store make PATH SLOTS` writes a store of
// one table, by docs/FORMAT.md, with its blocks in the order in which opening reaches them; `store read PATH ROUNDS` reads them;
// `store peak PROGRAM ..` runs a program and prints the most memory that it had, in KiB.
#define _GNU_SOURCE
#include <fcntl.h>
#include <stdint.h>
#include <stdio.h>
#include <stdlib.h>
#include <string.h>
#include <sys/resource.h>
#include <sys/wait.h>
#include <time.h>
#include <unistd.h>

enum { BLOCK = 1024, HEADER = 16, ROOM = 252, COLUMNS = 16, DISTINCT = 65537, MOST = 1 << 17 };

static uint8_t (*blocks)[BLOCK];
static uint32_t used = 4;

static void put(uint32_t at, size_t byte, uint64_t n, size_t size) {
    for (size_t k = 0; k < size; k++) blocks[at][byte + k] = (uint8_t)(n >> (8 * k));
}

static uint32_t header(uint32_t at, int kind, uint32_t level) {
    if (at >= MOST) exit(3);
    memcpy(blocks[at], "IQB1", 4);
    put(at, 4, (uint64_t)kind, 1);
    put(at, 8, at, 4);
    put(at, 12, level, 4);
    return at;
}

// A map of level 1 and its pages behind it.
static uint32_t leaf(uint32_t pages) {
    uint32_t map = header(used++, 4, 1);
    for (uint32_t k = 0; k < pages; k++) put(map, HEADER + 4 * k, header(used++, 5, 0), 4);
    return map;
}

// An object of so many pages, whose reference stands at this byte of a block.
static void object(uint32_t holder, size_t byte, uint32_t pages) {
    uint32_t root = pages <= ROOM ? leaf(pages) : header(used++, 4, 2);
    if (pages > ROOM)
        for (uint32_t k = 0; k * ROOM < pages; k++) {
            uint32_t left = pages - k * ROOM;
            put(root, HEADER + 4 * k, leaf(left < ROOM ? left : ROOM), 4);
        }
    put(holder, byte, root, 4);
    put(holder, byte + 4, pages, 4);
}

static uint32_t over(uint32_t n, uint32_t room) { return (n + room - 1) / room; }

static void table(uint32_t slots) {
    uint32_t head = header(used++, 3, 0);
    size_t text = HEADER + 12;
    memcpy(blocks[head] + text, "\1t", 2);
    put(head, text + 31, COLUMNS, 1);
    put(head, text + 33, slots, 4);
    object(head, text + 37, over(slots, 8064));
    for (int c = 0; c < COLUMNS; c++) {
        size_t column = text + 45 + 55 * (size_t)c;
        put(head, column, 1, 1);
        put(head, column + 1, 'a' + (uint64_t)c, 1);
        put(head, column + 31, 1, 1);
        put(head, column + 34, 3, 1);
        put(head, column + 35, DISTINCT, 4);
        object(head, column + 39, over(slots, 336));
        object(head, column + 47, over(DISTINCT, 201));
    }
}

static void root(void) {
    header(0, 1, 0), header(1, 2, 0), header(2, 1, 0), header(3, 2, 0);
    put(2, 16, 1, 8), put(2, 24, 2, 4), put(2, 28, used, 4), put(2, 32, 1, 4), put(2, 36, 4, 4);
    put(3, 16, 1, 8);
}

static int make(const char *path, uint32_t slots) {
    blocks = calloc(MOST, BLOCK);
    if (!blocks) return 1;
    table(slots);
    root();
    FILE *file = fopen(path, "wb");
    if (!file || fwrite(blocks, BLOCK, used, file) != used || fclose(file)) return 1;
    printf("%u\n", used - 4);
    return 0;
}

static uint64_t now(void) {
    struct timespec t;
    clock_gettime(CLOCK_THREAD_CPUTIME_ID, &t);
    return (uint64_t)t.tv_sec * 1000000000u + (uint64_t)t.tv_nsec;
}

static int read_all(const char *path, int rounds) {
    uint8_t block[BLOCK];
    uint64_t sum = 0, start = now();
    for (int r = 0; r < rounds; r++) {
        int file = open(path, O_RDONLY);
        off_t size = file < 0 ? -1 : lseek(file, 0, SEEK_END);
        if (size < 0) return 1;
        for (off_t at = 4 * BLOCK; at < size; at += BLOCK) {
            if (pread(file, block, BLOCK, at) != BLOCK) return 1;
            sum += block[8];
        }
        close(file);
    }
    printf("read %llu (%llu)\n", (unsigned long long)(now() - start), (unsigned long long)sum);
    return 0;
}

static int peak(char **words) {
    pid_t child = fork();
    if (child == 0) {
        if (!freopen("/dev/null", "w", stdout)) _exit(1);
        execv(words[0], words);
        _exit(1);
    }
    int status;
    struct rusage usage;
    if (wait4(child, &status, 0, &usage) != child || status != 0) return 1;
    printf("%ld\n", usage.ru_maxrss);
    return 0;
}

int main(int count, char **words) {
    if (count >= 4 && !strcmp(words[1], "make")) return make(words[2], (uint32_t)atol(words[3]));
    if (count >= 4 && !strcmp(words[1], "read")) return read_all(words[2], atoi(words[3]));
    if (count >= 3 && !strcmp(words[1], "peak")) return peak(words + 2);
    return 2;
}
