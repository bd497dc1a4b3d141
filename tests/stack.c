/*
 * stack BOOK ..: how much stack the three entries take, over the book files that are named and over six books
 * made here. Each call runs in a thread whose stack held one byte everywhere; from the lowest byte that is another one
 * afterwards up to the calling function, the stack was taken. Writes the most that a call took; where that is more than
 * DOCKWRENCH_STACK of include/dockwrench.h, the exit status is 1.
 */
#define _POSIX_C_SOURCE 200809L
#include "writing.h"

#include <pthread.h>
#include <stdio.h>
#include <stdlib.h>

#define LINKS 1024
#define KEYS 37448 /* without values, in the longest book */
#define ALLOC 520  /* alloc entries enough for the rule on free runs to mark them, in the place of half as many keys */
#define PARENTS 29124 /* drawn, beside a tree record in the longest book but for some bytes */
#define FILL 0xa5

static uint8_t findings[DOCKWRENCH_FINDING_BYTES];
static uint64_t work[2 * KEYS];
static _Alignas(4096) uint8_t stack[1 << 18];
static uintptr_t top; /* where the stack of a call starts */
static size_t most, calls;

static _Noreturn void fail(const char *what) {
    fprintf(stderr, "stack: %s\n", what);
    exit(2);
}

/* ---- the measure */

static void check(void) {
    uint64_t answer = dockwrench_check(book, end, findings, sizeof findings, work, sizeof work / sizeof *work);
    if (dockwrench_number(answer) % 10 != 0)
        fail("a book is refused");
}
static void ancestor(void) {
    dockwrench_ancestor(book, end, LINKS + 1);
    dockwrench_ancestor(book, end, 1);
}
static void unavailable(void) { dockwrench_unavailable(book, end, 1); }
static void (*const entries[])(void) = {check, ancestor, unavailable};

static void *run(void *entry) {
    uint8_t here;
    top = (uintptr_t)&here;
    entries[*(size_t *)entry]();
    return NULL;
}

/* Each entry over the book that is written. */
static void measure(void) {
    for (size_t entry = 0; entry < 3; entry++) {
        pthread_attr_t attributes;
        pthread_t thread;
        size_t low = 0;
        memset(stack, FILL, sizeof stack);
        if (pthread_attr_init(&attributes) || pthread_attr_setstack(&attributes, stack, sizeof stack) ||
            pthread_create(&thread, &attributes, run, &entry) || pthread_join(thread, NULL))
            fail("no thread");
        pthread_attr_destroy(&attributes);
        while (low < sizeof stack && stack[low] == FILL)
            low++;
        if (top <= (uintptr_t)(stack + low) || top >= (uintptr_t)(stack + sizeof stack))
            fail("the call was not on the thread's stack");
        if (top - (uintptr_t)(stack + low) > most)
            most = top - (uintptr_t)(stack + low);
        calls++;
    }
}

/* ---- the books */

/* The longest chain that has a root, which is above the last id, or above the first where ids rise. */
static void chain(unsigned marks, int rises, uint32_t stride) {
    struct forest forest = {TREES | marks, 1, LINKS, rises, stride};
    write_forest(&forest);
    measure();
}

/* The numbers below `all` in an order that medians part badly: with steps between them that are too far to be sorted by
   digits, the sort goes as deep as it may. */
static uint64_t badly(uint64_t i, uint64_t all) { return 4 * (i % (all / 4)) + i / (all / 4); }

/* As many free runs as a book holds beside so many alloc entries. */
static void runs(unsigned alloc) {
    uint64_t keys = KEYS - alloc / 2;
    header(TREES, keys, 0, 0);
    book[18] = 1; /* 2^40 buckets */
    put16(book + 30, alloc);
    for (uint64_t bucket = 0; bucket < alloc; bucket++) {
        be(8, bucket);
        be(2, 0);
    }
    for (uint64_t i = 0; i < keys; i++) {
        key(11, 25, 0, (badly(i, keys) << 20) + 1);
        put16(book + end - KEY_HEAD + 6, 1); /* its size */
    }
    measure();
}

/* As many drawn parents as a book holds, by ids of 32 bits. */
static void parents(void) {
    header(TREES | DRAWN, PARENTS + 1, 0, 0);
    key(15, 31, 8, 1);
    end += 8;
    for (uint64_t i = 0; i < PARENTS; i++) {
        key(9, 22, 8, (badly(i, PARENTS) << 17) + 1);
        end += 8;
    }
    measure();
}

static void read_book(const char *name) {
    FILE *file = fopen(name, "rb");
    end = file ? fread(book, 1, sizeof book, file) : 0;
    if (!file || ferror(file))
        fail("a book cannot be read");
    fclose(file);
}

int main(int argc, char **argv) {
    chain(0, 0, LINKS);
    chain(DRAWN, 0, LINKS);
    chain(DRAWN, 1, 1);
    runs(0);
    runs(ALLOC);
    parents();
    for (int i = 1; i < argc; i++) {
        read_book(argv[i]);
        measure();
    }
    printf("stack: %zu bytes at most, of %d, in %zu calls\n", most, DOCKWRENCH_STACK, calls);
    return most > DOCKWRENCH_STACK;
}
