/* Counts the copies that a program makes with memcpy and memmove, for both of which it stands in. Loaded before libc (LD_PRELOAD), it writes, when the
   program ends, a line for each size to the file that COPIES names: the size and how many copies had it. A program that has it linked in may ask for
   the sums at any time. Copies that the compiler wrote out as moves aren't calls and aren't counted. */
#include <stddef.h>
#include <stdio.h>
#include <stdlib.h>

#define SIZES 65536

/* The last count is for all copies of SIZES - 1 bytes or more. */
static unsigned long counts[SIZES];

/* A copy of so many bytes is one of a whole record, or of nearly all of it. */
#define WHOLE 2000

struct copied {
    size_t whole;
    size_t bytes;
};

static struct copied sums;

struct copied copied_so_far(void) { return sums; }

static void count(size_t size) {
    counts[size < SIZES ? size : SIZES - 1]++;
    sums.whole += size >= WHOLE;
    sums.bytes += size;
}

/* `rep movsb` keeps the compiler from making a call of memcpy out of a loop. */
static void copy(void *to, const void *from, size_t size) { __asm__ volatile("rep movsb" : "+D"(to), "+S"(from), "+c"(size) : : "memory"); }

void *memcpy(void *restrict to, const void *restrict from, size_t size) {
    count(size);
    copy(to, from, size);
    return to;
}

void *memmove(void *to, const void *from, size_t size) {
    count(size);
    if ((size_t)to - (size_t)from >= size) {
        copy(to, from, size);
    } else {
        for (size_t i = size; i-- > 0;) ((volatile char *)to)[i] = ((const volatile char *)from)[i];
    }
    return to;
}

__attribute__((destructor)) static void write_counts(void) {
    const char *name = getenv("COPIES");
    FILE *file = name ? fopen(name, "w") : NULL;
    if (!file) return;
    for (size_t size = 1; size < SIZES; size++) {
        if (counts[size]) fprintf(file, "%zu %lu\n", size, counts[size]);
    }
    fclose(file);
}
