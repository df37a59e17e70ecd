/* Stands before the C library's allocator (LD_PRELOAD) and refuses allocations of a program: those whose numbers, from 1 on, are not below that
   in REFUSE and not above that in LAST, both in the environment. The number of allocations is written to the file that COUNT names, where it
   names one. */
#define _GNU_SOURCE
#include <dlfcn.h>
#include <errno.h>
#include <stddef.h>
#include <stdio.h>
#include <stdlib.h>
#include <string.h>

static unsigned long made, first, last;

/* What dlsym itself asks for before the real allocator is known. */
static char early[65536];
static size_t early_used;

static void *early_block(size_t size)
{
    size = (size + 15) & ~(size_t)15;
    if (size > sizeof early - early_used) return NULL;
    void *block = early + early_used;
    early_used += size;
    return block;
}

static int is_early(void *block) { return (char *)block >= early && (char *)block < early + sizeof early; }

static int refuses(void)
{
    made++;
    if (made < first || made > last) return 0;
    errno = ENOMEM;
    return 1;
}

__attribute__((constructor)) static void begin(void)
{
    const char *from = getenv("REFUSE"), *to = getenv("LAST");
    first = from ? strtoul(from, NULL, 10) : 1;
    last = to ? strtoul(to, NULL, 10) : 0;
    made = 0;
}

__attribute__((destructor)) static void end(void)
{
    const char *path = getenv("COUNT");
    unsigned long count = made;
    if (!path) return;
    last = 0;
    FILE *file = fopen(path, "w");
    if (file) { fprintf(file, "%lu\n", count); fclose(file); }
}

void *malloc(size_t size)
{
    static void *(*real)(size_t);
    static int looking;
    if (!real) {
        if (looking) return early_block(size);
        looking = 1;
        real = (void *(*)(size_t))dlsym(RTLD_NEXT, "malloc");
    }
    return refuses() ? NULL : real(size);
}

void *calloc(size_t count, size_t size)
{
    static void *(*real)(size_t, size_t);
    static int looking;
    if (!real) {
        if (looking) { void *block = early_block(count * size); if (block) memset(block, 0, count * size); return block; }
        looking = 1;
        real = (void *(*)(size_t, size_t))dlsym(RTLD_NEXT, "calloc");
    }
    return refuses() ? NULL : real(count, size);
}

void *realloc(void *block, size_t size)
{
    static void *(*real)(void *, size_t);
    if (!real) real = (void *(*)(void *, size_t))dlsym(RTLD_NEXT, "realloc");
    return refuses() ? NULL : real(block, size);
}

void *aligned_alloc(size_t alignment, size_t size)
{
    static void *(*real)(size_t, size_t);
    if (!real) real = (void *(*)(size_t, size_t))dlsym(RTLD_NEXT, "aligned_alloc");
    return refuses() ? NULL : real(alignment, size);
}

int posix_memalign(void **block, size_t alignment, size_t size)
{
    static int (*real)(void **, size_t, size_t);
    if (!real) real = (int (*)(void **, size_t, size_t))dlsym(RTLD_NEXT, "posix_memalign");
    return refuses() ? ENOMEM : real(block, alignment, size);
}

void free(void *block)
{
    static void (*real)(void *);
    if (is_early(block)) return;
    if (!real) real = (void (*)(void *))dlsym(RTLD_NEXT, "free");
    real(block);
}
