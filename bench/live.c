/* How many octets of memory a program holds: counts what malloc gives and free takes, and says the sum on standard error before
   each write to standard output. For LD_PRELOAD. */
#define _GNU_SOURCE
#include <dlfcn.h>
#include <malloc.h>
#include <stdio.h>
#include <unistd.h>

static long live;
static void *(*next_malloc)(size_t);
static void (*next_free)(void *);
static void *(*next_realloc)(void *, size_t);
static void *(*next_aligned)(size_t, size_t);
static ssize_t (*next_write)(int, const void *, size_t);

static void find(void)
{
    if (next_malloc)
        return;
    next_malloc = dlsym(RTLD_NEXT, "malloc");
    next_free = dlsym(RTLD_NEXT, "free");
    next_realloc = dlsym(RTLD_NEXT, "realloc");
    next_aligned = dlsym(RTLD_NEXT, "aligned_alloc");
    next_write = dlsym(RTLD_NEXT, "write");
}

void *malloc(size_t size)
{
    find();
    void *piece = next_malloc(size);
    live += malloc_usable_size(piece);
    return piece;
}

void free(void *piece)
{
    find();
    live -= malloc_usable_size(piece);
    next_free(piece);
}

void *realloc(void *piece, size_t size)
{
    find();
    long before = malloc_usable_size(piece);
    void *moved = next_realloc(piece, size);
    if (moved)
        live += (long)malloc_usable_size(moved) - before;
    return moved;
}

void *aligned_alloc(size_t alignment, size_t size)
{
    find();
    void *piece = next_aligned(alignment, size);
    live += malloc_usable_size(piece);
    return piece;
}

ssize_t write(int to, const void *octets, size_t count)
{
    find();
    if (to == 1) {
        char line[32];
        next_write(2, line, snprintf(line, sizeof line, "%ld\n", live));
    }
    return next_write(to, octets, count);
}
