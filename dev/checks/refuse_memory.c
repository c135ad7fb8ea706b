/* Preloaded into a program: of its requests for memory the one whose number REFUSE has, counted from 1, is refused.
 * How many there were is written to the file that COUNT names. */
#define _GNU_SOURCE
#include <dlfcn.h>
#include <errno.h>
#include <stdio.h>
#include <stdlib.h>
#include <string.h>
#include <sys/syscall.h>
#include <unistd.h>

static unsigned long made, refused;

/* What dlsym itself asks for before the C library's calls are found. */
static char early[4096];
static size_t early_used;

static void *next(const char *name)
{
    return dlsym(RTLD_NEXT, name);
}

static int is_refused(void)
{
    if (++made != refused)
        return 0;
    errno = ENOMEM;
    return 1;
}

void *malloc(size_t size)
{
    static void *(*real)(size_t);
    if (!real)
        real = (void *(*)(size_t))next("malloc");
    return is_refused() ? NULL : real(size);
}

void *calloc(size_t count, size_t size)
{
    static void *(*real)(size_t, size_t);
    static int is_looking;
    if (!real && is_looking) {
        void *place = early + early_used;
        early_used += (count * size + 15) / 16 * 16;
        return early_used <= sizeof early ? place : NULL;
    }
    if (!real) {
        is_looking = 1;
        real = (void *(*)(size_t, size_t))next("calloc");
    }
    return is_refused() ? NULL : real(count, size);
}

void *realloc(void *old, size_t size)
{
    static void *(*real)(void *, size_t);
    if (!real)
        real = (void *(*)(void *, size_t))next("realloc");
    return is_refused() ? NULL : real(old, size);
}

void *aligned_alloc(size_t alignment, size_t size)
{
    static void *(*real)(size_t, size_t);
    if (!real)
        real = (void *(*)(size_t, size_t))next("aligned_alloc");
    return is_refused() ? NULL : real(alignment, size);
}

int posix_memalign(void **place, size_t alignment, size_t size)
{
    static int (*real)(void **, size_t, size_t);
    if (!real)
        real = (int (*)(void **, size_t, size_t))next("posix_memalign");
    return is_refused() ? ENOMEM : real(place, alignment, size);
}

__attribute__((constructor)) static void begin(void)
{
    const char *word = getenv("REFUSE");
    made = 0;
    refused = word ? strtoul(word, NULL, 10) : 0;
}

static void tell(void)
{
    unsigned long count = made;
    const char *name = getenv("COUNT");
    FILE *file = name ? fopen(name, "w") : NULL;
    if (file) {
        fprintf(file, "%lu\n", count);
        fclose(file);
    }
}

__attribute__((destructor)) static void end(void)
{
    tell();
}

/* A program that ends by this call runs no destructor. */
void _exit(int status)
{
    tell();
    for (;;)
        syscall(SYS_exit_group, status);
}
