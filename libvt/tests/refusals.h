/* Requests for memory, counted and refused. Linked with -Wl,--wrap=malloc,--wrap=realloc,--wrap=free.
 *
 * `asked` counts the requests. The one of number `refused` isn't met (none if it is 0), nor are those after it if
 * `goes_on`. `blocks` is how many blocks are there. */
#ifndef REFUSALS_H
#define REFUSALS_H

#include <stdbool.h>
#include <stddef.h>

void *__real_malloc(size_t);
void *__real_realloc(void *, size_t);
void __real_free(void *);
void *__wrap_malloc(size_t);
void *__wrap_realloc(void *, size_t);
void __wrap_free(void *);

static unsigned long asked, refused;
static bool goes_on;
static long blocks;

static bool is_refused(void)
{
    asked++;
    return refused > 0 && (goes_on ? asked >= refused : asked == refused);
}

void *__wrap_malloc(size_t size)
{
    void *at = is_refused() ? NULL : __real_malloc(size);
    blocks += at != NULL;
    return at;
}

void *__wrap_realloc(void *old, size_t size)
{
    void *at = is_refused() ? NULL : __real_realloc(old, size);
    blocks += at != NULL && old == NULL;
    return at;
}

void __wrap_free(void *at)
{
    blocks -= at != NULL;
    __real_free(at);
}

#endif
