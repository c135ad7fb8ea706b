/* The heap of the C library: what the proved code calls for memory, over malloc, realloc and free.
 *
 * The proved code asks for an alignment of 1, 2, 4, 8 or 16, which malloc and realloc have for every block on the
 * platforms that the library is built for. A block of no bytes is a block all the same, so that it has an address of
 * its own and is freed like any other. A request that can't be met leaves the old block as it was. */
#include <stdbool.h>
#include <stddef.h>
#include <stdlib.h>

/* The answer to a request. The pointer is never null, also if the request wasn't met. */
struct block {
    bool is_there;
    void *at;
};

static char no_block;

/* How many bytes are asked for: malloc aligns a block as its size lets it. */
static size_t bytes_of(size_t size, size_t alignment)
{
    return size > 0 ? size : alignment;
}

static struct block answer(void *at)
{
    return at ? (struct block){ true, at } : (struct block){ false, &no_block };
}

struct block rattle_alloc(size_t size, size_t alignment)
{
    return answer(malloc(bytes_of(size, alignment)));
}

struct block rattle_realloc(void *old, size_t kept, size_t size, size_t alignment)
{
    (void)kept;
    return answer(realloc(old, bytes_of(size, alignment)));
}

void rattle_dealloc(void *at)
{
    free(at);
}
