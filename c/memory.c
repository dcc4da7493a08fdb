/* The three functions by which the router gets memory, makes a block larger and gives it back. Link this file with the archive, or write
 * all three anew over one allocator of your own. */
#include <stdbool.h>
#include <stddef.h>
#include <stdlib.h>

/* Whether there was memory, and where; the pointer is never null. */
struct rattle_memory {
    bool found;
    void *at;
};

struct rattle_memory rattle_alloc(size_t size, size_t alignment);
struct rattle_memory rattle_realloc(void *at, size_t kept, size_t size, size_t alignment);
void rattle_dealloc(void *at);

static char nowhere;

struct rattle_memory rattle_alloc(size_t size, size_t alignment)
{
    void *at = malloc(size > 0 ? size : alignment);
    return (struct rattle_memory){at != NULL, at != NULL ? at : &nowhere};
}

/* The block keeps its first `kept` bytes. Where there is no memory, it is as it was. */
struct rattle_memory rattle_realloc(void *at, size_t kept, size_t size, size_t alignment)
{
    (void)kept;
    void *to = realloc(at, size > 0 ? size : alignment);
    return (struct rattle_memory){to != NULL, to != NULL ? to : &nowhere};
}

void rattle_dealloc(void *at)
{
    free(at);
}
