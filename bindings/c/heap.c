/* heap: the three memory functions of nd.h over malloc. They may be called by several threads if malloc may. */
#include "nd.h"

#include <stdlib.h>
#include <string.h>

enum { MOST_ALIGNED = 16 };

/* Whether malloc aligns blocks of 16 bytes and more to 16. It does not where no type needs that, as on many 32-bit machines: aligned_alloc does. */
enum { MALLOC_ALIGNS = _Alignof(max_align_t) >= MOST_ALIGNED };

/* A block of no bytes has an address too. */
static size_t room(size_t size)
{
    return size > 0 ? size : MOST_ALIGNED;
}

/* Returns true if malloc and realloc align a block of this size as nd_alloc does. */
static bool is_for_malloc(size_t size, size_t align)
{
    return MALLOC_ALIGNS || (align <= _Alignof(max_align_t) && room(size) % MOST_ALIGNED != 0);
}

/* Returns a block that is aligned to 16, or a null pointer. */
static void *aligned(size_t size)
{
    const size_t whole = (room(size) + MOST_ALIGNED - 1) / MOST_ALIGNED * MOST_ALIGNED;
    return whole >= size ? aligned_alloc(MOST_ALIGNED, whole) : NULL;
}

struct nd_block nd_alloc(size_t size, size_t align)
{
    if (align > MOST_ALIGNED)
        return nd_block_at(NULL);
    return nd_block_at(is_for_malloc(size, align) ? malloc(room(size)) : aligned(size));
}

struct nd_block nd_realloc(void *p, size_t kept, size_t size, size_t align)
{
    struct nd_block block;
    if (align <= MOST_ALIGNED && is_for_malloc(size, align))
        return nd_block_at(realloc(p, room(size)));
    block = nd_alloc(size, align);
    if (block.ok) {
        memcpy(block.p, p, kept < size ? kept : size);
        free(p);
    }
    return block;
}

void nd_free(void *p)
{
    free(p);
}
