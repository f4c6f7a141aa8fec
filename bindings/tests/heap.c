/* The memory functions of nd.h for tests: they count, refuse the request that heap_refuse names or all of them, and end the program where the
 * library breaks its side. Blocks hold other bytes than zeros when they are returned, and are overwritten when they are given back. */
#include "heap.h"

#include <stdint.h>
#include <stdio.h>
#include <stdlib.h>
#include <string.h>

#include "nd.h"

enum { MOST_ALIGNED = 16, FRESH = 0xa5, GONE = 0x5a, MARK = 0x6e64 };

size_t heap_now, heap_most, heap_blocks, heap_requests, heap_refuse, heap_refused;
bool heap_is_spent;

struct head {
    size_t size;
    size_t mark;
};

static void require(bool holds, const char *what)
{
    if (holds)
        return;
    fprintf(stderr, "heap: %s\n", what);
    abort();
}

static struct nd_block refused(void)
{
    static char nothing;
    heap_refused++;
    return (struct nd_block){false, &nothing};
}

/* Returns true if this request is to be refused. */
static bool is_refused(size_t align)
{
    require(align > 0 && align <= MOST_ALIGNED && (align & (align - 1)) == 0, "an alignment is not 1, 2, 4, 8 or 16");
    heap_requests++;
    return (heap_refuse > 0 && --heap_refuse == 0) || heap_is_spent;
}

static struct head *head_of(void *p)
{
    struct head *head = (struct head *)p - 1;
    require(head->mark == MARK, "a block is not one of this heap");
    return head;
}

struct nd_block nd_alloc(size_t size, size_t align)
{
    struct head *head;
    if (is_refused(align))
        return refused();
    head = malloc(sizeof *head + size);
    require(head != NULL, "out of memory");
    *head = (struct head){size, MARK};
    memset(head + 1, FRESH, size);
    heap_blocks++;
    heap_now += size;
    heap_most = heap_now > heap_most ? heap_now : heap_most;
    return (struct nd_block){true, head + 1};
}

void nd_free(void *p)
{
    struct head *head = head_of(p);
    heap_blocks--;
    heap_now -= head->size;
    memset(p, GONE, head->size);
    head->mark = 0;
    free(head);
}

struct nd_block nd_realloc(void *p, size_t kept, size_t size, size_t align)
{
    struct nd_block moved;
    size_t refuse;
    require(kept <= head_of(p)->size && kept <= size, "more bytes are kept than the block has");
    if (is_refused(align))
        return refused();
    refuse = heap_refuse; /* one request, not two */
    heap_refuse = 0;
    moved = nd_alloc(size, align);
    heap_refuse = refuse;
    heap_requests--;
    memcpy(moved.p, p, kept);
    nd_free(p);
    return moved;
}
