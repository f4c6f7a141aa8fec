/* pool: the memory functions of c/pool.c over random requests. Each block keeps what was written to it, is aligned, and lies in no other one; when
 * all are given back, the whole pool can be taken at once. The argument is the number of calls. */
#include <stdint.h>
#include <stdio.h>
#include <stdlib.h>
#include <string.h>

#include "nd.h"

enum { BLOCKS = 2000, POOL_BYTES = 262144, HEAD_BYTES = 16, LONGEST = 4000 };

struct block {
    unsigned char *bytes;
    size_t length;
    unsigned char fill;
};

static struct block blocks[BLOCKS];
static uint64_t state = 88172645463325252u;

/* Returns a random number below `most` (xorshift). */
static size_t below(size_t most)
{
    state ^= state << 13;
    state ^= state >> 7;
    state ^= state << 17;
    return (size_t)(state % most);
}

static void fail(const char *what)
{
    printf("FAILED: %s\n", what);
    exit(1);
}

static void fill(struct block *block)
{
    block->fill = (unsigned char)below(256);
    memset(block->bytes, block->fill, block->length);
}

static void compare(const struct block *block, size_t length)
{
    for (size_t i = 0; i < length; i++)
        if (block->bytes[i] != block->fill)
            fail("a block has other bytes than those that were written");
}

/* Short lengths are the most frequent ones. */
static size_t length(void)
{
    return below(below(LONGEST) + 1);
}

static void request(struct block *block)
{
    size_t wanted = length();
    struct nd_block given = nd_alloc(wanted, (size_t)1 << below(5));
    if (!given.ok)
        return;
    if ((uintptr_t)given.p % HEAD_BYTES != 0)
        fail("a block isn't aligned");
    block->bytes = given.p;
    block->length = wanted;
    fill(block);
}

static void change(struct block *block)
{
    size_t wanted = length(), kept = block->length < wanted ? block->length : wanted;
    struct nd_block given = nd_realloc(block->bytes, kept, wanted, 8);
    if (!given.ok) {
        compare(block, block->length);
        return;
    }
    block->bytes = given.p;
    compare(block, kept);
    block->length = wanted;
    fill(block);
}

static void give_back(struct block *block)
{
    compare(block, block->length);
    nd_free(block->bytes);
    block->bytes = NULL;
}

static void is_whole(void)
{
    struct nd_block all = nd_alloc(POOL_BYTES - HEAD_BYTES, HEAD_BYTES);
    if (!all.ok)
        fail("the whole pool can't be taken");
    nd_free(all.p);
}

static void *taken(size_t length)
{
    struct nd_block given = nd_alloc(length, HEAD_BYTES);
    if (!given.ok)
        fail("there is room for a block");
    return given.p;
}

/* Takes all that is left as one block. */
static void *rest(void)
{
    struct nd_block given = {false, NULL};
    for (size_t length = POOL_BYTES; !given.ok; length -= HEAD_BYTES)
        given = nd_alloc(length, HEAD_BYTES);
    return given.p;
}

/* A block that is long enough is found although many that are too short are before it in its list, and no list of longer ones has any. */
static void is_found_behind_shorter_ones(void)
{
    enum { SHORTER = 16 * HEAD_BYTES, WANTED = 19 * HEAD_BYTES, COUNT = 40 };
    void *shorter[COUNT], *between[COUNT + 1], *wanted = taken(WANTED), *others;
    between[COUNT] = taken(1);
    for (size_t i = 0; i < COUNT; i++) {
        shorter[i] = taken(SHORTER);
        between[i] = taken(1);
    }
    others = rest();
    nd_free(wanted);
    for (size_t i = 0; i < COUNT; i++)
        nd_free(shorter[i]);
    nd_free(taken(WANTED));
    for (size_t i = 0; i <= COUNT; i++)
        nd_free(between[i]);
    nd_free(others);
}

int main(int count, char **arguments)
{
    long calls = count > 1 ? atol(arguments[1]) : 0;
    is_whole();
    is_found_behind_shorter_ones();
    is_whole();
    for (long i = 0; i < calls; i++) {
        struct block *block = &blocks[below(BLOCKS)];
        if (block->bytes == NULL)
            request(block);
        else if (below(3) == 0)
            change(block);
        else
            give_back(block);
    }
    for (size_t i = 0; i < BLOCKS; i++)
        if (blocks[i].bytes != NULL)
            give_back(&blocks[i]);
    is_whole();
    return 0;
}
