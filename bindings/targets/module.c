/* module: what the module of WebAssembly has besides the node and the pool of bindings/c/pool.c. The program outside says where in the module's memory
 * the pool is. The module calls nothing outside. Built with ND_BYTEWISE it has no instruction that copies or fills memory as a whole. */
#include <stddef.h>
#include <stdint.h>

struct head;

extern uint8_t __heap_base[];

struct head *nd_pool;
size_t nd_pool_units;

/* Returns the first byte of the module's memory that is free. */
void *nd_free_memory(void)
{
    return __heap_base;
}

/* Gives the pool its memory, all zeros: `first` is a multiple of 16. Called once, before any other function. */
void nd_give_pool(void *first, size_t size)
{
    nd_pool = first;
    nd_pool_units = size / 16;
}

/* The functions of a C library that clang calls. Eight bytes are moved at a time: WebAssembly allows any alignment. */

typedef uint64_t __attribute__((aligned(1), may_alias)) eight;

void *memcpy(void *to, const void *from, size_t length)
{
    uint8_t *t = to;
    const uint8_t *f = from;
    for (; length >= 8; length -= 8, t += 8, f += 8)
        *(eight *)t = *(const eight *)f;
    while (length-- > 0)
        *t++ = *f++;
    return to;
}

void *memmove(void *to, const void *from, size_t length)
{
    uint8_t *t = to;
    const uint8_t *f = from;
    if ((uintptr_t)t - (uintptr_t)f >= length)
        return memcpy(to, from, length);
    for (; length >= 8; length -= 8)
        *(eight *)(t + length - 8) = *(const eight *)(f + length - 8);
    while (length-- > 0)
        t[length] = f[length];
    return to;
}

void *memset(void *to, int byte, size_t length)
{
    uint8_t *t = to;
    const uint64_t bytes = (uint8_t)byte * UINT64_C(0x0101010101010101);
    for (; length >= 8; length -= 8, t += 8)
        *(eight *)t = bytes;
    while (length-- > 0)
        *t++ = (uint8_t)byte;
    return to;
}

/* Functions of clang's run-time library for numbers of 128 bits: the product, and shifts by 0 to 127. */

static __int128 of_halves(uint64_t high, uint64_t low)
{
    return (__int128)((unsigned __int128)high << 64 | low); /* a shift by 64 is a move */
}

__int128 __ashlti3(__int128 a, int by)
{
    const uint64_t low = (uint64_t)a, high = (uint64_t)(a >> 64);
    if (by >= 64)
        return of_halves(low << (by - 64), 0);
    return by == 0 ? a : of_halves(high << by | low >> (64 - by), low << by);
}

__int128 __lshrti3(__int128 a, int by)
{
    const uint64_t low = (uint64_t)a, high = (uint64_t)(a >> 64);
    if (by >= 64)
        return of_halves(0, high >> (by - 64));
    return by == 0 ? a : of_halves(high >> by, low >> by | high << (64 - by));
}

__int128 __multi3(__int128 a, __int128 b)
{
    const uint64_t low = 0xffffffff, al = (uint64_t)a, bl = (uint64_t)b, ah = (uint64_t)(a >> 64), bh = (uint64_t)(b >> 64);
    const uint64_t ll = (al & low) * (bl & low), lh = (al & low) * (bl >> 32), hl = (al >> 32) * (bl & low), hh = (al >> 32) * (bl >> 32);
    const uint64_t middle = (ll >> 32) + (lh & low) + (hl & low);
    const uint64_t high = hh + (lh >> 32) + (hl >> 32) + (middle >> 32) + al * bh + ah * bl;
    return of_halves(high, middle << 32 | (ll & low));
}
