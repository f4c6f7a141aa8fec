/* driver: stands behind the C of the cases, and two tables: `translated`, the functions of that C, and `names`. Calls each with pairs of edge numbers
 * and with random ones, and prints how many calls were wrong, and a hash of all results. With BOTH the results are compared with those of `compiled`,
 * the functions that clang made of the same module; without it there is nothing to compare with, and the hash is compared with that of other
 * compilers. */
#include <stdio.h>

static const u64 edges[] = {0, 1, 2, 3, 7, 31, 32, 63, 64, 127, 128, 255, 256, 32767, 32768, 65535, 65536, 0x7fffffff, 0x80000000, 0xffffffff,
                            0x100000000, 0x7fffffffffffffff, 0x8000000000000000, 0xfffffffffffffffe, 0xffffffffffffffff, 0x3ff0000000000000,
                            0x7ff8000000000000, 0x7ff0000000000000, 0x0102030405060708, 0xf0e1d2c3b4a59687};
enum { EDGES = sizeof edges / sizeof *edges, RANDOM = 300 };
static u64 state = 1, hash, calls, wrong;

/* The function outside of the module that one of the cases calls. */
static u64 os_given(u64 a, u64 b)
{
    return a * 3 ^ b;
}

#ifdef BOTH
u64 given(u64 a, u64 b);
u64 given(u64 a, u64 b)
{
    return a * 3 ^ b;
}
#endif

static u64 drawn(void)
{
    state = state * 6364136223846793005u + 1442695040888963407u;
    return state ^ state >> 29;
}

/* Returns true if a case gives what it is to give. */
static int is_right(int n, u64 a, u64 b, u64 c)
{
    const u64 ours = translated[n](a, b, c);
    calls++;
    hash = (hash ^ ours) * 1099511628211u + (u64)n;
#ifdef BOTH
    const u64 theirs = compiled[n](a, b, c);
    if (ours != theirs) {
        printf("%s: %llx, not %llx, of %llx %llx %llx\n", names[n], (unsigned long long)ours, (unsigned long long)theirs, (unsigned long long)a,
               (unsigned long long)b, (unsigned long long)c);
        wrong++;
        return 0;
    }
#endif
    return 1;
}

/* Calls a case until it is wrong. */
static void try_case(int n)
{
    for (int i = 0; i < EDGES * EDGES; i++)
        if (!is_right(n, edges[i / EDGES], edges[i % EDGES], edges[(i / EDGES * 7 + i % EDGES) % EDGES]))
            return;
    for (int i = 0; i < RANDOM; i++) {
        const u64 a = drawn(), b = drawn(), c = drawn();
        if (!is_right(n, a, i % 3 != 0 ? b : a, c))
            return;
    }
}

int main(void)
{
    set_pointers();
    for (int n = 0; n < CASES; n++)
        try_case(n);
    printf("%d functions, %llu calls, %llu wrong, hash %016llx\n", CASES, (unsigned long long)calls, (unsigned long long)wrong,
           (unsigned long long)hash);
    return wrong != 0;
}
