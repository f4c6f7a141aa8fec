/* heap.h: a heap for tests, which counts what is requested, and can refuse one request or all. */
#ifndef HEAP_H
#define HEAP_H
#include <stdbool.h>
#include <stddef.h>

extern size_t heap_now;      /* bytes in use */
extern size_t heap_most;     /* the most that were */
extern size_t heap_blocks;   /* blocks in use */
extern size_t heap_requests; /* requests so far, refused ones too */
extern size_t heap_refuse;   /* if above 0: the number of the request, from now on, that is refused */
extern bool heap_is_spent;   /* each request is refused */
extern size_t heap_refused;  /* requests that were refused */
#endif
