/* ranges.h: the limits of a node in the order of nd.h: their names, which are the options of `ndpctl run` too, the usual numbers and the greatest. */
#ifndef RANGES_H
#define RANGES_H
#include "tested.h"

enum { RANGES = 11 };

struct range {
    const char *name;
    size_t at;
    uint16_t usual, greatest;
};

#define RANGE(name, usual, greatest) {#name, offsetof(nd_limits, name), usual, greatest}

static const struct range ranges[RANGES] = {
    RANGE(neighbours, 512, 2048), RANGE(routers, 16, 64),   RANGE(prefixes, 64, 64),       RANGE(addresses, 64, 64),
    RANGE(servers, 32, 32),       RANGE(names, 32, 32),     RANGE(redirects, 64, 64),      RANGE(destinations, 256, 256),
    RANGE(offers, 16, 16),        RANGE(routes, 64, 64),    RANGE(waiting, 3, 8),
};

static inline uint16_t *limit_in(nd_limits *limits, size_t i)
{
    return (uint16_t *)(void *)((uint8_t *)limits + ranges[i].at);
}

/* Returns the limit that a field asks for, the usual number in place of 0. */
static inline uint16_t limit_of(const nd_limits *limits, size_t i)
{
    uint16_t limit;
    memcpy(&limit, (const uint8_t *)limits + ranges[i].at, sizeof limit);
    return limit == 0 ? ranges[i].usual : limit;
}
#endif
