/* tables.h: a hash of all that a node shows: each row of each table, the settings, the counts, and the moment that is due next. And what holds of the
 * counts and the limits. */
#ifndef TABLES_H
#define TABLES_H
#include "ranges.h"

enum { MOST_ROWS = 2048 };

/* Mixes in the rows of a table, and how many there are. A row is written whole, and has no padding. Requires that they are the same where they are
 * asked for one by one, and where there is room for one row less. */
#define MIX_ROWS(hash, row_type, ask_all, ask) \
    do { \
        static row_type rows[MOST_ROWS], few[MOST_ROWS]; \
        row_type row; \
        size_t count = SIZE_MAX, less = SIZE_MAX; \
        require(ask_all(node, now, rows, MOST_ROWS, &count) == ND_DONE && count <= MOST_ROWS, #ask_all); \
        for (size_t i = 0; i < count; i++) \
            require(ask(node, now, i, &row) == ND_DONE && memcmp(&row, &rows[i], sizeof row) == 0, #ask " is a row of " #ask_all); \
        require(ask(node, now, count, &row) == ND_NOTHING, #ask_all " has all rows"); \
        require(count == 0 || (ask_all(node, now, few, count - 1, &less) == ND_NO_ROOM && less == count - 1), #ask_all " without room for one"); \
        require(count == 0 || memcmp(few, rows, less * sizeof row) == 0, #ask_all " has the first rows"); \
        hash = mix(mix(hash, rows, count * sizeof row), &count, sizeof count); \
    } while (0)

/* The tables of `enum nd_change`, by their bits. */
enum { CHANGEABLE = 7 };

/* Writes the hash of the rows of each of these tables at a moment. */
static inline void changeable_at(nd_node *node, uint64_t now, uint64_t hashes[CHANGEABLE])
{
    nd_parameters_row parameters;
    for (size_t i = 0; i < CHANGEABLE; i++)
        hashes[i] = FIRST_HASH;
    MIX_ROWS(hashes[0], nd_router_row, nd_routers, nd_router_at);
    MIX_ROWS(hashes[1], nd_prefix_row, nd_prefixes, nd_prefix_at);
    MIX_ROWS(hashes[2], nd_address_row, nd_addresses, nd_address_at);
    MIX_ROWS(hashes[3], nd_server_row, nd_servers, nd_server_at);
    MIX_ROWS(hashes[4], nd_name_row, nd_names, nd_name_at);
    MIX_ROWS(hashes[5], nd_redirect_row, nd_redirects, nd_redirect_at);
    require(nd_parameters_of(node, now, &parameters) == ND_DONE, "nd_parameters_of");
    hashes[6] = mix(hashes[6], &parameters, sizeof parameters);
}

/* Returns the hash of what a node shows at a moment, where nothing is due before it, but for the moment up to which its time has passed. */
static inline uint64_t rows_at(nd_node *node, uint64_t now)
{
    uint64_t hash = FIRST_HASH, due = nd_next_due(node);
    nd_parameters_row parameters;
    nd_advertising settings;
    nd_counts_row counts;
    int32_t status;
    MIX_ROWS(hash, nd_neighbour_row, nd_neighbours, nd_neighbour_at);
    MIX_ROWS(hash, nd_router_row, nd_routers, nd_router_at);
    MIX_ROWS(hash, nd_prefix_row, nd_prefixes, nd_prefix_at);
    MIX_ROWS(hash, nd_address_row, nd_addresses, nd_address_at);
    MIX_ROWS(hash, nd_server_row, nd_servers, nd_server_at);
    MIX_ROWS(hash, nd_name_row, nd_names, nd_name_at);
    MIX_ROWS(hash, nd_redirect_row, nd_redirects, nd_redirect_at);
    MIX_ROWS(hash, nd_offer_row, nd_offers, nd_offer_at);
    MIX_ROWS(hash, nd_route_row, nd_routes, nd_route_at);
    require(nd_parameters_of(node, now, &parameters) == ND_DONE, "nd_parameters_of");
    require(nd_counts_of(node, now, &counts) == ND_DONE, "nd_counts_of");
    hash = mix(mix(hash, &parameters, sizeof parameters), &counts, sizeof counts);
    status = nd_advertising_of(node, now, &settings);
    require(status == ND_DONE || status == ND_NOTHING, "nd_advertising_of");
    if (status == ND_DONE)
        hash = mix(hash, &settings, sizeof settings);
    return mix(mix(hash, &status, sizeof status), &due, sizeof due);
}

/* Returns the hash of all of it. */
static inline uint64_t tables_of(nd_node *node, uint64_t now)
{
    uint64_t last = nd_last_moment(node);
    return mix(rows_at(node, now), &last, sizeof last);
}

/* The tables that nd_counts_of counts. */
enum { COUNTED = 9 };
static const char *const TABLES[COUNTED] = {"neighbours", "routers", "prefixes", "addresses", "servers", "names", "redirects", "offers", "routes"};

/* Returns the count of a table, by the order of the counts, and its limit. */
static inline uint32_t count_of(const nd_counts_row *counts, size_t i, uint32_t *limit)
{
    const nd_limits *of = &counts->limits;
    const uint32_t all[COUNTED][2] = {
        {counts->neighbours, of->neighbours}, {counts->routers, of->routers},     {counts->prefixes, of->prefixes},
        {counts->addresses, of->addresses},   {counts->servers, of->servers},     {counts->names, of->names},
        {counts->redirects, of->redirects},   {counts->offers, of->offers},       {counts->routes, of->routes},
    };
    *limit = all[i][1];
    return all[i][0];
}

/* Requires that a node has the limits that were asked for, and that no table passes its limit. Returns the counts. */
static inline nd_counts_row counts_within(nd_node *node, uint64_t now, const nd_limits *asked)
{
    nd_counts_row counts;
    uint32_t limit;
    require(nd_counts_of(node, now, &counts) == ND_DONE && counts.reserved == 0, "nd_counts_of");
    for (size_t i = 0; i < RANGES; i++)
        require(*limit_in(&counts.limits, i) == limit_of(asked, i), "the limits are those that were asked for");
    for (size_t i = 0; i < COUNTED; i++)
        require(count_of(&counts, i, &limit) <= limit && limit > 0, "no table passes its limit");
    return counts;
}
#endif
