/* limits: each limit of a node at 1 and at its greatest, the others usual; all at 1; all at their greatest. A host and a router are asked for more
 * rows of each table than its greatest limit: by the frames of `frames.py full`, from standard input, and by calls. No table passes its limit at any
 * time, at the end each has as many rows as its limit, and as many packets wait for a neighbour. */
#include "heap.h"
#include "tables.h"

static struct frame frames[MOST_FRAMES];
static size_t frame_count;

#define ROWS(row_type, ask) \
    static size_t rows_of_##ask(nd_node *node, uint64_t now) \
    { \
        row_type row; \
        size_t i = 0; \
        while (ask(node, now, i, &row) == ND_DONE) \
            i++; \
        return i; \
    }

ROWS(nd_neighbour_row, nd_neighbour_at)
ROWS(nd_router_row, nd_router_at)
ROWS(nd_prefix_row, nd_prefix_at)
ROWS(nd_address_row, nd_address_at)
ROWS(nd_server_row, nd_server_at)
ROWS(nd_name_row, nd_name_at)
ROWS(nd_redirect_row, nd_redirect_at)
ROWS(nd_offer_row, nd_offer_at)
ROWS(nd_route_row, nd_route_at)

static size_t (*const ROWS_OF[COUNTED])(nd_node *node, uint64_t now) = {
    rows_of_nd_neighbour_at, rows_of_nd_router_at, rows_of_nd_prefix_at,   rows_of_nd_address_at, rows_of_nd_server_at,
    rows_of_nd_name_at,      rows_of_nd_redirect_at, rows_of_nd_offer_at, rows_of_nd_route_at,
};

/* The tables that a node fills, by the order of the counts. The others have no row. */
static const bool FILLED[2][COUNTED] = {{true, true, true, true, true, true, true, false, false},
                                        {true, false, false, true, false, false, false, true, true}};

enum { OPENED_AT = 3000 };

static void require_of(bool holds, const char *table, uint32_t role, const char *what)
{
    if (!holds)
        fprintf(stderr, "%s of a %s: ", table, role == ND_ROLE_HOST ? "host" : "router");
    require(holds, what);
}

/* Takes all records, and returns how many packets were lost in a way. */
static size_t lost(nd_node *node, uint32_t loss)
{
    static uint8_t buffer[LONGEST_FRAME];
    nd_out out;
    size_t count = 0;
    while (nd_poll(node, &out, buffer, sizeof buffer) == ND_DONE)
        count += out.kind == ND_OUT_LOST && out.code == loss;
    return count;
}

/* Sends one packet more to an address than may wait for it. Requires that one is replaced, and that as many as may wait are lost with the
 * neighbour. */
static void fill_waiting(nd_node *node, uint32_t role, size_t limit)
{
    static const uint8_t payload[1] = {0};
    const nd_addr silent = {{0xfe, 0x80, [15] = 0x77}};
    for (size_t i = 0; i < limit; i++)
        require(nd_send(node, OPENED_AT, &LINK_LOCAL, &silent, 17, payload, sizeof payload) == ND_DONE, "nd_send");
    require_of(lost(node, ND_LOSS_REPLACED) == 0, "waiting", role, "as many packets wait as the limit says");
    require(nd_send(node, OPENED_AT, &LINK_LOCAL, &silent, 17, payload, sizeof payload) == ND_DONE, "nd_send");
    require_of(lost(node, ND_LOSS_REPLACED) == 1, "waiting", role, "one packet more replaces one");
    require(nd_forget(node, OPENED_AT, &silent) == ND_DONE, "nd_forget");
    require_of(lost(node, ND_LOSS_FORGOTTEN) == limit, "waiting", role, "as many are lost as the limit says");
}

/* Calls for one offer, for one route and for one address more than the greatest limits. */
static void call_for_rows(nd_node *node, uint64_t now, const nd_limits *asked)
{
    for (unsigned i = 0; i <= 64; i++) {
        const nd_offer_row offer = {.prefix = {{0x20, 1, 0xd, 0xb8, 1, (uint8_t)i}}, .bits = 64, .valid_lifetime = 9, .preferred_lifetime = 9};
        const nd_route_row route = {.prefix = offer.prefix, .bits = 64, .hop = ND_HOP_DIRECT};
        const nd_own_address own = {{{0x20, 1, 0xd, 0xb8, 0xff, 0xff, [15] = (uint8_t)i}}, ND_LIFETIME_INFINITE, ND_LIFETIME_INFINITE};
        require(i > 16 || is_taken(nd_advertise_prefix(node, now, &offer)), "nd_advertise_prefix");
        require(is_taken(nd_add_route(node, now, &route)), "nd_add_route");
        require(is_taken(nd_add_address(node, now, &own)), "nd_add_address");
        drain(node, FIRST_HASH);
        counts_within(node, now, asked);
    }
}

/* Requires that the tables of a role have as many rows as their limits say. */
static void require_full(nd_node *node, uint32_t role, uint64_t now, const nd_limits *asked)
{
    const nd_counts_row counts = counts_within(node, now, asked);
    for (size_t i = 0; i < COUNTED; i++) {
        uint32_t limit, count = count_of(&counts, i, &limit);
        require_of(count == (FILLED[role][i] ? limit : 0), TABLES[i], role, "there are as many rows as the limit says");
        require_of(count == ROWS_OF[i](node, now), TABLES[i], role, "they are counted");
    }
}

/* Fills all tables of a node with some limits. */
static void fill(uint32_t role, const nd_limits *asked)
{
    nd_node node = ND_NODE_INIT;
    nd_options options = host_options();
    uint64_t now = OPENED_AT;
    options.role = role;
    options.limits = *asked;
    require(nd_open(&node, &options, sizeof options) == ND_DONE && nd_pass(&node, now) == ND_DONE, "nd_open");
    drain(&node, FIRST_HASH);
    fill_waiting(&node, role, limit_of(asked, RANGES - 1));
    if (role == ND_ROLE_ROUTER)
        call_for_rows(&node, now, asked);
    for (size_t i = 0; i < frame_count; i++) {
        require(is_taken(nd_receive(&node, ++now, frames[i].bytes, frames[i].length)), "nd_receive");
        drain(&node, FIRST_HASH);
        counts_within(&node, now, asked);
    }
    require_full(&node, role, now, asked);
    nd_close(&node);
    require(heap_blocks == 0, "all memory is given back");
}

static void fill_both(const nd_limits *asked)
{
    fill(ND_ROLE_HOST, asked);
    fill(ND_ROLE_ROUTER, asked);
}

int main(void)
{
    nd_limits least = {0}, greatest = {0};
    frame_count = read_frames(frames);
    require(frame_count > 0, "there are frames");
    for (size_t i = 0; i < RANGES; i++) {
        nd_limits one = {0};
        *limit_in(&one, i) = *limit_in(&least, i) = 1;
        fill_both(&one);
        *limit_in(&one, i) = *limit_in(&greatest, i) = ranges[i].greatest;
        fill_both(&one);
    }
    fill_both(&least);
    fill_both(&greatest);
    printf("a host and a router with %d choices of limits: each table has as many rows as its limit, of %zu frames\n", 2 * RANGES + 2, frame_count);
    free_frames(frames, frame_count);
    return 0;
}
