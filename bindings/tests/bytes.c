/* bytes: nd_node_bytes against what a node requests. The arguments are the eleven limits in the order of nd.h; the frames of `frames.py full`, calls
 * and packets fill the tables of a host and of a router. The queue is emptied after each call. At no moment do they hold more bytes than
 * nd_node_bytes says. Then each neighbour that there may be is INCOMPLETE, with as many packets as may wait: these are held besides, each with a
 * place of 24 bytes. */
#include "heap.h"
#include "ranges.h"

enum { DESTINATIONS = 300, OPENED_AT = 3000, HEADERS = 54, PLACE = 24 };

static const uint8_t PAYLOAD[1] = {0};

static struct frame frames[MOST_FRAMES];
static size_t frame_count;

/* What a node holds: after nd_open, and at most; and with packets that wait, which are `waiting` bytes. */
struct held {
    size_t opened, most, with_waiting, waiting;
};

/* Takes all records, and notes what is held. */
static void hold(nd_node *node, size_t *most)
{
    drain(node, FIRST_HASH);
    *most = heap_now > *most ? heap_now : *most;
}

static struct held opened(nd_node *node, uint32_t role, const nd_limits *limits)
{
    struct held held = {0, 0, 0, 0};
    nd_options options = host_options();
    options.role = role;
    options.limits = *limits;
    require(nd_open(node, &options, sizeof options) == ND_DONE, "nd_open");
    held.opened = held.most = heap_now;
    require(nd_pass(node, OPENED_AT) == ND_DONE, "nd_pass");
    hold(node, &held.most);
    return held;
}

static void closed(nd_node *node)
{
    nd_close(node);
    require(heap_blocks == 0, "all memory is given back");
}

/* Has a router advertise, and calls for more offers, routes and addresses than it takes. The first route is to the router of frames.py, for all
 * packets. */
static void call_for_rows(nd_node *node, size_t *most)
{
    const nd_advertising settings = {.min_interval = 200, .max_interval = 600, .lifetime = 1800, .hop_limit = 64};
    const nd_addr router = {{0xfe, 0x80, [11] = 0xff, [12] = 0xfe, [15] = 1}};
    for (unsigned i = 0; i <= 64; i++) {
        const nd_addr prefix = {{0x20, 1, 0xd, 0xb8, 1, (uint8_t)i}}, none = {{0}};
        const nd_offer_row offer = {.prefix = prefix, .bits = 64, .valid_lifetime = 9, .preferred_lifetime = 9};
        const nd_route_row route = {.prefix = i == 0 ? none : prefix, .bits = i == 0 ? 0 : 64, .hop = ND_HOP_VIA, .router = router};
        const nd_own_address own = {{{0x20, 1, 0xd, 0xb8, 0xff, 0xff, [15] = (uint8_t)i}}, ND_LIFETIME_INFINITE, ND_LIFETIME_INFINITE};
        require(is_taken(nd_advertise_prefix(node, OPENED_AT, &offer)) && is_taken(nd_add_route(node, OPENED_AT, &route)), "what a router is given");
        require(is_taken(nd_add_address(node, OPENED_AT, &own)), "nd_add_address");
        hold(node, most);
    }
    require(nd_advertise(node, OPENED_AT, &settings) == ND_DONE && nd_pass(node, OPENED_AT) == ND_DONE, "nd_advertise");
    hold(node, most);
}

/* Sends to more destinations than a node remembers next hops for. */
static void send_to_many(nd_node *node, uint64_t now, size_t *most)
{
    for (size_t i = 0; i < DESTINATIONS; i++) {
        const nd_addr far = {{0x20, 0x01, 0x0d, 0xb8, 0, 0x99, [14] = (uint8_t)(i >> 8), [15] = (uint8_t)i}};
        require(nd_send(node, now, &LINK_LOCAL, &far, 17, PAYLOAD, sizeof PAYLOAD) == ND_DONE, "nd_send");
        hold(node, most);
    }
}

/* Fills all tables. */
static void fill(nd_node *node, uint32_t role, const nd_limits *limits, struct held *held)
{
    uint64_t now = OPENED_AT;
    nd_counts_row counts;
    if (role == ND_ROLE_ROUTER)
        call_for_rows(node, &held->most);
    for (size_t i = 0; i < frame_count; i++) {
        require(is_taken(nd_receive(node, ++now, frames[i].bytes, frames[i].length)), "nd_receive");
        hold(node, &held->most);
    }
    send_to_many(node, ++now, &held->most);
    require(nd_counts_of(node, now, &counts) == ND_DONE && counts.neighbours == limit_of(limits, 0), "the neighbours are full");
}

/* Makes each neighbour that there may be INCOMPLETE, with as many packets as may wait. */
static void make_wait(nd_node *node, const nd_limits *limits, struct held *held)
{
    size_t neighbours = limit_of(limits, 0), waiting = limit_of(limits, RANGES - 1);
    for (size_t i = 0; i < neighbours * waiting; i++) {
        const nd_addr near = {{0xfe, 0x80, [13] = 7, [14] = (uint8_t)(i / waiting >> 8), [15] = (uint8_t)(i / waiting)}};
        require(nd_send(node, OPENED_AT, &LINK_LOCAL, &near, 17, PAYLOAD, sizeof PAYLOAD) == ND_DONE, "nd_send");
        hold(node, &held->with_waiting);
    }
    held->waiting = neighbours * waiting * (PLACE + HEADERS + sizeof PAYLOAD);
}

static struct held held_by(uint32_t role, const nd_limits *limits)
{
    nd_node node = ND_NODE_INIT;
    struct held held = opened(&node, role, limits);
    fill(&node, role, limits, &held);
    closed(&node);
    opened(&node, role, limits);
    make_wait(&node, limits, &held);
    closed(&node);
    printf(" %s opened %zu, held %zu, with packets that wait %zu, of which they have %zu;", role == ND_ROLE_HOST ? "host" : "router", held.opened,
           held.most, held.with_waiting, held.waiting);
    return held;
}

static size_t greater(size_t one, size_t other)
{
    return one > other ? one : other;
}

int main(int argc, char **argv)
{
    nd_limits limits = {0};
    struct held host, router;
    size_t bytes;
    require(argc == 1 + RANGES, "bytes LIMIT.. < frames");
    for (size_t i = 0; i < RANGES; i++) {
        *limit_in(&limits, i) = (uint16_t)strtoul(argv[1 + i], NULL, 10);
        printf("%u ", (unsigned)*limit_in(&limits, i));
    }
    frame_count = read_frames(frames);
    bytes = nd_node_bytes(&limits);
    printf("nd_node_bytes %zu;", bytes);
    host = held_by(ND_ROLE_HOST, &limits);
    router = held_by(ND_ROLE_ROUTER, &limits);
    printf("\n");
    free_frames(frames, frame_count);
    require(host.opened <= host.most && router.opened <= router.most, "a node that is filled holds no less than one that was opened");
    require(host.most <= bytes && router.most <= bytes, "nodes hold no more than nd_node_bytes");
    require(host.with_waiting <= bytes + host.waiting, "packets that wait take no more than their frames and places");
    require(router.with_waiting <= bytes + router.waiting, "packets that wait at a router take no more");
    require(greater(host.most, router.most) * 4 > bytes, "nd_node_bytes is not far from what is held");
    return 0;
}
