/* refuse: refuses each request for memory of a run once. A call that returns ND_NO_MEMORY is made again. What the node reports, and all rows at the
 * end, are the same bytes as with memory, and all memory is given back. Reads frames. The argument is the role, a number of `enum nd_role`. */
#include "heap.h"
#include "tested.h"

enum { SEEN_AT = 3000, APART = 7, LATER = 20000 };

static struct frame frames[MOST_FRAMES];
static size_t count, again;
static uint32_t role;

/* Makes a call until memory is not refused. */
#define RETRIED(status, call) while ((status = (call)) == ND_NO_MEMORY) again++

/* Opens a node. Where memory is refused it is closed and holds none. */
static void open_again(nd_node *node)
{
    nd_options options = host_options();
    int32_t status;
    options.role = role;
    while ((status = nd_open(node, &options, sizeof options)) == ND_NO_MEMORY) {
        require(!node->is_open && heap_blocks == 0, "nd_open that is refused leaves nothing");
        again++;
    }
    require(status == ND_DONE, "nd_open");
}

static void turn_again(nd_node *node, uint64_t now)
{
    int32_t status;
    RETRIED(status, nd_pass(node, now));
    require(status == ND_DONE && nd_last_moment(node) == now, "nd_pass");
}

static void receive_again(nd_node *node, uint64_t now, const struct frame *frame)
{
    int32_t status;
    RETRIED(status, nd_receive(node, now, frame->bytes, frame->length));
    require(is_taken(status) && nd_last_moment(node) == now, "nd_receive");
}

static void send_again(nd_node *node, uint64_t now, size_t i)
{
    static const uint8_t payload[4] = {1, 2, 3, 4};
    const nd_addr far = {{0x20, 0x01, 0x0d, 0xb8, 0, 0x77, [15] = (uint8_t)i}};
    int32_t status;
    RETRIED(status, nd_send(node, now, &LINK_LOCAL, &far, 17, payload, sizeof payload));
    require(is_taken(status) && nd_last_moment(node) == now, "nd_send");
}

/* Asks where packets go: to a neighbour of the link, or through a router. Returns the hash with the answer mixed in, but for its version: a call that
 * is made again may raise it twice. */
static uint64_t resolve_again(nd_node *node, uint64_t now, size_t i, uint64_t hash)
{
    const nd_addr on_link = {{0xfe, 0x80, [14] = 0x77, [15] = (uint8_t)i}}, far = {{0x20, 0x01, 0x0d, 0xb8, 0, 0x77, [14] = 1, [15] = (uint8_t)i}};
    nd_path path;
    int32_t status;
    RETRIED(status, nd_resolve(node, now, i % 16 < 8 ? &on_link : &far, &path));
    require(is_taken(status) && nd_last_moment(node) == now, "nd_resolve");
    path.version = 0;
    return mix(mix(hash, &status, sizeof status), &path, sizeof path);
}

/* Gives the node an address by hand, takes another one back, and lets the first one be tried. */
static void give_address_again(nd_node *node, uint64_t now)
{
    const nd_own_address own = {{{0x20, 1, 0xd, 0xb8, 0, 0x55, [15] = 1}}, 3600, 1800};
    const nd_own_address other = {{{0x20, 1, 0xd, 0xb8, 0, 0x55, [15] = 2}}, 3600, 1800};
    int32_t status;
    RETRIED(status, nd_add_address(node, now, &own));
    require(status == ND_DONE, "nd_add_address");
    RETRIED(status, nd_add_address(node, now, &other));
    require(status == ND_DONE, "nd_add_address");
    RETRIED(status, nd_remove_address(node, now, &other.address));
    require(status == ND_DONE && nd_last_moment(node) == now, "nd_remove_address");
}

/* Asks for the events of a router. A host refuses them. */
static void advertise_again(nd_node *node, uint64_t now)
{
    const nd_advertising settings = {.min_interval = 3, .max_interval = 4, .lifetime = 1800, .hop_limit = 64};
    const nd_offer_row offer = {.prefix = {{0x20, 1, 0xd, 0xb8}}, .bits = 64, .valid_lifetime = 3600, .preferred_lifetime = 1800, .on_link = 1};
    const nd_route_row route = {.prefix = {{0x20, 1, 0xd, 0xb8}}, .bits = 32, .hop = ND_HOP_DIRECT};
    int32_t status, wanted = role == ND_ROLE_ROUTER ? ND_DONE : ND_REFUSED(ND_REFUSAL_WRONG_ROLE, 0);
    RETRIED(status, nd_advertise_prefix(node, now, &offer));
    require(status == wanted, "nd_advertise_prefix");
    RETRIED(status, nd_add_route(node, now, &route));
    require(status == wanted, "nd_add_route");
    RETRIED(status, nd_advertise(node, now, &settings));
    require(status == wanted, "nd_advertise");
}

/* Mixes in all rows of the tables. The rows are written whole: they have no padding. */
static uint64_t rows_of(nd_node *node, uint64_t now, uint64_t hash)
{
    nd_neighbour_row neighbour;
    nd_router_row router;
    nd_prefix_row prefix;
    nd_address_row own;
    nd_server_row server;
    nd_name_row name;
    nd_redirect_row redirect;
    nd_parameters_row parameters;
    nd_offer_row offer;
    nd_route_row route;
    for (size_t i = 0; nd_neighbour_at(node, now, i, &neighbour) == ND_DONE; i++)
        hash = mix(hash, &neighbour, sizeof neighbour);
    for (size_t i = 0; nd_router_at(node, now, i, &router) == ND_DONE; i++)
        hash = mix(hash, &router, sizeof router);
    for (size_t i = 0; nd_prefix_at(node, now, i, &prefix) == ND_DONE; i++)
        hash = mix(hash, &prefix, sizeof prefix);
    for (size_t i = 0; nd_address_at(node, now, i, &own) == ND_DONE; i++)
        hash = mix(hash, &own, sizeof own);
    for (size_t i = 0; nd_server_at(node, now, i, &server) == ND_DONE; i++)
        hash = mix(hash, &server, sizeof server);
    for (size_t i = 0; nd_name_at(node, now, i, &name) == ND_DONE; i++)
        hash = mix(hash, &name, sizeof name);
    for (size_t i = 0; nd_redirect_at(node, now, i, &redirect) == ND_DONE; i++)
        hash = mix(hash, &redirect, sizeof redirect);
    for (size_t i = 0; nd_offer_at(node, now, i, &offer) == ND_DONE; i++)
        hash = mix(hash, &offer, sizeof offer);
    for (size_t i = 0; nd_route_at(node, now, i, &route) == ND_DONE; i++)
        hash = mix(hash, &route, sizeof route);
    require(nd_parameters_of(node, now, &parameters) == ND_DONE, "nd_parameters_of");
    return mix(hash, &parameters, sizeof parameters);
}

/* Runs all frames with the request of this number refused, none for 0. Returns the hash of what was reported. */
static uint64_t run(size_t refuse)
{
    nd_node node = ND_NODE_INIT;
    uint64_t hash = FIRST_HASH, now = SEEN_AT;
    heap_refuse = refuse;
    again = 0;
    open_again(&node);
    turn_again(&node, now);
    advertise_again(&node, now);
    give_address_again(&node, now);
    hash = drain(&node, hash);
    for (size_t i = 0; i < count; i++) {
        now += APART;
        receive_again(&node, now, &frames[i]);
        if (i % 8 == 0)
            send_again(&node, now, i);
        if (i % 8 == 4)
            hash = resolve_again(&node, now, i, hash);
        hash = drain(&node, hash);
    }
    turn_again(&node, now + LATER);
    hash = drain(&node, hash);
    hash = rows_of(&node, now + LATER, hash);
    heap_refuse = 0;
    nd_close(&node);
    require(heap_blocks == 0 && heap_now == 0, "all memory is given back");
    return hash;
}

int main(int argc, char **argv)
{
    size_t requests, unseen = 0, wrong = 0;
    uint64_t right;
    count = read_frames(frames);
    role = argc > 1 ? (uint32_t)strtoul(argv[1], NULL, 10) : ND_ROLE_HOST;
    heap_requests = 0;
    right = run(0);
    requests = heap_requests;
    for (size_t i = 1; i <= requests; i++) {
        wrong += run(i) != right;
        unseen += again != 1;
    }
    printf("%s: %zu requests in %zu frames, each refused once: %zu runs reported something else, %zu refusals were not one ND_NO_MEMORY\n",
           role == ND_ROLE_HOST ? "host" : "router", requests, count, wrong, unseen);
    free_frames(frames, count);
    return wrong > 0 || requests == 0;
}
