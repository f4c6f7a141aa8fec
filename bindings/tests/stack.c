/* stack: how much stack the calls take. It is linked with another test, compiled with -Dmain=tested_main, and with --wrap for each function of the
 * library. The test runs in a thread, whose stack below each call is painted before and looked at after it. The memory functions are among what is
 * measured. It requires that no call takes more bytes than STACK_BYTES, which nd.h says. */
#include "nd.h"
#undef main
#include <pthread.h>
#include <stdio.h>

enum { PAINTED = 4 * STACK_BYTES, OWN = 256, OF_THREAD = 64 * STACK_BYTES };
#define PAINT UINT64_C(0x5ad1ad1ad1ad1ad5)

int tested_main(int argc, char **argv);

struct program {
    int argc;
    char **argv;
    int status;
};

static size_t deepest;
static const char *deepest_call;

/* Paints the stack below the frame of a caller, but for its own bytes. It is no call, since that would be painted too. */
#define PAINT_BELOW(top) \
    for (volatile uint64_t *at = (volatile uint64_t *)((top) - PAINTED); at < (volatile uint64_t *)((top) - OWN); at++) \
    *at = PAINT

static void look_below(uintptr_t top, const char *call)
{
    volatile uint64_t *at = (volatile uint64_t *)(top - PAINTED);
    while (*at == PAINT)
        at++;
    if (top - (uintptr_t)at > deepest) {
        deepest = top - (uintptr_t)at;
        deepest_call = call;
    }
}

#define WRAP(result, call, parameters, ...) \
    result __real_##call parameters; \
    result __wrap_##call parameters; \
    result __wrap_##call parameters \
    { \
        uintptr_t top = (uintptr_t)__builtin_frame_address(0); \
        result returned; \
        PAINT_BELOW(top); \
        returned = __real_##call(__VA_ARGS__); \
        look_below(top, #call); \
        return returned; \
    }
#define WRAP_EVENT(call, type) WRAP(int32_t, call, (nd_node * node, uint64_t now, type it), node, now, it)
#define WRAP_FIND(call, type) WRAP(int32_t, call, (nd_node * node, uint64_t now, const nd_addr *of, type *row), node, now, of, row)
#define WRAP_ALL(name, row) WRAP(int32_t, name, (nd_node * node, uint64_t now, row *rows, size_t room, size_t *count), node, now, rows, room, count)
#define WRAP_AT(call, type) WRAP(int32_t, call, (nd_node * node, uint64_t now, size_t index, type *row), node, now, index, row)

WRAP(size_t, nd_node_bytes, (const nd_limits *limits), limits)
WRAP(size_t, nd_pool_bytes, (const nd_limits *limits, size_t longest), limits, longest)
WRAP(int32_t, nd_open, (nd_node * node, const nd_options *options, size_t size), node, options, size)
WRAP(uint64_t, nd_last_moment, (nd_node * node), node)
WRAP(uint64_t, nd_next_due, (nd_node * node), node)
WRAP(uint64_t, nd_lease_version, (nd_node * node), node)
WRAP(int32_t, nd_pass, (nd_node * node, uint64_t now), node, now)
WRAP(int32_t, nd_receive, (nd_node * node, uint64_t now, const uint8_t *frame, size_t length), node, now, frame, length)
WRAP(int32_t, nd_receive_message, (nd_node * node, uint64_t now, const nd_message *message, const uint8_t *bytes, size_t length), node, now,
     message, bytes, length)
WRAP(int32_t, nd_send,
     (nd_node * node, uint64_t now, const nd_addr *from, const nd_addr *to, uint8_t next, const uint8_t *payload, size_t length), node, now, from, to,
     next, payload, length)
WRAP(int32_t, nd_stop_advertising, (nd_node * node, uint64_t now), node, now)
WRAP(int32_t, nd_poll, (nd_node * node, nd_out *out, uint8_t *buffer, size_t size), node, out, buffer, size)
WRAP(int32_t, nd_hear, (const uint8_t *frame, size_t length, uint32_t role, nd_heard *heard), frame, length, role, heard)
WRAP(int32_t, nd_confirm_to, (nd_node * node, uint64_t now, const nd_addr *to, uint64_t least), node, now, to, least)
WRAP_EVENT(nd_confirm, const nd_addr *)
WRAP_EVENT(nd_forget, const nd_addr *)
WRAP_EVENT(nd_clear, uint32_t)
WRAP_EVENT(nd_add_address, const nd_own_address *)
WRAP_EVENT(nd_remove_address, const nd_addr *)
WRAP_EVENT(nd_advertise, const nd_advertising *)
WRAP_EVENT(nd_advertise_prefix, const nd_offer_row *)
WRAP_EVENT(nd_add_route, const nd_route_row *)
WRAP_EVENT(nd_parameters_of, nd_parameters_row *)
WRAP_EVENT(nd_advertising_of, nd_advertising *)
WRAP_EVENT(nd_counts_of, nd_counts_row *)
WRAP_FIND(nd_next_hop, nd_next_hop_row)
WRAP_FIND(nd_resolve, nd_path)
WRAP_FIND(nd_neighbour_of, nd_neighbour_row)
WRAP_ALL(nd_neighbours, nd_neighbour_row)
WRAP_ALL(nd_routers, nd_router_row)
WRAP_ALL(nd_prefixes, nd_prefix_row)
WRAP_ALL(nd_addresses, nd_address_row)
WRAP_ALL(nd_servers, nd_server_row)
WRAP_ALL(nd_names, nd_name_row)
WRAP_ALL(nd_redirects, nd_redirect_row)
WRAP_ALL(nd_offers, nd_offer_row)
WRAP_ALL(nd_routes, nd_route_row)
WRAP_AT(nd_neighbour_at, nd_neighbour_row)
WRAP_AT(nd_router_at, nd_router_row)
WRAP_AT(nd_prefix_at, nd_prefix_row)
WRAP_AT(nd_address_at, nd_address_row)
WRAP_AT(nd_server_at, nd_server_row)
WRAP_AT(nd_name_at, nd_name_row)
WRAP_AT(nd_redirect_at, nd_redirect_row)
WRAP_AT(nd_offer_at, nd_offer_row)
WRAP_AT(nd_route_at, nd_route_row)

void __real_nd_close(nd_node *node);
void __wrap_nd_close(nd_node *node);
void __wrap_nd_close(nd_node *node)
{
    uintptr_t top = (uintptr_t)__builtin_frame_address(0);
    PAINT_BELOW(top);
    __real_nd_close(node);
    look_below(top, "nd_close");
}

static void *run(void *argument)
{
    struct program *program = argument;
    program->status = tested_main(program->argc, program->argv);
    return NULL;
}

int main(int argc, char **argv)
{
    struct program program = {argc, argv, 1};
    pthread_attr_t attributes;
    pthread_t thread;
    if (pthread_attr_init(&attributes) != 0 || pthread_attr_setstacksize(&attributes, OF_THREAD) != 0 ||
        pthread_create(&thread, &attributes, run, &program) != 0 || pthread_join(thread, NULL) != 0)
        return 1;
    fprintf(stderr, "at most %zu bytes of stack, by %s\n", deepest, deepest_call);
    return program.status != 0 || deepest == 0 || deepest > STACK_BYTES;
}
