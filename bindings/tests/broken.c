/* broken: a library that is wrong in the way that the variable FAULT numbers, for `fuzz` to notice. It is linked with --wrap for the functions
 * below. */
#include <stdlib.h>
#include "nd.h"

#define FAULTS 38 /* bindings/check reads it */

/* Returns true each second time if this is the fault. */
static bool is_wrong(int fault)
{
    static unsigned times;
    const char *text = getenv("FAULT");
    return text != NULL && atoi(text) == fault && ++times % 2 == 0;
}

#define WRAP(result, call, ...) \
    result __real_##call(__VA_ARGS__); \
    result __wrap_##call(__VA_ARGS__); \
    result __wrap_##call(__VA_ARGS__)

WRAP(size_t, nd_node_bytes, const nd_limits *limits)
{
    return is_wrong(33) ? 0 : __real_nd_node_bytes(limits);
}

WRAP(int32_t, nd_counts_of, nd_node *node, uint64_t now, nd_counts_row *row)
{
    int32_t status = __real_nd_counts_of(node, now, row);
    if (is_wrong(1))
        row->limits.neighbours--;
    if (is_wrong(2))
        row->routers = row->limits.routers + 1u;
    return status;
}

/* The node that was opened last. */
static nd_node *newest;

/* The policies that a node is opened without, by their faults. */
static const uint32_t left_out[FAULTS + 1] = {
    [27] = ND_POLICY_PARTS, [28] = ND_POLICY_SELF, [34] = ND_POLICY_UNFORMED, [35] = ND_POLICY_ASKED, [36] = ND_POLICY_LIFETIMES,
    [37] = ND_POLICY_UNREDIRECTED, [38] = ND_POLICY_STRICT,
};

WRAP(int32_t, nd_open, nd_node *node, const nd_options *options, size_t size)
{
    nd_options other = *options;
    for (int fault = 1; fault <= FAULTS; fault++)
        if ((other.policies & left_out[fault]) != 0 && is_wrong(fault))
            other.policies &= ~left_out[fault];
    newest = node;
    return __real_nd_open(node, &other, size);
}

WRAP(int32_t, nd_neighbour_at, nd_node *node, uint64_t now, size_t index, nd_neighbour_row *row)
{
    return __real_nd_neighbour_at(node, now, is_wrong(3) ? index ^ 1 : index, row);
}

WRAP(int32_t, nd_address_at, nd_node *node, uint64_t now, size_t index, nd_address_row *row)
{
    return __real_nd_address_at(node, now, is_wrong(4) && index > 0 ? index - 1 : index, row);
}

WRAP(int32_t, nd_prefix_at, nd_node *node, uint64_t now, size_t index, nd_prefix_row *row)
{
    return __real_nd_prefix_at(node, now, is_wrong(5) && index == SIZE_MAX ? 0 : index, row);
}

WRAP(uint64_t, nd_last_moment, nd_node *node)
{
    return __real_nd_last_moment(node) - (is_wrong(6) ? 1 : 0);
}

WRAP(uint64_t, nd_next_due, nd_node *node)
{
    uint64_t due = __real_nd_next_due(node), last = __real_nd_last_moment(node);
    return is_wrong(7) && last > 0 ? last - 1 : due;
}

WRAP(int32_t, nd_poll, nd_node *node, nd_out *out, uint8_t *buffer, size_t size)
{
    int32_t status = __real_nd_poll(node, out, buffer, size);
    if (status == ND_DONE && out->kind == ND_OUT_FRAME && buffer[20] == 58)
        buffer[56] ^= is_wrong(8);
    if (status == ND_DONE)
        out->moment -= is_wrong(9) && out->moment > 0 ? 1 : 0, out->moment += is_wrong(10) ? 1 : 0;
    if (status == ND_NO_ROOM && is_wrong(11))
        __real_nd_poll(node, &(nd_out){0}, malloc(65536), 65536);
    return status;
}

WRAP(int32_t, nd_pass, nd_node *node, uint64_t now)
{
    int32_t status = __real_nd_pass(node, now);
    if (status == ND_PAST && is_wrong(12))
        __real_nd_pass(node, __real_nd_next_due(node));
    return status;
}

WRAP(int32_t, nd_receive, nd_node *node, uint64_t now, const uint8_t *frame, size_t length)
{
    int32_t status = __real_nd_receive(node, now, frame, length);
    if (status == ND_DONE && is_wrong(29))
        nd_clear(node, now, ND_CLEARABLE_PREFIXES);
    return status == ND_DONE && is_wrong(13) ? ND_NOTHING : status == ND_NO_MEMORY && is_wrong(14) ? ND_PAST : status;
}

WRAP(int32_t, nd_receive_message, nd_node *node, uint64_t now, const nd_message *message, const uint8_t *bytes, size_t length)
{
    nd_message other = *message;
    int32_t status;
    other.reserved = is_wrong(30) ? 0 : other.reserved;
    status = __real_nd_receive_message(node, now, &other, bytes, length);
    return status == ND_DONE && is_wrong(31) ? ND_NOTHING : status;
}

WRAP(int32_t, nd_send, nd_node *node, uint64_t now, const nd_addr *from, const nd_addr *to, uint8_t next, const uint8_t *payload, size_t length)
{
    int32_t status = is_wrong(15) ? ND_NO_MEMORY : __real_nd_send(node, now, from, to, next, payload, length);
    if (nd_refusal_of(status) != 0 && is_wrong(19))
        nd_clear(node, now, ND_CLEARABLE_PREFIXES);
    if (status == ND_NO_MEMORY && is_wrong(20))
        nd_clear(node, now, ND_CLEARABLE_NEIGHBOURS);
    return status;
}

WRAP(int32_t, nd_clear, nd_node *node, uint64_t now, uint32_t table)
{
    if (is_wrong(32) && newest != NULL && newest != node && newest->is_open)
        __real_nd_clear(newest, __real_nd_last_moment(newest), ND_CLEARABLE_NEIGHBOURS);
    return __real_nd_clear(node, now, is_wrong(16) && table == 0 ? 1 : table);
}

WRAP(int32_t, nd_add_address, nd_node *node, uint64_t now, const nd_own_address *own)
{
    nd_own_address other = *own;
    if (own->address.bytes[0] == 0xff && is_wrong(21))
        other.address.bytes[0] = 0xfd;
    return __real_nd_add_address(node, now, &other);
}

WRAP(int32_t, nd_remove_address, nd_node *node, uint64_t now, const nd_addr *address)
{
    int32_t status = __real_nd_remove_address(node, now, address);
    return status == ND_DONE && is_wrong(22) ? ND_NOTHING : status;
}

WRAP(int32_t, nd_resolve, nd_node *node, uint64_t now, const nd_addr *to, nd_path *path)
{
    int32_t status = __real_nd_resolve(node, now, to, path);
    if (status == ND_DONE && is_wrong(23))
        path->until += 7200000;
    if (status == ND_DONE && is_wrong(24))
        path->version--;
    return status;
}

WRAP(int32_t, nd_confirm_to, nd_node *node, uint64_t now, const nd_addr *to, uint64_t least)
{
    int32_t status = __real_nd_confirm_to(node, now, to, least);
    if (status == ND_NOTHING && is_wrong(26))
        nd_confirm(node, now, to);
    return status;
}

WRAP(uint64_t, nd_lease_version, nd_node *node)
{
    return is_wrong(25) ? 1 : __real_nd_lease_version(node);
}

WRAP(int32_t, nd_advertise_prefix, nd_node *node, uint64_t now, const nd_offer_row *offer)
{
    return is_wrong(17) ? __real_nd_pass(node, now), ND_REFUSED(ND_REFUSAL_FULL, ND_LIMIT_OFFERS) : __real_nd_advertise_prefix(node, now, offer);
}

WRAP(void, nd_close, nd_node *node)
{
    if (is_wrong(18))
        node->is_open = false;
    __real_nd_close(node);
}
