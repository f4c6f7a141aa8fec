/* misuse: what the calls return where the caller makes a mistake that a call can see. Each line is a mistake, and what nd.h says of it. */
#include "heap.h"
#include "ranges.h"

static int tried, wrong;

/* Compares what a call returned with what the header says. */
static void is(const char *what, int64_t got, int64_t wanted)
{
    tried++;
    if (got == wanted)
        return;
    wrong++;
    printf("%s: %lld, not %lld\n", what, (long long)got, (long long)wanted);
}

/* An address that a node may have by hand. */
static const nd_own_address OWN = {{{0x20, 1, 0xd, 0xb8, [15] = 5}}, 20, 10};

static int32_t open_with(nd_node *node, nd_options options)
{
    return nd_open(node, &options, sizeof options);
}

/* Addresses and lifetimes that no node may have by hand, at an open node and at a closed one. */
static void refuse_own(nd_node *node, uint64_t now)
{
    static const nd_addr wrong_ones[] = {{{0xff, 2, [15] = 1}}, {{0xff}}, {{0}}, {{[15] = 1}}};
    static const uint32_t lifetimes[][2] = {{0, 0}, {0, 10}, {20, 21}, {20, ND_LIFETIME_INFINITE}, {UINT32_MAX - 1, UINT32_MAX}};
    nd_own_address own = OWN;
    for (size_t i = 0; i < sizeof wrong_ones / sizeof *wrong_ones; i++) {
        own.address = wrong_ones[i];
        is("an address that is multicast, :: or ::1", nd_add_address(node, now, &own), ND_INVALID);
    }
    own = OWN;
    for (size_t i = 0; i < sizeof lifetimes / sizeof *lifetimes; i++) {
        own.valid_lifetime = lifetimes[i][0];
        own.preferred_lifetime = lifetimes[i][1];
        is("a valid lifetime of 0, or a preferred one above it", nd_add_address(node, now, &own), ND_INVALID);
    }
}

static void try_closed(nd_node *node)
{
    uint8_t buffer[ND_BUFFER_BYTES];
    nd_out out;
    nd_neighbour_row neighbour;
    nd_next_hop_row hop;
    nd_path path;
    is("time that passes at a closed node", nd_pass(node, 0), ND_CLOSED);
    is("a frame at a closed node", nd_receive(node, 0, buffer, 0), ND_CLOSED);
    is("a packet at a closed node", nd_send(node, 0, &LINK_LOCAL, &LINK_LOCAL, 17, buffer, 0), ND_CLOSED);
    is("a poll of a closed node", nd_poll(node, &out, buffer, sizeof buffer), ND_CLOSED);
    is("a row of a closed node", nd_neighbour_at(node, 0, 0, &neighbour), ND_CLOSED);
    is("a next hop of a closed node", nd_next_hop(node, 0, &LINK_LOCAL, &hop), ND_CLOSED);
    is("a path of a closed node", nd_resolve(node, 0, &LINK_LOCAL, &path), ND_CLOSED);
    is("a sign at a closed node", nd_confirm_to(node, 0, &LINK_LOCAL, 0), ND_CLOSED);
    is("a stop of a closed node", nd_stop_advertising(node, 0), ND_CLOSED);
    is("an address for a closed node", nd_add_address(node, 0, &OWN), ND_CLOSED);
    is("an address that is removed from a closed node", nd_remove_address(node, 0, &OWN.address), ND_CLOSED);
    refuse_own(node, 0);
    is("what is due at a closed node", nd_next_due(node) == UINT64_MAX, true);
    is("the last moment of a closed node", nd_last_moment(node) == UINT64_MAX, true);
    is("the version of leases of a closed node", nd_lease_version(node) == 0, true);
    is("a closed node and a moment that is none", nd_pass(node, ND_MOMENT_LIMIT), ND_INVALID);
    nd_close(node);
    is("a closed node that is closed", node->is_open, false);
}

static void try_options(nd_node *node)
{
    nd_options options = host_options();
    options.role = 2;
    is("an open as role 2", open_with(node, options), ND_INVALID);
    options = host_options();
    options.transmits = 9;
    is("an open with 9 solicitations", open_with(node, options), ND_INVALID);
    options = host_options();
    options.draws = 2;
    is("an open with another source of words", open_with(node, options), ND_INVALID);
    options = host_options();
    options.seed = UINT64_C(1) << 32;
    is("an open with a word of 33 bits", open_with(node, options), ND_INVALID);
    options = host_options();
    options.start = ND_MOMENT_LIMIT;
    is("an open at a moment that is none", open_with(node, options), ND_INVALID);
    options = host_options();
    for (uint32_t bit = 1; bit != 0; bit <<= 1)
        if ((bit & POLICIES) == 0) {
            options.policies = bit;
            is("an open with a policy that isn't there", open_with(node, options), ND_INVALID);
            options.policies = ND_POLICY_TIMERS | bit;
            is("an open with one that is, and with it", open_with(node, options), ND_INVALID);
        }
    options.policies = POLICIES;
    is("an open with all that are there", open_with(node, options), ND_DONE);
    nd_close(node);
    is("no refused open left memory", (int64_t)heap_blocks, 0);
    is("an open", open_with(node, host_options()), ND_DONE);
    is("an open of an open node", open_with(node, host_options()), ND_INVALID);
}

/* Opens a node with a copy of so many bytes, behind which valgrind knows none. Returns the status. */
static int32_t open_bytes(nd_node *node, const void *options, size_t size)
{
    void *own = malloc(size > 0 ? size : 1);
    int32_t status;
    require(own != NULL, "memory for options");
    memcpy(own, options, size);
    status = nd_open(node, own, size);
    free(own);
    return status;
}

/* Returns the limit of neighbours of a node that is opened with so many bytes, or 0 if it is not opened. */
static uint16_t neighbours_with(const void *options, size_t size)
{
    nd_node node = ND_NODE_INIT;
    nd_counts_row counts = {0};
    if (open_bytes(&node, options, size) == ND_DONE)
        is("the counts of a node", nd_counts_of(&node, nd_last_moment(&node), &counts), ND_DONE);
    nd_close(&node);
    return counts.limits.neighbours;
}

/* The structure of a caller may be one of an older or of a later version. */
static void try_sizes(void)
{
    struct {
        nd_options options;
        uint8_t more[8];
    } later = {host_options(), {0}};
    static const nd_addr of_zeros = {{0xfe, 0x80, [8] = 2, [11] = 0xff, [12] = 0xfe}};
    nd_node node = ND_NODE_INIT;
    nd_address_row own;
    later.options.limits.neighbours = 0x0708;
    later.options.limits.waiting = 8;
    is("an open without a byte", open_bytes(&node, &later, 0), ND_DONE);
    is("is of a host, which refuses to stop", nd_stop_advertising(&node, 0), ND_REFUSED(ND_REFUSAL_WRONG_ROLE, 0));
    is("has an own address", nd_address_at(&node, 0, 0, &own), ND_DONE);
    is("which is that of zeros", memcmp(&own.address, &of_zeros, sizeof own.address), 0);
    nd_close(&node);
    is("an open with one byte has the usual limits", neighbours_with(&later, 1), 512);
    is("one with 32 bytes", neighbours_with(&later, 32), 512);
    is("one with 34 bytes has the first limit", neighbours_with(&later, 34), 0x0708);
    is("one with a byte too little", neighbours_with(&later, sizeof(nd_options) - 1), 0x0708);
    is("one with all bytes", neighbours_with(&later, sizeof(nd_options)), 0x0708);
    for (size_t i = 0; i < sizeof later.options.identifier; i++) {
        later.options.identifier[i] = 1;
        is("one with an identifier", open_bytes(&node, &later, sizeof(nd_options)), ND_INVALID);
        is("which is the last field", neighbours_with(&later, offsetof(nd_options, identifier)), 0x0708);
        later.options.identifier[i] = 0;
    }
    is("one with 8 zeros behind them", neighbours_with(&later, sizeof later), 0x0708);
    for (size_t i = 0; i < sizeof later.more; i++) {
        later.more[i] = 1;
        is("one with a byte behind them that is not 0", neighbours_with(&later, sizeof later), 0);
        is("which is invalid", open_bytes(&node, &later, sizeof later), ND_INVALID);
        later.more[i] = 0;
    }
    is("no size left memory", (int64_t)heap_blocks, 0);
}

/* Requires that an open with these limits is invalid, and that they have no number of bytes. */
static void refuse_limits(const char *what, const nd_limits *limits)
{
    nd_node node = ND_NODE_INIT;
    nd_options options = host_options();
    options.limits = *limits;
    for (options.role = ND_ROLE_HOST; options.role <= ND_ROLE_ROUTER; options.role++)
        is(what, open_with(&node, options), ND_INVALID);
    is("has no number of bytes", (int64_t)nd_node_bytes(limits), 0);
    is("has no number of bytes of a pool", (int64_t)nd_pool_bytes(limits, ND_BUFFER_BYTES), 0);
}

static void try_limits(void)
{
    for (size_t i = 0; i < RANGES; i++) {
        nd_limits limits = {0};
        *limit_in(&limits, i) = (uint16_t)(ranges[i].greatest + 1);
        refuse_limits(ranges[i].name, &limits);
        *limit_in(&limits, i) = UINT16_MAX;
        refuse_limits(ranges[i].name, &limits);
        *limit_in(&limits, i) = ranges[i].greatest;
        is("the greatest limit has a number of bytes", nd_node_bytes(&limits) > 0, true);
        is("a longer frame needs no smaller pool", nd_pool_bytes(&limits, 0) <= nd_pool_bytes(&limits, ND_BUFFER_BYTES), true);
        is("a frame beyond the longest one counts as that", nd_pool_bytes(&limits, SIZE_MAX) == nd_pool_bytes(&limits, 65589), true);
    }
    for (size_t i = 0; i < sizeof((nd_limits *)0)->reserved / sizeof(uint16_t); i++) {
        nd_limits limits = {0};
        limits.reserved[i] = 1;
        refuse_limits("a reserved field of the limits", &limits);
    }
}

/* Requires that a host and a router that are opened with some limits show others. */
static void show_limits(const char *what, const nd_limits *asked, const nd_limits *wanted)
{
    nd_node node = ND_NODE_INIT;
    nd_options options = host_options();
    options.limits = *asked;
    for (options.role = ND_ROLE_HOST; options.role <= ND_ROLE_ROUTER; options.role++) {
        nd_counts_row counts;
        is(what, open_with(&node, options), ND_DONE);
        is("shows its limits", nd_counts_of(&node, 0, &counts), ND_DONE);
        is("and they are the right ones", memcmp(&counts.limits, wanted, sizeof *wanted), 0);
        is("its own address", counts.addresses, 1);
        nd_close(&node);
    }
}

static void try_shown_limits(void)
{
    const nd_limits none = {0}, usual = {512, 16, 64, 64, 32, 32, 64, 256, 16, 64, 3, {0}};
    const nd_limits others = {1021, 61, 62, 63, 30, 31, 59, 255, 14, 58, 7, {0}};
    show_limits("an open without limits", &none, &usual);
    show_limits("an open with the usual limits", &usual, &usual);
    show_limits("an open with other limits", &others, &others);
}

static void try_moments(nd_node *node)
{
    uint8_t frame[ND_BUFFER_BYTES] = {0};
    nd_address_row own;
    nd_neighbour_row neighbour;
    nd_out out;
    is("time up to a moment that is none", nd_pass(node, ND_MOMENT_LIMIT), ND_INVALID);
    is("time that passes", nd_pass(node, 2000), ND_DONE);
    is("time up to the past", nd_pass(node, 1999), ND_PAST);
    is("a frame of the past", nd_receive(node, 1999, frame, 14), ND_PAST);
    is("a question of the past", nd_address_at(node, 1999, 0, &own), ND_PAST);
    is("a question of a moment that is none", nd_address_at(node, UINT64_MAX, 0, &own), ND_INVALID);
    is("the moment is the same", (int64_t)nd_last_moment(node), 2000);
    is("a poll without room", nd_poll(node, &out, frame, 0), ND_NO_ROOM);
    is("its record", out.kind, ND_OUT_FRAME);
    is("its length", (int64_t)out.length, 78);
    is("a poll with a byte too little", nd_poll(node, &out, frame, out.length - 1), ND_NO_ROOM);
    is("a poll with room", nd_poll(node, &out, frame, out.length), ND_DONE);
    drain(node, FIRST_HASH);
    is("a poll of an empty queue", nd_poll(node, &out, frame, sizeof frame), ND_NOTHING);
    is("a frame of no bytes", nd_receive(node, 2000, frame, 0), ND_DONE);
    is("its record", nd_poll(node, &out, frame, 0), ND_DONE);
    is("is dropped", out.kind, ND_OUT_DROPPED);
    is("for its length", out.code, ND_WHY_FRAME_SHORT);
    is("the second own address", nd_address_at(node, 2000, 1, &own), ND_NOTHING);
    is("an index past all rows", nd_address_at(node, 2000, SIZE_MAX, &own), ND_NOTHING);
    is("a neighbour that is not there", nd_neighbour_of(node, 2000, &LINK_LOCAL, &neighbour), ND_NOTHING);
}

/* Messages that a stack has taken out of their packets: of other types than those of Neighbor Discovery, of none, and of a Router Solicitation, which a
 * host drops. */
static void try_messages(nd_node *node)
{
    static const uint8_t types[] = {0, 1, 2, 128, 132, 138, 255}; /* RFC 4443, 2.1: 2 is Packet Too Big, 128 an echo request */
    uint8_t bytes[8] = {0};
    nd_message message = {.source = {{0xfe, 0x80, [15] = 9}}, .destination = LINK_LOCAL, .hop_limit = 255, .checksum_good = 1};
    nd_out out;
    for (size_t i = 0; i < sizeof types; i++) {
        bytes[0] = types[i];
        is("a message of another type", nd_receive_message(node, 2000, &message, bytes, sizeof bytes), ND_INVALID);
    }
    is("a message of no bytes", nd_receive_message(node, 2000, &message, bytes, 0), ND_INVALID);
    is("neither is reported", nd_poll(node, &out, bytes, sizeof bytes), ND_NOTHING);
    bytes[0] = 133;
    message.checksum_good = 2;
    is("a message with a flag of 2", nd_receive_message(node, 2000, &message, bytes, sizeof bytes), ND_INVALID);
    message.checksum_good = 1;
    is("a message of a Router Solicitation", nd_receive_message(node, 2000, &message, bytes, sizeof bytes), ND_DONE);
    is("its record", nd_poll(node, &out, bytes, sizeof bytes), ND_DONE);
    is("is dropped", out.kind, ND_OUT_DROPPED);
    is("since it is for routers", out.code, ND_WHY_NOT_FOR_US);
}

/* Takes the one record there is, which is a refusal, and returns its code. */
static uint32_t refusal(nd_node *node)
{
    nd_out out;
    uint8_t buffer[1];
    is("there is a record", nd_poll(node, &out, buffer, sizeof buffer), ND_DONE);
    is("a refusal", out.kind, ND_OUT_REFUSED);
    is("and no other", nd_poll(node, &out, buffer, sizeof buffer), ND_NOTHING);
    return out.code;
}

static void try_host(nd_node *node)
{
    static const uint8_t payload[1461] = {0};
    const nd_addr other = {{0xfe, 0x80, [15] = 9}};
    nd_advertising settings = {.min_interval = 200, .max_interval = 600, .lifetime = 1800};
    nd_route_row route = {.bits = 64, .hop = ND_HOP_DIRECT};
    nd_heard heard;
    is("a command of a router", nd_stop_advertising(node, 2000), ND_REFUSED(ND_REFUSAL_WRONG_ROLE, 0));
    is("its reason", refusal(node), ND_REFUSAL_WRONG_ROLE);
    is("settings of a router", nd_advertise(node, 2000, &settings), ND_REFUSED(ND_REFUSAL_WRONG_ROLE, 0));
    is("their reason", refusal(node), ND_REFUSAL_WRONG_ROLE);
    is("a route of a router", nd_add_route(node, 2000, &route), ND_REFUSED(ND_REFUSAL_WRONG_ROLE, 0));
    is("its reason", refusal(node), ND_REFUSAL_WRONG_ROLE);
    is("a packet from another address", nd_send(node, 2000, &other, &LINK_LOCAL, 17, payload, 1), ND_REFUSED(ND_REFUSAL_NOT_OURS, 0));
    is("its reason", refusal(node), ND_REFUSAL_NOT_OURS);
    is("a packet that is too long", nd_send(node, 2000, &LINK_LOCAL, &other, 17, payload, 1461), ND_REFUSED(ND_REFUSAL_TOO_LONG, 0));
    is("its reason", refusal(node), ND_REFUSAL_TOO_LONG);
    is("a table that cannot be cleared", nd_clear(node, 2000, 0), ND_INVALID);
    is("a table that is none", nd_clear(node, 2000, 6), ND_INVALID);
    settings.max_interval = 3;
    is("settings out of their range, at a host too", nd_advertise(node, 2000, &settings), ND_INVALID);
    is("what a host advertises", nd_advertising_of(node, 2000, &settings), ND_NOTHING);
    is("an offer of a host", nd_offer_at(node, 2000, 0, &(nd_offer_row){0}), ND_NOTHING);
    is("a role that is none", nd_hear(payload, 14, 2, &heard), ND_INVALID);
}

/* Requires that an address is shown first, with these lifetimes left, in seconds, and given by hand. */
static void show_own(nd_node *node, uint64_t valid, uint64_t preferred)
{
    static const uint8_t none[3] = {0};
    nd_address_row row;
    is("an address by hand is shown", nd_address_at(node, 2000, 0, &row), ND_DONE);
    is("it is that one", memcmp(&row.address, &OWN.address, sizeof row.address), 0);
    is("it is tentative", row.state, ND_STATE_TENTATIVE);
    is("it is given by hand", row.by_hand, 1);
    is("nothing is in its reserved field", memcmp(row.reserved, none, sizeof none), 0);
    is("it has its valid lifetime", row.valid_left == 1000 * valid, true);
    is("and its preferred one", row.preferred_left == 1000 * preferred, true);
}

/* Addresses by hand at a node whose link-local address is assigned, and which shows no other. */
static void try_addresses(nd_node *node)
{
    nd_own_address own = OWN;
    nd_address_row row;
    nd_out out;
    uint8_t buffer[ND_BUFFER_BYTES];
    refuse_own(node, 2000);
    is("an address at a moment that is none", nd_add_address(node, ND_MOMENT_LIMIT, &OWN), ND_INVALID);
    is("an address of the past", nd_add_address(node, 1999, &OWN), ND_PAST);
    is("an address that is removed in the past", nd_remove_address(node, 1999, &OWN.address), ND_PAST);
    is("an address that is not there is removed", nd_remove_address(node, 2000, &OWN.address), ND_DONE);
    is("no record", nd_poll(node, &out, buffer, sizeof buffer), ND_NOTHING);
    is("an address by hand", nd_add_address(node, 2000, &OWN), ND_DONE);
    show_own(node, OWN.valid_lifetime, OWN.preferred_lifetime);
    is("what it makes due", nd_pass(node, 2000), ND_DONE);
    is("is a record", nd_poll(node, &out, buffer, sizeof buffer), ND_DONE);
    is("of a solicitation", out.kind == ND_OUT_FRAME && buffer[54] == 135, true);
    own.valid_lifetime = own.preferred_lifetime = 7;
    is("other lifetimes", nd_add_address(node, 2000, &own), ND_DONE);
    show_own(node, 7, 7);
    is("have no record", nd_poll(node, &out, buffer, sizeof buffer), ND_NOTHING);
    is("the link-local address", nd_address_at(node, 2000, 1, &row), ND_DONE);
    own.address = row.address;
    is("is given by hand", nd_add_address(node, 2000, &own), ND_DONE);
    is("and removed", nd_remove_address(node, 2000, &own.address), ND_DONE);
    is("without a record", nd_poll(node, &out, buffer, sizeof buffer), ND_NOTHING);
    is("it is there still", nd_address_at(node, 2000, 1, &row), ND_DONE);
    is("without an end", row.valid_left == ND_FOREVER, true);
    is("and not by hand", row.by_hand, 0);
    is("the address is removed", nd_remove_address(node, 2000, &OWN.address), ND_DONE);
    is("which has a record", nd_poll(node, &out, buffer, sizeof buffer), ND_DONE);
    is("of its end", out.kind == ND_OUT_ENDED_ADDRESS && memcmp(&out.address, &OWN.address, sizeof out.address) == 0, true);
    is("the link-local address alone is there", nd_address_at(node, 2000, 1, &row), ND_NOTHING);
}

/* Addresses by hand that are refused: before the link-local address is assigned, and where the table is full. */
static void try_refused_addresses(nd_node *node, uint32_t role)
{
    nd_options options = host_options();
    options.role = role;
    options.limits.addresses = 1;
    is("an open with one address", open_with(node, options), ND_DONE);
    is("what is due at its start", nd_pass(node, 0), ND_DONE);
    drain(node, FIRST_HASH);
    is("an address before the link-local one is assigned", nd_add_address(node, 999, &OWN), ND_REFUSED(ND_REFUSAL_TENTATIVE, 0));
    is("its reason", refusal(node), ND_REFUSAL_TENTATIVE);
    is("the link-local address is assigned", nd_pass(node, 2000), ND_DONE);
    drain(node, FIRST_HASH);
    is("a second address", nd_add_address(node, 2000, &OWN), ND_REFUSED(ND_REFUSAL_FULL, ND_LIMIT_ADDRESSES));
    is("its reason", refusal(node), ND_REFUSAL_FULL);
    nd_close(node);
}

static void try_router(nd_node *node)
{
    nd_options options = host_options();
    const nd_advertising good = {.min_interval = 200, .max_interval = 600, .lifetime = 1800, .hop_limit = 64};
    nd_advertising settings = good, row;
    nd_offer_row offer = {.prefix = {{0x20, 1, 0xd, 0xb8}}, .bits = 64, .valid_lifetime = 10, .preferred_lifetime = 5};
    nd_route_row route = {.bits = 129, .hop = ND_HOP_DIRECT};
    options.role = ND_ROLE_ROUTER;
    is("an open as a router", open_with(node, options), ND_DONE);
    settings.managed = 2;
    is("a flag of 2", nd_advertise(node, 2000, &settings), ND_INVALID);
    settings = good;
    settings.min_interval = 451;
    is("a least interval over three quarters of the greatest", nd_advertise(node, 2000, &settings), ND_INVALID);
    settings = good;
    settings.lifetime = 70000;
    is("a lifetime of 70000 s", nd_advertise(node, 2000, &settings), ND_INVALID);
    settings = good;
    settings.mtu = 1279;
    is("an MTU of 1279", nd_advertise(node, 2000, &settings), ND_INVALID);
    settings = good;
    settings.preference = 3;
    is("a preference that is none", nd_advertise(node, 2000, &settings), ND_INVALID);
    settings = good;
    settings.lifetime = 0;
    settings.preference = ND_PREFERENCE_HIGH;
    is("a preference of no default router", nd_advertise(node, 2000, &settings), ND_INVALID);
    settings = good;
    settings.reserved = 1;
    is("a reserved field of the settings", nd_advertise(node, 2000, &settings), ND_INVALID);
    is("nothing of it is advertised", nd_advertising_of(node, 2000, &row), ND_NOTHING);
    is("good settings", nd_advertise(node, 2000, &good), ND_DONE);
    is("are advertised", nd_advertising_of(node, 2000, &row), ND_DONE);
    is("as they are", memcmp(&row, &good, sizeof row), 0);
    offer.bits = 129;
    is("an offer of 129 bits", nd_advertise_prefix(node, 2000, &offer), ND_INVALID);
    offer.bits = 64;
    offer.preferred_lifetime = 11;
    is("an offer that is preferred for longer than it is valid", nd_advertise_prefix(node, 2000, &offer), ND_INVALID);
    offer.preferred_lifetime = 5;
    offer.on_link = 2;
    is("an offer with a flag of 2", nd_advertise_prefix(node, 2000, &offer), ND_INVALID);
    offer.on_link = 1;
    offer.reserved[1] = 1;
    is("an offer with a reserved field", nd_advertise_prefix(node, 2000, &offer), ND_INVALID);
    offer.reserved[1] = 0;
    offer.prefix = (nd_addr){{0xfe, 0x80}};
    is("an offer of the link-local prefix", nd_advertise_prefix(node, 2000, &offer), ND_INVALID);
    is("a route of 129 bits", nd_add_route(node, 2000, &route), ND_INVALID);
    route.bits = 64;
    route.hop = 0;
    is("a route to nowhere", nd_add_route(node, 2000, &route), ND_INVALID);
    is("there is no offer", nd_offer_at(node, 2000, 0, &offer), ND_NOTHING);
    is("there is no route", nd_route_at(node, 2000, 0, &route), ND_NOTHING);
    is("what is due at a router", nd_pass(node, 2000), ND_DONE);
    drain(node, FIRST_HASH);
    try_addresses(node);
    nd_close(node);
}

/* Frames of a link with a router fe80::ff:fe00:1 and a neighbour 2001:db8::1: an advertisement of a prefix, the solicitation of the neighbour, and two
 * of its advertisements. */
#define ROUTER_ADVERTISEMENT \
    "33330000000102000000000186dd6000000000383afffe80000000000000000000fffe000001ff02000000000000000000000000000186" \
    "00f9ce4000070800000000000000000101020000000001030440c000278d0000093a800000000020010db8000000000000000000000000"
#define SOLICITATION \
    "3333ff0000013456789abcde86dd6000000000203afffe80000000000000365678fffe9abcdeff0200000000000000000001ff00000187" \
    "0078c40000000020010db800000000000000000000000101013456789abcde"
#define ADVERTISEMENT \
    "3456789abcde02000000000986dd6000000000203aff20010db8000000000000000000000001fe80000000000000365678fffe9abcde88" \
    "004ed66000000020010db80000000000000000000000010201020000000009"
#define OTHER_ADVERTISEMENT \
    "3456789abcde02000000000a86dd6000000000203aff20010db8000000000000000000000001fe80000000000000365678fffe9abcde88" \
    "004ed56000000020010db8000000000000000000000001020102000000000a"

static int32_t receive_digits(nd_node *node, uint64_t now, const char *digits)
{
    uint8_t frame[ND_BUFFER_BYTES];
    return nd_receive(node, now, frame, bytes_of(digits, frame, sizeof frame));
}

/* Requires that a path has this next hop, and this link-layer address, if it is known, with the version of the node. */
static void goes_to(nd_node *node, const nd_path *path, const nd_addr *next_hop, uint32_t hop, const nd_mac *mac)
{
    static const nd_mac none = {{0}};
    is("the next hop", memcmp(&path->next_hop, next_hop, sizeof *next_hop), 0);
    is("its kind", path->hop, hop);
    is("its link-layer address", memcmp(&path->mac, mac != NULL ? mac : &none, sizeof none), 0);
    is("which is known or not", path->has_mac, mac != NULL);
    is("the version of the node, or none", path->version == (mac != NULL ? nd_lease_version(node) : 0), true);
    is("nothing in reserve", path->reserved, 0);
}

/* Where packets go of a caller that keeps them. */
static void try_paths(nd_node *node)
{
    static const nd_addr router = {{0xfe, 0x80, [11] = 0xff, 0xfe, 0, 0, 1}}, neighbour = {{0x20, 1, 0xd, 0xb8, [15] = 1}};
    static const nd_addr group = {{0xff, 2, [13] = 1, [15] = 2}}, behind = {{0x20, 1, 0xd, 0xb8, 0, 1, [15] = 5}}, none = {{0}};
    static const nd_mac of_router = {{2, 0, 0, 0, 0, 1}}, first = {{2, 0, 0, 0, 0, 9}}, second = {{2, 0, 0, 0, 0, 10}}, all = {{0x33, 0x33, 0, 1, 0, 2}};
    uint8_t buffer[ND_BUFFER_BYTES], solicitation[ND_BUFFER_BYTES];
    size_t length = bytes_of(SOLICITATION, solicitation, sizeof solicitation);
    nd_neighbour_row row;
    nd_path path, before;
    nd_out out;
    is("an open", open_with(node, host_options()), ND_DONE);
    memset(&path, 0xff, sizeof path);
    before = path;
    is("a path at a moment that is none", nd_resolve(node, ND_MOMENT_LIMIT, &neighbour, &path), ND_INVALID);
    is("is not written", memcmp(&path, &before, sizeof path), 0);
    is("what is due at the start", nd_pass(node, 999), ND_DONE);
    drain(node, FIRST_HASH);
    is("a sign at a moment that is none", nd_confirm_to(node, ND_MOMENT_LIMIT, &neighbour, 0), ND_INVALID);
    is("a sign of the past", nd_confirm_to(node, 998, &neighbour, 0), ND_PAST);
    is("a path of the past", nd_resolve(node, 998, &neighbour, &path), ND_PAST);
    is("is not written", memcmp(&path, &before, sizeof path), 0);
    is("a path before the link-local address is assigned", nd_resolve(node, 999, &group, &path), ND_REFUSED(ND_REFUSAL_TENTATIVE, 0));
    is("no next hop", path.hop == 0 && path.has_mac == 0, true);
    is("and no lease", path.until == 999 && path.version == 0, true);
    is("there is no record of it", nd_poll(node, &out, buffer, sizeof buffer), ND_NOTHING);
    is("an advertisement of a router", receive_digits(node, 1200, ROUTER_ADVERTISEMENT), ND_DONE);
    is("detection ends", nd_pass(node, 2200), ND_DONE);
    drain(node, FIRST_HASH);
    is("a sign of a neighbour that is not known", nd_confirm_to(node, 3000, &neighbour, 0), ND_NOTHING);
    is("a path to a neighbour that is not known", nd_resolve(node, 3000, &neighbour, &path), ND_WAITING);
    goes_to(node, &path, &neighbour, ND_HOP_DIRECT, NULL);
    is("it is INCOMPLETE", path.state, ND_REACHABILITY_INCOMPLETE);
    is("there is no lease", path.until == 3000, true);
    is("a sign of it", nd_confirm_to(node, 3000, &neighbour, 0), ND_NOTHING);
    is("its record", nd_poll(node, &out, buffer, sizeof buffer), ND_DONE);
    is("is a solicitation", out.kind == ND_OUT_FRAME && out.length == length && memcmp(buffer, solicitation, length) == 0, true);
    is("and no other", nd_poll(node, &out, buffer, sizeof buffer), ND_NOTHING);
    is("the same path again", nd_resolve(node, 3000, &neighbour, &path), ND_WAITING);
    is("adds no record", nd_poll(node, &out, buffer, sizeof buffer), ND_NOTHING);
    is("an advertisement of the neighbour", receive_digits(node, 3500, ADVERTISEMENT), ND_DONE);
    is("is a record", nd_poll(node, &out, buffer, sizeof buffer), ND_DONE);
    is("of a message", out.kind, ND_OUT_HEARD);
    is("a second one", nd_poll(node, &out, buffer, sizeof buffer), ND_DONE);
    is("says that the address is known", out.kind, ND_OUT_RESOLVED);
    is("of that neighbour", memcmp(&out.address, &neighbour, sizeof neighbour), 0);
    is("which is its bytes", out.length == sizeof first && memcmp(buffer, &first, sizeof first) == 0, true);
    is("and no other", nd_poll(node, &out, buffer, sizeof buffer), ND_NOTHING);
    is("the path then", nd_resolve(node, 3500, &neighbour, &path), ND_DONE);
    goes_to(node, &path, &neighbour, ND_HOP_DIRECT, &first);
    is("another link-layer address", receive_digits(node, 3600, OTHER_ADVERTISEMENT), ND_DONE);
    is("is a record", nd_poll(node, &out, buffer, sizeof buffer), ND_DONE);
    is("of a message", out.kind, ND_OUT_HEARD);
    is("and no other", nd_poll(node, &out, buffer, sizeof buffer), ND_NOTHING);
    is("the path then", nd_resolve(node, 3600, &neighbour, &path), ND_DONE);
    goes_to(node, &path, &neighbour, ND_HOP_DIRECT, &second);
    is("it is REACHABLE", path.state, ND_REACHABILITY_REACHABLE);
    is("its row", nd_neighbour_of(node, 3600, &neighbour, &row), ND_DONE);
    is("for so long", row.reachable_left > 0, true);
    is("at the latest", path.until > 3600 && path.until <= 3600 + row.reachable_left && path.until <= nd_next_due(node), true);
    is("a path to a group", nd_resolve(node, 3600, &group, &path), ND_DONE);
    goes_to(node, &path, &group, ND_HOP_DIRECT, &all);
    is("which has no state", path.state, 0);
    is("a path through the router", nd_resolve(node, 3600, &behind, &path), ND_DONE);
    goes_to(node, &path, &router, ND_HOP_VIA, &of_router);
    is("which is used now", path.state, ND_REACHABILITY_DELAY);
    is("a path to the node itself", nd_resolve(node, 3600, &LINK_LOCAL, &path), ND_NOTHING);
    goes_to(node, &path, &none, 0, NULL);
    is("none of them has a record", nd_poll(node, &out, buffer, sizeof buffer), ND_NOTHING);
    nd_close(node);
}

/* What a status says of a refusal. */
static void try_refusals(void)
{
    static const int32_t others[] = {ND_DONE, ND_NOTHING, ND_WAITING, ND_NO_MEMORY, ND_CLOSED, ND_INVALID, ND_PAST, ND_NO_ROOM, -15, INT32_MAX};
    for (size_t i = 0; i < sizeof others / sizeof *others; i++)
        is("a status that is no refusal", nd_refusal_of(others[i]) == 0 && nd_limit_of(others[i]) == 0, true);
    for (int32_t limit = ND_LIMIT_NEIGHBOURS; limit <= ND_LIMIT_STATIC_ROUTES; limit++) {
        is("a full table is a refusal", nd_refusal_of(ND_REFUSED(ND_REFUSAL_FULL, limit)), ND_REFUSAL_FULL);
        is("which names the table", nd_limit_of(ND_REFUSED(ND_REFUSAL_FULL, limit)), limit);
    }
    is("a refusal without a limit", nd_refusal_of(ND_REFUSED(ND_REFUSAL_TENTATIVE, 0)), ND_REFUSAL_TENTATIVE);
    is("has none", nd_limit_of(ND_REFUSED(ND_REFUSAL_TENTATIVE, 0)), 0);
    is("the first one", nd_refusal_of(-16), ND_REFUSAL_WRONG_ROLE);
}

int main(void)
{
    nd_node node = ND_NODE_INIT, moved;
    is("the version of the header", nd_version(), ND_VERSION);
    try_refusals();
    try_closed(&node);
    try_sizes();
    try_limits();
    try_shown_limits();
    try_options(&node);
    try_moments(&node);
    try_messages(&node);
    try_host(&node);
    try_addresses(&node);
    moved = node; /* from here on the node is in its new place */
    is("a node that was moved", nd_pass(&moved, 2001), ND_DONE);
    nd_close(&moved);
    is("closing gives all memory back", (int64_t)heap_blocks, 0);
    try_closed(&moved);
    try_router(&moved);
    is("closing a router gives all memory back", (int64_t)heap_blocks, 0);
    try_refused_addresses(&moved, ND_ROLE_HOST);
    try_refused_addresses(&moved, ND_ROLE_ROUTER);
    try_paths(&moved);
    is("closing them gives all memory back", (int64_t)heap_blocks, 0);
    printf("%d answers, %d wrong\n", tried, wrong);
    return wrong > 0;
}
