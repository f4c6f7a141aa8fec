/* fuzz SECONDS SEED: calls that byte strings decide: how many nodes there are, one to four, their options, which of them is called, the calls, their
 * frames and moments, and which request for memory is refused. Nodes also receive frames that others have sent. What nd.h says is required of each.
 * With -DFUZZER this is a target of libFuzzer; else byte strings are made of seeds, and it prints what was done.
 *   Required: a status is one that nd.h allows for the call, and with ND_POLICY_PARTS no message is refused; an error changes nothing, nor does a
 * refusal, or ND_NO_MEMORY where nothing was due before; ND_NO_MEMORY is returned only where a request was refused; no table passes its limit; rows
 * are in order, none is there twice, and indices end; records are in the order of their moments, none after nd_last_moment; a table that no record of
 * an event has as changed is the same; frames that are sent are read by nd_hear, and with ND_POLICY_SELF none is to zeros, to the node's own Ethernet
 * address, or to a group's with an address that is no group's; with ND_POLICY_UNFORMED no address is formed, with _ASKED a message makes no neighbour
 * REACHABLE but one that was INCOMPLETE or in PROBE, with _LIFETIMES nothing that was announced lasts longer, with _UNREDIRECTED there is no Redirect,
 * with _STRICT nothing is heard from ::1, and no packet from a multicast address; nd_next_due is not before nd_last_moment; the version of leases
 * grows with each event but a confirmation, and never falls; a call for one node changes no other; a node that is closed has given back all its
 * memory; and limits have a size in bytes if they are in their ranges. */
#include <time.h>
#include "heap.h"
#include "fuzz.h"

enum { LONGEST_INPUT = 4096, KINDS = 15 };

/* How the calls ended. */
enum ending { DONE, NOTHING, WAITING, REFUSED, NO_MEMORY, INVALID, CLOSED, PAST, ENDINGS };

/* The calls by the value of a byte, the frequent ones more often. */
static const enum call OFTEN[] = {PASS,    PASS,       RECEIVE, RECEIVE, RECEIVE,     RECEIVE,        RECEIVE,  RECEIVE, MESSAGE,
                                  MESSAGE, SEND,       SEND,    CONFIRM, CONFIRM_TO,  FORGET,         CLEAR,    ADVERTISE, OFFER,
                                  RESOLVE, ADD_ADDRESS, RESOLVE, STOP,    NEXT_HOP,    REMOVE_ADDRESS, ROUTE};

/* A node, and what is known of it. */
static struct subject {
    nd_node node;
    nd_options options;
    uint64_t last_record; /* the moment of its newest record */
    size_t blocks;        /* how many blocks of memory it has */
} subjects[MOST_NODES];

static size_t done[CALLS][ENDINGS], kinds[KINDS], inputs, subject_count;

/* The subject of a step, its node and its options, and the blocks of memory that all others have. */
static struct subject *self;
static nd_node *node;
static nd_options *options;
static size_t others_blocks;

/* The hash of all tables where nothing is due before a call, or 0. */
static uint64_t settled;

static void select_subject(size_t which)
{
    self = &subjects[which];
    node = &self->node, options = &self->options;
    others_blocks = heap_blocks - self->blocks;
    be((uint8_t)which);
}

/* Returns true if the node has a policy. */
static bool has(uint32_t policy)
{
    return (options->policies & policy) != 0;
}

/* Returns a moment: mostly the last one or later, and now and then one that no call takes. */
static uint64_t a_moment(void)
{
    static const uint64_t STEPS[] = {0, 0, 0, 1, 30, 500, 1000, 1000, 3000, 20000, 200000};
    uint64_t last = node->is_open ? nd_last_moment(node) : 0;
    if (once_in(24))
        return once_in(2) ? ND_MOMENT_LIMIT + take() : last - (last > 0);
    return last + (once_in(128) ? 9000000 : STEPS[below(sizeof STEPS / sizeof *STEPS)]);
}

/* ---- calls ----------------------------------------------------------------------------------- */

/* Asks where packets go, and requires that the path has what its status says. */
static int32_t resolve(uint64_t at)
{
    static const nd_mac none = {{0}};
    nd_path path;
    memset(&path, 0xff, sizeof path);
    int32_t status = nd_resolve(node, at, &with.one, &path);
    if (status < 0) {
        require(nd_refusal_of(status) != 0 || (path.reserved == 0xff && path.until == UINT64_MAX), "an error writes no path");
        require(nd_refusal_of(status) == 0 || (path.hop == 0 && path.has_mac == 0 && path.until == at && path.version == 0), "a refusal writes none");
        return status;
    }
    bool has_hop = status == ND_DONE || status == ND_WAITING;
    require(path.reserved == 0 && (path.has_mac == 1) == (status == ND_DONE), "a path has the link-layer address where it is known");
    require(path.has_mac == 1 || memcmp(&path.mac, &none, sizeof none) == 0, "and zeros where not");
    require((path.hop != 0) == has_hop, "a next hop where the status says so");
    require(path.version == (status == ND_DONE ? nd_lease_version(node) : 0), "a lease has the version of the node");
    require(path.until >= at && (status == ND_DONE || path.until == at), "a lease where the link-layer address is known");
    require(path.until == at || path.until <= nd_next_due(node), "a lease ends where something is due");
    return status;
}

static int32_t act(enum call call, uint64_t at)
{
    nd_next_hop_row hop;
    switch (call) {
    case PASS: return nd_pass(node, at);
    case RECEIVE: return nd_receive(node, at, with.bytes, with.length);
    case MESSAGE: return nd_receive_message(node, at, &with.message, with.bytes, with.length);
    case SEND: return nd_send(node, at, &with.one, &with.other, 17, with.bytes, with.length);
    case CONFIRM: return nd_confirm(node, at, &with.one);
    case CONFIRM_TO: return nd_confirm_to(node, at, &with.one, with.number);
    case FORGET: return nd_forget(node, at, &with.one);
    case CLEAR: return nd_clear(node, at, with.number);
    case ADD_ADDRESS: return nd_add_address(node, at, &with.own);
    case REMOVE_ADDRESS: return nd_remove_address(node, at, &with.one);
    case NEXT_HOP: return nd_next_hop(node, at, &with.one, &hop);
    case RESOLVE: return resolve(at);
    case ADVERTISE: return nd_advertise(node, at, &with.settings);
    case OFFER: return nd_advertise_prefix(node, at, &with.offer);
    case ROUTE: return nd_add_route(node, at, &with.route);
    case STOP: return nd_stop_advertising(node, at);
    default: return nd_open(node, options, sizeof *options);
    }
}

/* Returns true if a status is that of a refusal that nd.h has, and names a limit where a table is full and only there. */
static bool is_refusal(int32_t status)
{
    uint32_t refusal = nd_refusal_of(status), limit = nd_limit_of(status);
    bool is_one = (refusal >= ND_REFUSAL_WRONG_ROLE && refusal <= ND_REFUSAL_FULL) || refusal == ND_REFUSAL_TENTATIVE;
    return is_one && status == ND_REFUSED((int32_t)refusal, (int32_t)limit) && limit <= ND_LIMIT_STATIC_ROUTES &&
           (limit != 0) == (refusal == ND_REFUSAL_FULL);
}

/* Returns true if nd.h allows a status for a call at an open node whose arguments are good. */
static bool is_allowed(enum call call, int32_t status)
{
    if (call >= ADVERTISE && call <= STOP && options->role == ND_ROLE_HOST)
        return status == ND_REFUSED(ND_REFUSAL_WRONG_ROLE, 0);
    bool takes_parts = has(ND_POLICY_PARTS), is_heard = call == MESSAGE || (call == RECEIVE && options->role == ND_ROLE_HOST);
    bool may_be_full = call == RECEIVE || call == MESSAGE || call == SEND || call == ADD_ADDRESS || call == RESOLVE || call == OFFER || call == ROUTE;
    bool may_be_refused = may_be_full && !(takes_parts && is_heard);
    bool may_find_nothing = call == SEND || call == NEXT_HOP || call == RESOLVE || call == CONFIRM_TO;
    return status == ND_DONE || (is_refusal(status) && may_be_refused) || (status == ND_NOTHING && may_find_nothing) ||
           (status == ND_WAITING && call == RESOLVE);
}

/* ---- what is required ------------------------------------------------------------------------ */

/* Returns true if a frame is neither to zeros nor to the node's own Ethernet address, and to a group's only if the packet is to a group. */
static bool is_sent_well(const uint8_t *frame)
{
    static const nd_mac none = {{0}};
    bool is_group = (frame[0] & 1) != 0;
    return memcmp(frame, &none, sizeof none) != 0 && memcmp(frame, &own_mac, sizeof own_mac) != 0 && (!is_group || frame[38] == 0xff);
}

static void check_frame(const uint8_t *frame, size_t length)
{
    nd_heard by_host, by_router;
    require(nd_hear(frame, length, ND_ROLE_HOST, &by_host) == ND_DONE && nd_hear(frame, length, ND_ROLE_ROUTER, &by_router) == ND_DONE, "nd_hear");
    require(by_host.hearing != ND_HEARING_DROP || by_router.hearing != ND_HEARING_DROP, "a frame that is sent is read by a host or by a router");
    require(memcmp(frame + 6, &own_mac, sizeof own_mac) == 0, "a frame that is sent is from the node's Ethernet address");
    require(by_host.hearing == ND_HEARING_OTHER || length <= 1294, "a message of the node's own has at most 1,294 bytes");
    if (has(ND_POLICY_SELF))
        require(is_sent_well(frame), "a frame that is sent is to another one's Ethernet address, or to a group");
    require(length <= sizeof sent.bytes, "a frame is no longer than what was received or sent");
    memcpy(sent.bytes, frame, length);
    sent.length = length, sent.sender = own;
}

static void check_record(const nd_out *out, const uint8_t *bytes)
{
    static const nd_addr loopback = {{[15] = 1}};
    bool has_packet = out->kind == ND_OUT_FRAME || out->kind == ND_OUT_UP || out->kind == ND_OUT_LOST;
    bool has_bytes = has_packet || out->kind == ND_OUT_RESOLVED;
    require(out->moment >= self->last_record, "records are in the order of their moments");
    require(out->moment <= nd_last_moment(node), "no record is after nd_last_moment");
    require(out->kind > 0 && out->kind < KINDS && (out->length > 0) == has_bytes && out->changes == changes_by(out), "a record is of a kind");
    require(out->kind == ND_OUT_FRAME || !has_packet || bytes[0] >> 4 == 6, "a packet begins with an IPv6 header");
    require(out->kind != ND_OUT_RESOLVED || out->length == sizeof(nd_mac), "a link-layer address has 6 bytes");
    if (out->kind == ND_OUT_FRAME)
        check_frame(bytes, out->length);
    if (has(ND_POLICY_STRICT) && out->kind == ND_OUT_HEARD)
        require(memcmp(&out->address, &loopback, sizeof loopback) != 0, "no message is heard from ::1");
    if (has(ND_POLICY_STRICT) && out->kind == ND_OUT_UP)
        require(bytes[8] != 0xff && memcmp(bytes + 8, &loopback, sizeof loopback) != 0, "no packet is from a multicast address or from ::1");
    self->last_record = out->moment;
    kinds[out->kind]++;
}

/* The sum of the tables that the records may have changed which were taken at last. */
static uint32_t changed;

/* Takes all records. Returns the kind of the newest one, or 0. */
static uint32_t take_records(void)
{
    static uint8_t buffer[LONGEST];
    nd_out out = {0}, again;
    size_t few = take();
    int32_t status = nd_poll(node, &again, buffer, few);
    changed = 0;
    if (status == ND_DONE)
        check_record(&again, buffer), out = again, changed = again.changes;
    require(status != ND_NO_ROOM || again.length > few, "ND_NO_ROOM is returned where a record is longer than the buffer");
    for (bool is_first = status == ND_NO_ROOM; (status = nd_poll(node, &out, buffer, sizeof buffer)) == ND_DONE; is_first = false) {
        require(!is_first || memcmp(&out, &again, sizeof out) == 0, "a record for which there was no room is the oldest still");
        check_record(&out, buffer);
        changed |= out.changes;
    }
    require(status == ND_NOTHING, "the queue is emptied");
    return out.kind;
}

/* Requires that the rows of a table end, are no more than its count, and are in the order of their keys; or, if they have none, all different. */
#define CHECK_ROWS(row_type, ask, count, key, are_in_order, differ_else) \
    do { \
        row_type row, earlier; \
        size_t i = 0; \
        int32_t status; \
        for (; (status = ask(node, now, i, &row)) == ND_DONE; i++) \
            for (size_t j = are_in_order && i > 0 ? i - 1 : 0; j < i; j++) { \
                require(ask(node, now, j, &earlier) == ND_DONE, #ask " has an earlier row"); \
                int order = memcmp(&earlier.key, &row.key, sizeof row.key); \
                require(are_in_order ? order < 0 : order != 0 || (differ_else), #ask " has its rows in order, and none twice"); \
            } \
        require(status == ND_NOTHING && ask(node, now, SIZE_MAX, &row) == ND_NOTHING, #ask " ends"); \
        require(i <= count, #ask " has no more rows than are counted"); \
    } while (0)

/* Requires that an address that the node has formed is one that its policies allow. */
static void check_formed(const nd_address_row *row, uint64_t longest)
{
    if (row->by_hand == 1 || memcmp(&row->address, &own_address, sizeof own_address) == 0)
        return;
    require(!has(ND_POLICY_UNFORMED), "no address is formed");
    require(row->valid_left <= longest && row->preferred_left <= longest, "an address that is formed has a lifetime of at most a week");
}

/* Requires that the tables have what the policies of the node allow. */
static void check_policies(uint64_t now)
{
    uint64_t week = has(ND_POLICY_LIFETIMES) ? 604800000 : ND_FOREVER, router = has(ND_POLICY_LIFETIMES) ? 9000000 : ND_FOREVER;
    nd_router_row listed;
    nd_prefix_row prefix;
    nd_address_row address;
    nd_server_row server;
    nd_name_row name;
    for (size_t i = 0; nd_router_at(node, now, i, &listed) == ND_DONE; i++)
        require(listed.left <= router, "a router has a lifetime of at most 9,000 s");
    for (size_t i = 0; nd_prefix_at(node, now, i, &prefix) == ND_DONE; i++)
        require(prefix.left <= week, "a prefix has a lifetime of at most a week");
    for (size_t i = 0; nd_address_at(node, now, i, &address) == ND_DONE; i++)
        check_formed(&address, week);
    for (size_t i = 0; nd_server_at(node, now, i, &server) == ND_DONE; i++)
        require(server.left <= week, "a server has a lifetime of at most a week");
    for (size_t i = 0; nd_name_at(node, now, i, &name) == ND_DONE; i++)
        require(name.left <= week, "a search name has a lifetime of at most a week");
    require(!has(ND_POLICY_UNREDIRECTED) || nd_redirect_at(node, now, 0, &(nd_redirect_row){0}) == ND_NOTHING, "there is no Redirect");
}

/* The neighbours before a message, at a node with ND_POLICY_ASKED. */
static nd_neighbour_row earlier_rows[MOST_ROWS];
static size_t earlier_count;

/* Requires that the message made none REACHABLE, nor REACHABLE for longer, but one that the node had asked. */
static void check_asked(uint64_t now)
{
    nd_neighbour_row row;
    for (size_t i = 0, j = 0; nd_neighbour_at(node, now, i, &row) == ND_DONE; i++) {
        while (j < earlier_count && memcmp(&earlier_rows[j].address, &row.address, sizeof row.address) < 0)
            j++;
        bool was_there = j < earlier_count && memcmp(&earlier_rows[j].address, &row.address, sizeof row.address) == 0;
        uint32_t state = was_there ? earlier_rows[j].state : 0;
        bool is_asked = state == ND_REACHABILITY_INCOMPLETE || state == ND_REACHABILITY_PROBE;
        bool was_reachable = state == ND_REACHABILITY_REACHABLE && row.reachable_left <= earlier_rows[j].reachable_left;
        require(row.state != ND_REACHABILITY_REACHABLE || is_asked || was_reachable, "a message confirms a neighbour that was asked");
    }
}

static void check_node(void)
{
    uint64_t now = nd_last_moment(node);
    nd_counts_row counts = counts_within(node, now, &options->limits);
    nd_neighbour_row one, same;
    for (size_t i = 0; nd_neighbour_at(node, now, i, &one) == ND_DONE; i++)
        require(nd_neighbour_of(node, now, &one.address, &same) == ND_DONE && memcmp(&one, &same, sizeof one) == 0, "nd_neighbour_of has it");
    require(nd_next_due(node) >= now, "nd_next_due is not before nd_last_moment");
    CHECK_ROWS(nd_neighbour_row, nd_neighbour_at, counts.neighbours, address, true, false);
    CHECK_ROWS(nd_address_row, nd_address_at, counts.addresses, address, true, false);
    CHECK_ROWS(nd_router_row, nd_router_at, counts.routers, address, false, false);
    CHECK_ROWS(nd_prefix_row, nd_prefix_at, counts.prefixes, prefix, false, earlier.bits != row.bits);
    CHECK_ROWS(nd_server_row, nd_server_at, counts.servers, address, false, false);
    CHECK_ROWS(nd_name_row, nd_name_at, counts.names, text, false, false);
    CHECK_ROWS(nd_redirect_row, nd_redirect_at, counts.redirects, destination, false, false);
    CHECK_ROWS(nd_offer_row, nd_offer_at, counts.offers, prefix, false, earlier.bits != row.bits);
    CHECK_ROWS(nd_route_row, nd_route_at, counts.routes, prefix, false, earlier.bits != row.bits);
    check_policies(now);
}

static enum ending ending_of(int32_t status)
{
    switch (status) {
    case ND_DONE: return DONE;
    case ND_NOTHING: return NOTHING;
    case ND_WAITING: return WAITING;
    case ND_NO_MEMORY: return NO_MEMORY;
    case ND_INVALID: return INVALID;
    case ND_CLOSED: return CLOSED;
    case ND_PAST: return PAST;
    default: return REFUSED;
    }
}

/* Makes a call, and once more if memory was refused. Returns its status. */
static int32_t call_twice(enum call call, uint64_t at, int32_t error)
{
    size_t refused = heap_refused;
    int32_t status;
    heap_refuse = once_in(12) ? 1 + below(8) : 0;
    status = act(call, at);
    heap_refuse = 0;
    if (status == ND_NO_MEMORY) {
        require(heap_refused > refused && error == 0, "ND_NO_MEMORY is returned only where a request was refused, and behind other errors");
        require(call != OPEN || (!node->is_open && heap_blocks == others_blocks), "a node that was not opened is closed");
        require(settled == 0 || tables_of(node, at) == settled, "a call that returns ND_NO_MEMORY adds nothing");
        done[call][NO_MEMORY]++;
        status = act(call, at);
    }
    done[call][ending_of(status)]++;
    return status;
}

/* Returns the first error that holds, or 0. */
static int32_t error_of(enum call call, uint64_t at)
{
    if (call == OPEN ? node->is_open || !with.are_good : at >= ND_MOMENT_LIMIT || !with.are_good)
        return ND_INVALID;
    if (call == OPEN || !node->is_open)
        return call == OPEN ? 0 : ND_CLOSED;
    return at < nd_last_moment(node) ? ND_PAST : 0;
}

/* Makes a call that has to return an error, and requires that it changes nothing. Questions return the same error for a moment. */
static void call_wrongly(enum call call, uint64_t at, int32_t error)
{
    uint64_t before, last = nd_last_moment(node), version = nd_lease_version(node);
    nd_neighbour_row row;
    if (call == FORGET)
        require(nd_neighbour_of(node, at, &with.one, &row) == error && nd_neighbour_at(node, at, 0, &row) == error &&
                    nd_counts_of(node, at, &(nd_counts_row){0}) == error && nd_parameters_of(node, at, &(nd_parameters_row){0}) == error,
                "questions return the error of a moment");
    if (!node->is_open) {
        require(call_twice(call, at, error) == error && nd_poll(node, &(nd_out){0}, with.bytes, 0) == ND_CLOSED, "a closed node stays closed");
        return;
    }
    take_records();
    before = tables_of(node, last);
    require(call_twice(call, at, error) == error, "the first error that holds is returned");
    require(tables_of(node, last) == before && nd_poll(node, &(nd_out){0}, with.bytes, 0) == ND_NOTHING, "an error changes nothing");
    require(nd_lease_version(node) == version, "an error keeps the version of leases");
}

/* Makes a call whose arguments are good, and requires that the version of leases grows where nd.h says it, and never falls. Returns its status. */
static int32_t call_well(enum call call, uint64_t at)
{
    uint64_t before = nd_lease_version(node);
    bool is_due = nd_next_due(node) <= at, is_sign = call == CONFIRM || call == CONFIRM_TO;
    bool is_event = call != PASS && call != NEXT_HOP && call != RESOLVE && call != OPEN && !is_sign;
    uint64_t shown = call == CONFIRM_TO && !is_due ? rows_at(node, at) : 0;
    int32_t status = call_twice(call, at, 0);
    bool grows = nd_lease_version(node) > before;
    require(nd_lease_version(node) >= before, "the version of leases never falls");
    require(grows || status != ND_DONE || !is_event || call == RECEIVE || call == MESSAGE, "an event raises the version of leases");
    require(call != CONFIRM_TO || status != ND_NOTHING || is_due || (!grows && rows_at(node, at) == shown),
            "a sign without effect keeps it, and changes no table");
    require((call != PASS && call != NEXT_HOP) || !grows || is_due, "nd_pass and nd_next_hop keep it where nothing is due");
    return status;
}

/* Returns a limit: mostly the usual one or a small one, and now and then the greatest, or one above it. */
static uint16_t a_limit(size_t i)
{
    uint32_t k = below(32), greatest = ranges[i].greatest;
    return (uint16_t)(k < 16 ? 0 : k < 30 ? k % 5 : k == 30 ? greatest : greatest + once_in(4));
}

/* Returns none, the recommended ones, some that a node can have, and now and then one that it can't have, or all bits. */
static uint32_t some_policies(void)
{
    uint32_t k = take();
    if (k >= 252)
        return k % 4 == 0 ? ND_POLICY_LOOKUPS : UINT32_MAX;
    return k < 96 ? 0 : k < 128 ? ND_POLICIES_ROBUST : (k | (uint32_t)take() << 8) & POLICIES;
}

/* Makes the limits of a node. Returns true if they are in their ranges. */
static bool prepare_limits(void)
{
    bool are_good = true;
    size_t bytes, pool_bytes, longest = 86 + 8 * (size_t)take();
    for (size_t i = 0; i < RANGES; i++) {
        uint16_t limit = *limit_in(&options->limits, i) = a_limit(i);
        are_good = are_good && limit <= ranges[i].greatest;
    }
    bytes = nd_node_bytes(&options->limits), pool_bytes = nd_pool_bytes(&options->limits, longest);
    require((bytes > 0) == are_good && (pool_bytes > bytes) == are_good, "limits in their ranges have a size, and a pool is larger");
    return are_good;
}

static void prepare_open(void)
{
    static const uint64_t STARTS[] = {0, 0, 0, 0, 0, UINT64_C(1) << 46, ND_MOMENT_LIMIT - 100000, ND_MOMENT_LIMIT - 200};
    *options = (nd_options){.role = below(2), .mac = own_mac};
    options->start = STARTS[below(8)];
    options->start += take(), options->seed = take();
    options->policies = some_policies();
    options->transmits = (uint8_t)(once_in(16) ? 9 : below(3)), options->draws = (uint8_t)(once_in(16) ? 2 : below(2));
    self->last_record = options->start;
    with.are_good = options->transmits <= 8 && options->draws <= ND_DRAWS_WORD && options->start < ND_MOMENT_LIMIT;
    with.are_good = prepare_limits() && with.are_good && (options->policies & ~(uint32_t)POLICIES) == 0;
}

/* Makes the call of a step whose arguments are good, and requires what holds of it. */
static void do_well(enum call call, uint64_t at)
{
    bool is_new = call != OPEN && once_in(4), is_heard = is_new && (call == RECEIVE || call == MESSAGE);
    uint64_t before[CHANGEABLE], after[CHANGEABLE];
    int32_t status;
    settled = is_new && nd_pass(node, at) == ND_DONE ? tables_of(node, at) : 0;
    if (is_heard && settled != 0)
        take_records(), changeable_at(node, at, before), nd_neighbours(node, at, earlier_rows, MOST_ROWS, &earlier_count);
    status = call_well(call, at);
    if (is_heard && settled != 0 && has(ND_POLICY_ASKED))
        check_asked(at);
    require(nd_refusal_of(status) == 0 || settled == 0 || tables_of(node, at) == settled, "an event that is refused changes nothing");
    require(call == OPEN ? status == ND_DONE : is_allowed(call, status), "a status is one that nd.h allows");
    require(call == NEXT_HOP ? nd_last_moment(node) <= at : nd_last_moment(node) == at, "time has passed up to the call");
    require((call != PASS && call != NEXT_HOP) || nd_next_due(node) > at, "after nd_pass and nd_next_hop nothing is due");
    if (nd_refusal_of(status) != 0 && call != RESOLVE)
        require(take_records() == ND_OUT_REFUSED, "the newest record says why an event is refused");
    else if (is_heard && settled != 0) {
        take_records(), changeable_at(node, at, after);
        for (size_t i = 0; i < CHANGEABLE; i++)
            require((changed >> i & 1) != 0 || before[i] == after[i], "a table that no record has as changed is the same");
    } else if (once_in(3))
        take_records();
    settled = 0;
    check_node();
}

/* Closes the node, or makes another call for it. */
static void act_on_self(void)
{
    enum call call = once_in(100) ? CLOSE : once_in(40) || (!node->is_open && once_in(2)) ? OPEN : OFTEN[below(sizeof OFTEN / sizeof *OFTEN)];
    uint64_t at = a_moment();
    int32_t error;
    if (call == CLOSE) {
        nd_close(node);
        require(!node->is_open && heap_blocks == others_blocks, "all memory of a node is given back");
        done[CLOSE][DONE]++;
        return;
    }
    prepare(call);
    if (call == OPEN && !node->is_open)
        prepare_open(), at = options->start;
    error = error_of(call, at);
    error != 0 ? call_wrongly(call, at, error) : do_well(call, at);
}

/* Returns the hash of what a node shows, and of the version of its leases. 0 if it is closed. */
static uint64_t shown_by(nd_node *other)
{
    uint64_t version = nd_lease_version(other);
    return other->is_open ? mix(tables_of(other, nd_last_moment(other)), &version, sizeof version) : 0;
}

/* Makes a call for one of the nodes, and requires now and then that it has changed nothing at another one. */
static void step(void)
{
    size_t which = below((uint32_t)subject_count), next = (which + 1) % subject_count;
    bool is_watched = next != which && once_in(8);
    uint64_t before = is_watched ? shown_by(&subjects[next].node) : 0;
    select_subject(which);
    act_on_self();
    self->blocks = heap_blocks - others_blocks;
    require(!is_watched || shown_by(&subjects[next].node) == before, "a call for one node changes no other");
}

int LLVMFuzzerTestOneInput(const uint8_t *bytes, size_t length);
int LLVMFuzzerTestOneInput(const uint8_t *bytes, size_t length)
{
    input = bytes, input_left = length;
    subject_count = 1 + below(MOST_NODES);
    sent.length = 0;
    while (input_left > 0)
        step();
    for (size_t i = 0; i < subject_count; i++) {
        nd_close(&subjects[i].node);
        subjects[i].blocks = 0;
    }
    require(heap_blocks == 0 && heap_now == 0, "all memory is given back");
    inputs++;
    return 0;
}

#ifndef FUZZER
static const char *const NAMES[CALLS] = {"pass",        "receive",        "message",  "send",    "confirm",   "confirm_to", "forget", "clear",
                                         "add_address", "remove_address", "next_hop", "resolve", "advertise", "offer",      "route",  "stop",
                                         "open",        "close"};
static uint64_t seed;

static void name_seed(void)
{
    if (seed > 0)
        fprintf(stderr, "with the input of `fuzz 0 %llu`\n", (unsigned long long)seed);
}

/* Runs the bytes of a seed, which SplitMix64 makes. */
static void run_seed(void)
{
    static uint8_t bytes[LONGEST_INPUT];
    uint64_t state = seed * LONGEST_INPUT * UINT64_C(0x9e3779b97f4a7c15);
    for (size_t i = 0; i < sizeof bytes; i++) {
        uint64_t word = state += UINT64_C(0x9e3779b97f4a7c15);
        word = (word ^ word >> 30) * UINT64_C(0xbf58476d1ce4e5b9);
        word = (word ^ word >> 27) * UINT64_C(0x94d049bb133111eb);
        bytes[i] = (uint8_t)(word ^ word >> 31);
    }
    LLVMFuzzerTestOneInput(bytes, sizeof bytes);
}

int main(int argc, char **argv)
{
    static const char *const ENDED[ENDINGS] = {"done", "nothing", "waiting", "refused", "no memory", "invalid", "closed", "past"};
    time_t end;
    require(argc == 3, "fuzz SECONDS SEED");
    end = time(NULL) + atoi(argv[1]);
    atexit(name_seed);
    seed = strtoull(argv[2], NULL, 10);
    do
        run_seed();
    while (seed++, time(NULL) < end);
    seed = 0;
    printf("%zu inputs\n", inputs);
    for (size_t call = 0; call < CALLS; call++) {
        printf("  %s", NAMES[call]);
        for (size_t i = 0; i < ENDINGS; i++)
            done[call][i] > 0 ? printf(" %s %zu", ENDED[i], done[call][i]) : 0;
        printf("\n");
    }
    printf("  records by kind");
    for (size_t i = 1; i < KINDS; i++)
        printf(" %zu", kinds[i]);
    printf("\n");
    return 0;
}
#endif
