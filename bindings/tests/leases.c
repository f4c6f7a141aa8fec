/* leases: what a node remembers of its answers to nd_resolve does not show, and a packet that is sent in a lease leaves the node as a question does.
 * The arguments are the role, a number of `enum nd_role`; the steps of each run; and the seed. Reads frames (`frames.py steady`).
 *   Two nodes get the same frames, calls and moments. In a run of questions both are asked where packets go, and the second one is made to forget its
 * answers before each, by nd_confirm of an address that no neighbour has. In a run of packets the first one is asked for each, the second one only if
 * no lease of its own holds: else its time passes, or it gets no call. After each step both have returned and reported the same, and show the same;
 * and so they do later. A path that is asked for in its lease goes the same way, and ends no earlier. A tenth of the steps, or more, is in a lease. In
 * every second run memory is refused to the first node now and then, and its call is made again; a question in a lease needs none.
 *   The version of leases grows with each event but a confirmation. Where nothing is due it stays with nd_pass and nd_next_hop, with all else that changes
 * no more than the moment, and with a confirmation, unless that makes a lease shorter; some calls that do what is due leave it too. It never falls.
 * It begins where the options say. nd_confirm_to does what nd_next_hop, nd_neighbour_of, nd_parameters_of and nd_confirm do. The lines are the counts of each run. */
#include "heap.h"
#include "busy.h"
#include "words.h"

enum { MOST_DESTINATIONS = 400, OPENED_AT = 3000, OF_SOURCE = 22, OF_REDIRECT = 78, STATUSES = 4, PHASE = 100 };

/* Limits of a node, and how many destinations it is asked for. */
static const struct setting {
    uint16_t destinations, neighbours;
    size_t asked;
} SETTINGS[] = {{1, 32, 32}, {3, 8, 48}, {256, 32, 32}, {256, 32, MOST_DESTINATIONS}};

/* No frame has it, and no packet goes to it. */
static const nd_addr NO_NEIGHBOUR = {{0x20, 1, 0xd, 0xb8, 0xff, [15] = 1}};

static struct frame frames[MOST_FRAMES];
static nd_addr destinations[MOST_DESTINATIONS];
static size_t frame_count, destination_count, asked;
static nd_node one = ND_NODE_INIT, other = ND_NODE_INIT;
static uint32_t role;
static uint64_t now;

/* The last answer for each destination, of the first node in a run of questions, of the second one in a run of packets. */
static nd_path answers[MOST_DESTINATIONS];

/* The number of the last destination; and the one of the last step, if it was a question or a packet. */
static size_t last_destination, last_question;

/* In a run with scarce memory, how often a call was made again. */
static bool is_scarce;
static size_t again;

/* Of the questions or packets of a run: the statuses, and how many were in a lease, and how many of those after one for another destination. */
static size_t statuses[STATUSES], refused, in_lease, in_others;

/* Of the signs that packets arrive: how many had no effect, and how many confirmed a neighbour. Of all confirmations: how many kept the version. How
 * many other calls, of all runs, kept it that did what was due; and how many Redirects were dropped for their source. */
static size_t signs, confirmations, kept, kept_when_due, misdirected;

/* ---- destinations ---------------------------------------------------------------------------- */

static void add_destination(const nd_addr *address)
{
    for (size_t i = 0; i < destination_count; i++)
        if (memcmp(&destinations[i], address, sizeof *address) == 0)
            return;
    if (destination_count < MOST_DESTINATIONS)
        destinations[destination_count++] = *address;
}

static void add_bytes(const uint8_t *bytes)
{
    nd_addr address;
    memcpy(&address, bytes, sizeof address);
    add_destination(&address);
}

/* Makes the destinations: sources of the frames, groups, addresses that no neighbour has, destinations of Redirects, and some behind a router. */
static void make_destinations(void)
{
    static const nd_addr OTHERS[] = {{{0xff, 2, [15] = 1}}, {{0xff, 2, [13] = 1, [15] = 2}}, {{0xfe, 0x80, [15] = 0x77}}, {{0}},
                                     {{0x20, 1, 0xd, 0xb8, 0, 1, [15] = 0x77}}};
    nd_addr far = {{0x20, 1, 0xd, 0xb8, 0, 0xaa}};
    for (size_t i = 0; i < frame_count; i++)
        add_bytes(frames[i].bytes + OF_SOURCE);
    for (size_t i = 0; i < sizeof OTHERS / sizeof *OTHERS; i++)
        add_destination(&OTHERS[i]);
    add_destination(&LINK_LOCAL);
    for (size_t i = 0; i < frame_count; i++)
        if (frames[i].bytes[54] == 137)
            add_bytes(frames[i].bytes + OF_REDIRECT);
    while (destination_count < MOST_DESTINATIONS) {
        far.bytes[14] = (uint8_t)(destination_count >> 8);
        far.bytes[15] = (uint8_t)destination_count;
        add_destination(&far);
    }
}

/* Returns the number of a destination: often the last one, or one of the first, which the frames are about; and mostly one whose last answer had a
 * link-layer address. */
static size_t a_destination(void)
{
    if (once_in(4))
        return last_destination;
    for (size_t tries = 1 + below(8); tries > 0; tries--) {
        last_destination = below(once_in(4) ? asked : 16);
        if (answers[last_destination].has_mac == 1)
            break;
    }
    return last_destination;
}

/* ---- events ---------------------------------------------------------------------------------- */

/* Names the request of the next call that is refused, or none. */
static void refuse_some(const nd_node *node)
{
    heap_refuse = is_scarce && node == &one && once_in(2) ? 1 + below(4) : 0;
}

/* Makes a call at a node, and again while memory is refused. */
#define RETRIED(status, node, call) \
    while (refuse_some(node), (status = (call)) == ND_NO_MEMORY) \
        require(!heap_is_spent, "a question in a lease needs no memory"), again++; \
    heap_refuse = 0

enum call { RECEIVE, SEND, CONFIRM, CONFIRM_TO, FORGET, CLEAR, ADD_ADDRESS, REMOVE_ADDRESS, ROUTE, PASS, NEXT_HOP };

/* A call, and what it is passed. */
struct act {
    enum call call;
    const struct frame *frame;
    nd_addr address;
    uint32_t number;
};

/* Returns a frame: mostly an answer for which a neighbour is solicited. */
static const struct frame *a_frame(void)
{
    const struct frame *frame = NULL;
    for (size_t tries = 1 + below(24); tries > 0; tries--) {
        nd_addr source;
        nd_neighbour_row row;
        frame = &frames[below(frame_count)];
        memcpy(&source, frame->bytes + OF_SOURCE, sizeof source);
        if (frame->bytes[54] == 136 && nd_neighbour_of(&one, now, &source, &row) == ND_DONE &&
            (row.state == ND_REACHABILITY_INCOMPLETE || row.state == ND_REACHABILITY_PROBE))
            break;
    }
    return frame;
}

static struct act an_act(void)
{
    static const enum call OFTEN[] = {RECEIVE, RECEIVE, RECEIVE, RECEIVE, RECEIVE, RECEIVE, SEND, SEND, CONFIRM, CONFIRM_TO, CONFIRM_TO, PASS, NEXT_HOP,
                                      NEXT_HOP};
    static const enum call SELDOM[] = {FORGET, FORGET, CLEAR, ADD_ADDRESS, REMOVE_ADDRESS, ROUTE};
    struct act act = {.frame = a_frame(), .address = destinations[a_destination()], .number = (uint32_t)below(5)};
    act.call = once_in(20) ? SELDOM[below(sizeof SELDOM / sizeof *SELDOM)] : OFTEN[below(sizeof OFTEN / sizeof *OFTEN)];
    return act;
}

/* The least times, in ms, by the number of an act. */
static const uint64_t LEAST[] = {0, 1, 50, 1000, UINT64_MAX};

static int32_t done(nd_node *node, const struct act *act)
{
    const nd_own_address own = {{{0x20, 1, 0xd, 0xb8, 0, 1, [15] = (uint8_t)(0x50 + act->number)}}, 20 + act->number, 10};
    const nd_route_row route = {{{0x20, 1, 0xd, 0xb8, 0, 0xaa}}, destinations[act->number], 64, act->number == 0 ? ND_HOP_DIRECT : ND_HOP_VIA};
    nd_next_hop_row hop;
    switch (act->call) {
    case RECEIVE: return nd_receive(node, now, act->frame->bytes, act->frame->length);
    case SEND: return nd_send(node, now, &LINK_LOCAL, &act->address, 17, PAYLOAD, sizeof PAYLOAD);
    case CONFIRM: return nd_confirm(node, now, &act->address);
    case CONFIRM_TO: return nd_confirm_to(node, now, &act->address, LEAST[act->number]);
    case FORGET: return nd_forget(node, now, &act->address);
    case CLEAR: return nd_clear(node, now, 1 + act->number);
    case ADD_ADDRESS: return nd_add_address(node, now, &own);
    case REMOVE_ADDRESS: return nd_remove_address(node, now, &own.address);
    case ROUTE: return nd_add_route(node, now, &route);
    case PASS: return nd_pass(node, now);
    default: return nd_next_hop(node, now, &act->address, &hop);
    }
}

/* Returns true if a frame is a message, or a packet at a router, which may have to forward it. */
static bool is_message(const struct frame *frame)
{
    nd_heard heard;
    require(nd_hear(frame->bytes, frame->length, role, &heard) == ND_DONE, "nd_hear");
    return heard.hearing == ND_HEARING_VALID || (heard.hearing == ND_HEARING_OTHER && role == ND_ROLE_ROUTER);
}

/* Returns true if a frame is a Redirect from another node than the first hop of its destination, for which a node drops it. */
static bool is_misdirected(nd_node *node, const struct frame *frame)
{
    nd_next_hop_row hop;
    nd_addr destination;
    if (frame->bytes[54] != 137)
        return false;
    memcpy(&destination, frame->bytes + OF_REDIRECT, sizeof destination);
    return nd_next_hop(node, now, &destination, &hop) != ND_DONE || memcmp(&hop.address, frame->bytes + OF_SOURCE, sizeof hop.address) != 0;
}

/* Returns true if a confirmation of a neighbour makes no lease shorter. One in DELAY or PROBE has a lease of at most DELAY_FIRST_PROBE_TIME. */
static bool leaves_leases(nd_node *node, const nd_addr *address)
{
    nd_neighbour_row row;
    nd_parameters_row parameters;
    if (nd_neighbour_of(node, now, address, &row) != ND_DONE || row.has_mac == 0 || row.state == ND_REACHABILITY_STALE)
        return true;
    require(nd_parameters_of(node, now, &parameters) == ND_DONE, "nd_parameters_of");
    return parameters.reachable_time >= (row.state == ND_REACHABILITY_REACHABLE ? row.reachable_left : 5000);
}

/* Makes a call, and requires that the version is what nd.h says of it. Returns the status. */
static int32_t with_version(nd_node *node, const struct act *act)
{
    uint64_t before = nd_lease_version(node), due = nd_next_due(node), after;
    size_t made = again;
    bool leaves = act->call != CONFIRM || due <= now || leaves_leases(node, &act->address);
    bool is_dropped = act->call == RECEIVE && due > now && role == ND_ROLE_HOST && is_misdirected(node, act->frame);
    int32_t status;
    RETRIED(status, node, done(node, act));
    bool is_refused = again > made;
    after = nd_lease_version(node);
    require(after >= before, "the version never falls");
    if (act->call == PASS || act->call == NEXT_HOP || (act->call == CONFIRM_TO && status == ND_NOTHING))
        require(after == before || due <= now, "nd_pass, nd_next_hop and a sign without effect keep the version where nothing is due"),
            kept_when_due += due <= now && after == before;
    else if (act->call == CONFIRM || act->call == CONFIRM_TO)
        require(after == before || due <= now || !leaves || is_refused, "a confirmation keeps the version where nothing is due and no lease is shorter"),
            kept += after == before;
    else if (act->call == RECEIVE && (is_dropped || !is_message(act->frame)))
        require(due <= now || after == before || is_refused, "a frame that is dropped, and a packet for the node, keep the version"), misdirected += is_dropped;
    else
        require(after > before || nd_refusal_of(status) != 0 || act->call == RECEIVE, "an event raises the version");
    return status;
}

/* Does what nd.h says of nd_confirm_to by other calls, and returns its status. */
static int32_t confirmed_in_parts(nd_node *node, const struct act *act)
{
    nd_next_hop_row hop;
    nd_neighbour_row row;
    nd_parameters_row parameters;
    int32_t found = nd_next_hop(node, now, &act->address, &hop);
    require(nd_pass(node, now) == ND_DONE && nd_parameters_of(node, now, &parameters) == ND_DONE, "nd_pass and nd_parameters_of");
    if (found == ND_NOTHING || act->address.bytes[0] == 0xff || nd_neighbour_of(node, now, &hop.address, &row) != ND_DONE || row.has_mac == 0)
        return ND_NOTHING;
    uint64_t spent = parameters.reachable_time > row.reachable_left ? parameters.reachable_time - row.reachable_left : 0;
    if (row.state == ND_REACHABILITY_REACHABLE && spent < LEAST[act->number])
        return ND_NOTHING;
    return nd_confirm(node, now, &hop.address);
}

static void act_at_both(void)
{
    struct act act = an_act();
    int32_t status = with_version(&one, &act);
    bool is_sign = act.call == CONFIRM_TO;
    require(is_taken(status), "a call takes place");
    require((is_sign ? confirmed_in_parts(&other, &act) : with_version(&other, &act)) == status, "both nodes return the same status");
    signs += is_sign && status == ND_NOTHING, confirmations += is_sign && status == ND_DONE;
    last_question = SIZE_MAX;
}

/* ---- questions and packets ------------------------------------------------------------------- */

/* Returns true if two paths are the same but for their versions. */
static bool are_same(nd_path path, nd_path another)
{
    path.version = another.version = 0;
    return memcmp(&path, &another, sizeof path) == 0;
}

/* Returns true if packets go by the path as they do in the lease, to a neighbour that isn't STALE, and for as long. */
static bool is_kept(const nd_path *lease, const nd_path *path)
{
    return path->hop == lease->hop && memcmp(&path->next_hop, &lease->next_hop, sizeof lease->next_hop) == 0 &&
           memcmp(&path->mac, &lease->mac, sizeof lease->mac) == 0 && path->state != ND_REACHABILITY_STALE && path->until >= lease->until;
}

static bool holds(const nd_path *lease, nd_node *node)
{
    return now < lease->until && lease->version == nd_lease_version(node);
}

/* Asks a node, and requires that the version is that of the node behind the answer. */
static int32_t path_of(nd_node *node, size_t to, nd_path *path)
{
    uint64_t before = nd_lease_version(node);
    int32_t status;
    RETRIED(status, node, nd_resolve(node, now, &destinations[to], path));
    require(is_taken(status) && nd_lease_version(node) >= before, "a question does not lower the version");
    require(path->version == (status == ND_DONE ? nd_lease_version(node) : 0), "a lease has the version of the node");
    require(status == ND_DONE || path->until == now, "a path without a link-layer address has no lease");
    return status;
}

static void count(int32_t status, bool is_in_lease, size_t to)
{
    status < 0 ? refused++ : statuses[status]++;
    in_lease += is_in_lease;
    in_others += is_in_lease && to != last_question;
    last_question = to;
}

/* Asks both nodes, the second one once it has forgotten what it answered. */
static void ask_both(size_t to)
{
    bool is_in_lease = holds(&answers[to], &one);
    nd_path before = answers[to], path;
    size_t requests = heap_requests;
    int32_t status;
    heap_is_spent = is_in_lease;
    status = path_of(&one, to, &answers[to]);
    heap_is_spent = false;
    require(!is_in_lease || (status == ND_DONE && is_kept(&before, &answers[to])), "a path in its lease goes as it did");
    require(!is_in_lease || to != last_question || heap_requests == requests, "a question that is asked again in its lease requests no memory");
    require(nd_confirm(&other, now, &NO_NEIGHBOUR) == ND_DONE, "no neighbour is confirmed");
    require(path_of(&other, to, &path) == status && are_same(path, answers[to]), "a path is that of a node that remembers none");
    count(status, is_in_lease, to);
}

/* Sends a packet from both nodes. The first one is asked, the second one if it gave no lease that holds: in a lease it gets no call, or nd_pass. */
static void send_both(size_t to)
{
    bool is_in_lease = holds(&answers[to], &other);
    nd_path path;
    int32_t status = path_of(&one, to, &path);
    if (is_in_lease) {
        require(nd_next_due(&other) > now && (once_in(2) || nd_pass(&other, now) == ND_DONE), "nothing is due in a lease");
        require(status == ND_DONE && is_kept(&answers[to], &path), "packets go in a lease as by a question");
    } else
        require(path_of(&other, to, &answers[to]) == status && are_same(path, answers[to]), "both nodes answer the same");
    count(status, is_in_lease, to);
}

/* ---- runs ------------------------------------------------------------------------------------ */

static void open_node(nd_node *node, const struct setting *setting)
{
    const nd_advertising settings = {.min_interval = 200, .max_interval = 600, .lifetime = 1800, .hop_limit = 64};
    const nd_route_row direct = {{{0x20, 1, 0xd, 0xb8, 0, 1}}, {{0}}, 64, ND_HOP_DIRECT};
    const nd_route_row far = {{{0x20, 1, 0xd, 0xb8}}, destinations[1], 32, ND_HOP_VIA};
    nd_options options = host_options();
    options.role = role;
    options.draws = ND_DRAWS_SEED;
    options.limits.destinations = setting->destinations;
    options.limits.neighbours = setting->neighbours;
    require(nd_open(node, &options, sizeof options) == ND_DONE && nd_pass(node, OPENED_AT) == ND_DONE, "nd_open");
    if (role == ND_ROLE_ROUTER) {
        require(nd_add_route(node, OPENED_AT, &direct) == ND_DONE && nd_add_route(node, OPENED_AT, &far) == ND_DONE, "nd_add_route");
        require(nd_advertise(node, OPENED_AT, &settings) == ND_DONE, "nd_advertise");
    }
}

/* Requires that both nodes have reported the same, and show the same. */
static void require_same(uint64_t (*shown)(nd_node *, uint64_t))
{
    require(drain(&one, FIRST_HASH) == drain(&other, FIRST_HASH), "both nodes report the same");
    require(nd_next_due(&one) == nd_next_due(&other), "the same is due at both nodes");
    require(shown(&one, now) == shown(&other, now), "both nodes show the same");
}

/* Runs steps, most of which are questions, or packets. */
static void run(const char *what, const struct setting *setting, size_t steps, void (*question)(size_t))
{
    static const uint64_t STEPS[] = {0, 1, 1, 10, 50, 100, 500, 3000};
    uint64_t (*shown)(nd_node *, uint64_t) = question == ask_both ? tables_of : rows_at;
    open_node(&one, setting);
    open_node(&other, setting);
    now = OPENED_AT;
    asked = setting->asked;
    in_lease = in_others = signs = confirmations = kept = again = last_destination = 0;
    last_question = SIZE_MAX;
    memset(answers, 0, sizeof answers);
    memset(statuses, 0, sizeof statuses);
    refused = 0;
    require_same(shown);
    for (size_t i = 0; i < steps; i++) {
        bool is_quiet = i / PHASE % 2 == 0;
        now += once_in(is_quiet ? 20 : 3) ? STEPS[below(sizeof STEPS / sizeof *STEPS)] : 0;
        once_in(is_quiet ? 40 : 4) ? act_at_both() : question(a_destination());
        require_same(shown);
    }
    require(nd_pass(&one, now) == ND_DONE && nd_pass(&other, now) == ND_DONE, "nd_pass");
    require_same(tables_of);
    require(later_of(&one) == later_of(&other), "both nodes report and show the same later");
    nd_close(&one);
    nd_close(&other);
    printf("  %s, %u of %zu destinations remembered: in a lease %zu, %zu of them after another destination; done %zu, waiting %zu, nothing %zu, "
           "refused %zu; confirmed %zu, not %zu, leases kept %zu; made again %zu\n", what, setting->destinations, asked, in_lease, in_others, statuses[ND_DONE], statuses[ND_WAITING],
           statuses[ND_NOTHING], refused, confirmations, signs, kept, again);
    require(in_lease >= steps / 10 && in_others >= steps / 100, "many questions or packets are in a lease, many of them after another destination");
    require(signs > 0 && confirmations > 0 && kept > 0, "some signs confirm a neighbour, some don't, and some confirmations keep leases");
    require(!is_scarce || again > 0, "memory is refused");
}

/* ---- versions -------------------------------------------------------------------------------- */

/* Requires the status of a call at a node, and that the version is what it was, or a greater one. */
#define KEEPS(call, wanted) require((call) == (wanted) && nd_lease_version(&one) == version, #call " keeps the version")
#define RAISES(call, wanted) \
    require((call) == (wanted) && nd_lease_version(&one) > version, #call " raises the version"), version = nd_lease_version(&one)

/* Requires that each call returns an error for a moment, and keeps the version. */
static void refuse_moment(uint64_t at, int32_t error, uint64_t version)
{
    const nd_own_address own = {{{0x20, 1, 0xd, 0xb8, [15] = 1}}, 20, 10};
    const nd_advertising settings = {.min_interval = 200, .max_interval = 600};
    const nd_offer_row offer = {.prefix = UNRESOLVED, .bits = 64};
    const nd_route_row route = {.bits = 64, .hop = ND_HOP_DIRECT};
    const struct frame *frame = &frames[0];
    nd_next_hop_row hop;
    nd_neighbour_row row;
    nd_path path;
    KEEPS(nd_pass(&one, at), error);
    KEEPS(nd_receive(&one, at, frame->bytes, frame->length), error);
    KEEPS(nd_send(&one, at, &LINK_LOCAL, &destinations[0], 17, PAYLOAD, sizeof PAYLOAD), error);
    KEEPS(nd_confirm(&one, at, &destinations[0]), error);
    KEEPS(nd_confirm_to(&one, at, &destinations[0], 0), error);
    KEEPS(nd_forget(&one, at, &destinations[0]), error);
    KEEPS(nd_clear(&one, at, ND_CLEARABLE_NEIGHBOURS), error);
    KEEPS(nd_add_address(&one, at, &own), error);
    KEEPS(nd_remove_address(&one, at, &own.address), error);
    KEEPS(nd_next_hop(&one, at, &destinations[0], &hop), error);
    KEEPS(nd_resolve(&one, at, &destinations[0], &path), error);
    KEEPS(nd_advertise(&one, at, &settings), error);
    KEEPS(nd_advertise_prefix(&one, at, &offer), error);
    KEEPS(nd_add_route(&one, at, &route), error);
    KEEPS(nd_stop_advertising(&one, at), error);
    KEEPS(nd_neighbour_of(&one, at, &destinations[0], &row), error);
}

/* Writes a packet without a payload for a destination, in a frame, and returns how long that is. */
static size_t packet_for(const nd_addr *destination, uint8_t *frame)
{
    static const uint8_t HEADERS[] = {2, 0, 0, 0, 0, 1, 2, 0, 0, 0, 0, 2, 0x86, 0xdd, 0x60, 0, 0, 0, 0, 0, 59, 64};
    memcpy(frame, HEADERS, sizeof HEADERS);
    memcpy(frame + sizeof HEADERS, &UNRESOLVED, sizeof UNRESOLVED);
    memcpy(frame + sizeof HEADERS + sizeof UNRESOLVED, destination, sizeof *destination);
    return sizeof HEADERS + 2 * sizeof *destination;
}

/* Requires that what is no event keeps the version, at a node that has just given this lease for the first destination. */
static void keep_version(const nd_path *lease)
{
    const uint64_t version = lease->version, last = nd_last_moment(&one), later = lease->until - 1;
    const nd_options options = host_options();
    nd_neighbour_row row;
    nd_next_hop_row hop;
    nd_path path;
    nd_out out;
    uint8_t buffer[LONGEST_FRAME], packet[64];
    size_t length = packet_for(&LINK_LOCAL, packet);
    KEEPS(nd_poll(&one, &out, buffer, 0), ND_NO_ROOM);
    KEEPS(nd_poll(&one, &out, buffer, sizeof buffer), ND_DONE);
    drain(&one, FIRST_HASH);
    KEEPS(nd_poll(&one, &out, buffer, sizeof buffer), ND_NOTHING);
    tables_of(&one, last);
    KEEPS(nd_neighbour_of(&one, later, &destinations[0], &row), ND_DONE);
    KEEPS(nd_pass(&one, last), ND_DONE);
    KEEPS(nd_resolve(&one, last, &destinations[0], &path) == ND_DONE && memcmp(&path, lease, sizeof path) == 0, true);
    KEEPS(nd_pass(&one, last + 1), ND_DONE);
    KEEPS(nd_next_hop(&one, last + 2, &destinations[0], &hop), ND_DONE);
    KEEPS(nd_confirm_to(&one, last + 2, &destinations[0], 3), ND_NOTHING);
    KEEPS(nd_confirm_to(&one, last + 2, &NO_NEIGHBOUR, 0), ND_NOTHING);
    KEEPS(nd_confirm(&one, last + 2, &NO_NEIGHBOUR), ND_DONE);
    KEEPS(nd_confirm_to(&one, last + 2, &destinations[0], 1), ND_DONE);
    KEEPS(nd_confirm(&one, last + 2, &destinations[0]), ND_DONE);
    KEEPS(nd_receive(&one, last + 2, (const uint8_t[]){0}, 1), ND_DONE);
    KEEPS(nd_receive(&one, last + 2, packet, length), ND_DONE);
    KEEPS(nd_poll(&one, &out, buffer, sizeof buffer) == ND_DONE && out.kind == ND_OUT_DROPPED, true);
    KEEPS(nd_poll(&one, &out, buffer, sizeof buffer) == ND_DONE && out.kind == ND_OUT_UP, true);
    refuse_moment(last, ND_PAST, version);
    refuse_moment(ND_MOMENT_LIMIT, ND_INVALID, version);
    KEEPS(nd_open(&one, &options, sizeof options), ND_INVALID);
    KEEPS(nd_clear(&one, later, 0), ND_INVALID);
    KEEPS(nd_add_address(&one, later, &(nd_own_address){{{0xff}}, 1, 1}), ND_INVALID);
    KEEPS(nd_advertise(&one, later, &(nd_advertising){0}), ND_INVALID);
    KEEPS(nd_advertise_prefix(&one, later, &(nd_offer_row){.bits = 129}), ND_INVALID);
    KEEPS(nd_add_route(&one, later, &(nd_route_row){.bits = 129}), ND_INVALID);
    KEEPS(nd_resolve(&one, later, &destinations[0], &path) == ND_DONE && is_kept(lease, &path), true);
}

/* Requires what nd.h says of the version, call by call, at a node to which the first frame makes the first destination known. */
static void try_versions(void)
{
    const struct frame *frame = &frames[0];
    uint64_t version = 0;
    nd_path path;
    require(nd_lease_version(&one) == 0, "the version of a closed node is 0");
    open_node(&one, &SETTINGS[0]);
    now = OPENED_AT;
    RAISES(nd_receive(&one, now, frame->bytes, frame->length), ND_DONE);
    KEEPS(nd_confirm(&one, now, &destinations[0]), ND_DONE);
    require(path_of(&one, 0, &path) == ND_DONE && path.until > now + 4, "a neighbour that is confirmed has a lease");
    keep_version(&path);
    version = path.version;
    now = nd_next_due(&one);
    RAISES(nd_pass(&one, now), ND_DONE);
    RAISES(nd_send(&one, now, &LINK_LOCAL, &destinations[0], 17, PAYLOAD, sizeof PAYLOAD), ND_DONE);
    KEEPS(nd_confirm_to(&one, now, &destinations[0], 1), ND_DONE);
    RAISES(nd_forget(&one, now, &destinations[0]), ND_DONE);
    RAISES(nd_resolve(&one, now, &destinations[0], &path), ND_WAITING);
    nd_close(&one);
    version = 0;
    refuse_moment(now, ND_CLOSED, version);
}

/* Opens a node whose versions begin there, by an older structure without the field if it is 0, and requires that the first one is `first`. */
static void open_at(uint64_t lease_version, uint64_t first)
{
    nd_options options = host_options();
    options.lease_version = lease_version;
    require(nd_open(&one, &options, lease_version == 0 ? offsetof(nd_options, lease_version) : sizeof options) == ND_DONE, "a node is opened");
    require(nd_lease_version(&one) == first, "its version begins where its options say");
    require(nd_pass(&one, OPENED_AT) == ND_DONE, "its address is assigned");
}

/* Requires that versions begin where the options say, and that a path of a node has no version of the next one if that begins above. */
static void try_first_versions(void)
{
    const struct frame *frame = &frames[0];
    nd_path path;
    open_at(0, 1);
    now = OPENED_AT;
    require(nd_receive(&one, now, frame->bytes, frame->length) == ND_DONE, "a frame is received");
    require(nd_confirm(&one, now, &destinations[0]) == ND_DONE, "a neighbour is confirmed");
    require(path_of(&one, 0, &path) == ND_DONE && path.version == nd_lease_version(&one), "a neighbour that is confirmed has a lease");
    nd_close(&one);
    open_at(path.version + 1, path.version + 1);
    require(nd_lease_version(&one) > path.version, "no version of the next node is that of the path");
    nd_close(&one);
    open_at(UINT64_MAX, UINT64_MAX);
    nd_close(&one);
}

int main(int argc, char **argv)
{
    size_t steps;
    require(argc == 4, "leases ROLE STEPS SEED < frames");
    role = (uint32_t)strtoul(argv[1], NULL, 10);
    steps = strtoul(argv[2], NULL, 10);
    random_state = strtoull(argv[3], NULL, 10);
    frame_count = read_frames(frames);
    require(frame_count > 0, "frames are read");
    make_destinations();
    printf("%s\n", role == ND_ROLE_HOST ? "host" : "router");
    try_versions();
    try_first_versions();
    for (size_t i = 0; i < sizeof SETTINGS / sizeof *SETTINGS; i++) {
        for (int scarce = 0; scarce < 2; scarce++) {
            is_scarce = scarce == 1;
            run("questions", &SETTINGS[i], steps, ask_both);
            run("packets", &SETTINGS[i], steps, send_both);
        }
    }
    require(kept_when_due > 0, "some calls that do what is due keep the version");
    require(misdirected > 0 || role == ND_ROLE_ROUTER, "some Redirects are dropped for their source");
    require(heap_blocks == 0 && heap_now == 0, "all memory is given back");
    free_frames(frames, frame_count);
    return 0;
}
