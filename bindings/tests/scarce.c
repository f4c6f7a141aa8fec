/* scarce: memory that is refused to one event. For each event of a list at a busy node of busy.h (frames from standard input), each request for
 * memory is refused in turn, and then all of them for three calls. It requires: a call that returns ND_NO_MEMORY has reported nothing and leaves all
 * tables as they were, if nothing was due before it. The same call again has the status, the records and the tables of a run in which nothing was
 * refused, then and later. Then all requests are refused, and the events that take no memory are done all the same, without a request, while the
 * queue has room for their records.
 *   A line for each event says how many requests it makes, how many of them were refused with ND_NO_MEMORY, and how many changed nothing (a next hop
 * that was not remembered). */
#include "heap.h"
#include "busy.h"

struct event {
    const char *what;
    int32_t (*call)(nd_node *node, const char *argument);
    const char *argument; /* the name of a frame, or what the call takes */
    bool is_later;        /* it lets time pass */
};

static uint32_t role;

/* The last answer of nd_resolve, but for its version, which a call that is made again may raise twice. */
static nd_path answer;

static size_t all_requests, all_refused, all_given_up;

/* ---- events ---------------------------------------------------------------------------------- */

static int32_t receive(nd_node *node, const char *name)
{
    const struct frame *frame = frame_named(name);
    return nd_receive(node, BUSY_AT, frame->bytes, frame->length);
}

static int32_t receive_cut(nd_node *node, const char *name)
{
    const struct frame *frame = frame_named(name);
    return nd_receive(node, BUSY_AT, frame->bytes, frame->length - 1);
}

/* Receives a frame with another last byte of its checksum. */
static int32_t receive_spoilt(nd_node *node, const char *name)
{
    uint8_t bytes[ND_BUFFER_BYTES];
    const struct frame *frame = frame_named(name);
    memcpy(bytes, frame->bytes, frame->length);
    bytes[57] ^= 3;
    return nd_receive(node, BUSY_AT, bytes, frame->length);
}

/* Reads an address that is written as 32 hexadecimal digits. */
static nd_addr address_of(const char *digits)
{
    nd_addr address;
    require(bytes_of(digits, address.bytes, sizeof address.bytes) == sizeof address.bytes, "an address has 16 bytes");
    return address;
}

static int32_t send_to(nd_node *node, const char *digits)
{
    const nd_addr destination = address_of(digits);
    return nd_send(node, BUSY_AT, role == ND_ROLE_HOST ? &LINK_LOCAL : &OF_ROUTER, &destination, 17, PAYLOAD, sizeof PAYLOAD);
}

static int32_t send_from_another(nd_node *node, const char *digits)
{
    const nd_addr source = address_of(digits);
    return nd_send(node, BUSY_AT, &source, &UNRESOLVED, 17, PAYLOAD, sizeof PAYLOAD);
}

/* Asks where packets go. Returns ND_DONE too where they are to wait. */
static int32_t resolve(nd_node *node, const char *digits)
{
    static const nd_path none;
    const nd_addr destination = address_of(digits);
    nd_path path = none;
    int32_t status = nd_resolve(node, BUSY_AT, &destination, &path);
    require(status != ND_NO_MEMORY || memcmp(&path, &none, sizeof path) == 0, "where memory is refused there is no path");
    answer = path;
    answer.version = 0;
    return status == ND_WAITING ? ND_DONE : status;
}

/* Asks where packets go, and again in the lease. */
static int32_t resolve_in_lease(nd_node *node, const char *digits)
{
    const nd_addr destination = address_of(digits);
    nd_path path, again;
    int32_t status = nd_resolve(node, BUSY_AT, &destination, &path);
    require(status == ND_DONE && path.until > BUSY_AT && path.version == nd_lease_version(node), "a path has a lease");
    status = nd_resolve(node, BUSY_AT, &destination, &again);
    require(status == ND_DONE && memcmp(&again, &path, sizeof path) == 0, "a path that is asked for in its lease is as it was");
    answer = again;
    answer.version = 0;
    return status;
}

static int32_t confirm(nd_node *node, const char *digits)
{
    const nd_addr neighbour = address_of(digits);
    return nd_confirm(node, BUSY_AT, &neighbour);
}

static int32_t forget(nd_node *node, const char *digits)
{
    const nd_addr neighbour = address_of(digits);
    return nd_forget(node, BUSY_AT, &neighbour);
}

static int32_t add_address(nd_node *node, const char *digits)
{
    const nd_own_address own = {address_of(digits), 3600, 1800};
    return nd_add_address(node, BUSY_AT, &own);
}

static int32_t remove_address(nd_node *node, const char *digits)
{
    const nd_addr address = address_of(digits);
    return nd_remove_address(node, BUSY_AT, &address);
}

static int32_t clear(nd_node *node, const char *number)
{
    return nd_clear(node, BUSY_AT, (uint32_t)strtoul(number, NULL, 10));
}

static int32_t turn(nd_node *node, const char *milliseconds)
{
    return nd_pass(node, BUSY_AT + strtoull(milliseconds, NULL, 10));
}

static int32_t advertise(nd_node *node, const char *lifetime)
{
    const nd_advertising settings = {.min_interval = 3, .max_interval = 4, .lifetime = (uint32_t)strtoul(lifetime, NULL, 10)};
    return nd_advertise(node, BUSY_AT, &settings);
}

static int32_t offer(nd_node *node, const char *digits)
{
    const nd_offer_row row = {.prefix = address_of(digits), .bits = 64, .valid_lifetime = 3600, .preferred_lifetime = 1800, .on_link = 1};
    return nd_advertise_prefix(node, BUSY_AT, &row);
}

static int32_t route(nd_node *node, const char *digits)
{
    const nd_route_row row = {.prefix = address_of(digits), .bits = 64, .hop = ND_HOP_DIRECT};
    return nd_add_route(node, BUSY_AT, &row);
}

static int32_t stop(nd_node *node, const char *nothing)
{
    (void)nothing;
    return nd_stop_advertising(node, BUSY_AT);
}

#define NEW "20010db8000000000000000000000077"
#define FAR "20010db8000300000000000000000077"
#define FIRST "fe80000000000000000000fffe000001"
#define WAITED_FOR "20010db8000000000000000000000001"
#define OF_NONE "fe800000000000000000000000000077"
#define FORMED "20010db800000000365678fffe9abcde"
#define SECOND "fe800000000000000000000000000002"
#define ALL "ff020000000000000000000000000001"
#define OF_HOST "fe80000000000000365678fffe9abcde"

static const struct event AT_HOST[] = {
    {"an advertisement with a new router, prefix, server and search name", receive, "ADVERTISEMENT_OF_ALL_THAT_IS_NEW", false},
    {"a Redirect to a new target", receive, "REDIRECT_TO_NEW_TARGET", false},
    {"a solicitation of a new neighbour", receive, "SOLICITATION_OF_NEW_NEIGHBOUR", false},
    {"a solicitation whose answer waits", receive, "SOLICITATION_WITHOUT_ADDRESS", false},
    {"a solicitation of ::", receive, "SOLICITATION_FOR_LINK_LOCAL", false},
    {"an answer for which packets wait", receive, "ANSWER_OF_UNRESOLVED", false},
    {"a duplicate of a tentative address", receive, "DUPLICATE_OF_TENTATIVE", false},
    {"an advertisement that adds nothing", receive, "ADVERTISEMENT_WITH_PREFIX", false},
    {"a last advertisement", receive, "LAST_ADVERTISEMENT", false},
    {"a packet for the upper layer", receive, "DATAGRAM_TO_HOST", false},
    {"a packet that is sent to a new neighbour", send_to, NEW, false},
    {"a packet that waits", send_to, WAITED_FOR, false},
    {"a packet that is sent through a router", send_to, FAR, false},
    {"a packet to ff02::1", send_to, ALL, false},
    {"a packet without a next hop", send_to, "00000000000000000000000000000001", false},
    {"a path to a new neighbour", resolve, NEW, false},
    {"a path through a router", resolve, FAR, false},
    {"a path to a neighbour for which packets wait", resolve, WAITED_FOR, false},
    {"a neighbour with packets that is forgotten", forget, WAITED_FOR, false},
    {"a new address by hand", add_address, NEW, false},
    {"lifetimes by hand of an address that was formed", add_address, FORMED, false},
    {"an address that is removed", remove_address, FORMED, false},
    {"the neighbours are cleared", clear, "1", false},
    {"the default routers are cleared", clear, "2", false},
    {"a second passes", turn, "1000", true},
    {"ten seconds pass", turn, "10000", true},
    {"half an hour passes", turn, "2000000", true},
};

static const struct event AT_ROUTER[] = {
    {"a Router Solicitation of a new neighbour", receive, "ROUTER_SOLICITATION_OF_NEW_NEIGHBOUR", false},
    {"a solicitation of a new neighbour", receive, "SOLICITATION_OF_ROUTER", false},
    {"a solicitation of ::", receive, "SOLICITATION_FOR_ROUTER_ADDRESS", false},
    {"an answer for which packets wait", receive, "ANSWER_OF_SOURCE", false},
    {"a packet in transit with a Redirect", receive, "DATAGRAM_TO_ROUTED", false},
    {"a packet in transit that waits", receive, "DATAGRAM_IN_TRANSIT", false},
    {"a packet that is sent to a new neighbour", send_to, NEW, false},
    {"a path to a new neighbour", resolve, NEW, false},
    {"a prefix is offered", offer, "20010db8000600000000000000000000", false},
    {"a route is put", route, "20010db8000600000000000000000000", false},
    {"a new address by hand", add_address, NEW, false},
    {"other settings", advertise, "1800", false},
    {"the last advertisement", stop, NULL, false},
    {"the neighbours are cleared", clear, "1", false},
    {"ten seconds pass", turn, "10000", true},
    {"half an hour passes", turn, "2000000", true},
};

/* Events that are done without memory: those of AsksForNone in docs/DEFINITIONS.md. */
static const struct event WITHOUT_MEMORY_AT_HOST[] = {
    {"time passes", turn, "0", false},
    {"a frame that is cut", receive_cut, "SOLICITATION_FOR_LINK_LOCAL", false},
    {"a frame with a bad checksum", receive_spoilt, "REDIRECT", false},
    {"a frame that is not for the node", receive, "SOLICITATION_FOR_SOURCE", false},
    {"a Redirect that is not of the first hop", receive, "REDIRECT_WITH_PACKET", false},
    {"an advertisement that adds nothing", receive, "ADVERTISEMENT_WITH_PREFIX", false},
    {"an advertisement with a new router, prefix and server", receive, "ADVERTISEMENT_OF_ALL_BUT_NAMES", false},
    {"a last advertisement", receive, "LAST_ADVERTISEMENT", false},
    {"a confirmation", confirm, FIRST, false},
    {"a confirmation of no neighbour", confirm, OF_NONE, false},
    {"a path to a neighbour that is known", resolve, FIRST, false},
    {"a path to ff02::1", resolve, ALL, false},
    {"a path in its lease", resolve_in_lease, SECOND, false},
    {"a neighbour that is forgotten", forget, FIRST, false},
    {"a neighbour with packets that is forgotten", forget, WAITED_FOR, false},
    {"no neighbour that is forgotten", forget, OF_NONE, false},
    {"the prefixes are cleared", clear, "3", false},
    {"the Redirects are cleared", clear, "4", false},
    {"the servers and names are cleared", clear, "5", false},
    {"a new address by hand", add_address, NEW, false},
    {"lifetimes by hand of an address that was formed", add_address, FORMED, false},
    {"an address that is removed", remove_address, FORMED, false},
};

/* Events that are refused without memory: those of AddsRefusal. */
static const struct event REFUSED_AT_HOST[] = {
    {"an event of a router", stop, NULL, false},
    {"settings of a router", advertise, "1800", false},
    {"an offer of a router", offer, NEW, false},
    {"a route of a router", route, NEW, false},
    {"a packet from another address", send_from_another, OF_NONE, false},
};

/* With a limit of two default routers. */
static const struct event FULL_AT_HOST[] = {
    {"an advertisement of a third router", receive, "ADVERTISEMENT_OF_ALL_THAT_IS_NEW", false},
};

static const struct event WITHOUT_MEMORY_AT_ROUTER[] = {
    {"time passes", turn, "0", false},
    {"a frame that is cut", receive_cut, "ROUTER_SOLICITATION", false},
    {"an advertisement at a router", receive, "ADVERTISEMENT", false},
    {"a confirmation", confirm, OF_HOST, false},
    {"a path in its lease", resolve_in_lease, OF_HOST, false},
    {"a neighbour with packets that is forgotten", forget, "20010db8000000000000000000000009", false},
    {"no neighbour that is forgotten", forget, OF_NONE, false},
    {"a new address by hand", add_address, NEW, false},
    {"no address that is removed", remove_address, OF_NONE, false},
};

/* ---- what is required ------------------------------------------------------------------------ */

struct outcome {
    int32_t status;
    uint64_t records, tables, later; /* the records with the last answer */
};

static bool are_same(const struct outcome *one, const struct outcome *other)
{
    return one->status == other->status && one->records == other->records && one->tables == other->tables && one->later == other->later;
}

static void require_of(bool holds, const struct event *event, const char *what)
{
    if (!holds)
        fprintf(stderr, "at %s: %s: ", role == ND_ROLE_HOST ? "a host" : "a router", event->what);
    require(holds, what);
}

/* Does an event at a busy node. If `tries` is 1, request `first` of the first call is refused; if it is more, all requests of so many calls. */
static struct outcome outcome_of(const struct event *event, size_t first, size_t tries, size_t *refusals)
{
    nd_node node = ND_NODE_INIT;
    struct outcome outcome = {0, FIRST_HASH, 0, 0};
    uint64_t before;
    open_busy(&node, role);
    before = tables_of(&node, BUSY_AT);
    *refusals = 0;
    for (size_t i = 0; i < tries; i++) {
        nd_out none;
        size_t requests = heap_requests, refused = heap_refused;
        heap_refuse = tries == 1 ? first : 0;
        heap_is_spent = tries > 1;
        outcome.status = event->call(&node, event->argument);
        heap_refuse = 0;
        heap_is_spent = false;
        require_of(heap_requests > requests && heap_refused > refused, event, "a request is refused");
        if (outcome.status != ND_NO_MEMORY)
            break;
        (*refusals)++;
        if (!event->is_later) {
            require_of(tables_of(&node, BUSY_AT) == before, event, "after ND_NO_MEMORY all tables are as before");
            require_of(nd_poll(&node, &none, &(uint8_t){0}, 0) == ND_NOTHING, event, "ND_NO_MEMORY has no record");
        }
    }
    if (tries == 0 || outcome.status == ND_NO_MEMORY)
        outcome.status = event->call(&node, event->argument);
    require_of(outcome.status >= 0, event, "it is done");
    outcome.records = mix(drain(&node, outcome.records), &answer, sizeof answer);
    outcome.tables = tables_of(&node, nd_last_moment(&node));
    outcome.later = later_of(&node);
    nd_close(&node);
    require_of(heap_blocks == 0, event, "all memory is given back");
    return outcome;
}

static void refuse_each(const struct event *event)
{
    size_t none, refusals, requests, refused = 0, given_up = 0;
    struct outcome right = outcome_of(event, 0, 0, &none);
    nd_node node = ND_NODE_INIT;
    open_busy(&node, role);
    requests = heap_requests;
    require_of(event->call(&node, event->argument) >= 0, event, "it is done");
    requests = heap_requests - requests;
    nd_close(&node);
    for (size_t i = 1; i <= requests; i++) {
        struct outcome outcome = outcome_of(event, i, 1, &refusals);
        require_of(are_same(&outcome, &right), event, "the same call again has the same records and tables");
        refusals > 0 ? refused++ : given_up++;
    }
    if (refused > 0) {
        struct outcome outcome = outcome_of(event, 1, 3, &refusals);
        require_of(are_same(&outcome, &right), event, "so it has after three calls without memory");
    }
    printf("  %zu %zu %zu %s\n", requests, refused, given_up, event->what);
    all_requests += requests, all_refused += refused, all_given_up += given_up;
}

/* Requires that an event has a status and the outcome that it has with memory, while each request is refused and none is made. */
static void do_without(const struct event *event, bool is_refused)
{
    nd_node node = ND_NODE_INIT, other = ND_NODE_INIT;
    size_t requests;
    int32_t status;
    uint64_t records, others;
    open_busy(&node, role);
    open_busy(&other, role);
    requests = heap_requests;
    heap_is_spent = true;
    status = event->call(&node, event->argument);
    records = mix(drain(&node, FIRST_HASH), &answer, sizeof answer);
    heap_is_spent = false;
    require_of(is_refused ? nd_refusal_of(status) != 0 : status >= 0, event, "it takes no memory");
    require_of(heap_requests == requests, event, "it requests no memory");
    require_of(event->call(&other, event->argument) == status, event, "it has the same status with memory");
    others = mix(drain(&other, FIRST_HASH), &answer, sizeof answer);
    require_of(records == others && tables_of(&node, BUSY_AT) == tables_of(&other, BUSY_AT), event, "it has the same records and tables with memory");
    require_of(later_of(&node) == later_of(&other), event, "and the same ones later");
    nd_close(&node);
    nd_close(&other);
    printf("  %s\n", event->what);
}

/* Does all events one after the other while each request is refused, and compares with a node that has memory. What is shown takes no memory either.
 * */
static void do_all_without(const struct event *events, size_t count)
{
    nd_node node = ND_NODE_INIT, other = ND_NODE_INIT;
    size_t requests, i;
    open_busy(&node, role);
    open_busy(&other, role);
    for (i = 0; i < count; i++) {
        uint64_t records, others, shown;
        /* What an event has made due at its own moment is done by the next call, and may take memory. */
        require(nd_pass(&node, BUSY_AT) == ND_DONE && nd_pass(&other, BUSY_AT) == ND_DONE, "nd_pass");
        require(drain(&node, FIRST_HASH) == drain(&other, FIRST_HASH), "what is due is the same");
        requests = heap_requests;
        heap_is_spent = true;
        require_of(events[i].call(&node, events[i].argument) == ND_DONE, &events[i], "it takes no memory after the others");
        records = mix(drain(&node, FIRST_HASH), &answer, sizeof answer);
        shown = tables_of(&node, BUSY_AT);
        heap_is_spent = false;
        require_of(heap_requests == requests, &events[i], "neither it nor a question requests memory");
        require_of(events[i].call(&other, events[i].argument) == ND_DONE, &events[i], "it is done with memory");
        others = mix(drain(&other, FIRST_HASH), &answer, sizeof answer);
        require_of(records == others && tables_of(&other, BUSY_AT) == shown, &events[i], "it has the same records and tables");
    }
    require(later_of(&node) == later_of(&other), "events without memory have the same records later");
    nd_close(&node);
    nd_close(&other);
    printf("  all %zu, one after the other\n", count);
}

/* Returns how many frames are dropped while each request is refused, until the queue has no room for another record. */
static size_t drop_until_full(nd_node *node)
{
    const struct frame *frame = frame_named("SOLICITATION_FOR_LINK_LOCAL");
    size_t count = 0;
    int32_t status;
    heap_is_spent = true;
    while ((status = nd_receive(node, nd_last_moment(node), frame->bytes, frame->length - 1)) == ND_DONE)
        count++;
    heap_is_spent = false;
    require(status == ND_NO_MEMORY, "a frame that is dropped needs room for its record");
    return count;
}

/* The queue keeps its room for records when they are taken. It has two parts, which take turns, and one may have grown. */
static void fill_the_queue(void)
{
    nd_node fresh = ND_NODE_INIT, busy = ND_NODE_INIT;
    const nd_options options = host_options();
    uint64_t before;
    size_t room[4];
    require(nd_open(&fresh, &options, sizeof options) == ND_DONE, "nd_open");
    open_busy(&busy, role);
    before = tables_of(&busy, BUSY_AT);
    for (size_t i = 0; i < 4; i++) {
        room[i] = drop_until_full(&busy);
        require(tables_of(&busy, BUSY_AT) == before, "all tables are as before");
        drain(&busy, FIRST_HASH);
    }
    require(room[0] > 0 && room[1] > 0 && room[0] == room[2] && room[1] == room[3], "a queue that was emptied has its room again");
    printf("frames dropped without memory: by a host that was just opened %zu, by the busy host %zu and %zu, each again once its records are taken\n",
           drop_until_full(&fresh), room[0], room[1]);
    nd_close(&fresh);
    nd_close(&busy);
}

#define EACH(events, act) for (size_t i = 0; i < sizeof(events) / sizeof *(events); i++) act

int main(void)
{
    read_named();
    printf("each request refused at a host: requests, refused with ND_NO_MEMORY, without effect\n");
    role = ND_ROLE_HOST;
    EACH(AT_HOST, refuse_each(&AT_HOST[i]));
    printf("each request refused at a router\n");
    role = ND_ROLE_ROUTER;
    EACH(AT_ROUTER, refuse_each(&AT_ROUTER[i]));
    printf("in all %zu requests, %zu refused with ND_NO_MEMORY, %zu without effect\n", all_requests, all_refused, all_given_up);
    printf("done without memory at a host\n");
    role = ND_ROLE_HOST;
    EACH(WITHOUT_MEMORY_AT_HOST, do_without(&WITHOUT_MEMORY_AT_HOST[i], false));
    do_all_without(WITHOUT_MEMORY_AT_HOST, sizeof WITHOUT_MEMORY_AT_HOST / sizeof *WITHOUT_MEMORY_AT_HOST);
    fill_the_queue();
    printf("refused without memory at a host\n");
    EACH(REFUSED_AT_HOST, do_without(&REFUSED_AT_HOST[i], true));
    busy_routers = 2;
    EACH(FULL_AT_HOST, do_without(&FULL_AT_HOST[i], true));
    busy_routers = 0;
    printf("done without memory at a router\n");
    role = ND_ROLE_ROUTER;
    EACH(WITHOUT_MEMORY_AT_ROUTER, do_without(&WITHOUT_MEMORY_AT_ROUTER[i], false));
    do_all_without(WITHOUT_MEMORY_AT_ROUTER, sizeof WITHOUT_MEMORY_AT_ROUTER / sizeof *WITHOUT_MEMORY_AT_ROUTER);
    require(heap_blocks == 0 && heap_now == 0, "all memory is given back");
    free_named();
    return 0;
}
