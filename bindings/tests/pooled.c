/* pooled: nd_pool_bytes against pool.c. The arguments are the role, a number of `enum nd_role`; the seed; the longest frame; how many thousandths of
 * nd_pool_bytes the pool has; and the eleven limits in the order of nd.h. No frame is longer than the longest one. All records are taken after each
 * call, and no call's moment passes what is due by more than a millisecond.
 *   All neighbours are INCOMPLETE with as many of the longest packets as may wait, and fail in one call, or are cleared, forgotten or resolved; first
 * with packets that are scattered in the pool, at a node that has nothing else; then where routers and addresses end in the same call; and then with
 * all tables filled by the frames of `frames.py full`. Search names enter, go and enter again as often as a frame can hold, the shortest and the
 * longest ones. A router forwards the longest packets with Redirects. At last all of this comes in random order, with frames of random lengths.
 *   It ends with 0 if no call returned ND_NO_MEMORY, and with 3 if one did: the line says in which part. */
#include "ranges.h"
#include "spelled.h"
#include "words.h"

enum { OPENED_AT = 3000, RA_FIELDS = 16, UNIT = 16, SHORTEST = 200, RANDOM_STEPS = 6000, STAGES = 5, LAST_KIND = ND_OUT_IGNORED, SPENT = 3 };

/* Where a program with ND_POOL_GIVEN has its pool. */
struct head *nd_pool;
size_t nd_pool_units;

static nd_node node = ND_NODE_INIT;
static nd_limits limits;
static uint32_t role;
static uint64_t now = OPENED_AT;
static size_t longest, neighbours, routers, waiting, names;
static uint64_t retrans; /* RetransTimer, in milliseconds */
static const char *step;

/* The most records of a call, and the most of each kind. */
static size_t records_most, most_kinds[LAST_KIND + 1];

static struct frame frames[MOST_FRAMES];
static size_t frame_count;

static const uint8_t ROUTER[16] = {0xfe, 0x80, [8] = 0, [11] = 0xff, [12] = 0xfe, [15] = 1};
static const uint8_t ALL_NODES[16] = {0xff, 2, [15] = 1};

/* A prefix that is on the link of the router. */
static const uint8_t ON_LINK[16] = {0x20, 1, 0xd, 0xb8, 5};

/* ---- calls ----------------------------------------------------------------------------------- */

/* Takes all records of a call, which was not refused for memory. */
static void called(int32_t status)
{
    static uint8_t buffer[LONGEST];
    nd_out out;
    size_t kinds[LAST_KIND + 1] = {0}, count = 0;
    if (status == ND_NO_MEMORY) {
        printf("no memory at: %s\n", step);
        exit(SPENT);
    }
    require(is_taken(status), step);
    for (; (status = nd_poll(&node, &out, buffer, sizeof buffer)) == ND_DONE; count++)
        kinds[out.kind]++;
    require(status == ND_NOTHING, "the queue is emptied");
    records_most = count > records_most ? count : records_most;
    for (size_t i = 0; i <= LAST_KIND; i++)
        most_kinds[i] = kinds[i] > most_kinds[i] ? kinds[i] : most_kinds[i];
}

/* Lets time pass up to `at`. Each call comes when something is due, or `late` milliseconds after it, 0 or 1. */
static void pass(uint64_t at, uint64_t late)
{
    while (nd_next_due(&node) + late <= at) {
        now = nd_next_due(&node) + late;
        called(nd_pass(&node, now));
    }
    now = at;
}

static void receive(size_t length)
{
    called(nd_receive(&node, now, bytes, length));
}

static void send(const uint8_t *destination, size_t length)
{
    nd_addr to;
    memcpy(to.bytes, destination, sizeof to.bytes);
    called(nd_send(&node, now, &LINK_LOCAL, &to, UDP, bytes, lesser(length, ND_BUFFER_BYTES) - HEADERS));
}

/* ---- frames ---------------------------------------------------------------------------------- */

/* Writes the address of a neighbour. */
static void near(uint8_t *address, size_t i)
{
    memset(address, 0, 16);
    address[0] = 0xfe;
    address[1] = 0x80;
    address[13] = 9;
    address[14] = (uint8_t)(i >> 8);
    address[15] = (uint8_t)i;
}

/* Writes the fields of a Router Advertisement: its lifetime in seconds, RetransTimer in milliseconds. Returns where its options begin. */
static size_t advertised(size_t lifetime, size_t timer)
{
    uint8_t *message = bytes + HEADERS;
    memset(message, 0, RA_FIELDS);
    message[0] = 134;
    message[4] = 64;
    put16(message + 6, lifetime);
    put16(message + 14, timer);
    return HEADERS + RA_FIELDS;
}

/* The names of the last advertisement, which are in the table. */
static struct names known;

/* Returns as many names as the table takes, or as `room` bytes do, each of `shortest` to `shortest + spread` bytes. */
static struct names some_names(size_t room, size_t shortest, size_t spread)
{
    struct names some = {0, below(10000), {0}};
    while (some.count < names) {
        some.lengths[some.count++] = (uint8_t)(shortest + below(spread + 1));
        if (option_length(&some) > lesser(room, MOST_OPTION)) {
            some.count--;
            break;
        }
    }
    return some;
}

static void advertise(size_t end)
{
    receive(framed(ROUTER, ALL_NODES, ICMP, end - HEADERS));
}

/* Removes the names of the last advertisement. */
static void remove_names(void)
{
    for (size_t i = 0; i < known.count; i++) {
        const struct names one = {1, known.first + i, {known.lengths[i]}};
        size_t at = advertised(9000, retrans);
        if (at + option_length(&one) <= longest)
            advertise(put_names(at, &one, 0));
    }
    known.count = 0;
}

/* Receives an advertisement of `length` bytes at most, whose names enter, go and enter again as often as it can hold. */
static void change_names(size_t length, size_t shortest, size_t spread)
{
    size_t at = advertised(9000, retrans);
    known = some_names(length - at, shortest, spread);
    while (known.count > 0) {
        const struct names last = known;
        struct names then;
        at = put_names(at, &last, 99);
        if (at + option_length(&last) > length)
            break;
        then = some_names(length - at - option_length(&last), shortest, spread);
        if (then.count == 0)
            break;
        at = put_names(at, &last, 0);
        known = then;
    }
    advertise(at);
}

/* Receives an advertisement of a router with a prefix, of which an address is formed: both end after `seconds`. */
static void advertise_router(size_t i, size_t seconds)
{
    uint8_t router[16];
    size_t at = advertised(seconds, retrans);
    const uint8_t fields[16] = {3, 4, 64, 0xc0, [7] = (uint8_t)seconds, [11] = (uint8_t)seconds};
    const uint8_t prefix[16] = {0x20, 1, 0xd, 0xb8, 7, (uint8_t)i};
    memcpy(router, ROUTER, sizeof router);
    router[14] = (uint8_t)(2 + i % routers);
    memcpy(bytes + at, fields, sizeof fields);
    memcpy(bytes + at + 16, prefix, sizeof prefix);
    receive(framed(router, ALL_NODES, ICMP, at + 32 - HEADERS));
}

/* Gives the node an address by hand, which ends after `seconds`, if there is room for it. */
static void give_address(size_t i, uint32_t seconds)
{
    const nd_own_address own = {{{0x20, 1, 0xd, 0xb8, 8, (uint8_t)i, [15] = 1}}, seconds, seconds};
    called(nd_add_address(&node, now, &own));
}

static void remove_address(size_t i)
{
    const nd_addr address = {{0x20, 1, 0xd, 0xb8, 8, (uint8_t)i, [15] = 1}};
    called(nd_remove_address(&node, now, &address));
}

/* Receives an advertisement of a neighbour, which is an answer with its link-layer address. */
static void resolve(const uint8_t *neighbour)
{
    uint8_t *message = bytes + HEADERS;
    memset(message, 0, 32);
    message[0] = 136;
    message[4] = 0x60;
    memcpy(message + 8, neighbour, 16);
    message[24] = 2;
    message[25] = 1;
    message[31] = neighbour[15];
    receive(framed(neighbour, LINK_LOCAL.bytes, ICMP, 32));
}

/* Receives a solicitation without a link-layer address: its answer waits for that of the neighbour. */
static void solicit(const uint8_t *neighbour)
{
    uint8_t *message = bytes + HEADERS, group[16] = {0xff, 2, [11] = 1, [12] = 0xff};
    memset(message, 0, 24);
    message[0] = 135;
    memcpy(message + 8, LINK_LOCAL.bytes, 16);
    memcpy(group + 13, LINK_LOCAL.bytes + 13, 3);
    receive(framed(neighbour, group, ICMP, 24));
}

/* Receives a packet of `length` bytes for the node itself. */
static void deliver(size_t length)
{
    receive(framed(ROUTER, LINK_LOCAL.bytes, UDP, length - HEADERS));
}

/* Writes the address of a neighbour to which the role sends. */
static void near_of(size_t i, uint8_t *address)
{
    near(address, i);
    if (role == ND_ROLE_ROUTER)
        memcpy(address, ON_LINK, 8);
}

/* Sends a packet of `length` bytes to a neighbour. A router has it in transit, and redirects its sender. */
static void send_to(size_t i, size_t length)
{
    uint8_t address[16], source[16];
    near_of(i, address);
    if (role == ND_ROLE_HOST) {
        send(address, length);
        return;
    }
    memcpy(source, ON_LINK, sizeof source);
    source[15] = (uint8_t)below(4);
    receive(framed(source, address, UDP, length - HEADERS));
}

static void answer_of(size_t i)
{
    uint8_t address[16];
    near_of(i, address);
    resolve(address);
}

static void forget(size_t i)
{
    nd_addr address;
    near_of(i, address.bytes);
    called(nd_forget(&node, now, &address));
}

/* ---- steps ----------------------------------------------------------------------------------- */

static void clear(uint32_t table)
{
    called(nd_clear(&node, now, table));
    if (table == ND_CLEARABLE_DNS)
        known.count = 0;
}

/* Has a router offer prefixes and advertise, and takes routes. A host refuses it. */
static void configure(void)
{
    const nd_advertising settings = {.min_interval = 3, .max_interval = 4, .lifetime = 1800, .hop_limit = 64, .mtu = 1500};
    for (unsigned i = 0; i <= 64; i++) {
        nd_offer_row offer = {.prefix = {{0x20, 1, 0xd, 0xb8, 1, (uint8_t)i}}, .bits = 64, .valid_lifetime = 9, .preferred_lifetime = 9};
        nd_route_row route = {.prefix = offer.prefix, .bits = 64, .hop = ND_HOP_DIRECT};
        if (i == 0)
            memcpy(route.prefix.bytes, ON_LINK, sizeof route.prefix.bytes);
        called(nd_advertise_prefix(&node, now, &offer));
        called(nd_add_route(&node, now, &route));
    }
    called(nd_advertise(&node, now, &settings));
}

/* Sends to more destinations than the node remembers next hops for. */
static void send_far(void)
{
    for (size_t i = 0; i < 300; i++) {
        const uint8_t far[16] = {0x20, 1, 0xd, 0xb8, 0, 0x99, [14] = (uint8_t)(i >> 8), [15] = (uint8_t)i};
        send(far, HEADERS + 1);
    }
}

/* Makes all neighbours INCOMPLETE, each with one packet more than may wait. A part of them comes a millisecond later. */
static void make_wait(size_t length, size_t later)
{
    clear(ND_CLEARABLE_NEIGHBOURS);
    for (size_t i = 0; i < neighbours; i++) {
        if (i == neighbours - later)
            pass(now + 1, 0);
        for (size_t j = 0; j <= waiting; j++)
            send_to(i, length);
    }
}

/* Has all neighbours fail in the call of an event, with all that waits, and what else is due in that millisecond and the one before it. */
static void fail_all(size_t later, void (*event)(void))
{
    uint64_t end = now + 3 * retrans + (later > 0);
    make_wait(longest, later);
    pass(end - 2, 0);
    now = end;
    event();
}

static void turn(void)
{
    called(nd_pass(&node, now));
}

static void clear_neighbours(void)
{
    clear(ND_CLEARABLE_NEIGHBOURS);
}

static void short_names(void)
{
    change_names(longest, 2, 0);
}

static void long_names(void)
{
    change_names(longest, LONGEST_NAME, 0);
}

static void deliver_longest(void)
{
    deliver(longest);
}

static void send_longest(void)
{
    send_to(neighbours, longest);
}

static void stop(void)
{
    called(nd_stop_advertising(&node, now));
}

static void (*const EVENTS[])(void) = {turn, short_names, long_names, deliver_longest, send_longest, clear_neighbours, stop};

enum { EVENT_COUNT = sizeof EVENTS / sizeof *EVENTS };

/* Has all neighbours fail, by turns too, in the call of each event. Addresses end then, those of a router by hand, and routers at a host. */
static void fail_again(void)
{
    for (size_t i = 0; i < 2 * EVENT_COUNT; i++) {
        remove_names();
        clear(ND_CLEARABLE_ROUTERS);
        clear(ND_CLEARABLE_PREFIXES);
        for (size_t k = 0; k < 64; k++) {
            if (role == ND_ROLE_ROUTER || k % 4 == 0)
                give_address(k, 2);
            advertise_router(k, 2);
        }
        pass(now + 2000 - lesser(3 * retrans, 2000), i % 2);
        fail_all(i < EVENT_COUNT ? 0 : neighbours / 2, EVENTS[i % EVENT_COUNT]);
        pass(now + 5, 0);
        configure();
    }
}

/* Has all packets that wait sent, forgotten or cleared. */
static void release_all(void)
{
    for (size_t turns = 0; turns < 3; turns++) {
        make_wait(longest, 0);
        for (size_t i = 0; turns < 2 && i < neighbours; i++)
            turns == 0 ? answer_of(i) : forget(i);
        clear(ND_CLEARABLE_NEIGHBOURS);
    }
}

/* Sends packets of `length` bytes to each `every`th neighbour from `first` on, one to each, and again until as many wait as may. */
static void send_round(size_t first, size_t every, size_t length)
{
    for (size_t j = 0; j < waiting; j++)
        for (size_t i = first; i < neighbours; i += every)
            send_to(i, length);
}

/* Scatters the packets that wait: of those that came last each second one goes, search names come in between, and then a longer packet, which fits
 * into no hole. With `replaced` all packets go once before, and the rooms for them stay where they were; later each second one is replaced so. */
static void scatter(bool replaced)
{
    size_t length = longest - lesser((STAGES + 1) * UNIT, longest - HEADERS - 1), first = 0, every = 1;
    clear(ND_CLEARABLE_NEIGHBOURS);
    send_round(0, 1, length);
    if (replaced)
        send_round(0, 1, length += UNIT);
    while (first + every < neighbours && length + UNIT <= longest) {
        first += every;
        every *= 2;
        for (size_t i = first; !replaced && i < neighbours; i += every)
            forget(i);
        remove_names();
        change_names(longest, LONGEST_NAME / every, LONGEST_NAME / 4);
        send_round(first, every, length += UNIT);
    }
}

/* Replaces the search names again and again. */
static void replace_names(void)
{
    nd_counts_row counts;
    static const size_t SHORTEST[] = {2, LONGEST_NAME, 2, 14, 100};
    for (size_t i = 0; i < 40; i++) {
        size_t shortest = SHORTEST[i % 5];
        remove_names();
        change_names(longest, shortest, i % 5 == 2 ? LONGEST_NAME - 2 : 0);
        require(nd_counts_of(&node, now, &counts) == ND_DONE && (counts.names == known.count || role == ND_ROLE_ROUTER), "the names enter");
        pass(now + 1, 0);
    }
}

static size_t some_length(void)
{
    return below(2) == 0 ? longest : HEADERS + 1 + below(longest - HEADERS);
}

/* The steps of random calls that take several random numbers. Each is drawn in a statement of its own: in which order C calls the functions in the
 * arguments of a call is open. */
static void change_some_names(void)
{
    size_t shortest = 2 + below(LONGEST_NAME - 1), spread = below(LONGEST_NAME - shortest + 1), length = some_length() < SHORTEST ? SHORTEST : longest;
    remove_names();
    change_names(length, shortest, spread);
}

static void pass_some_time(void)
{
    uint64_t late = below(2), more = below(2);
    pass(nd_next_due(&node) + more, late);
}

static void advertise_some_router(void)
{
    size_t seconds = 1 + below(4), i = below(70);
    advertise_router(i, seconds);
}

static void give_some_address(void)
{
    uint32_t seconds = 1 + (uint32_t)below(4);
    give_address(below(70), seconds);
}

/* Makes one of all these calls. */
static void do_some(void)
{
    uint8_t address[16];
    size_t i = below(neighbours + neighbours / 4 + 1);
    near(address, i);
    switch (below(20)) {
    case 0:
        answer_of(i);
        return;
    case 1:
        solicit(address);
        return;
    case 2:
        change_some_names();
        return;
    case 3:
        deliver(some_length());
        return;
    case 4:
        pass_some_time();
        return;
    case 5:
        advertise_some_router();
        return;
    case 6:
        if (below(40) == 0)
            clear(1 + (uint32_t)below(5));
        else
            called(nd_forget(&node, now, (const nd_addr *)(const void *)address));
        return;
    case 7:
        memcpy(bytes, frames[i % frame_count].bytes, frames[i % frame_count].length);
        receive(frames[i % frame_count].length);
        return;
    case 8:
        configure();
        return;
    case 9:
        give_some_address();
        return;
    case 10:
        remove_address(below(70));
        return;
    default:
        send_to(i, some_length());
    }
}

static void open_node(void)
{
    nd_options options = host_options();
    now = OPENED_AT;
    retrans = 1000;
    known.count = 0;
    options.role = role;
    options.limits = limits;
    called(nd_open(&node, &options, sizeof options));
    pass(OPENED_AT, 0);
}

/* Has all neighbours fail while their packets are scattered: the queue takes its room among them. */
static void fail_scattered(size_t first)
{
    step = "all neighbours fail, scattered";
    open_node();
    configure();
    for (size_t i = 0; i < 4; i++) {
        uint64_t before = now;
        scatter(i % 2 == first);
        pass(before + 4 * retrans, i % 2);
        change_names(longest, 2, 0);
        deliver(longest);
        remove_names();
    }
    nd_close(&node);
}

/* Has all fail at a node that has nothing else. */
static void fail_alone(void)
{
    step = "all neighbours fail, and routers and addresses end";
    open_node();
    configure();
    retrans = role == ND_ROLE_HOST ? 1 : 1000;
    fail_again();
    nd_close(&node);
}

/* Fills all tables, and then does all that the other steps do, and random calls. */
static void do_all(void)
{
    step = "all tables are filled";
    open_node();
    configure();
    for (size_t i = 0; i < frame_count; i++) {
        pass(now + 1, 0);
        if (frames[i].length <= longest) {
            memcpy(bytes, frames[i].bytes, frames[i].length);
            receive(frames[i].length);
        }
    }
    send_far();
    step = "search names are replaced";
    clear(ND_CLEARABLE_DNS);
    replace_names();
    retrans = role == ND_ROLE_HOST ? 1 : 1000;
    step = "packets that wait are released";
    release_all();
    step = "random calls";
    for (size_t i = 0; i < RANDOM_STEPS; i++)
        do_some();
    step = "all neighbours fail after random calls";
    fail_again();
    nd_close(&node);
}

int main(int argc, char **argv)
{
    size_t needed, given;
    require(argc == 5 + RANGES, "pooled ROLE SEED LONGEST THOUSANDTHS LIMIT.. < frames");
    role = (uint32_t)strtoul(argv[1], NULL, 10);
    random_state = strtoull(argv[2], NULL, 10);
    longest = strtoul(argv[3], NULL, 10);
    for (size_t i = 0; i < RANGES; i++)
        *limit_in(&limits, i) = (uint16_t)strtoul(argv[5 + i], NULL, 10);
    neighbours = limit_of(&limits, 0);
    routers = limit_of(&limits, 1);
    names = limit_of(&limits, 5);
    waiting = limit_of(&limits, RANGES - 1);
    frame_count = read_frames(frames);
    needed = nd_pool_bytes(&limits, longest);
    given = needed * strtoul(argv[4], NULL, 10) / 1000;
    nd_pool_units = given / UNIT;
    nd_pool = aligned_alloc(UNIT, nd_pool_units * UNIT);
    require(nd_pool != NULL && longest >= SHORTEST, "memory for the pool, and room for an advertisement");
    memset(nd_pool, 0, nd_pool_units * UNIT);
    printf("nd_node_bytes %zu, nd_pool_bytes %zu, given %zu; ", nd_node_bytes(&limits), needed, given);
    fail_scattered(0);
    fail_scattered(1);
    fail_alone();
    do_all();
    printf("enough; at most %zu records in a call: %zu frames, %zu neighbours failed, %zu packets lost, %zu routers and %zu addresses ended\n",
           records_most, most_kinds[ND_OUT_FRAME], most_kinds[ND_OUT_FAILED], most_kinds[ND_OUT_LOST], most_kinds[ND_OUT_ENDED_ROUTER],
           most_kinds[ND_OUT_ENDED_ADDRESS]);
    require(most_kinds[ND_OUT_FAILED] == neighbours && most_kinds[ND_OUT_LOST] + waiting >= neighbours * waiting, "all neighbours fail in one call");
    free(nd_pool);
    free_frames(frames, frame_count);
    return 0;
}
