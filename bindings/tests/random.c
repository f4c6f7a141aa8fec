/* random: random frames at a node with small limits. The arguments are the role, a number of `enum nd_role`; how many frames; the seed; N, for each
 * Nth frame to be printed with what nd_hear says of it to a host and to a router, or 0; and the policies, a sum of `enum nd_policy`, or nothing for
 * none. The frames of standard input (hostile.py) are changed: other addresses, flags, lifetimes and options, random bytes, another length. Most have
 * a good checksum. Between them time passes and packets are sent.
 *   It requires: no table passes its limit. After each call, with all records taken, the node holds no more memory than nd_node_bytes, three of the
 * longest packets for each neighbour and the room of the queue; during a call, no more than that and twice what it reports. A frame that is dropped
 * or refused has one record and leaves all tables as they were. A reason that nd_hear says is the node's reason. A second node, which receives none
 * of the frames that were dropped or refused, reports the same as the first one of all else; and so does a third one, to which memory is refused at
 * every other call, and calls that return ND_NO_MEMORY are made again. A frame leaves each table that `changes` of its records do not name, and at a
 * host each table is changed by some frame. At the end all memory is given back.
 *   The last lines are the counts. */
#include "heap.h"
#include "busy.h"
#include "words.h"

#include <inttypes.h>

enum { BASES = 24, LONGEST = 1600, NEIGHBOURS = 4, ROUTERS = 2, WAITING = 3, REASONS = 21, REFUSALS = 6, LIMITS = 9, TYPES = 5, OPENED_AT = 2000 };

/* More than the room that one record takes in the queue, which doubles when it is full. */
enum { RECORD_ROOM = 2 * 128, FIRST_ROOM = 1024 };

static const char *const LIMIT_NAMES[LIMITS] = {"", "neighbours", "routers", "prefixes", "addresses", "servers", "names", "offers", "static routes"};

static const nd_limits SMALL = {.neighbours = NEIGHBOURS, .routers = ROUTERS, .waiting = WAITING};

static nd_node node;
static uint32_t role, policies;
static uint64_t now = OPENED_AT;
static uint8_t buffer[2 * LONGEST];
static size_t held_most, peak_most, records_most, bound;
static uint64_t reported = FIRST_HASH; /* the hash of all records but those of frames that were dropped or refused */
static uint8_t *is_without_effect;

/* While memory is scarce, many calls meet a refused request. */
static bool is_scarce;
static uint64_t scarce_state;
static size_t again;

static uint32_t changes; /* of the records that were taken last */
static size_t changed[CHANGEABLE];
static size_t heard[TYPES], up, in_transit, dropped[REASONS], refused[LIMITS], events, refused_events[REFUSALS];

/* ---- random frames --------------------------------------------------------------------------- */

/* Names the request of the next call that is refused, or none. */
static void refuse_some(void)
{
    scarce_state = scarce_state * UINT64_C(6364136223846793005) + 1442695040888963407u;
    heap_refuse = is_scarce && scarce_state >> 63 == 0 ? 1 + (scarce_state >> 60) % 4 : 0;
}

/* Makes a call, and again while memory is refused. */
#define RETRIED(status, call) while (refuse_some(), (status = (call)) == ND_NO_MEMORY) again++

/* Returns one of the own addresses, or one that is near. */
static nd_addr an_own(void)
{
    nd_address_row row;
    if (nd_address_at(&node, now, below(4), &row) == ND_DONE)
        return row.address;
    return role == ND_ROLE_HOST ? LINK_LOCAL : OF_ROUTER;
}

static nd_addr a_multicast(void)
{
    static const uint8_t last[8] = {1, 1, 1, 1, 1, 2, 2, 0xfb};
    const nd_addr group = {{0xff, 2, [15] = last[below(8)]}};
    nd_addr address = an_own(), solicited = {{0xff, 2, [11] = 1, [12] = 0xff}};
    if (once_in(2))
        return group;
    memcpy(solicited.bytes + 13, address.bytes + 13, 3);
    return solicited;
}

static nd_addr a_far(void)
{
    const nd_addr far = {{0x20, 1, 0xd, 0xb8, 0, (uint8_t)below(4), [15] = (uint8_t)below(100)}};
    return far;
}

static nd_addr a_neighbour(void)
{
    const nd_addr neighbour = {{0xfe, 0x80, [15] = (uint8_t)(1 + below(7))}};
    return once_in(4) ? OF_ROUTER : neighbour;
}

static nd_addr an_address(void)
{
    static const nd_addr few[] = {{{0}}, {{[15] = 1}}, {{0xff, 2, [15] = 1}}};
    switch (below(8)) {
    case 0: return few[below(3)];
    case 1: return a_multicast();
    case 2: return a_far();
    case 3: case 4: return an_own();
    default: return a_neighbour();
    }
}

static void put_16(uint8_t *to, size_t number)
{
    to[0] = (uint8_t)(number >> 8);
    to[1] = (uint8_t)number;
}

/* Writes a lifetime in seconds. */
static void put_lifetime(uint8_t *to)
{
    static const uint32_t some[] = {0, 1, 100, 7300, 7300, UINT32_MAX};
    uint32_t lifetime = some[below(sizeof some / sizeof *some)];
    put_16(to, lifetime >> 16);
    put_16(to + 2, lifetime & 0xffff);
}

static size_t put_names(uint8_t *to)
{
    size_t length = 8;
    for (size_t labels = 1 + below(2); labels > 0; labels--) {
        to[length++] = 2;
        to[length++] = once_in(40) ? (uint8_t)below(256) : (uint8_t)('a' + below(8));
        to[length++] = (uint8_t)('A' + below(8));
    }
    return (length + 1 + 7) / 8 * 8;
}

/* Writes an option, most often a good one, and returns its length. */
static size_t put_option(uint8_t *to)
{
    size_t length = 8, count;
    uint32_t mtu = (uint32_t)(1200 + below(400));
    nd_addr address;
    memset(to, 0, 96);
    switch (to[0] = (uint8_t[]){1, 1, 2, 3, 3, 5, 25, 31, 4, (uint8_t)below(256)}[below(10)]) {
    case 1: case 2:
        to[2] = 2;
        to[7] = (uint8_t)below(8);
        break;
    case 3:
        length = 32;
        to[2] = once_in(20) ? (uint8_t)below(256) : 64;
        to[3] = (uint8_t[]){0x80, 0x80, 0x80, 0x80, 0xc0, 0x40, 0}[below(7)];
        put_lifetime(to + 4);
        memcpy(to + 8, to + 4, 4);
        if (once_in(4))
            put_lifetime(to + 8);
        address = once_in(20) ? an_address() : (nd_addr){{0x20, 1, 0xd, 0xb8, 1, (uint8_t)below(once_in(2) ? 250 : 8)}};
        if (address.bytes[5] >= 8 && !once_in(16))
            to[3] = 0x80;
        memcpy(to + 16, &address, 16);
        break;
    case 5: put_16(to + 6, mtu); break;
    case 25:
        count = 1 + below(3);
        length = 8 + 16 * count;
        put_lifetime(to + 4);
        for (size_t i = 0; i < count; i++) {
            address = once_in(20) ? an_address() : (nd_addr){{0x20, 1, 0xd, 0xb8, 2, [15] = (uint8_t)below(once_in(4) ? 200 : 6)}};
            memcpy(to + 8 + 16 * i, &address, 16);
        }
        break;
    case 31:
        put_lifetime(to + 4);
        length = put_names(to);
        break;
    default:
        length = 8 * (1 + below(4));
        break;
    }
    to[1] = (uint8_t)(length / 8);
    if (once_in(60))
        to[1] = (uint8_t)below(8);
    return length;
}

/* Makes the checksum good (RFC 4443, 2.3). */
static void mend(uint8_t *bytes, size_t length)
{
    uint32_t sum = (uint32_t)(length - 54) + 58;
    bytes[56] = bytes[57] = 0;
    for (size_t i = 22; i < length; i++)
        sum += (i % 2 == 0) ? (uint32_t)bytes[i] << 8 : bytes[i];
    while (sum >> 16 != 0)
        sum = (sum & 0xffff) + (sum >> 16);
    put_16(bytes + 56, ~sum & 0xffff);
}

/* Writes the fields of a message anew. Returns the length of the frame without options. */
static size_t put_fields(uint8_t *bytes)
{
    static const size_t LEAST[TYPES] = {8, 16, 24, 24, 40};
    static const uint16_t LIFETIMES[] = {0, 1, 60, 1800, 9000};
    nd_addr source = once_in(6) ? an_address() : a_neighbour(), destination = once_in(8) ? an_address() : once_in(2) ? a_multicast() : an_own();
    nd_addr target = once_in(6) ? an_address() : once_in(2) ? a_neighbour() : an_own();
    size_t type = bytes[54] - 133u;
    nd_router_row router;
    if (type >= TYPES)
        return 54;
    if ((type == 1 || type == 4) && once_in(2) && nd_router_at(&node, now, below(ROUTERS), &router) == ND_DONE)
        source = router.address;
    memcpy(bytes + 22, &source, 16);
    memcpy(bytes + 38, &destination, 16);
    if (type == 1) {
        bytes[58] = (uint8_t)(once_in(3) ? below(256) : 64);
        bytes[59] = (uint8_t)(below(32) << 3);
        put_16(bytes + 60, LIFETIMES[below(5)]);
        if (once_in(8))
            bytes[65] = (uint8_t)below(256), bytes[69] = (uint8_t)below(256);
    }
    if (type == 3)
        bytes[58] = (uint8_t)(below(8) << 5);
    if (type >= 2)
        memcpy(bytes + 62, &target, 16);
    if (type == 4) {
        nd_addr far = once_in(10) ? an_address() : a_far();
        memcpy(bytes + 78, &far, 16);
    }
    return 54 + LEAST[type];
}

/* Writes a datagram anew, and returns its length. */
static size_t put_datagram(uint8_t *bytes)
{
    nd_addr source = once_in(3) ? an_address() : a_far(), destination = once_in(3) ? an_address() : a_far();
    size_t payload = once_in(8) ? below(1400) : below(20);
    memcpy(bytes + 22, &source, 16);
    memcpy(bytes + 38, &destination, 16);
    bytes[21] = (uint8_t[]){0, 1, 2, 64, 255}[below(5)];
    for (size_t i = 0; i < payload; i++)
        bytes[54 + i] = (uint8_t)i;
    put_16(bytes + 18, payload);
    return 54 + payload;
}

/* Writes a random frame, and returns its length. */
static size_t make_frame(uint8_t *bytes)
{
    const struct frame *base = &named[below(BASES)].frame;
    size_t length = base->length;
    bool is_message;
    memset(bytes, 0, LONGEST);
    if (once_in(64)) {
        length = below(128);
        for (size_t i = 0; i < length; i++)
            bytes[i] = (uint8_t)next();
        return length;
    }
    memcpy(bytes, base->bytes, length);
    is_message = bytes[20] == 58;
    if (!is_message)
        length = put_datagram(bytes);
    else if (!once_in(4)) {
        size_t fields = put_fields(bytes);
        if (once_in(2)) {
            length = fields;
            for (size_t options = below(once_in(6) ? 12 : 5); options > 0; options--)
                length += put_option(bytes + length);
        }
    }
    if (is_message && once_in(4))
        bytes[54 + below(length - 54)] = (uint8_t)next();
    if (once_in(20))
        length = below(length + 1);
    if (is_message && length >= 58 && !once_in(16)) {
        put_16(bytes + 18, length - 54);
        if (!once_in(16))
            mend(bytes, length);
    }
    if (once_in(16) && length > 0)
        bytes[below(length)] = (uint8_t)next();
    return length;
}

/* ---- what is required ------------------------------------------------------------------------ */

/* Takes all records. Returns the kind of the first one in `first`, how many there are, and how many bytes they have. */
static size_t take_records(nd_out *first, size_t *bytes)
{
    nd_out out;
    size_t count = 0;
    int32_t status;
    *bytes = 0;
    changes = 0;
    for (; (status = nd_poll(&node, &out, buffer, sizeof buffer)) == ND_DONE; count++) {
        if (count == 0)
            *first = out;
        *bytes += out.length;
        changes |= out.changes;
        reported = mix(mix(reported, &out, sizeof out), buffer, out.length);
    }
    require(status == ND_NOTHING, "the queue is emptied");
    return count;
}

/* Requires the bounds of memory and of the tables after a call whose records were taken. */
static void require_bounds(size_t records, size_t bytes)
{
    nd_redirect_row redirect;
    records_most = records > records_most ? records : records_most;
    held_most = heap_now > held_most ? heap_now : held_most;
    peak_most = heap_most > peak_most ? heap_most : peak_most;
    size_t rings = NEIGHBOURS * WAITING * (LONGEST + 14), queue = FIRST_ROOM + RECORD_ROOM * records_most;
    require(heap_now <= bound + rings + queue, "the node holds no more than nd_node_bytes, full rings and the queue's room");
    require(heap_most <= bound + rings + queue + 2 * bytes + 2 * LONGEST, "a call takes no more than that and what it reports");
    heap_most = heap_now;
    counts_within(&node, now, &SMALL);
    require(nd_redirect_at(&node, now, 64, &redirect) == ND_NOTHING, "no more than 64 Redirects");
}

/* Does what an event has made due at its own moment. Returns true if there was something. */
static bool settle(void)
{
    nd_out first;
    size_t bytes, records;
    int32_t status;
    if (nd_next_due(&node) > now)
        return false;
    RETRIED(status, nd_pass(&node, now));
    require(status == ND_DONE && nd_next_due(&node) > now, "nd_pass");
    records = take_records(&first, &bytes);
    require_bounds(records, bytes);
    return true;
}

/* Does what comes between frames. Returns true if it did something. */
static bool between(void)
{
    static const uint64_t STEPS[] = {1, 30, 500, 1000, 3000, 20000, 200000};
    static const uint8_t payload[1400] = {0};
    nd_out first;
    size_t bytes, records;
    int32_t status;
    if (once_in(8)) {
        now += once_in(2000) ? 9000000 : STEPS[below(once_in(8) ? 7 : 5)];
        RETRIED(status, nd_pass(&node, now));
        require(status == ND_DONE && nd_next_due(&node) > now, "nd_pass");
    } else if (once_in(8)) {
        const nd_addr source = an_own(), destination = once_in(2) ? a_far() : a_neighbour();
        size_t length = once_in(8) ? below(1400) : 4;
        RETRIED(status, nd_send(&node, now, &source, &destination, 17, payload, length));
        require(status == ND_DONE || status == ND_NOTHING || nd_refusal_of(status) != 0, "nd_send");
        if (nd_refusal_of(status) != 0) {
            records = take_records(&first, &bytes);
            require(records == 1 && first.kind == ND_OUT_REFUSED && first.code < REFUSALS, "a packet is refused");
            require(first.code == nd_refusal_of(status) && first.limit == nd_limit_of(status), "the status says why");
            refused_events[first.code]++;
            require_bounds(records, bytes);
            return true;
        }
    } else if (once_in(20)) {
        const nd_addr neighbour = a_neighbour();
        RETRIED(status, nd_confirm(&node, now, &neighbour));
        require(status == ND_DONE, "nd_confirm");
    } else if (once_in(1500)) {
        uint32_t table = (uint32_t)(1 + below(5));
        RETRIED(status, nd_clear(&node, now, table));
        require(status == ND_DONE, "nd_clear");
    } else
        return false;
    events++;
    records = take_records(&first, &bytes);
    require_bounds(records, bytes);
    return true;
}

/* Counts what a frame was. Returns true if it was dropped or refused. */
static bool count(int32_t status, size_t records, const nd_out *first, const nd_heard *hears)
{
    if (nd_refusal_of(status) != 0) {
        require(status == ND_REFUSED(ND_REFUSAL_FULL, (int32_t)first->limit), "the status of a frame that is refused names the limit");
        require(records == 1 && first->kind == ND_OUT_REFUSED && first->code == ND_REFUSAL_FULL && first->limit > 0 && first->limit < LIMITS,
                "a frame that is refused has one record, which names the limit");
        require(hears->hearing != ND_HEARING_DROP, "what is refused is no frame to be dropped");
        refused[first->limit]++;
        return true;
    }
    require(status == ND_DONE, "nd_receive");
    if (records > 0 && first->kind == ND_OUT_DROPPED) {
        require(records == 1 && first->code > 0 && first->code < REASONS, "a frame that is dropped has one record, which names the reason");
        require(hears->hearing == ND_HEARING_DROP ? first->code == hears->why : first->code >= ND_WHY_NOT_FOR_US, "the reason is that of nd_hear");
        dropped[first->code]++;
        return true;
    }
    require(hears->hearing != ND_HEARING_DROP, "what nd_hear drops is dropped");
    if (hears->hearing == ND_HEARING_VALID) {
        require(records > 0 && first->kind == ND_OUT_HEARD && first->code == hears->message_type, "a message is heard");
        heard[first->code - 133]++;
    } else if (records > 0 && first->kind == ND_OUT_UP)
        up++;
    else {
        require(role == ND_ROLE_ROUTER, "a host forwards nothing");
        in_transit++;
    }
    return false;
}

static void open_small(void)
{
    const nd_advertising settings = {.min_interval = 200, .max_interval = 600, .lifetime = 1800, .hop_limit = 64};
    const nd_offer_row offer = {.prefix = UNRESOLVED, .bits = 64, .valid_lifetime = 3600, .preferred_lifetime = 1800, .on_link = 1};
    const nd_route_row direct = {.prefix = UNRESOLVED, .bits = 64, .hop = ND_HOP_DIRECT};
    const nd_route_row far = {.prefix = {{0x20, 1, 0xd, 0xb8, 0, 1}}, .bits = 64, .hop = ND_HOP_VIA, .router = SECOND_ROUTER};
    nd_options options = host_options();
    options.role = role;
    options.mac = role == ND_ROLE_ROUTER ? ROUTER_MAC : MAC;
    options.limits = SMALL;
    options.policies = policies;
    bound = nd_node_bytes(&SMALL);
    require(bound > 0 && nd_open(&node, &options, sizeof options) == ND_DONE && nd_pass(&node, now) == ND_DONE, "nd_open");
    if (role == ND_ROLE_ROUTER) {
        require(nd_advertise_prefix(&node, now, &offer) == ND_DONE && nd_advertise(&node, now, &settings) == ND_DONE, "nd_advertise");
        require(nd_add_route(&node, now, &direct) == ND_DONE && nd_add_route(&node, now, &far) == ND_DONE, "nd_add_route");
    }
    drain(&node, FIRST_HASH);
    heap_most = heap_now;
}

static uint32_t said(const nd_heard *hears)
{
    return hears->hearing == ND_HEARING_VALID ? hears->message_type : hears->hearing == ND_HEARING_OTHER ? 0xf0 : hears->why;
}

static void print_sample(const uint8_t *bytes, size_t length)
{
    nd_heard by_host, by_router;
    require(nd_hear(bytes, length, ND_ROLE_HOST, &by_host) == ND_DONE && nd_hear(bytes, length, ND_ROLE_ROUTER, &by_router) == ND_DONE, "nd_hear");
    printf("frame %02x%02x %08x%08x ", (unsigned)said(&by_host), (unsigned)said(&by_router), (unsigned)crc_of(&by_host), (unsigned)crc_of(&by_router));
    for (size_t i = 0; i < length; i++)
        printf("%02x", bytes[i]);
    printf("\n");
}

static void print_counts(size_t frames)
{
    static const char *const MESSAGES[TYPES] = {"rs", "ra", "ns", "na", "redirect"};
    printf("%s %zu frames\n  heard", role == ND_ROLE_HOST ? "host" : "router", frames);
    for (size_t i = 0; i < TYPES; i++)
        printf(" %s %zu", MESSAGES[i], heard[i]);
    printf(" other %zu in transit %zu\n  dropped by reason", up, in_transit);
    for (size_t i = 1; i < REASONS; i++)
        printf(" %zu", dropped[i]);
    printf("\n  refused");
    for (size_t i = 1; i < LIMITS; i++)
        printf(" %s %zu", LIMIT_NAMES[i], refused[i]);
    printf("\n  between them %zu events, and packets refused", events);
    printf(" not ours %zu too long %zu full %zu\n", refused_events[ND_REFUSAL_NOT_OURS], refused_events[ND_REFUSAL_TOO_LONG],
           refused_events[ND_REFUSAL_FULL]);
}

/* Requires that no table has changed but those that the records named. */
static void require_named(const uint64_t before[CHANGEABLE])
{
    uint64_t afterwards[CHANGEABLE];
    changeable_at(&node, now, afterwards);
    for (size_t i = 0; i < CHANGEABLE; i++) {
        require(before[i] == afterwards[i] || (changes >> i & 1) != 0, "a table that no record names is left");
        changed[i] += before[i] != afterwards[i];
    }
}

/* Passes a frame to the node, and requires what holds of it. `tables` is the hash before it, and afterwards. Returns true if it had no effect. */
static bool receive(const uint8_t *bytes, size_t length, uint64_t *tables)
{
    nd_heard hears;
    nd_out first;
    size_t records, size;
    uint64_t before = reported, afterwards, tables_before[CHANGEABLE];
    int32_t status;
    uint8_t *own = malloc(length + 1); /* a block of its own, whose end valgrind knows */
    require(own != NULL, "memory for a frame");
    memcpy(own, bytes, length);
    require(nd_hear(own, length, role, &hears) == ND_DONE, "nd_hear");
    changeable_at(&node, now, tables_before);
    status = nd_receive(&node, now, own, length);
    free(own);
    records = take_records(&first, &size);
    require_bounds(records, size);
    require_named(tables_before);
    afterwards = tables_of(&node, now);
    if (count(status, records, &first, &hears)) {
        require(afterwards == *tables, "a frame that is dropped or refused leaves all tables as they were");
        reported = before;
        return true;
    }
    *tables = afterwards;
    return false;
}

/* Passes all frames to a node, and notes which had no effect. */
static void run(size_t frames, size_t every)
{
    static uint8_t bytes[LONGEST];
    uint64_t tables;
    open_small();
    tables = tables_of(&node, now);
    for (size_t i = 0; i < frames; i++) {
        size_t length;
        if (settle() | between() | settle())
            tables = tables_of(&node, now);
        length = make_frame(bytes);
        if (every > 0 && i % every == 0)
            print_sample(bytes, length);
        is_without_effect[i] = receive(bytes, length, &tables);
    }
}

/* Makes the same frames. Passes those alone that had an effect, or all of them while memory is scarce. */
static void run_again(size_t frames, bool takes_all)
{
    static uint8_t bytes[LONGEST];
    now = OPENED_AT;
    open_small();
    is_scarce = takes_all;
    for (size_t i = 0; i < frames; i++) {
        nd_out first;
        size_t length, size;
        uint64_t before;
        int32_t status;
        (void)(settle() | between() | settle());
        length = make_frame(bytes);
        if (is_without_effect[i] && !takes_all)
            continue;
        before = reported;
        RETRIED(status, nd_receive(&node, now, bytes, length));
        require(status == ND_DONE || (nd_refusal_of(status) != 0 && is_without_effect[i]), "a frame that had an effect has it again");
        take_records(&first, &size);
        if (is_without_effect[i])
            reported = before;
    }
    is_scarce = false;
    heap_refuse = 0;
}

static uint64_t closed(void)
{
    uint64_t hash = reported ^ tables_of(&node, now) ^ later_of(&node);
    nd_close(&node);
    require(heap_blocks == 0 && heap_now == 0, "all memory is given back");
    reported = FIRST_HASH;
    return hash;
}

int main(int argc, char **argv)
{
    uint64_t hash;
    size_t frames;
    require(argc == 5 || argc == 6, "random ROLE FRAMES SEED N [POLICIES] < the frames of hostile.py");
    role = (uint32_t)strtoul(argv[1], NULL, 10);
    frames = strtoul(argv[2], NULL, 10);
    random_state = strtoull(argv[3], NULL, 10);
    policies = argc == 6 ? (uint32_t)strtoul(argv[5], NULL, 10) : 0;
    is_without_effect = malloc(frames + 1);
    require(is_without_effect != NULL, "memory for the frames");
    read_named();
    run(frames, strtoul(argv[4], NULL, 10));
    for (size_t i = 0; i < CHANGEABLE; i++)
        require(changed[i] > 0 || role == ND_ROLE_ROUTER, "each table changes at some frame");
    print_counts(frames);
    fprintf(stderr, "nd_node_bytes %zu, held at most %zu, during a call %zu, at most %zu records\n", bound, held_most, peak_most, records_most);
    hash = closed();
    random_state = strtoull(argv[3], NULL, 10);
    run_again(frames, false);
    require(closed() == hash, "without the frames that were dropped or refused the node reports the same");
    random_state = strtoull(argv[3], NULL, 10);
    run_again(frames, true);
    require(closed() == hash && again > 0, "where memory is refused and calls are made again, the node reports the same");
    printf("  calls made again after ND_NO_MEMORY, in a second run %zu\n", again);
    free(is_without_effect);
    free_named();
    return 0;
}
