/* many [NAME=NUMBER ..]: simulates hosts and routers on links that have no connection with each other. Each router advertises a prefix. The hosts
 * configure themselves and send packets: to each other, to a host that is not there, and to addresses behind the routers. So nodes resolve, probe,
 * fail and redirect. Prints counts, a hash of all that each node sent and reported, and the time that it took. `arguments` has the names and their
 * usual numbers. Equal arguments print the same but for the last two lines, however many threads there are.
 *
 * Time jumps from one event to the next. The heap of a link has each node once, by the moment of its next event: what nd_next_due says, or a packet
 * that it sends. The wire of a link has its frames, the oldest first, since each takes the same time to arrive.
 *
 * A thread takes a link, runs it to the end, and takes the next one: threads=64 is a thread for each of 64 links. The usual number is 1, which is also
 * that for memory functions of one thread, such as those of bindings/c/pool.c. */
#define _POSIX_C_SOURCE 200809L /* clock_gettime, with -std=c11 too */
#include <inttypes.h>
#include <pthread.h>
#include <stdatomic.h>
#include <stdio.h>
#include <stdlib.h>
#include <string.h>
#include <time.h>
#include "nd.h"

enum {
    LATENCY_MS = 1,
    SETTLED_MS = 10000, /* no packet is sent so long after the beginning, while addresses are tried, and before the end: all arrive or are lost */
    PAUSE_MS = 20000,   /* the longest time between two packets of a host */
    BEHIND = 256,       /* the subnet BEHIND + N is behind router N; the subnet N is the prefix that it advertises */
    NUMBER_BITS = 16,   /* of the number of a node on its link */
    MOST_NUMBER = (1 << NUMBER_BITS) - 1,
    MOST_THREADS = 1024,
    NO_NEXT_HEADER = 59, /* RFC 8200, 4.7 */
    REDIRECT = 137,      /* RFC 4861, 4.5 */
};

/* What a link counts: records by their kind (enum nd_kind), and these. */
enum { EVENTS = ND_OUT_IGNORED + 1, DELIVERED, REDIRECTS, PACKETS, COUNTS };

enum { HOSTS, LINKS, ROUTERS, SECONDS, SEED, THREADS, ARGUMENTS };

static struct {
    const char *name;
    uint64_t number, least, most;
} arguments[ARGUMENTS] = {
    [HOSTS] = {"hosts=", 1000, 1, 1000000}, /* on all links */
    [LINKS] = {"links=", 64, 1, 65535},
    [ROUTERS] = {"routers=", 4, 1, 32}, /* on each link */
    [SECONDS] = {"seconds=", 600, 1, 100000000},
    [SEED] = {"seed=", 4861, 0, UINT64_MAX},
    [THREADS] = {"threads=", 1, 1, MOST_THREADS},
};

struct frame { /* on the wire; it arrives at `moment` */
    struct frame *next;
    uint64_t moment;
    size_t sender, length;
    uint8_t bytes[];
};

struct node {
    nd_node node;
    uint64_t hash; /* of all that it sent and reported */
    uint64_t acts; /* the moment at which it sends its next packet, or is given its address */
    size_t place;  /* in the heap */
};

struct link {
    size_t number, routers, count; /* the first of its nodes are routers */
    uint64_t random, counts[COUNTS];
    nd_limits limits;
    struct node *nodes;
    uint64_t *heap; /* of each node the moment of its next event, and its number in the last NUMBER_BITS bits */
    struct frame *oldest, **newest;
};

static const uint64_t FIRST_HASH = UINT64_C(14695981039346656037);
static struct link *links;
static atomic_size_t taken; /* how many links the threads have taken */

static void require(bool holds, const char *what) /* ends the program, from any thread */
{
    if (holds)
        return;
    fprintf(stderr, "many: %s\n", what);
    _Exit(1);
}

static void require_done(int32_t status, const char *what) /* ends the program unless a call returned ND_DONE */
{
    require(status == ND_DONE, status == ND_NO_MEMORY ? "out of memory" : what);
}

static uint64_t draw(uint64_t *state) /* splitmix64 */
{
    uint64_t z = *state += UINT64_C(0x9e3779b97f4a7c15);
    z = (z ^ z >> 30) * UINT64_C(0xbf58476d1ce4e5b9);
    z = (z ^ z >> 27) * UINT64_C(0x94d049bb133111eb);
    return z ^ z >> 31;
}

static uint64_t mix(uint64_t hash, uint64_t number) /* FNV-1a, with numbers in place of bytes */
{
    return (hash ^ number) * UINT64_C(1099511628211);
}

static uint64_t mix_record(uint64_t hash, const nd_out *out, const uint8_t *bytes)
{
    hash = mix(mix(mix(hash, out->moment), (uint64_t)out->kind << 32 | out->code), (uint64_t)out->limit << 32 | out->length);
    for (size_t i = 0; i < sizeof out->address; i++)
        hash = mix(hash, out->address.bytes[i]);
    for (size_t i = 0; i < out->length; i++)
        hash = mix(hash, bytes[i]);
    return hash;
}

static nd_mac mac_of(const struct link *link, size_t number)
{
    return (nd_mac){{0x02, 0, (uint8_t)(link->number >> 8), (uint8_t)link->number, (uint8_t)(number >> 8), (uint8_t)number}};
}

/* The identifier is the one that a node forms of its Ethernet address (RFC 4291, appendix A). */
static nd_addr address_of(const struct link *link, size_t subnet, size_t number)
{
    nd_mac mac = mac_of(link, number);
    const uint8_t *m = mac.bytes;
    return (nd_addr){{0x20, 0x01, 0x0d, 0xb8, m[2], m[3], (uint8_t)(subnet >> 8), (uint8_t)subnet,
                      m[0] ^ 2, m[1], m[2], 0xff, 0xfe, m[3], m[4], m[5]}};
}

static void put(struct link *link, size_t place, uint64_t key)
{
    link->heap[place] = key;
    link->nodes[key & MOST_NUMBER].place = place;
}

/* Changes the moment of a node's next event: moves the node up or down in the heap. */
static void move(struct link *link, size_t number, uint64_t next)
{
    uint64_t *heap = link->heap, key = next << NUMBER_BITS | number;
    size_t place = link->nodes[number].place, other;
    for (; place > 0 && key < heap[other = (place - 1) / 2]; place = other)
        put(link, place, heap[other]);
    for (; (other = 2 * place + 1) < link->count; place = other) {
        other += other + 1 < link->count && heap[other + 1] < heap[other];
        if (key < heap[other])
            break;
        put(link, place, heap[other]);
    }
    put(link, place, key);
}

static void transmit(struct link *link, size_t sender, uint64_t now, const uint8_t *bytes, size_t length)
{
    struct frame *frame = malloc(sizeof *frame + length);
    require(frame != NULL, "out of memory");
    *frame = (struct frame){.moment = now + LATENCY_MS, .sender = sender, .length = length};
    memcpy(frame->bytes, bytes, length);
    *link->newest = frame;
    link->newest = &frame->next;
}

/* Ends an event of a node: takes its records, transmits its frames, and moves the node in the heap. */
static void settle(struct link *link, size_t number, uint64_t now, int32_t status)
{
    struct node *node = &link->nodes[number];
    uint8_t buffer[ND_BUFFER_BYTES];
    nd_out out;
    require_done(status < 0 ? status : ND_DONE, "a call that nd.h does not allow");
    while (nd_poll(&node->node, &out, buffer, sizeof buffer) == ND_DONE) {
        node->hash = mix_record(node->hash, &out, buffer);
        link->counts[out.kind < EVENTS ? out.kind : 0]++;
        link->counts[REDIRECTS] += out.kind == ND_OUT_HEARD && out.code == REDIRECT;
        if (out.kind == ND_OUT_FRAME)
            transmit(link, number, now, buffer, out.length);
    }
    uint64_t due = nd_next_due(&node->node);
    move(link, number, due < node->acts ? due : node->acts);
    link->counts[EVENTS]++;
}

static void receive(struct link *link, size_t number, const struct frame *frame)
{
    if (number == frame->sender)
        return;
    link->counts[DELIVERED]++;
    settle(link, number, frame->moment, nd_receive(&link->nodes[number].node, frame->moment, frame->bytes, frame->length));
}

/* Passes the oldest frame of the wire to the other nodes whose interface takes it. An interface takes its own address, all nodes, a router's also all
 * routers, and the group of the solicited-node addresses: 33:33:ff, and the last three bytes of its own, with which all its addresses end too. */
static void deliver(struct link *link)
{
    static const uint8_t nodes[] = {0x33, 0x33, 0, 0, 0, 1}, routers[] = {0x33, 0x33, 0, 0, 0, 2}, solicited[] = {0x33, 0x33, 0xff};
    struct frame *frame = link->oldest;
    const uint8_t *to = frame->bytes;
    size_t count = memcmp(to, nodes, 6) == 0 ? link->count : memcmp(to, routers, 6) == 0 ? link->routers : 0;
    size_t number = (size_t)to[4] << 8 | to[5];
    nd_mac mac = mac_of(link, number);
    link->oldest = frame->next;
    if (link->oldest == NULL)
        link->newest = &link->oldest;
    for (size_t i = 0; i < count; i++)
        receive(link, i, frame);
    if (number < link->count && (memcmp(to, mac.bytes, 6) == 0 || (memcmp(to, solicited, 3) == 0 && to[3] == mac.bytes[3])))
        receive(link, number, frame);
    free(frame);
}

/* Returns the moment of the next packet of a host; UINT64_MAX: it sends none. */
static uint64_t next_packet(struct link *link, uint64_t now)
{
    uint64_t next = now + 1 + draw(&link->random) % PAUSE_MS;
    return next + SETTLED_MS <= arguments[SECONDS].number * 1000 ? next : UINT64_MAX;
}

/* Sends a packet without a payload, three of four to another host. The one after the last host is not there, and will not be resolved. */
static int32_t send_packet(struct link *link, size_t number, uint64_t now)
{
    size_t subnet = draw(&link->random) % link->routers, other = link->routers + draw(&link->random) % (link->count - link->routers);
    nd_addr source = address_of(link, subnet, number), destination = address_of(link, BEHIND + subnet, subnet);
    if (draw(&link->random) % 4 > 0)
        destination = address_of(link, subnet, other < number ? other : other + 1);
    link->counts[PACKETS]++;
    return nd_send(&link->nodes[number].node, now, &source, &destination, NO_NEXT_HEADER, source.bytes, 0);
}

/* Does what is due at a node, its own acts first: a host sends a packet; a router is given an address in the subnet behind it, once. */
static int32_t act(struct link *link, size_t number, uint64_t now)
{
    struct node *node = &link->nodes[number];
    bool is_router = number < link->routers;
    if (now < node->acts)
        return nd_pass(&node->node, now);
    nd_own_address own = {address_of(link, BEHIND + number, number), ND_LIFETIME_INFINITE, ND_LIFETIME_INFINITE};
    node->acts = is_router ? UINT64_MAX : next_packet(link, now);
    return is_router ? nd_add_address(&node->node, now, &own) : send_packet(link, number, now);
}

static void configure(struct link *link, size_t number) /* a router: what it advertises, and which router each of the other subnets is behind */
{
    nd_node *node = &link->nodes[number].node;
    nd_advertising settings = {.min_interval = 200, .max_interval = 600, .lifetime = 1800, .hop_limit = 64, .preference = ND_PREFERENCE_MEDIUM};
    nd_offer_row offer = {address_of(link, number, 0), 64, .valid_lifetime = 86400, .preferred_lifetime = 14400, .on_link = 1, .autonomous = 1};
    nd_route_row on_link = {address_of(link, 0, 0), .bits = 56, .hop = ND_HOP_DIRECT};
    static const char what[] = "a router was not configured";
    require_done(nd_advertise_prefix(node, 0, &offer), what);
    require_done(nd_add_route(node, 0, &on_link), what);
    require_done(nd_advertise(node, 0, &settings), what);
    for (size_t i = 0; i < link->routers; i++) {
        nd_route_row route = {address_of(link, BEHIND + i, 0), address_of(link, 0, i), .bits = 64, .hop = ND_HOP_VIA};
        memcpy(route.router.bytes, (uint8_t[8]){0xfe, 0x80}, 8); /* by its link-local address */
        if (i != number)
            require_done(nd_add_route(node, 0, &route), what);
    }
}

static void open_node(struct link *link, size_t number)
{
    struct node *node = &link->nodes[number];
    nd_options options = ND_OPTIONS_INIT;
    options.role = number < link->routers ? ND_ROLE_ROUTER : ND_ROLE_HOST;
    options.mac = mac_of(link, number);
    options.seed = draw(&link->random);
    options.limits = link->limits;
    require_done(nd_open(&node->node, &options, sizeof options), "a node was not opened");
    node->hash = FIRST_HASH;
    node->acts = number < link->routers ? SETTLED_MS / 2 : next_packet(link, SETTLED_MS);
    put(link, number, number); /* it has an event at 0 */
    if (number < link->routers)
        configure(link, number);
}

static void run(struct link *link, uint64_t end)
{
    for (size_t i = 0; i < link->count; i++)
        open_node(link, i);
    for (;;) {
        size_t number = link->heap[0] & MOST_NUMBER;
        uint64_t next = link->heap[0] >> NUMBER_BITS;
        bool is_arrival = link->oldest != NULL && link->oldest->moment <= next;
        if ((is_arrival ? link->oldest->moment : next) > end)
            return;
        if (is_arrival)
            deliver(link);
        else
            settle(link, number, next, act(link, number, next));
    }
}

static void *work(void *nothing)
{
    for (size_t i; (i = atomic_fetch_add(&taken, 1)) < arguments[LINKS].number;)
        run(&links[i], arguments[SECONDS].number * 1000);
    return nothing;
}

static void prepare(struct link *link, size_t number, uint64_t *random) /* the first links have one host more if some are left */
{
    size_t hosts = arguments[HOSTS].number, of = arguments[LINKS].number;
    uint16_t routers = (uint16_t)arguments[ROUTERS].number;
    *link = (struct link){.number = number, .routers = routers, .count = routers + hosts / of + (number < hosts % of), .random = draw(random)};
    size_t most = (link->count + 1) * (routers + 1u); /* each neighbour has so many addresses */
    link->limits = (nd_limits){.neighbours = (uint16_t)(most < 2048 ? most : 2048), .routers = routers, .prefixes = routers, .addresses = routers + 1,
                               .servers = 1, .names = 1, .redirects = routers, .destinations = 32, .offers = 1, .routes = routers};
    link->newest = &link->oldest;
    link->nodes = calloc(link->count, sizeof *link->nodes);
    link->heap = calloc(link->count, sizeof *link->heap);
    require(link->nodes != NULL && link->heap != NULL, "out of memory");
}

static void end(struct link *link)
{
    for (size_t i = 0; i < link->count; i++)
        nd_close(&link->nodes[i].node);
    for (struct frame *frame; (frame = link->oldest) != NULL; free(frame))
        link->oldest = frame->next;
    free(link->nodes);
    free(link->heap);
}

static bool read_argument(const char *word)
{
    for (size_t i = 0; i < ARGUMENTS; i++) {
        size_t length = strlen(arguments[i].name);
        if (strncmp(word, arguments[i].name, length) != 0)
            continue;
        const char *digits = word + length;
        uint64_t number = arguments[i].number = strtoull(digits, NULL, 10);
        return *digits != 0 && digits[strspn(digits, "0123456789")] == 0 && number >= arguments[i].least && number <= arguments[i].most;
    }
    return false;
}

static void print(double seconds)
{
    static const char *const names[COUNTS] = {[ND_OUT_FRAME] = "frames_sent",
                                              [ND_OUT_UP] = "packets_arrived",
                                              [ND_OUT_ASSIGNED] = "addresses_assigned",
                                              [ND_OUT_FAILED] = "neighbours_failed",
                                              [ND_OUT_LOST] = "packets_lost",
                                              [ND_OUT_REFUSED] = "refusals",
                                              [EVENTS] = "events",
                                              [DELIVERED] = "frames_delivered",
                                              [REDIRECTS] = "redirects_heard",
                                              [PACKETS] = "packets_sent"};
    struct link all = {0};
    uint64_t hash = FIRST_HASH;
    for (const struct link *link = links; link < links + arguments[LINKS].number; link++) {
        all.count += link->count;
        for (size_t i = 0; i < COUNTS; i++)
            all.counts[i] += link->counts[i];
        for (size_t i = 0; i < link->count; i++)
            hash = mix(hash, link->nodes[i].hash);
    }
    printf("nodes %zu\nbytes_a_node_at_most %zu\n", all.count, nd_node_bytes(&links[0].limits));
    for (size_t i = 0; i < COUNTS; i++)
        if (names[i] != NULL)
            printf("%s %" PRIu64 "\n", names[i], all.counts[i]);
    printf("hash %016" PRIx64 "\nevents_a_second %.0f\nseconds %.2f\n", hash, (double)all.counts[EVENTS] / seconds, seconds);
}

int main(int argc, char **argv)
{
    static pthread_t threads[MOST_THREADS];
    struct timespec begun, ended;
    for (int i = 1; i < argc; i++)
        if (!read_argument(argv[i]))
            return fprintf(stderr, "usage: many [hosts=N] [links=N] [routers=N] [seconds=N] [seed=N] [threads=N]\n"), 2;
    uint64_t random = arguments[SEED].number, count = arguments[LINKS].number;
    require(arguments[HOSTS].number / count + arguments[ROUTERS].number + 1 < MOST_NUMBER, "too many hosts on a link");
    links = calloc(count, sizeof *links);
    require(links != NULL, "out of memory");
    for (size_t i = 0; i < count; i++)
        prepare(&links[i], i, &random);
    clock_gettime(CLOCK_MONOTONIC, &begun);
    for (size_t i = 1; i < arguments[THREADS].number; i++)
        require(pthread_create(&threads[i], NULL, work, NULL) == 0, "a thread was not made");
    work(NULL); /* this thread is one of them */
    for (size_t i = 1; i < arguments[THREADS].number; i++)
        pthread_join(threads[i], NULL);
    clock_gettime(CLOCK_MONOTONIC, &ended);
    print((double)(ended.tv_sec - begun.tv_sec) + (double)(ended.tv_nsec - begun.tv_nsec) / 1e9);
    for (size_t i = 0; i < count; i++)
        end(&links[i]);
    free(links);
    return 0;
}
