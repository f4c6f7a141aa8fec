/* flooded: what a node does while its link is flooded, with the policy `speakers` and without it. The arguments are the number of neighbours that its
 * cache keeps, and the policies, a sum of `enum nd_policy`.
 *   busy: a host sends a packet to one of 100 neighbours every 10 ms, each of which answers its solicitations at once, while it hears 10,000
 * solicitations a second, each from an address that no node has. Counts the packets that arrived, and those that were lost.
 *   scan: a router sends on 1,000 packets a second, each to an address on its link that no host has. After ten seconds six hosts are new on the
 * link, and solicit it once a second. Counts the solicitations that it answered.
 * The lines are these counts, and the processor time of a solicitation and of a packet. */
#include <time.h>

#include "spelled.h"

enum { SECONDS = 40, BUSY = 100, SOLICITATIONS_A_MS = 10, HOSTS = 6, HOSTS_FROM = 10000, OPENED_AT = 2000 };
enum { SOLICITATION = 135, ADVERTISEMENT = 136, LONGEST_RECORD = 2048 };

static const nd_addr PREFIX = {{0x20, 1, 0xd, 0xb8}};
static const nd_addr FAR = {{0x20, 1, 0xd, 0xb8, 0, 1, [15] = 1}};

static nd_node node = ND_NODE_INIT;
static uint64_t now;

/* Of the node's frames and records: data frames, advertisements, packets that were lost. */
static size_t packets, advertisements, losses;

static struct timespec begun;

static void start_clock(void)
{
    clock_gettime(CLOCK_PROCESS_CPUTIME_ID, &begun);
}

/* Returns the processor time since then, in nanoseconds, for each of some frames. */
static double time_of_each(size_t frames)
{
    struct timespec end;
    clock_gettime(CLOCK_PROCESS_CPUTIME_ID, &end);
    return ((double)(end.tv_sec - begun.tv_sec) * 1e9 + (double)(end.tv_nsec - begun.tv_nsec)) / (double)frames;
}

/* Returns a link-local address, and writes the link-layer address that its station has: one of a kind and a number. */
static nd_addr station(uint8_t kind, size_t number, nd_mac *mac)
{
    nd_addr address = {{0xfe, 0x80, [11] = kind, [12] = (uint8_t)(number >> 24), (uint8_t)(number >> 16), (uint8_t)(number >> 8), (uint8_t)number}};
    const nd_mac own = {{0x02, kind, (uint8_t)(number >> 24), (uint8_t)(number >> 16), (uint8_t)(number >> 8), (uint8_t)number}};
    *mac = own;
    return address;
}

/* Writes a message with its target and a link-layer address (RFC 4861, 4.3 and 4.4). Returns the length of its frame. */
static size_t message(uint8_t type, uint8_t flags, const nd_addr *source, const nd_addr *destination, const nd_addr *target, const nd_mac *mac)
{
    uint8_t *at = bytes + HEADERS;
    memset(at, 0, 32);
    at[0] = type;
    at[4] = flags;
    memcpy(at + 8, target->bytes, 16);
    at[24] = type == SOLICITATION ? 1 : 2;
    at[25] = 1;
    memcpy(at + 26, mac->bytes, 6);
    return framed(source->bytes, destination->bytes, ICMP, 32);
}

/* A station solicits the node's link-local address. */
static void solicit(uint8_t kind, size_t number)
{
    nd_mac mac;
    nd_addr source = station(kind, number, &mac);
    require(is_taken(nd_receive(&node, now, bytes, message(SOLICITATION, 0, &source, &LINK_LOCAL, &LINK_LOCAL, &mac))), "a solicitation is received");
}

/* The station of a target answers the node (RFC 4861, 7.2.4). */
static void answer(const nd_addr *target)
{
    nd_mac mac;
    size_t number = (size_t)target->bytes[14] << 8 | target->bytes[15];
    station(target->bytes[11], number, &mac);
    require(nd_receive(&node, now, bytes, message(ADVERTISEMENT, 0x60, target, &LINK_LOCAL, target, &mac)) == ND_DONE, "an answer is received");
}

/* Takes the node's records. Stations of a kind answer its solicitations. */
static void take(uint8_t kind)
{
    uint8_t buffer[LONGEST_RECORD];
    nd_addr asked;
    nd_out out;
    while (nd_poll(&node, &out, buffer, sizeof buffer) == ND_DONE) {
        bool is_message = out.kind == ND_OUT_FRAME && buffer[20] == ICMP;
        losses += out.kind == ND_OUT_LOST;
        packets += out.kind == ND_OUT_FRAME && buffer[20] == UDP;
        advertisements += is_message && buffer[HEADERS] == ADVERTISEMENT;
        if (!is_message || buffer[HEADERS] != SOLICITATION)
            continue;
        memcpy(asked.bytes, buffer + HEADERS + 8, 16);
        if (asked.bytes[0] == 0xfe && asked.bytes[11] == kind)
            answer(&asked);
    }
}

static void open_node(uint32_t role, uint16_t neighbours, uint32_t policies)
{
    nd_options options = host_options();
    options.role = role;
    options.limits.neighbours = neighbours;
    options.policies = policies;
    require(nd_open(&node, &options, sizeof options) == ND_DONE, "a node is opened");
    now = OPENED_AT;
    packets = advertisements = losses = 0;
    require(nd_pass(&node, now) == ND_DONE, "its address is assigned");
    take(0);
}

static void send_to(size_t number)
{
    nd_mac mac;
    nd_addr to = station(1, number, &mac);
    require(is_taken(nd_send(&node, now, &LINK_LOCAL, &to, UDP, mac.bytes, sizeof mac.bytes)), "a packet is sent");
    take(1);
}

/* A host, neighbours in use, and solicitations of others. */
static void busy(uint16_t neighbours, uint32_t policies)
{
    size_t others = 0, sent = 0;
    open_node(ND_ROLE_HOST, neighbours, policies);
    for (; sent < BUSY; sent++)
        send_to(sent);
    start_clock();
    for (uint64_t end = now + SECONDS * 1000; now < end; now++) {
        for (size_t i = 0; i < SOLICITATIONS_A_MS; i++) {
            solicit(2, others++);
            take(1);
        }
        if (now % 10 == 0)
            send_to(sent++ % BUSY);
    }
    double time = time_of_each(others);
    now += 10 * 1000;
    require(nd_pass(&node, now) == ND_DONE, "time passes");
    take(1);
    printf("busy: %u neighbours, policies %u: of %zu packets %zu arrived, %zu were lost, ", neighbours, policies, sent, packets, losses);
    printf("%zu refused\n", sent - packets - losses);
    fprintf(stderr, "busy: %u neighbours, policies %u: %.0f ns a solicitation\n", neighbours, policies, time);
    require(policies == 0 || packets == sent, "no packet of a neighbour in use is lost");
    require(policies != 0 || packets < sent, "packets are lost without the policy");
    nd_close(&node);
}

/* A router, packets to nobody, and solicitations of new hosts. */
static void scan(uint16_t neighbours, uint32_t policies)
{
    const nd_route_row on_link = {.prefix = PREFIX, .bits = 64, .hop = ND_HOP_DIRECT};
    size_t sent = 0, asked = 0;
    nd_addr nobody = PREFIX;
    open_node(ND_ROLE_ROUTER, neighbours, policies);
    require(nd_add_route(&node, now, &on_link) == ND_DONE, "the router has a route");
    start_clock();
    for (uint64_t end = now + SECONDS * 1000; now < end; now++) {
        put16(nobody.bytes + 14, sent & 0xffff);
        put16(nobody.bytes + 12, 1 + (sent++ >> 16));
        memset(bytes + HEADERS, 0, 8);
        size_t length = framed(FAR.bytes, nobody.bytes, UDP, 8);
        memcpy(bytes, MAC.bytes, sizeof MAC.bytes);
        require(is_taken(nd_receive(&node, now, bytes, length)), "a packet is received");
        take(3);
        if (now < OPENED_AT + HOSTS_FROM || now % 1000 >= HOSTS)
            continue;
        solicit(3, now % 1000);
        asked++;
        take(3);
    }
    double time = time_of_each(sent);
    printf("scan: %u neighbours, policies %u: of %zu solicitations %zu were answered\n", neighbours, policies, asked, advertisements);
    fprintf(stderr, "scan: %u neighbours, policies %u: %.0f ns a packet\n", neighbours, policies, time);
    require(policies == 0 || advertisements == asked, "each solicitation is answered");
    require(policies != 0 || advertisements < asked, "solicitations aren't answered without the policy");
    nd_close(&node);
}

int main(int argc, char **argv)
{
    require(argc == 3, "two arguments");
    busy((uint16_t)strtoul(argv[1], NULL, 10), (uint32_t)strtoul(argv[2], NULL, 10));
    scan((uint16_t)strtoul(argv[1], NULL, 10), (uint32_t)strtoul(argv[2], NULL, 10));
    return 0;
}
