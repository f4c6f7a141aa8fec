/* stack MAC DRAWS < lines: a host whose stack keeps and sends its packets itself. Reads lines "MOMENT HEX", a moment in milliseconds and a frame that
 * is received then, and "MOMENT >HEX", a packet of the stack, from its IPv6 header on; without both time passes. Prints "MOMENT tx HEX" for each
 * frame that is sent, "MOMENT lost HEX" for each packet that is not, and at last how often it asked where packets go. DRAWS is seed:N or word:N. */
#include <ctype.h>
#include <inttypes.h>
#include <stdio.h>
#include <stdlib.h>
#include <string.h>
#include "nd.h"

enum { LEASES = 64, MOST_WAITING = 16, ETHERNET = 14, SHORTEST = ETHERNET + 40, LONGEST = 2048 };

static struct lease { /* packets to `destination` go to `path.mac` before `path.until`, while `version` is `path.version` */
    nd_addr destination;
    nd_path path;
} leases[LEASES];

static struct packet { /* if it waits, it does so for the link-layer address of `next_hop` */
    nd_addr next_hop;
    bool waits;
    size_t length;
    uint8_t frame[LONGEST];
} waiting[MOST_WAITING], given;

static nd_node node = ND_NODE_INIT;
static nd_options options = ND_OPTIONS_INIT;
static uint64_t version; /* nd_lease_version after the last call */
static size_t kept, questions;
static uint8_t buffer[LONGEST];
static char line[2 * LONGEST + 32];
static const uint64_t LATEST = UINT64_C(1) << 46; /* an idle host takes seconds to this moment, and days to the greatest one (nd.h, TIME) */

static void print(uint64_t moment, const char *word, const uint8_t *bytes, size_t length)
{
    printf("%" PRIu64 " %s ", moment, word);
    for (size_t i = 0; i < length; i++)
        printf("%02x", bytes[i]);
    printf("\n");
}

static void keep(uint64_t now, const nd_addr *next_hop, const struct packet *packet) /* in place of the oldest one (RFC 4861, 7.2.2) */
{
    struct packet *oldest = &waiting[kept++ % MOST_WAITING];
    if (oldest->waits)
        print(now, "lost", oldest->frame + ETHERNET, oldest->length - ETHERNET);
    *oldest = *packet;
    oldest->next_hop = *next_hop;
    oldest->waits = true;
}

static nd_addr destination_of(const struct packet *packet)
{
    nd_addr to;
    memcpy(&to, packet->frame + ETHERNET + 24, sizeof to);
    return to;
}

static struct lease *lease_to(const nd_addr *to) /* the one lease that a packet to this destination may have */
{
    return &leases[to->bytes[15] % LEASES];
}

static bool is_leased(uint64_t now, const struct packet *packet) /* it may be sent without a call */
{
    nd_addr to = destination_of(packet);
    const struct lease *lease = lease_to(&to);
    return now < lease->path.until && lease->path.version == version && memcmp(&lease->destination, &to, sizeof to) == 0;
}

static void send_packet(uint64_t now, struct packet *packet) /* the caller drains the node behind it: a solicitation is sent at once */
{
    nd_addr to = destination_of(packet);
    struct lease *lease = lease_to(&to);
    int32_t status = ND_DONE;
    if (!is_leased(now, packet)) {
        *lease = (struct lease){.destination = to};
        status = nd_resolve(&node, now, &to, &lease->path);
        version = nd_lease_version(&node);
        questions++;
    }
    memcpy(packet->frame, &lease->path.mac, sizeof(nd_mac));
    if (status == ND_WAITING)
        keep(now, &lease->path.next_hop, packet);
    else if (status == ND_DONE)
        print(now, "tx", packet->frame, packet->length);
    else /* it has no next hop, or is refused, or memory is */
        print(now, "lost", packet->frame + ETHERNET, packet->length - ETHERNET);
}

static void release(uint64_t now, const nd_out *out) /* takes the packets that wait for a neighbour: asks again and sends them, or gives them up */
{
    for (size_t i = 0, oldest = kept; i < MOST_WAITING; i++) {
        struct packet *packet = &waiting[(oldest + i) % MOST_WAITING];
        if (!packet->waits || memcmp(&packet->next_hop, &out->address, sizeof(nd_addr)) != 0)
            continue;
        packet->waits = false;
        out->kind == ND_OUT_RESOLVED ? send_packet(now, packet) : print(out->moment, "lost", packet->frame + ETHERNET, packet->length - ETHERNET);
    }
}

static void drain(uint64_t now) /* takes all records, those too that a question in `release` adds */
{
    nd_out out;
    while (nd_poll(&node, &out, buffer, sizeof buffer) == ND_DONE) {
        if (out.kind == ND_OUT_FRAME)
            print(out.moment, "tx", buffer, out.length);
        if (out.kind == ND_OUT_RESOLVED || out.kind == ND_OUT_FAILED)
            release(now, &out);
    }
}

/* Reads the moment of the line. Returns what is behind it, or NULL if the line begins with no moment, or with one above LATEST. */
static char *moment_of(uint64_t *now)
{
    char *end;
    *now = strtoull(line, &end, 10);
    return end == line || strchr(" \r\n", *end) == NULL || *now > LATEST ? NULL : end + (*end == ' ');
}

int main(int argc, char **argv)
{
    uint8_t *m = options.mac.bytes;
    if (argc != 3 || sscanf(argv[1], "%hhx:%hhx:%hhx:%hhx:%hhx:%hhx", m, m + 1, m + 2, m + 3, m + 4, m + 5) != 6)
        return fprintf(stderr, "usage: stack MAC DRAWS < lines\n"), 2;
    options.draws = argv[2][0] == 'w' ? ND_DRAWS_WORD : ND_DRAWS_SEED;
    options.seed = strtoull(argv[2] + strcspn(argv[2], "0123456789"), NULL, 10);
    if (nd_open(&node, &options, sizeof options) != ND_DONE)
        return fprintf(stderr, "stack: not opened\n"), 1;
    for (size_t number = 1; fgets(line, sizeof line, stdin) != NULL; number++) {
        uint64_t now;
        char *digits = moment_of(&now);
        if (digits == NULL) {
            fprintf(stderr, "stack: line %zu has no moment up to 2^46\n", number);
            continue;
        }
        bool is_packet = *digits == '>';
        given = (struct packet){.length = is_packet ? ETHERNET : 0, .frame = {0, 0, 0, 0, 0, 0, m[0], m[1], m[2], m[3], m[4], m[5], 0x86, 0xdd}};
        for (digits += is_packet; given.length < LONGEST && isxdigit((unsigned char)digits[0]) && isxdigit((unsigned char)digits[1]); digits += 2)
            sscanf(digits, "%2hhx", &given.frame[given.length++]);
        if (is_packet && given.length >= SHORTEST) {
            if (!is_leased(now, &given)) {
                nd_pass(&node, now); /* a failure that is due is of packets that were kept before this one */
                version = nd_lease_version(&node);
                drain(now);
            }
            send_packet(now, &given);
        } else if (is_packet || (given.length > 0 ? nd_receive(&node, now, given.frame, given.length) : nd_pass(&node, now)) < 0)
            fprintf(stderr, "stack: no event at %" PRIu64 "\n", now);
        version = nd_lease_version(&node);
        drain(now);
    }
    printf("%zu questions\n", questions);
    nd_close(&node);
    return 0;
}
