/* router MAC DRAWS < frames: a router that advertises 2001:db8::/64 and sends packets for 2001:db8:1::/64 on to fe80::2. Reads lines "MOMENT HEX", a
 * moment in milliseconds and a frame that is received then; without a frame time passes. Prints each frame that is sent in the words of `ndpctl run`.
 * At the end of its input it ceases to advertise. DRAWS is seed:N or word:N. */
#include <arpa/inet.h>
#include <ctype.h>
#include <inttypes.h>
#include <stdio.h>
#include <stdlib.h>
#include <string.h>
#include "nd.h"

static uint8_t frame[65536], buffer[65536];
static char line[2 * sizeof frame + 32];
static const uint64_t LATEST = UINT64_C(1) << 46; /* an idle host takes seconds to this moment, and days to the greatest one (nd.h, TIME) */

/* Reads the moment of the line. Returns what is behind it, or NULL if the line begins with no moment, or with one above LATEST. */
static char *moment_of(uint64_t *now)
{
    char *end;
    *now = strtoull(line, &end, 10);
    return end == line || strchr(" \r\n", *end) == NULL || *now > LATEST ? NULL : end + (*end == ' ');
}

static void drain(nd_node *node) /* prints the frames among the records, the oldest first */
{
    nd_out out;
    while (nd_poll(node, &out, buffer, sizeof buffer) == ND_DONE) {
        if (out.kind != ND_OUT_FRAME)
            continue;
        printf("%" PRIu64 " tx ", out.moment);
        for (size_t i = 0; i < out.length; i++)
            printf("%02x", buffer[i]);
        printf("\n");
    }
}

static int configure(nd_node *node) /* returns 0 if all was done */
{
    nd_advertising settings = {.min_interval = 200, .max_interval = 600, .lifetime = 1800, .hop_limit = 64, .preference = ND_PREFERENCE_MEDIUM};
    nd_offer_row offer = {.bits = 64, .valid_lifetime = 2592000, .preferred_lifetime = 604800, .on_link = 1, .autonomous = 1};
    nd_route_row on_link = {.bits = 64, .hop = ND_HOP_DIRECT}, behind = {.bits = 64, .hop = ND_HOP_VIA};
    inet_pton(AF_INET6, "2001:db8::", &offer.prefix);
    inet_pton(AF_INET6, "2001:db8::", &on_link.prefix);
    inet_pton(AF_INET6, "2001:db8:1::", &behind.prefix);
    inet_pton(AF_INET6, "fe80::2", &behind.router);
    return nd_advertise_prefix(node, 0, &offer) != ND_DONE || nd_add_route(node, 0, &on_link) != ND_DONE || nd_add_route(node, 0, &behind) != ND_DONE ||
           nd_advertise(node, 0, &settings) != ND_DONE;
}

int main(int argc, char **argv)
{
    nd_node node = ND_NODE_INIT;
    nd_options options = ND_OPTIONS_INIT;
    uint8_t *m = options.mac.bytes;
    if (argc != 3 || sscanf(argv[1], "%hhx:%hhx:%hhx:%hhx:%hhx:%hhx", m, m + 1, m + 2, m + 3, m + 4, m + 5) != 6)
        return fprintf(stderr, "usage: router MAC DRAWS < frames\n"), 2;
    options.role = ND_ROLE_ROUTER;
    options.draws = argv[2][0] == 'w' ? ND_DRAWS_WORD : ND_DRAWS_SEED;
    options.seed = strtoull(argv[2] + strcspn(argv[2], "0123456789"), NULL, 10);
    if (nd_open(&node, &options, sizeof options) != ND_DONE || configure(&node) != 0)
        return fprintf(stderr, "router: not opened\n"), 1;
    for (size_t number = 1; fgets(line, sizeof line, stdin) != NULL; number++) {
        uint64_t now;
        size_t length = 0;
        char *digits = moment_of(&now);
        if (digits == NULL) {
            fprintf(stderr, "router: line %zu has no moment up to 2^46\n", number);
            continue;
        }
        for (; length < sizeof frame && isxdigit((unsigned char)digits[0]) && isxdigit((unsigned char)digits[1]); digits += 2)
            sscanf(digits, "%2hhx", &frame[length++]);
        if ((length > 0 ? nd_receive(&node, now, frame, length) : nd_pass(&node, now)) < 0)
            fprintf(stderr, "router: no event at %" PRIu64 "\n", now);
        drain(&node);
    }
    nd_stop_advertising(&node, nd_last_moment(&node)); /* the last advertisement, of lifetime 0 (RFC 4861, 6.2.5) */
    drain(&node);
    nd_close(&node);
    return 0;
}
