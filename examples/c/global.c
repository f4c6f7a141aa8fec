/* global MAC DRAWS < frames: a router with a global address, 2001:db8::1, which it is given by hand once its link-local address is assigned. It
 * advertises 2001:db8::/64. Reads lines "MOMENT HEX", a moment in milliseconds and a frame that is received then; without a frame time passes.
 * Prints, in the words of `ndpctl run`, each frame that is sent, the packets for the router itself, and which addresses are assigned; and at the end
 * all of its addresses. DRAWS is seed:N or word:N. */
#include <arpa/inet.h>
#include <ctype.h>
#include <inttypes.h>
#include <stdio.h>
#include <stdlib.h>
#include <string.h>
#include "nd_text.h"

static uint8_t frame[65536], buffer[65536];
static char line[2 * sizeof frame + 32];
static const uint64_t LATEST = UINT64_C(1) << 46; /* an idle host takes seconds to this moment, and days to the greatest one (nd.h, TIME) */

/* Reads the moment of the line. Returns what is behind it, or NULL if the line begins with no moment, or with one above LATEST. */
static char *moment_of(uint64_t *now)
{
    char *end;
    *now = strtoull(line, &end, 10);
    return end == line || strchr(" \r\n", *end) == NULL || *now > LATEST ? NULL : end + (*end == ' ');
}

static const char *text_of(const nd_addr *address)
{
    static char text[INET6_ADDRSTRLEN];
    return inet_ntop(AF_INET6, address, text, sizeof text);
}

static void print_bytes(const nd_out *out)
{
    printf("%" PRIu64 " %s ", out->moment, out->kind == ND_OUT_FRAME ? "tx" : "up");
    for (size_t i = 0; i < out->length; i++)
        printf("%02x", buffer[i]);
    printf("\n");
}

/* Prints the records, the oldest first. Returns true if the link-local address was assigned. */
static bool drain(nd_node *node)
{
    nd_out out;
    bool is_up = false;
    while (nd_poll(node, &out, buffer, sizeof buffer) == ND_DONE) {
        if (out.kind == ND_OUT_FRAME || out.kind == ND_OUT_UP)
            print_bytes(&out);
        if (out.kind == ND_OUT_ASSIGNED || out.kind == ND_OUT_DUPLICATE)
            printf("%" PRIu64 " %s %s\n", out.moment, out.kind == ND_OUT_ASSIGNED ? "assigned" : "duplicate", text_of(&out.address));
        is_up |= out.kind == ND_OUT_ASSIGNED && out.address.bytes[0] == 0xfe;
    }
    return is_up;
}

static int configure(nd_node *node) /* returns 0 if all was done */
{
    nd_advertising settings = {.min_interval = 200, .max_interval = 600, .lifetime = 1800, .hop_limit = 64, .preference = ND_PREFERENCE_MEDIUM};
    nd_offer_row offer = {.bits = 64, .valid_lifetime = 2592000, .preferred_lifetime = 604800, .on_link = 1, .autonomous = 1};
    nd_route_row on_link = {.bits = 64, .hop = ND_HOP_DIRECT};
    inet_pton(AF_INET6, "2001:db8::", &offer.prefix);
    on_link.prefix = offer.prefix;
    return nd_advertise_prefix(node, 0, &offer) != ND_DONE || nd_add_route(node, 0, &on_link) != ND_DONE || nd_advertise(node, 0, &settings) != ND_DONE;
}

static void add_global(nd_node *node, uint64_t now)
{
    nd_own_address own = {.valid_lifetime = ND_LIFETIME_INFINITE, .preferred_lifetime = ND_LIFETIME_INFINITE};
    inet_pton(AF_INET6, "2001:db8::1", &own.address);
    if (nd_add_address(node, now, &own) != ND_DONE)
        fprintf(stderr, "global: no address at %" PRIu64 "\n", now);
    nd_pass(node, now); /* its solicitation is due now: join 33:33:ff:00:00:01 before it is sent (RFC 4862, 5.4.2) */
    drain(node);
}

static void show_addresses(nd_node *node, uint64_t now)
{
    nd_address_row row;
    for (size_t i = 0; nd_address_at(node, now, i, &row) == ND_DONE; i++)
        printf("%" PRIu64 " address %s %s %s\n", now, text_of(&row.address), nd_state_text(row.state), row.by_hand ? "by hand" : "formed");
}

int main(int argc, char **argv)
{
    nd_node node = ND_NODE_INIT;
    nd_options options = ND_OPTIONS_INIT;
    uint8_t *m = options.mac.bytes;
    if (argc != 3 || sscanf(argv[1], "%hhx:%hhx:%hhx:%hhx:%hhx:%hhx", m, m + 1, m + 2, m + 3, m + 4, m + 5) != 6)
        return fprintf(stderr, "usage: global MAC DRAWS < frames\n"), 2;
    options.role = ND_ROLE_ROUTER;
    options.draws = argv[2][0] == 'w' ? ND_DRAWS_WORD : ND_DRAWS_SEED;
    options.seed = strtoull(argv[2] + strcspn(argv[2], "0123456789"), NULL, 10);
    if (nd_open(&node, &options, sizeof options) != ND_DONE || configure(&node) != 0)
        return fprintf(stderr, "global: not opened\n"), 1;
    for (size_t number = 1; fgets(line, sizeof line, stdin) != NULL; number++) {
        uint64_t now;
        size_t length = 0;
        char *digits = moment_of(&now);
        if (digits == NULL) {
            fprintf(stderr, "global: line %zu has no moment up to 2^46\n", number);
            continue;
        }
        for (; length < sizeof frame && isxdigit((unsigned char)digits[0]) && isxdigit((unsigned char)digits[1]); digits += 2)
            sscanf(digits, "%2hhx", &frame[length++]);
        if ((length > 0 ? nd_receive(&node, now, frame, length) : nd_pass(&node, now)) < 0)
            fprintf(stderr, "global: no event at %" PRIu64 "\n", now);
        if (drain(&node))
            add_global(&node, now);
    }
    show_addresses(&node, nd_last_moment(&node));
    nd_close(&node);
    return 0;
}
