/* host MAC DRAWS < frames: reads lines "MOMENT HEX", a moment in milliseconds and a frame that is received then; without a frame time passes. Prints
 * what happens in the words of `ndpctl run`, but numbers of nd.h for words that follow, and at last what it knows. DRAWS is seed:N or word:N. */
#include <arpa/inet.h>
#include <ctype.h>
#include <inttypes.h>
#include <stdio.h>
#include <stdlib.h>
#include <string.h>
#include "nd_text.h"

static uint8_t frame[65536], buffer[65536];
static char text[INET6_ADDRSTRLEN], line[2 * sizeof frame + 32];
static const uint64_t LATEST = UINT64_C(1) << 46; /* an idle host takes seconds to this moment, and days to the greatest one (nd.h, TIME) */

/* Reads the moment of the line. Returns what is behind it, or NULL if the line begins with no moment, or with one above LATEST. */
static char *moment_of(uint64_t *now)
{
    char *end;
    *now = strtoull(line, &end, 10);
    return end == line || strchr(" \r\n", *end) == NULL || *now > LATEST ? NULL : end + (*end == ' ');
}

static void drain(nd_node *node) /* prints all records, the oldest first */
{
    nd_out out;
    while (nd_poll(node, &out, buffer, sizeof buffer) == ND_DONE) {
        printf("%" PRIu64 " %s%s", out.moment, nd_kind_text(out.kind), out.kind == ND_OUT_FRAME || out.kind == ND_OUT_UP ? " " : "");
        for (size_t i = 0; i < out.length && out.kind != ND_OUT_LOST; i++)
            printf("%02x", buffer[i]);
        if (out.code > 0)
            printf(" %" PRIu32, out.code);
        if (out.kind >= ND_OUT_DUPLICATE && out.kind <= ND_OUT_FAILED)
            printf(" %s", inet_ntop(AF_INET6, &out.address, text, sizeof text));
        printf("\n");
    }
}

int main(int argc, char **argv)
{
    nd_node node = ND_NODE_INIT;
    nd_options options = ND_OPTIONS_INIT;
    uint8_t *m = options.mac.bytes;
    if (argc != 3 || sscanf(argv[1], "%hhx:%hhx:%hhx:%hhx:%hhx:%hhx", m, m + 1, m + 2, m + 3, m + 4, m + 5) != 6)
        return fprintf(stderr, "usage: host MAC DRAWS < frames\n"), 2;
    options.draws = argv[2][0] == 'w' ? ND_DRAWS_WORD : ND_DRAWS_SEED;
    options.seed = strtoull(argv[2] + strcspn(argv[2], "0123456789"), NULL, 10);
    if (nd_open(&node, &options, sizeof options) != ND_DONE)
        return fprintf(stderr, "host: not opened\n"), 1;
    for (size_t number = 1; fgets(line, sizeof line, stdin) != NULL; number++) {
        uint64_t now;
        size_t length = 0;
        char *digits = moment_of(&now);
        if (digits == NULL) {
            fprintf(stderr, "host: line %zu has no moment up to 2^46\n", number);
            continue;
        }
        for (; length < sizeof frame && isxdigit((unsigned char)digits[0]) && isxdigit((unsigned char)digits[1]); digits += 2)
            sscanf(digits, "%2hhx", &frame[length++]);
        if ((length > 0 ? nd_receive(&node, now, frame, length) : nd_pass(&node, now)) < 0)
            fprintf(stderr, "host: no event at %" PRIu64 "\n", now);
        drain(&node);
    }
    nd_address_row own[64]; /* the usual limits are 64 addresses and 16 routers */
    nd_router_row routers[16];
    size_t count;
    nd_addresses(&node, nd_last_moment(&node), own, 64, &count);
    for (size_t i = 0; i < count; i++)
        printf("address %s %" PRIu32 " %" PRIu64 " %" PRIu64 "\n", inet_ntop(AF_INET6, &own[i].address, text, sizeof text), own[i].state,
               own[i].preferred_left, own[i].valid_left);
    nd_routers(&node, nd_last_moment(&node), routers, 16, &count);
    for (size_t i = 0; i < count; i++)
        printf("router %s %" PRIu64 " %" PRIu32 "\n", inet_ntop(AF_INET6, &routers[i].address, text, sizeof text), routers[i].left,
               routers[i].preference);
    nd_close(&node);
    return 0;
}
