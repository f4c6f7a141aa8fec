/* busy.h: a host and a router of which no table is empty, at the moment BUSY_AT. They take frames of standard input,
 * each line a name and hexadecimal digits. hostile.py says what is in their tables.
 *   The host has MAC. Two own addresses are assigned and one is tentative; two routers, two prefixes, a server, a search name and a Redirect are
 *   there; and two packets wait for a neighbour.
 *   The router has ROUTER_MAC. It advertises a prefix and has two routes; a host is its neighbour; and packets wait for two others. */
#ifndef BUSY_H
#define BUSY_H
#include "tables.h"

enum { BUSY_AT = 3600, MOST_NAMED = 64, LONGEST_NAME = 64 };

struct named {
    char name[LONGEST_NAME];
    struct frame frame;
};

static struct named named[MOST_NAMED];
static size_t named_count;

static const nd_mac ROUTER_MAC = {{2, 0, 0, 0, 0, 1}};
static const nd_addr OF_ROUTER = {{0xfe, 0x80, 0, 0, 0, 0, 0, 0, 0, 0, 0, 0xff, 0xfe, 0, 0, 1}};
static const nd_addr SECOND_ROUTER = {{0xfe, 0x80, [15] = 2}};
static const nd_addr GLOBAL = {{0x20, 1, 0xd, 0xb8, 0, 0, 0, 0, 0x36, 0x56, 0x78, 0xff, 0xfe, 0x9a, 0xbc, 0xde}};
static const nd_addr UNRESOLVED = {{0x20, 1, 0xd, 0xb8, [15] = 1}};
static const uint8_t PAYLOAD[4] = {1, 2, 3, 4};

static inline void read_named(void)
{
    static char digits[2 * ND_BUFFER_BYTES + 1];
    static uint8_t bytes[ND_BUFFER_BYTES];
    while (named_count < MOST_NAMED && scanf("%63s %3028s", named[named_count].name, digits) == 2) {
        struct frame *frame = &named[named_count++].frame;
        frame->length = bytes_of(digits, bytes, sizeof bytes);
        frame->bytes = malloc(frame->length + 1);
        require(frame->bytes != NULL, "memory for a frame");
        memcpy(frame->bytes, bytes, frame->length);
    }
    require(named_count > 0, "frames are read");
}

static inline void free_named(void)
{
    while (named_count > 0)
        free(named[--named_count].frame.bytes);
}

static inline const struct frame *frame_named(const char *name)
{
    for (size_t i = 0; i < named_count; i++)
        if (strcmp(named[i].name, name) == 0)
            return &named[i].frame;
    fprintf(stderr, "failed: there is a frame %s\n", name);
    exit(1);
}

static inline void hear_named(nd_node *node, uint64_t now, const char *name)
{
    const struct frame *frame = frame_named(name);
    require(nd_receive(node, now, frame->bytes, frame->length) == ND_DONE, name);
}

/* Returns the CRC-32 of bytes. */
static inline uint32_t crc_of_bytes(const uint8_t *bytes, size_t length)
{
    static uint32_t table[256];
    uint32_t crc = UINT32_MAX;
    for (uint32_t i = 0; table[255] == 0 && i < 256; i++) {
        table[i] = i;
        for (int bit = 0; bit < 8; bit++)
            table[i] = table[i] >> 1 ^ (table[i] % 2 != 0 ? UINT32_C(0xedb88320) : 0);
    }
    for (size_t i = 0; i < length; i++)
        crc = crc >> 8 ^ table[(crc ^ bytes[i]) & 0xff];
    return ~crc;
}

/* Returns the CRC-32 of all fields that nd_hear wrote, which have no padding. On each machine the numbers count with their lowest byte first. */
static inline uint32_t crc_of(const nd_heard *heard)
{
    uint8_t fields[sizeof *heard];
    uint32_t number;
    memcpy(fields, heard, sizeof fields);
    for (size_t at = offsetof(nd_heard, hearing); at < offsetof(nd_heard, hop_limit); at += sizeof number) {
        memcpy(&number, fields + at, sizeof number);
        for (size_t i = 0; i < sizeof number; i++)
            fields[at + i] = (uint8_t)(number >> 8 * i);
    }
    return crc_of_bytes(fields, sizeof fields);
}

/* The limit of default routers of a busy node, 0 for the usual one. */
static uint16_t busy_routers;

/* Opens a busy node. Its records are taken. */
static inline void open_busy(nd_node *node, uint32_t role)
{
    const nd_advertising settings = {.min_interval = 200, .max_interval = 600, .lifetime = 1800, .hop_limit = 64};
    const nd_offer_row offer = {.prefix = UNRESOLVED, .bits = 64, .valid_lifetime = 3600, .preferred_lifetime = 1800, .on_link = 1};
    const nd_route_row direct = {.prefix = UNRESOLVED, .bits = 64, .hop = ND_HOP_DIRECT};
    const nd_route_row far = {.prefix = {{0x20, 1, 0xd, 0xb8, 0, 1}}, .bits = 64, .hop = ND_HOP_VIA, .router = SECOND_ROUTER};
    nd_options options = host_options();
    options.role = role;
    options.mac = role == ND_ROLE_ROUTER ? ROUTER_MAC : MAC;
    options.limits.routers = busy_routers;
    require(nd_open(node, &options, sizeof options) == ND_DONE && nd_pass(node, 2000) == ND_DONE, "nd_open");
    if (role == ND_ROLE_HOST) {
        hear_named(node, 2050, "ADVERTISEMENT_WITH_DNS");
        hear_named(node, 2100, "ADVERTISEMENT_WITH_PREFIX");
        hear_named(node, 3300, "REDIRECT");
        hear_named(node, 3350, "ADVERTISEMENT_OF_SECOND_ROUTER");
        for (size_t i = 0; i < 2; i++)
            require(nd_send(node, 3400, &GLOBAL, &UNRESOLVED, 17, PAYLOAD, sizeof PAYLOAD) == ND_DONE, "nd_send");
        hear_named(node, 3500, "ADVERTISEMENT_WITH_SECOND_PREFIX");
        require(nd_confirm(node, 3550, &SECOND_ROUTER) == ND_DONE, "nd_confirm");
    } else {
        require(nd_advertise_prefix(node, 2000, &offer) == ND_DONE && nd_advertise(node, 2000, &settings) == ND_DONE, "nd_advertise");
        require(nd_add_route(node, 2000, &direct) == ND_DONE && nd_add_route(node, 2000, &far) == ND_DONE, "nd_add_route");
        hear_named(node, 3000, "ROUTER_SOLICITATION");
        hear_named(node, 3300, "DATAGRAM_IN_TRANSIT");
    }
    require(nd_pass(node, BUSY_AT) == ND_DONE, "nd_pass");
    drain(node, FIRST_HASH);
}

/* Lets time pass until all that waits is resolved or lost and much has ended, and returns a hash of the records on the way and of the tables. So what
 * no table shows is seen too: packets that wait, dates, and the random words that are left. */
static inline uint64_t later_of(nd_node *node)
{
    static const uint64_t STEPS[] = {10000, 690000, 7300000};
    uint64_t hash = FIRST_HASH, now = nd_last_moment(node);
    for (size_t i = 0; i < sizeof STEPS / sizeof *STEPS; i++) {
        now += STEPS[i];
        require(nd_pass(node, now) == ND_DONE, "nd_pass");
        hash = drain(node, hash);
    }
    return hash ^ tables_of(node, now);
}
#endif
