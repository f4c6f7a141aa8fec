/* fuzz.h: what the bytes of an input decide: numbers, addresses, frames, and what the calls are passed. Most frames are messages that a host or a
 * router takes, and most numbers those of a usual link. Where several bytes are taken C says in which order, so that an input is the same calls by
 * each compiler. */
#ifndef FUZZ_H
#define FUZZ_H
#include "tables.h"

enum { LONGEST = 2048 };
enum call {
    PASS, RECEIVE, MESSAGE, SEND, CONFIRM, CONFIRM_TO, FORGET, CLEAR, ADD_ADDRESS, REMOVE_ADDRESS,
    NEXT_HOP, RESOLVE, ADVERTISE, OFFER, ROUTE, STOP, OPEN, CLOSE, CALLS
};

/* How many nodes an input has at most. Each has an Ethernet address of its own, which differs from MAC in the last byte. */
enum { MOST_NODES = 4 };

static const nd_addr ALL_NODES = {{0xff, 2, [15] = 1}}, ALL_ROUTERS = {{0xff, 2, [15] = 2}};
/* The solicited-node address of LINK_LOCAL. */
static const nd_addr SOLICITED = {{0xff, 2, [11] = 1, 0xff, 0x9a, 0xbc, 0xde}};

/* Of the node that the next call is for: its number, Ethernet address and link-local address, and the solicited-node address of that. */
static uint8_t own;
static nd_mac own_mac;
static nd_addr own_address, own_group;

/* The last frame that a node has sent, and the number of the node. */
static struct {
    uint8_t bytes[LONGEST];
    size_t length;
    uint8_t sender;
} sent;

static void be(uint8_t which)
{
    own = which, own_mac = MAC, own_address = LINK_LOCAL, own_group = SOLICITED;
    own_mac.bytes[5] ^= which, own_address.bytes[15] ^= which, own_group.bytes[15] ^= which;
}

/* What is left of the bytes. When none is, zeros are taken. */
static const uint8_t *input;
static size_t input_left;

static uint8_t take(void)
{
    return input_left > 0 ? (input_left--, *input++) : 0;
}

static uint32_t below(uint32_t limit)
{
    return take() % limit;
}

static bool once_in(uint32_t n)
{
    return below(n) == n - 1;
}

static uint32_t a_number(void)
{
    static const uint32_t NUMBERS[] = {0, 1, 2, 3, 4, 64, 600, 1280, 1500, 1800, 7200, 9000, 65535, 3600001, UINT32_MAX - 1, UINT32_MAX};
    return NUMBERS[below(sizeof NUMBERS / sizeof *NUMBERS)];
}

/* Returns mostly this number. */
static uint32_t mostly(uint32_t number)
{
    return once_in(8) ? a_number() : number;
}

static nd_addr an_address(void)
{
    uint8_t k = take();
    nd_addr it = {{0xfe, 0x80, [15] = k / 8}};
    switch (k % 8) {
    case 0: return (nd_addr){{[15] = k / 128}};
    case 1: it = own_address, it.bytes[15] ^= k < 192 ? 0 : k / 8 % MOST_NODES; return it;
    case 2: return k < 128 ? ALL_NODES : ALL_ROUTERS;
    case 3: return own_group;
    case 4: return (nd_addr){{0x20, 1, 0xd, 0xb8, 0, k / 64, [15] = k / 8 % 8}};
    case 5: it = own_address, memcpy(it.bytes, (const uint8_t[]){0x20, 1, 0xd, 0xb8, 0, k / 64}, 6); return it;
    default: return it;
    }
}

static size_t put(uint8_t *to, const void *bytes, size_t length)
{
    memcpy(to, bytes, length);
    return length;
}

static size_t put_number(uint8_t *to, uint32_t number, size_t size)
{
    for (size_t i = 0; i < size; i++)
        to[i] = (uint8_t)(number >> 8 * (size - 1 - i));
    return size;
}

/* Writes mostly this address. */
static size_t put_mostly(uint8_t *to, nd_addr address)
{
    address = once_in(4) ? an_address() : address;
    return put(to, &address, sizeof address);
}

/* Writes mostly the address of one of 16 neighbours. */
static size_t put_neighbour(uint8_t *to)
{
    return put_mostly(to, (nd_addr){{0xfe, 0x80, [15] = 2 + (uint8_t)below(16)}});
}

static size_t put_address(uint8_t *to)
{
    return put_mostly(to, an_address());
}

/* Writes mostly the link-layer address of a neighbour; else the node's own, a group's, or zeros. */
static size_t put_mac(uint8_t *to)
{
    const nd_mac others[] = {own_mac, {{0x33, 0x33, [5] = 1}}, {{0}}, {{1, [5] = 9}}};
    nd_mac mac = {{2, 0, 0, 0, 0, take() % 16}};
    return put(to, once_in(16) ? &others[below(4)] : &mac, sizeof mac);
}

/* Writes an option whose bytes are zero so far. Returns its length. */
static size_t put_option(uint8_t *to)
{
    static const uint8_t TYPES[] = {1, 2, 3, 5, 25, 31, 4, 200}, UNITS[] = {1, 1, 4, 1, 3, 3, 2, 1};
    uint32_t which = below(sizeof TYPES);
    to[0] = TYPES[which], to[1] = UNITS[which];
    if (which < 2)
        put_mac(to + 2);
    else if (which < 6)
        put_number(to + 4, mostly(which == 3 ? 1500 : 1800), 4);
    if (which == 2) {
        to[2] = once_in(8) ? take() : 64, to[3] = take();
        put_number(to + 8, mostly(1800), 4), put_address(to + 16);
    } else if (which == 4)
        put_address(to + 8);
    else if (which == 5)
        put(to + 8, (const uint8_t[]){2, '-', take(), 1, 'a', 0}, 6);
    if (once_in(32))
        to[1] = take();
    return 8 * UNITS[which];
}

/* Writes a message of Neighbor Discovery, whose bytes are zero so far. Returns its length. */
static size_t put_message(uint8_t *to)
{
    static const uint8_t FIXED[] = {8, 16, 24, 24, 40};
    uint32_t which = below(sizeof FIXED), options_left = below(4);
    size_t length = FIXED[which];
    to[0] = (uint8_t)(133 + which);
    if (which == 1) {
        to[4] = take(), to[5] = take();
        put_number(to + 6, mostly(1800), 2), put_number(to + 8, mostly(0), 4), put_number(to + 12, mostly(0), 4);
    } else if (which == 2)
        put_mostly(to + 8, own_address);
    else if (which > 2)
        to[4] = which == 3 ? take() : 0, put_neighbour(to + 8);
    if (which == 4)
        put_address(to + 24);
    for (; options_left > 0; options_left--)
        length += put_option(to + length);
    return length;
}

/* Writes the checksum of a message behind an IPv6 header. */
static void put_sum(uint8_t *packet, size_t length)
{
    uint32_t sum = (uint32_t)length + 58;
    packet[42] = packet[43] = 0;
    for (size_t i = 8; i < 40 + length; i++)
        sum += i % 2 == 0 ? packet[i] << 8 : packet[i];
    while (sum >> 16 != 0)
        sum = (sum & 0xffff) + (sum >> 16);
    put_number(packet + 42, ~sum, 2);
}

/* Writes a frame with a message or another packet, and changes it now and then; or the last frame of another node. Returns its length. */
static size_t put_frame(uint8_t *frame)
{
    static const nd_mac group = {{0x33, 0x33, 0, 0, 0, 1}};
    const nd_addr usual[] = {ALL_ROUTERS, ALL_NODES, own_group, own_address, own_address};
    bool is_message = !once_in(6);
    size_t length;
    memset(frame, 0, LONGEST);
    if (sent.length > 0 && sent.sender != own && once_in(6))
        return put(frame, sent.bytes, sent.length);
    put(frame, is_message || once_in(4) ? &group : &own_mac, sizeof group);
    put(frame + 6, (const uint8_t[]){2, 0, 0, 0, 0, 9, 0x86, 0xdd, 0x60}, 9);
    frame[20] = is_message ? 58 : 17, frame[21] = is_message && !once_in(16) ? 255 : take();
    length = is_message ? put_message(frame + 54) : 8 * below(180);
    put_neighbour(frame + 22), is_message ? put_mostly(frame + 38, usual[frame[54] - 133]) : put_address(frame + 38);
    put_number(frame + 18, (uint32_t)length, 2);
    if (once_in(16)) {
        uint8_t *at = frame + 14 + below(40 + (uint32_t)length % 200);
        *at ^= take();
    }
    if (is_message && !once_in(16))
        put_sum(frame + 14, length);
    return once_in(16) ? take() % (54 + length) : 54 + length;
}

/* What the next call is passed. */
static struct {
    uint8_t bytes[LONGEST];
    size_t length;
    nd_message message; /* what precedes `bytes` there */
    nd_addr one, other;
    nd_own_address own;
    nd_advertising settings;
    nd_offer_row offer;
    nd_route_row route;
    uint32_t number;
    bool are_good;
} with;

static bool is_good_advertising(const nd_advertising *s)
{
    return s->max_interval >= 4 && s->max_interval <= 1800 && s->min_interval >= 3 && 4 * (uint64_t)s->min_interval <= 3 * s->max_interval &&
           (s->lifetime == 0 || (s->lifetime >= s->max_interval && s->lifetime <= 9000)) && s->reachable_time <= 3600000 &&
           (s->mtu == 0 || (s->mtu >= 1280 && s->mtu <= 1500)) && s->preference <= (s->lifetime > 0 ? 2 : 0);
}

/* Returns true if an interface may have an address by hand, with these lifetimes. */
static bool is_good_own(const nd_own_address *own)
{
    static const nd_addr unspecified = {{0}}, loopback = {{[15] = 1}};
    return own->address.bytes[0] != 0xff && memcmp(&own->address, &unspecified, sizeof unspecified) != 0 &&
           memcmp(&own->address, &loopback, sizeof loopback) != 0 && own->valid_lifetime > 0 && own->preferred_lifetime <= own->valid_lifetime;
}

static void prepare_settings(void)
{
    nd_advertising *settings = &with.settings;
    *settings = (nd_advertising){.hop_limit = 64, .other = 1};
    settings->min_interval = mostly(200), settings->max_interval = mostly(600), settings->lifetime = mostly(1800);
    settings->reachable_time = mostly(0), settings->retrans_timer = mostly(0), settings->mtu = mostly(1500);
    settings->preference = (uint8_t)below(4);
}

static void prepare_router(enum call call)
{
    static const uint32_t BITS[] = {64, 64, 64, 64, 0, 48, 128, 129};
    const uint8_t *prefix = with.one.bytes;
    uint32_t bits = BITS[below(8)];
    if (call == ADVERTISE) {
        prepare_settings();
        with.are_good = is_good_advertising(&with.settings);
    } else if (call == OFFER) {
        with.offer = (nd_offer_row){.prefix = with.one, .bits = bits, .autonomous = 1};
        with.offer.valid_lifetime = mostly(7200), with.offer.preferred_lifetime = mostly(1800), with.offer.on_link = (uint8_t)below(2);
        with.are_good = bits <= 128 && with.offer.preferred_lifetime <= with.offer.valid_lifetime &&
                        (bits == 0 || (prefix[0] != 0xff && !(prefix[0] == 0xfe && prefix[1] == 0x80)));
    } else if (call == ROUTE) {
        if (with.other.bytes[0] == 0 || with.other.bytes[0] == 0xff)
            with.other.bytes[0] = 0x20; /* a router of an address that is none is taken, and a bad solicitation sent for it: nd.h says so */
        with.route = (nd_route_row){with.one, with.other, bits, once_in(8) ? below(4) : 1 + below(2)};
        with.are_good = bits <= 128 && (with.route.hop == ND_HOP_DIRECT || with.route.hop == ND_HOP_VIA);
    }
}

/* Takes the fields of a frame's header for nd_receive_message, and leaves what follows the header. */
static void prepare_message(void)
{
    size_t length = put_frame(with.bytes);
    with.message = (nd_message){.hop_limit = with.bytes[21]};
    with.message.checksum_good = (uint8_t)(once_in(32) ? 2 : below(2));
    with.message.reserved = once_in(64);
    memcpy(&with.message.source, with.bytes + 22, sizeof with.message.source);
    memcpy(&with.message.destination, with.bytes + 38, sizeof with.message.destination);
    with.length = length > 54 ? length - 54 : 0;
    memmove(with.bytes, with.bytes + 54, with.length);
    with.are_good = with.message.checksum_good <= 1 && with.message.reserved == 0 && with.length > 0 && with.bytes[0] >= 133 && with.bytes[0] <= 137;
}

/* Makes what a call is passed, and notes whether it is in its range. */
static void prepare(enum call call)
{
    static const size_t LENGTHS[] = {0, 4, 4, 1240, 1241, 1460, 1461, 2000};
    with.one = an_address(), with.other = an_address(), with.are_good = true;
    if (call == RECEIVE)
        with.length = put_frame(with.bytes);
    else if (call == MESSAGE)
        prepare_message();
    else if (call == SEND)
        with.length = LENGTHS[below(8)], with.one = once_in(4) ? with.one : own_address;
    else if (call == CONFIRM_TO)
        with.number = a_number();
    else if (call == CLEAR)
        with.number = below(7), with.are_good = with.number >= ND_CLEARABLE_NEIGHBOURS && with.number <= ND_CLEARABLE_DNS;
    else if (call == ADD_ADDRESS) {
        with.own = (nd_own_address){.address = with.one};
        with.own.valid_lifetime = mostly(1800), with.own.preferred_lifetime = mostly(600);
        with.are_good = is_good_own(&with.own);
    }
    prepare_router(call);
}
#endif
