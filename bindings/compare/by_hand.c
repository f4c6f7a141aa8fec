/* by_hand: what a node does for the lines of `measure compare`, written by hand in C for these lines alone. A host receives Router Advertisements,
 * Neighbor Solicitations, Neighbor Advertisements and Redirects with the checks of RFC 4861 (6.1.2, 7.1 and 8.1). It keeps each table, state and date,
 * and gives the same records, frames and paths as the library, which bindings/check compares. A call writes its records and its frame to the caller's
 * buffers, and no call asks for memory.
 *
 * What the lines do not need is not written: a frame that is dropped, an address that is tried, a packet that waits, an entry that is evicted, and what
 * is done when something is due. There the program ends (`usual`). Each entry has its own date, and the node has a bound that is not above any of them.
 * When the bound is reached, all entries are looked through for the earliest date. The arguments are those of measure.c. The processor is
 * little-endian. */
#include "lines.h"

__extension__ typedef unsigned __int128 number128;
typedef number128 address; /* an IPv6 address as a number */

enum { ETHERNET = 14, HEADERS = 54, ADDRESS = 16, LINK_LAYER = 6, ICMPV6 = 58, ANSWER = 32 };
enum { MOST_NEIGHBOURS = 2048, MOST_ROWS = 64, MOST_NAMES = 32, MOST_REDIRECTS = 64, MOST_ANSWERS = 256, WAYS = 4, MOST_OPTIONS = 64 };
enum { ROUTER_ADVERTISEMENT = 134, NEIGHBOR_SOLICITATION, NEIGHBOR_ADVERTISEMENT, REDIRECT };
enum { SOURCE_LINK_LAYER = 1, TARGET_LINK_LAYER, PREFIX_INFORMATION, MTU = 5, RDNSS = 25, DNSSL = 31 };
enum { IS_ROUTER = 0x80, IS_SOLICITED = 0x40, IS_OVERRIDE = 0x20, IS_ON_LINK = 0x80, IS_AUTONOMOUS = 0x40 };
enum { DELAY_FIRST_PROBE_TIME = 5000, STALE_TIME = 86400000, TWO_HOURS = 7200000, LEAST_MTU = 1280, ETHERNET_MTU = 1500 };

struct neighbour {
    address address;
    uint64_t due;
    uint8_t mac[LINK_LAYER];
    uint8_t state; /* enum nd_reachability */
    bool is_router;
};

/* A default router, a prefix on the link, or a DNS server. */
struct row {
    address address;
    uint64_t end;
    uint8_t bits;      /* of a prefix; else 128 */
    int8_t preference; /* of a router: 1, 0 or -1 */
};

struct table {
    size_t count, most;
    struct row rows[MOST_ROWS];
};

/* One of the node's own addresses, which is assigned. */
struct own {
    address address;
    uint64_t valid_end, preferred_end;
};

/* A search name: labels in small letters, each behind its length, and a zero. */
struct name {
    uint64_t end;
    size_t length;
    uint8_t spelled[256];
};

struct redirect {
    address destination, target;
    uint64_t number; /* of the last Redirect for the destination */
};

struct answer {
    address destination;
    nd_path path;
};

struct node {
    uint64_t last, due, version, redirected, reachable_time;
    uint32_t base_reachable_time, retrans_timer, mtu;
    uint8_t mac[LINK_LAYER], hop_limit, flags; /* flags: the byte with M and O of the last Router Advertisement */
    size_t neighbour_count, most_neighbours, own_count, name_count, redirect_count;
    struct neighbour neighbours[MOST_NEIGHBOURS]; /* in the order of their addresses */
    struct redirect redirects[MOST_REDIRECTS];    /* in the order of their destinations */
    struct table routers, prefixes, servers;
    struct own own[MOST_ROWS];
    struct name names[MOST_NAMES];
    struct answer answers[MOST_ANSWERS];
};

struct options {
    const uint8_t *link_layer, *mtu; /* of the first one; NULL if there is none */
    const uint8_t *prefixes[MOST_OPTIONS], *servers[MOST_OPTIONS], *names[MOST_OPTIONS];
    size_t prefix_count, server_count, name_count;
};

struct message {
    const uint8_t *packet, *body, *end;
    address source, destination;
    uint8_t type;
    struct options options;
};

/* Ends the program if what follows is not written by hand. */
static inline void usual(bool holds, const char *what)
{
    if (__builtin_expect(holds, true))
        return;
    fprintf(stderr, "by_hand: not written by hand: %s\n", what);
    exit(2);
}

/* ---- numbers and addresses ---- */

static inline uint16_t number16(const uint8_t *bytes)
{
    uint16_t number;
    memcpy(&number, bytes, sizeof number);
    return __builtin_bswap16(number);
}

static inline uint32_t number32(const uint8_t *bytes)
{
    uint32_t number;
    memcpy(&number, bytes, sizeof number);
    return __builtin_bswap32(number);
}

static inline uint64_t word(const uint8_t *bytes)
{
    uint64_t number;
    memcpy(&number, bytes, sizeof number);
    return number;
}

static inline address address_of(const uint8_t *bytes)
{
    return (address)__builtin_bswap64(word(bytes)) << 64 | __builtin_bswap64(word(bytes + 8));
}

static inline void write_address(uint8_t *bytes, address from)
{
    const uint64_t words[2] = {__builtin_bswap64((uint64_t)(from >> 64)), __builtin_bswap64((uint64_t)from)};
    memcpy(bytes, words, sizeof words);
}

static inline bool is_multicast(address it)
{
    return it >> 120 == 0xff;
}

static inline bool is_link_local(address it)
{
    return it >> 118 == 0xfe80 >> 6;
}

static inline address solicited_node(address it)
{
    return (address)0xff02 << 112 | (address)0x1ff << 24 | (it & 0xffffff);
}

static inline bool same_mac(const uint8_t *one, const uint8_t *other)
{
    return memcmp(one, other, LINK_LAYER) == 0;
}

/* Returns true if bytes are the same, of which there are `length`. */
static inline bool same_bytes(const uint8_t *one, const uint8_t *other, size_t length)
{
    uint64_t differences = 0;
    if (length < sizeof differences)
        return memcmp(one, other, length) == 0;
    for (size_t at = 0; at + sizeof differences < length; at += sizeof differences)
        differences |= word(one + at) ^ word(other + at);
    length -= sizeof differences;
    return (differences | (word(one + length) ^ word(other + length))) == 0;
}

/* Returns the ones' complement sum of the bytes of a message and of its pseudo-header (RFC 8200, 8.1), in the order of the processor. `addresses` are
 * its source, its destination and behind them its `length` bytes. */
static inline uint16_t sum_of(const uint8_t *addresses, size_t length)
{
    const uint8_t *at = addresses;
    size_t left = 2 * ADDRESS + length;
    number128 total = (number128)__builtin_bswap16(ICMPV6) + __builtin_bswap16((uint16_t)length);
    uint8_t rest[8] = {0};
    for (; left >= 8; left -= 8, at += 8)
        total += word(at);
    if (left > 0) {
        memcpy(rest, at, left);
        total += word(rest);
    }
    uint64_t folded = (uint64_t)(total >> 64) + ((uint64_t)total >> 32) + (uint32_t)total;
    folded = (folded >> 32) + (uint32_t)folded;
    folded = (folded >> 16) + (folded & 0xffff);
    folded = (folded >> 16) + (folded & 0xffff);
    return (uint16_t)((folded >> 16) + (folded & 0xffff));
}

/* ---- dates ---- */

/* Notes that something is due at a moment. An earlier one than before ends all leases. */
static inline void note_due(struct node *node, uint64_t moment)
{
    if (moment >= node->due)
        return;
    node->due = moment;
    node->version++;
}

static inline uint64_t end_of(uint64_t now, uint32_t lifetime)
{
    return lifetime == ND_LIFETIME_INFINITE ? ND_FOREVER : now + UINT64_C(1000) * lifetime;
}

static uint64_t earliest_end(const struct table *table, uint64_t due)
{
    for (size_t i = 0; i < table->count; i++)
        due = table->rows[i].end < due ? table->rows[i].end : due;
    return due;
}

/* Finds the earliest date anew. */
static void find_due(struct node *node, uint64_t now)
{
    uint64_t due = earliest_end(&node->routers, earliest_end(&node->prefixes, earliest_end(&node->servers, UINT64_MAX)));
    for (size_t i = 0; i < node->neighbour_count; i++)
        due = node->neighbours[i].due < due ? node->neighbours[i].due : due;
    for (size_t i = 0; i < node->own_count; i++)
        due = node->own[i].valid_end < due ? node->own[i].valid_end : due;
    for (size_t i = 0; i < node->name_count; i++)
        due = node->names[i].end < due ? node->names[i].end : due;
    usual(now < due, "something is due");
    node->due = due;
}

/* Lets time pass. */
static inline void pass(struct node *node, uint64_t now)
{
    usual(now >= node->last && now < ND_MOMENT_LIMIT, "a moment before the last one");
    if (now >= node->due)
        find_due(node, now);
    node->last = now;
}

/* ---- neighbours ---- */

/* Returns the index of the last of the rows, each of which begins with its address, that is not behind an address; 0 if all are. */
static inline size_t index_of(const void *rows, size_t size, size_t count, address it)
{
    const uint8_t *first = rows;
    size_t low = 0;
    while (count > 1) {
        const size_t half = count / 2;
        low = *(const address *)(first + (low + half) * size) <= it ? low + half : low;
        count -= half;
    }
    return low;
}

static inline struct neighbour *neighbour_of(struct node *node, address it)
{
    struct neighbour *found = &node->neighbours[index_of(node->neighbours, sizeof *found, node->neighbour_count, it)];
    return node->neighbour_count > 0 && found->address == it ? found : NULL;
}

static struct neighbour *new_neighbour(struct node *node, address it)
{
    size_t at = index_of(node->neighbours, sizeof *node->neighbours, node->neighbour_count, it);
    at += node->neighbour_count > 0 && node->neighbours[at].address < it;
    usual(node->neighbour_count < node->most_neighbours, "a full cache");
    memmove(&node->neighbours[at + 1], &node->neighbours[at], (node->neighbour_count - at) * sizeof *node->neighbours);
    node->neighbour_count++;
    node->neighbours[at] = (struct neighbour){.address = it};
    return &node->neighbours[at];
}

static inline void set_state(struct node *node, struct neighbour *neighbour, uint8_t state, uint64_t due)
{
    neighbour->state = state;
    neighbour->due = due;
    note_due(node, due);
}

/* Enters the link-layer address that a message gives (RFC 4861, 6.3.4, 7.2.3 and 8.3), and returns its neighbour. */
static inline struct neighbour *heard_of(struct node *node, uint64_t now, address it, const uint8_t *mac, bool is_router)
{
    struct neighbour *neighbour = neighbour_of(node, it);
    if (neighbour == NULL)
        neighbour = new_neighbour(node, it);
    if (neighbour->state == 0 || !same_mac(neighbour->mac, mac)) {
        memcpy(neighbour->mac, mac, LINK_LAYER);
        set_state(node, neighbour, ND_REACHABILITY_STALE, now + STALE_TIME);
    }
    neighbour->is_router |= is_router;
    return neighbour;
}

/* A packet is sent to a neighbour (RFC 4861, 7.3.3). */
static inline void use(struct node *node, uint64_t now, struct neighbour *neighbour)
{
    if (neighbour->state == ND_REACHABILITY_STALE)
        set_state(node, neighbour, ND_REACHABILITY_DELAY, now + DELAY_FIRST_PROBE_TIME);
}

/* ---- next hops ---- */

static inline struct redirect *redirect_of(struct node *node, address destination)
{
    struct redirect *found = &node->redirects[index_of(node->redirects, sizeof *found, node->redirect_count, destination)];
    return node->redirect_count > 0 && found->destination == destination ? found : NULL;
}

static inline bool is_on_link(const struct node *node, address destination)
{
    if (is_link_local(destination))
        return true;
    for (size_t i = 0; i < node->prefixes.count; i++) {
        const struct row *prefix = &node->prefixes.rows[i];
        if (prefix->bits == 0 || (prefix->address ^ destination) >> (128 - prefix->bits) == 0)
            return true;
    }
    return false;
}

/* Returns the default router whose preference is highest (RFC 4191, 3.2). All of them are neighbours. */
static inline address best_router(struct node *node)
{
    const struct row *best = NULL;
    for (size_t i = 0; i < node->routers.count; i++) {
        const struct row *router = &node->routers.rows[i];
        usual(neighbour_of(node, router->address) != NULL, "a router whose link-layer address is not known");
        if (best == NULL || router->preference > best->preference)
            best = router;
    }
    usual(best != NULL, "a destination without a next hop");
    return best->address;
}

/* Returns the next hop of a destination (RFC 4861, 5.2 and 8.3). `redirect` is its own one, or NULL. */
static inline address next_hop(struct node *node, address destination, const struct redirect *redirect)
{
    if (redirect != NULL)
        return redirect->target;
    return is_on_link(node, destination) ? destination : best_router(node);
}

/* ---- messages ---- */

static inline void write_record(nd_out *record, uint64_t now, uint32_t kind, uint32_t code, size_t length, const uint8_t *source)
{
    *record = (nd_out){.moment = now, .length = length, .kind = kind, .code = code};
    if (source != NULL)
        memcpy(record->address.bytes, source, ADDRESS);
}

/* Goes over the options of a message (RFC 4861, 4.6). `wanted` is the type of the link-layer address that it may give. */
static inline void read_options(struct message *message, const uint8_t *at, uint8_t wanted)
{
    struct options *options = &message->options;
    options->link_layer = options->mtu = NULL;
    options->prefix_count = options->server_count = options->name_count = 0;
    for (size_t length; at < message->end; at += length) {
        usual(message->end - at >= 8, "options that are cut");
        length = 8 * (size_t)at[1];
        usual(length > 0 && length <= (size_t)(message->end - at), "an option that is cut");
        if (at[0] == wanted && length == 8 && options->link_layer == NULL)
            options->link_layer = at + 2;
        else if (at[0] == PREFIX_INFORMATION && length == 32)
            options->prefixes[options->prefix_count++ % MOST_OPTIONS] = at;
        else if (at[0] == MTU && length == 8 && options->mtu == NULL)
            options->mtu = at + 4;
        else if (at[0] == RDNSS && length >= 24 && length % 16 == 8)
            options->servers[options->server_count++ % MOST_OPTIONS] = at;
        else if (at[0] == DNSSL && length >= 16)
            options->names[options->name_count++ % MOST_OPTIONS] = at;
    }
    usual(options->prefix_count <= MOST_OPTIONS && options->server_count <= MOST_OPTIONS && options->name_count <= MOST_OPTIONS, "so many options");
}

/* Reads a message out of a frame, with the checks that all four kinds have. */
static inline void read_message(struct message *message, const uint8_t *frame, size_t length)
{
    static const uint8_t LEAST[] = {16, 24, 24, 40};
    const uint8_t *packet = frame + ETHERNET, *body = frame + HEADERS;
    usual(length > HEADERS && number16(frame + 12) == 0x86dd && packet[0] >> 4 == 6, "another packet than one of IPv6");
    const size_t size = number16(packet + 4);
    const uint8_t kind = (uint8_t)(body[0] - ROUTER_ADVERTISEMENT);
    usual(size <= length - HEADERS && packet[6] == ICMPV6 && kind < sizeof LEAST && size >= LEAST[kind], "another message");
    usual(packet[7] == 255 && body[1] == 0 && sum_of(packet + 8, size) == 0xffff, "a message that is not valid");
    message->packet = packet;
    message->body = body;
    message->end = body + size;
    message->type = body[0];
    message->source = address_of(packet + 8);
    message->destination = address_of(packet + 24);
    read_options(message, body + LEAST[kind], body[0] < NEIGHBOR_ADVERTISEMENT ? SOURCE_LINK_LAYER : TARGET_LINK_LAYER);
}

static inline const struct own *own_of(const struct node *node, address it)
{
    for (size_t i = 0; i < node->own_count; i++)
        if (node->own[i].address == it)
            return &node->own[i];
    return NULL;
}

/* Returns true if a message to a destination is for the node. */
static inline bool is_for_us(const struct node *node, address destination)
{
    if (destination == ((address)0xff02 << 112 | 1))
        return true;
    for (size_t i = 0; i < node->own_count; i++)
        if (node->own[i].address == destination || solicited_node(node->own[i].address) == destination)
            return true;
    return false;
}

/* ---- Neighbor Solicitations and Advertisements ---- */

static inline void write_headers(const struct node *node, uint8_t *frame, const uint8_t *mac, size_t length, uint8_t next_header, uint8_t hop_limit,
                                 const uint8_t *source, const uint8_t *destination)
{
    const uint8_t first[] = {0x86, 0xdd, 0x60, 0, 0, 0, (uint8_t)(length >> 8), (uint8_t)length, next_header, hop_limit};
    memcpy(frame, mac, LINK_LAYER);
    memcpy(frame + 6, node->mac, LINK_LAYER);
    memcpy(frame + 12, first, sizeof first);
    memcpy(frame + 22, source, ADDRESS);
    memcpy(frame + 38, destination, ADDRESS);
}

/* Writes the advertisement that answers a solicitation, and returns its length. */
static inline size_t write_answer(const struct node *node, uint8_t *frame, const uint8_t *target, const uint8_t *asker, const uint8_t *mac)
{
    static const uint8_t FIRST[] = {NEIGHBOR_ADVERTISEMENT, 0, 0, 0, IS_SOLICITED | IS_OVERRIDE, 0, 0, 0};
    uint8_t *body = frame + HEADERS;
    write_headers(node, frame, mac, ANSWER, ICMPV6, 255, target, asker);
    memcpy(body, FIRST, sizeof FIRST);
    memcpy(body + 8, target, ADDRESS);
    body[24] = TARGET_LINK_LAYER;
    body[25] = 1;
    memcpy(body + 26, node->mac, LINK_LAYER);
    const uint16_t checksum = (uint16_t)~sum_of(frame + 22, ANSWER);
    memcpy(body + 2, &checksum, sizeof checksum);
    return HEADERS + ANSWER;
}

/* RFC 4861, 7.1.1 and 7.2.3. The sender gives its link-layer address. */
static inline size_t hear_solicitation(struct node *node, uint64_t now, const struct message *message, nd_out *records, uint8_t *buffer)
{
    const uint8_t *target = message->body + 8, *mac = message->options.link_layer;
    usual(message->source != 0 && mac != NULL && own_of(node, address_of(target)) != NULL, "a solicitation that is not answered");
    struct neighbour *asker = heard_of(node, now, message->source, mac, false);
    use(node, now, asker);
    const size_t length = write_answer(node, buffer, target, message->packet + 8, asker->mac);
    write_record(&records[1], now, ND_OUT_FRAME, 0, length, NULL);
    return 2;
}

/* RFC 4861, 7.1.2 and 7.2.5. The neighbour is not INCOMPLETE. */
static inline size_t hear_advertisement(struct node *node, uint64_t now, const struct message *message)
{
    const uint8_t flags = message->body[4], *mac = message->options.link_layer;
    const address target = address_of(message->body + 8);
    usual(!is_multicast(target) && !((flags & IS_SOLICITED) && is_multicast(message->destination)), "an advertisement that is not valid");
    usual(own_of(node, target) == NULL, "an advertisement of one of the node's own addresses");
    struct neighbour *neighbour = neighbour_of(node, target);
    if (neighbour == NULL)
        return 1;
    const bool is_other = mac != NULL && !same_mac(neighbour->mac, mac);
    if (is_other && !(flags & IS_OVERRIDE)) {
        if (neighbour->state == ND_REACHABILITY_REACHABLE)
            set_state(node, neighbour, ND_REACHABILITY_STALE, now + STALE_TIME);
        return 1;
    }
    if (is_other)
        memcpy(neighbour->mac, mac, LINK_LAYER);
    if (flags & IS_SOLICITED)
        set_state(node, neighbour, ND_REACHABILITY_REACHABLE, now + node->reachable_time);
    else if (is_other)
        set_state(node, neighbour, ND_REACHABILITY_STALE, now + STALE_TIME);
    usual(!neighbour->is_router || (flags & IS_ROUTER), "a router that is none now");
    neighbour->is_router = (flags & IS_ROUTER) != 0;
    return 1;
}

/* ---- Redirects ---- */

static void add_redirect(struct node *node, address destination, address target)
{
    size_t at = index_of(node->redirects, sizeof *node->redirects, node->redirect_count, destination);
    at += node->redirect_count > 0 && node->redirects[at].destination < destination;
    usual(node->redirect_count < MOST_REDIRECTS, "more redirects than are kept");
    memmove(&node->redirects[at + 1], &node->redirects[at], (node->redirect_count - at) * sizeof *node->redirects);
    node->redirect_count++;
    node->redirects[at] = (struct redirect){destination, target, ++node->redirected};
}

/* RFC 4861, 8.1 and 8.3. */
static inline size_t hear_redirect(struct node *node, uint64_t now, const struct message *message)
{
    const address target = address_of(message->body + 8), destination = address_of(message->body + 24);
    struct redirect *redirect = redirect_of(node, destination);
    usual(is_link_local(message->source) && !is_multicast(destination), "a Redirect that is not valid");
    usual(is_link_local(target) || target == destination, "a Redirect to no router");
    usual(next_hop(node, destination, redirect) == message->source, "a Redirect of another node than the first hop");
    if (message->options.link_layer != NULL)
        heard_of(node, now, target, message->options.link_layer, target != destination);
    if (redirect == NULL) {
        add_redirect(node, destination, target);
        return 1;
    }
    redirect->target = target;
    redirect->number = ++node->redirected;
    return 1;
}

/* ---- Router Advertisements ---- */

/* Gives the row of an address, or of a prefix, a new end, and adds it if it is new. Returns the row. */
static inline struct row *renew(struct node *node, struct table *table, address it, uint8_t bits, uint64_t now, uint32_t lifetime)
{
    size_t at = 0;
    while (at < table->count && (table->rows[at].address != it || table->rows[at].bits != bits))
        at++;
    usual(lifetime > 0, "a lifetime of 0");
    if (at == table->count) {
        usual(table->count < table->most, "a full table");
        table->rows[table->count++] = (struct row){.address = it, .bits = bits};
    }
    table->rows[at].end = end_of(now, lifetime);
    note_due(node, table->rows[at].end);
    return &table->rows[at];
}

/* RFC 4861, 6.3.4: what the message says of the link. */
static inline void take_parameters(struct node *node, const struct message *message)
{
    const uint32_t reachable = number32(message->body + 8), retrans = number32(message->body + 12);
    if (message->body[4] > 0)
        node->hop_limit = message->body[4];
    node->flags = message->body[5];
    usual(reachable == 0 || reachable == node->base_reachable_time, "another ReachableTime");
    if (retrans > 0)
        node->retrans_timer = retrans;
    if (message->options.mtu == NULL)
        return;
    const uint32_t mtu = number32(message->options.mtu);
    if (mtu >= LEAST_MTU && mtu <= ETHERNET_MTU)
        node->mtu = mtu;
}

/* RFC 4862, 5.5.3: renews the address that a prefix of 64 bits forms with the identifier of the link-local one, or adds it. */
static inline void take_address(struct node *node, uint64_t now, address prefix, uint32_t valid, uint32_t preferred)
{
    const address formed = prefix | (uint64_t)node->own[0].address;
    const uint64_t end = end_of(now, valid);
    size_t at = 0;
    while (at < node->own_count && node->own[at].address != formed)
        at++;
    struct own *own = &node->own[at];
    usual(at < node->own_count || (valid > 0 && at < MOST_ROWS), "an address that is not formed");
    if (at == node->own_count)
        node->own[node->own_count++] = (struct own){.address = formed, .valid_end = end};
    if (end > now + TWO_HOURS || end > own->valid_end)
        own->valid_end = end;
    else if (own->valid_end > now + TWO_HOURS)
        own->valid_end = now + TWO_HOURS;
    own->preferred_end = end_of(now, preferred);
    note_due(node, own->valid_end);
}

/* RFC 4861, 6.3.4, and RFC 4862, 5.5.3: an option Prefix Information. */
static inline void take_prefix(struct node *node, uint64_t now, const uint8_t *option)
{
    const uint8_t bits = option[2], flags = option[3];
    const uint32_t valid = number32(option + 4), preferred = number32(option + 8);
    address prefix = address_of(option + 16);
    if (bits > 128)
        return;
    prefix = bits == 0 ? 0 : prefix >> (128 - bits) << (128 - bits);
    if (is_link_local(prefix) || is_multicast(prefix))
        return;
    if (flags & IS_ON_LINK)
        renew(node, &node->prefixes, prefix, bits, now, valid);
    if ((flags & IS_AUTONOMOUS) && preferred <= valid && bits == 64)
        take_address(node, now, prefix, valid, preferred);
}

/* RFC 8106, 5.1. */
static inline void take_servers(struct node *node, uint64_t now, const uint8_t *option)
{
    const uint8_t *end = option + 8 * option[1];
    for (const uint8_t *at = option + 8; at < end; at += ADDRESS)
        renew(node, &node->servers, address_of(at), 128, now, number32(option + 4));
}

/* Returns the kept name whose bytes are those at the beginning of others, which go to `end`; NULL if there is none. */
static inline struct name *name_at(struct node *node, const uint8_t *at, const uint8_t *end)
{
    for (size_t i = 0; i < node->name_count; i++) {
        struct name *name = &node->names[i];
        if (name->length <= (size_t)(end - at) && same_bytes(name->spelled, at, name->length))
            return name;
    }
    return NULL;
}

static inline uint8_t lower(uint8_t letter)
{
    return letter >= 'A' && letter <= 'Z' ? letter + ('a' - 'A') : letter;
}

static inline bool is_in_names(uint8_t letter)
{
    return (letter >= 'a' && letter <= 'z') || (letter >= '0' && letter <= '9') || letter == '-' || letter == '_';
}

/* Writes a name in small letters, and returns its length. */
static size_t write_lower(uint8_t *name, const uint8_t *at, const uint8_t *end)
{
    const size_t room = end - at < 255 ? (size_t)(end - at) : 255;
    size_t length = 0, label;
    do {
        usual(length < room && at[length] < 64 && length + at[length] < room, "a label that is none");
        label = name[length] = at[length];
        length++;
        for (size_t last = length + label; length < last; length++) {
            name[length] = lower(at[length]);
            usual(is_in_names(name[length]), "another character in a name");
        }
    } while (label > 0);
    return length;
}

/* Returns a name that is not kept in these letters: the kept one, or a new one. */
static struct name *other_name(struct node *node, const uint8_t *at, const uint8_t *end)
{
    struct name it = {0};
    it.length = write_lower(it.spelled, at, end);
    struct name *name = name_at(node, it.spelled, it.spelled + it.length);
    if (name != NULL)
        return name;
    usual(node->name_count < MOST_NAMES, "more names than are kept");
    node->names[node->name_count] = it;
    return &node->names[node->name_count++];
}

/* RFC 8106, 5.2. */
static inline void take_names(struct node *node, uint64_t now, const uint8_t *option)
{
    const uint8_t *end = option + 8 * option[1];
    const uint64_t until = end_of(now, number32(option + 4));
    usual(until > now, "names that end");
    for (const uint8_t *at = option + 8; at < end && *at != 0;) {
        struct name *name = name_at(node, at, end);
        if (name == NULL)
            name = other_name(node, at, end);
        name->end = until;
        at += name->length;
    }
    note_due(node, until);
}

/* RFC 4861, 6.1.2 and 6.3.4, and RFC 4191, 2.2. */
static inline size_t hear_router(struct node *node, uint64_t now, const struct message *message)
{
    const struct options *options = &message->options;
    usual(is_link_local(message->source), "a Router Advertisement that is not valid");
    take_parameters(node, message);
    if (options->link_layer != NULL)
        heard_of(node, now, message->source, options->link_layer, true);
    struct row *router = renew(node, &node->routers, message->source, 128, now, number16(message->body + 6));
    const uint8_t preference = message->body[5] >> 3 & 3;
    router->preference = preference == 1 ? 1 : preference == 3 ? -1 : 0;
    for (size_t i = 0; i < options->prefix_count; i++)
        take_prefix(node, now, options->prefixes[i]);
    for (size_t i = 0; i < options->server_count; i++)
        take_servers(node, now, options->servers[i]);
    for (size_t i = 0; i < options->name_count; i++)
        take_names(node, now, options->names[i]);
    return 1;
}

/* ---- the calls. They are not inlined: what they write is not read where they are measured. ---- */

/* Receives a frame, and returns how many records it gives. The second one is a frame, which is in the buffer. */
__attribute__((noinline)) static size_t hear(struct node *node, uint64_t now, const struct frame *frame, nd_out *records, uint8_t *buffer)
{
    struct message message;
    pass(node, now);
    read_message(&message, frame->bytes, frame->length);
    usual(is_for_us(node, message.destination), "a message that is not for the node");
    write_record(&records[0], now, ND_OUT_HEARD, message.type, 0, message.packet + 8);
    records[0].changes = changes_by(&records[0]);
    node->version++;
    switch (message.type) {
    case ROUTER_ADVERTISEMENT:
        return hear_router(node, now, &message);
    case NEIGHBOR_SOLICITATION:
        return hear_solicitation(node, now, &message, records, buffer);
    case NEIGHBOR_ADVERTISEMENT:
        return hear_advertisement(node, now, &message);
    default:
        return hear_redirect(node, now, &message);
    }
}

/* Returns the neighbour by which a packet to a destination goes, and uses it. */
static inline struct neighbour *first_hop(struct node *node, uint64_t now, address destination)
{
    usual(!is_multicast(destination) && destination > 1 && own_of(node, destination) == NULL, "a destination that is no other node");
    struct neighbour *neighbour = neighbour_of(node, next_hop(node, destination, redirect_of(node, destination)));
    usual(neighbour != NULL, "a neighbour that is not known");
    use(node, now, neighbour);
    return neighbour;
}

/* Sends a packet: its frame is in the buffer, and the record says how long it is. */
__attribute__((noinline)) static void send_packet(struct node *node, uint64_t now, const nd_addr *source, const nd_addr *destination,
                                                  uint8_t next_header, const uint8_t *payload, size_t length, nd_out *record, uint8_t *buffer)
{
    pass(node, now);
    usual(40 + length <= node->mtu && own_of(node, address_of(source->bytes)) != NULL, "a packet that is refused");
    const struct neighbour *neighbour = first_hop(node, now, address_of(destination->bytes));
    write_headers(node, buffer, neighbour->mac, length, next_header, node->hop_limit, source->bytes, destination->bytes);
    memcpy(buffer + HEADERS, payload, length);
    write_record(record, now, ND_OUT_FRAME, 0, HEADERS + length, NULL);
}

/* Returns the first place for the answer of a destination. */
static inline size_t place_of(address destination)
{
    return (((uint64_t)(destination >> 64) ^ (uint64_t)destination) * UINT64_C(0x9e3779b97f4a7c15)) >> 56;
}

/* Finds where packets to a destination go, and keeps the answer in the first of its places whose answer does not hold, or else in the first one. */
static nd_path find_path(struct node *node, uint64_t now, address destination)
{
    const struct neighbour *neighbour = first_hop(node, now, destination);
    nd_path path = {.until = node->due, .version = node->version, .has_mac = 1, .state = neighbour->state};
    const size_t first = place_of(destination);
    size_t way = 0;
    path.hop = neighbour->address == destination ? ND_HOP_DIRECT : ND_HOP_VIA;
    write_address(path.next_hop.bytes, neighbour->address);
    memcpy(path.mac.bytes, neighbour->mac, LINK_LAYER);
    while (way < WAYS && node->answers[first ^ way].path.version == node->version)
        way++;
    node->answers[first ^ (way % WAYS)] = (struct answer){destination, path};
    return path;
}

/* Asks where packets to a destination go. A kept answer holds until something is due or the version grows. */
__attribute__((noinline)) static void resolve(struct node *node, uint64_t now, const nd_addr *to, nd_path *path)
{
    const address destination = address_of(to->bytes);
    const size_t first = place_of(destination);
    pass(node, now);
    for (size_t way = 0; way < WAYS; way++) {
        const struct answer *answer = &node->answers[first ^ way];
        if (answer->destination != destination || answer->path.version != node->version)
            continue;
        *path = answer->path;
        return;
    }
    *path = find_path(node, now, destination);
}

/* ---- the lines ---- */

static nd_out records[2];
static uint8_t buffer[LONGEST_FRAME];

/* Does a line, and returns how many records it gives. */
static inline size_t do_line(struct node *node, size_t line, nd_path *path)
{
    const struct frame *it = &frames[line];
    if (marks[line] == FRAME)
        return hear(node, moments[line], it, records, buffer);
    const nd_addr to = destination_of(line);
    if (marks[line] == RESOLVE) {
        resolve(node, moments[line], &to, path);
        return 0;
    }
    usual(marks[line] == SEND, "another line");
    send_packet(node, moments[line], &LINK_LOCAL, &to, 17, it->bytes + sizeof to.bytes, it->length - sizeof to.bytes, records, buffer);
    return 1;
}

static size_t run(void *node, size_t from, size_t end)
{
    nd_path path;
    for (size_t i = from; i < end; i++)
        do_line(node, i, &path);
    return 0;
}

__attribute__((noinline)) size_t measured(void *node, size_t from, size_t end);

__attribute__((noinline)) size_t measured(void *node, size_t from, size_t end)
{
    return run(node, from, end);
}

static size_t print_lines(void *node, size_t from, size_t end)
{
    nd_path path;
    for (size_t i = from; i < end; i++) {
        const size_t count = do_line(node, i, &path);
        printf("0\n");
        if (marks[i] == RESOLVE)
            print_path(&path);
        for (size_t k = 0; k < count; k++)
            print_record(&records[k], buffer);
    }
    return 0;
}

/* ---- the tables, as nd.h has them ---- */

static inline uint64_t left_of(uint64_t end, uint64_t now)
{
    return end == ND_FOREVER ? ND_FOREVER : end - now;
}

static void print_neighbours(const struct node *node)
{
    for (size_t i = 0; i < node->neighbour_count; i++) {
        const struct neighbour *it = &node->neighbours[i];
        nd_neighbour_row row = {.has_mac = 1, .is_router = it->is_router, .state = it->state};
        write_address(row.address.bytes, it->address);
        memcpy(row.mac.bytes, it->mac, LINK_LAYER);
        if (it->state == ND_REACHABILITY_REACHABLE)
            row.reachable_left = it->due - node->last;
        print_bytes(&row, sizeof row);
    }
}

static void print_routers(const struct node *node)
{
    for (size_t i = 0; i < node->routers.count; i++) {
        const struct row *it = &node->routers.rows[i];
        nd_router_row row = {.left = it->end - node->last};
        write_address(row.address.bytes, it->address);
        row.preference = it->preference > 0 ? ND_PREFERENCE_HIGH : it->preference < 0 ? ND_PREFERENCE_LOW : ND_PREFERENCE_MEDIUM;
        print_bytes(&row, sizeof row);
    }
}

static void print_prefixes(const struct node *node)
{
    for (size_t i = 0; i < node->prefixes.count; i++) {
        const struct row *it = &node->prefixes.rows[i];
        nd_prefix_row row = {.left = left_of(it->end, node->last), .bits = it->bits};
        write_address(row.prefix.bytes, it->address);
        print_bytes(&row, sizeof row);
    }
}

static int by_address(const void *one, const void *other)
{
    const address first = ((const struct own *)one)->address, second = ((const struct own *)other)->address;
    return (first > second) - (first < second);
}

static void print_own(const struct node *node)
{
    struct own sorted[MOST_ROWS];
    memcpy(sorted, node->own, sizeof sorted);
    qsort(sorted, node->own_count, sizeof *sorted, by_address);
    for (size_t i = 0; i < node->own_count; i++) {
        nd_address_row row = {.state = ND_STATE_PREFERRED};
        row.preferred_left = left_of(sorted[i].preferred_end, node->last);
        row.valid_left = left_of(sorted[i].valid_end, node->last);
        write_address(row.address.bytes, sorted[i].address);
        print_bytes(&row, sizeof row);
    }
}

static void print_servers(const struct node *node)
{
    for (size_t i = 0; i < node->servers.count; i++) {
        nd_server_row row = {.left = left_of(node->servers.rows[i].end, node->last)};
        write_address(row.address.bytes, node->servers.rows[i].address);
        print_bytes(&row, sizeof row);
    }
}

static void print_names(const struct node *node)
{
    for (size_t i = 0; i < node->name_count; i++) {
        const struct name *name = &node->names[i];
        nd_name_row row = {.left = left_of(name->end, node->last), .length = (uint32_t)name->length - 2};
        memcpy(row.text, name->spelled + 1, row.length);
        for (size_t at = name->spelled[0]; at < row.length; at += 1u + name->spelled[at + 1])
            row.text[at] = '.';
        print_bytes(&row, sizeof row);
    }
}

/* The last one is first. */
static int by_number(const void *one, const void *other)
{
    const uint64_t first = ((const struct redirect *)one)->number, second = ((const struct redirect *)other)->number;
    return (first < second) - (first > second);
}

static void print_redirects(const struct node *node)
{
    struct redirect sorted[MOST_REDIRECTS];
    memcpy(sorted, node->redirects, sizeof sorted);
    qsort(sorted, node->redirect_count, sizeof *sorted, by_number);
    for (size_t i = 0; i < node->redirect_count; i++) {
        nd_redirect_row row;
        write_address(row.destination.bytes, sorted[i].destination);
        write_address(row.target.bytes, sorted[i].target);
        print_bytes(&row, sizeof row);
    }
}

static void print_tables(const struct node *node)
{
    nd_parameters_row parameters = {.reachable_time = node->reachable_time, .base_reachable_time = node->base_reachable_time};
    parameters.retrans_timer = node->retrans_timer;
    parameters.mtu = node->mtu;
    parameters.hop_limit = node->hop_limit;
    parameters.managed = node->flags >> 7;
    parameters.other = node->flags >> 6 & 1;
    print_neighbours(node);
    print_routers(node);
    print_prefixes(node);
    print_own(node);
    print_servers(node);
    print_names(node);
    print_redirects(node);
    print_bytes(&parameters, sizeof parameters);
}

/* Opens the node of host_options, whose link-local address is assigned. */
static void open_node(struct node *node, size_t most_neighbours)
{
    memcpy(node->mac, MAC.bytes, LINK_LAYER);
    node->due = UINT64_MAX;
    node->version = 1;
    node->hop_limit = 64;
    node->mtu = ETHERNET_MTU;
    node->base_reachable_time = 30000;
    node->reachable_time = 15000; /* its random word is 0 */
    node->retrans_timer = 1000;
    node->own[node->own_count++] = (struct own){address_of(LINK_LOCAL.bytes), ND_FOREVER, ND_FOREVER};
    node->routers.most = 16;
    node->prefixes.most = MOST_ROWS;
    node->servers.most = 32;
    node->most_neighbours = most_neighbours;
}

int main(int argc, char **argv)
{
    static struct node node;
    size_t count = read_lines(), refused;
    require(argc == 3 || (argc == 4 && strcmp(argv[3], "records") == 0), "by_hand NEIGHBOURS MOMENT [records] < moments and frames");
    const size_t most = strtoul(argv[1], NULL, 10);
    require(most <= MOST_NEIGHBOURS, "at most 2,048 neighbours");
    open_node(&node, most);
    refused = run_lines(&node, count, strtoull(argv[2], NULL, 10), run, argc == 4 ? print_lines : measured);
    if (argc == 4)
        print_tables(&node);
    free_frames(frames, count);
    return refused > 0;
}
