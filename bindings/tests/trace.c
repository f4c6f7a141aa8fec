/* trace: `ndpctl run` over the library: the same options, lines and texts (docs/FORMATS.md). It is for well-formed scripts: a line that it cannot
 * read ends it with status 2, where a value out of range is found by the library alone. On the way it requires what nd.h says of moments and
 * records. With `--refuse N` the Nth request for memory is refused, none for 0; a call that returns ND_NO_MEMORY is made again, and standard error
 * says how many requests there were. */
#include "heap.h"
#include "nd_text.h"
#include "ranges.h"

#include <inttypes.h>
#include <stdarg.h>

static nd_node node;
static nd_options options;

static uint8_t buffer[131072];

static bool counts_requests;

/* The longest record that nd.h allows so far. */
static size_t longest = ND_BUFFER_BYTES;

/* ---- words ----------------------------------------------------------------------------------- */

static const char *const CLEARABLES[] = {"", "neighbours", "routers", "prefixes", "redirects", "dns"};

/* Returns the number of a word, or 0 if it is none. */
static uint32_t number_of(const char *const *words, uint32_t count, const char *word)
{
    for (uint32_t i = 0; i < count; i++)
        if (word != NULL && strcmp(words[i], word) == 0)
            return i;
    return 0;
}

/* ---- texts ----------------------------------------------------------------------------------- */

static void print_hex(const uint8_t *bytes, size_t length)
{
    for (size_t i = 0; i < length; i++)
        printf("%02x", bytes[i]);
}

/* Prints an address by RFC 5952. */
static void print_address(const nd_addr *address)
{
    unsigned groups[8], at = 8, length = 1;
    for (unsigned i = 0; i < 8; i++)
        groups[i] = (unsigned)address->bytes[2 * i] << 8 | address->bytes[2 * i + 1];
    for (unsigned i = 0; i < 8; i++) {
        unsigned zeros = 0;
        while (i + zeros < 8 && groups[i + zeros] == 0)
            zeros++;
        if (zeros > length)
            at = i, length = zeros;
    }
    for (unsigned i = 0; i < 8; i++) {
        if (i == at) {
            printf("::");
            i += length - 1;
            continue;
        }
        printf("%s%x", i > 0 && i != at + length ? ":" : "", groups[i]);
    }
}

static void print_mac(const nd_mac *mac)
{
    for (size_t i = 0; i < 6; i++)
        printf("%s%02x", i > 0 ? ":" : "", mac->bytes[i]);
}

static void print_left(uint64_t left)
{
    if (left == ND_FOREVER)
        printf(" inf");
    else
        printf(" %" PRIu64, left);
}

/* Prints a format in which %a is an address. */
static void say(const char *format, ...)
{
    va_list arguments;
    va_start(arguments, format);
    for (; *format != 0; format++) {
        if (*format != '%') {
            putchar(*format);
            continue;
        }
        switch (*++format) {
        case 'a': print_address(va_arg(arguments, const nd_addr *)); break;
        case 'm': print_mac(va_arg(arguments, const nd_mac *)); break;
        case 's': printf("%s", va_arg(arguments, const char *)); break;
        case 'u': printf("%" PRIu32, va_arg(arguments, uint32_t)); break;
        case 't': printf("%" PRIu64, va_arg(arguments, uint64_t)); break;
        case 'l': print_left(va_arg(arguments, uint64_t)); break;
        }
    }
    va_end(arguments);
}

/* ---- records --------------------------------------------------------------------------------- */

static nd_addr address_at(const uint8_t *bytes)
{
    nd_addr address;
    memcpy(address.bytes, bytes, sizeof address.bytes);
    return address;
}

static void print_lost(const nd_out *out)
{
    require(out->length >= 40 && buffer[0] >> 4 == 6, "what is lost begins with an IPv6 header");
    const nd_addr source = address_at(buffer + 8), destination = address_at(buffer + 24);
    say(" %s %a %a", nd_loss_text(out->code), &source, &destination);
}

static void print_reason(const nd_out *out)
{
    say(" %s", nd_refusal_text(out->code));
    if (out->code == ND_REFUSAL_NOT_OURS)
        say(" %a", &out->address);
    if (out->code == ND_REFUSAL_FULL)
        say(" %s", nd_limit_text(out->limit));
}

static void print_resolved(const nd_out *out)
{
    nd_mac mac;
    require(out->length == sizeof mac, "a link-layer address has 6 bytes");
    memcpy(&mac, buffer, sizeof mac);
    say(" %a %m", &out->address, &mac);
}

static void print_record(const nd_out *out)
{
    say("%t %s", out->moment, nd_kind_text(out->kind));
    switch (out->kind) {
    case ND_OUT_FRAME:
    case ND_OUT_UP: say(" "), print_hex(buffer, out->length); break;
    case ND_OUT_HEARD: say(" %s", nd_message_text(out->code)); break;
    case ND_OUT_DROPPED: say(" %u %s", out->code, nd_why_text(out->code)); break;
    case ND_OUT_DUPLICATE:
    case ND_OUT_ASSIGNED:
    case ND_OUT_ENDED_ADDRESS:
    case ND_OUT_ENDED_ROUTER:
    case ND_OUT_FAILED: say(" %a", &out->address); break;
    case ND_OUT_LOST: print_lost(out); break;
    case ND_OUT_REFUSED: print_reason(out); break;
    case ND_OUT_RESOLVED: print_resolved(out); break;
    case ND_OUT_IGNORED: say(" %s", nd_limit_text(out->limit)); break;
    default: require(false, "a record has a kind");
    }
    say("\n");
}

/* Requires that what a kind does not have is zero. */
static void require_zeros(const nd_out *out)
{
    static const nd_addr none = {{0}};
    bool has_code = out->kind == ND_OUT_HEARD || out->kind == ND_OUT_DROPPED || out->kind == ND_OUT_LOST || out->kind == ND_OUT_REFUSED;
    bool has_bytes = out->kind == ND_OUT_FRAME || out->kind == ND_OUT_UP || out->kind == ND_OUT_LOST || out->kind == ND_OUT_RESOLVED;
    bool is_full = out->kind == ND_OUT_IGNORED || (out->kind == ND_OUT_REFUSED && out->code == ND_REFUSAL_FULL);
    bool has_address = out->kind == ND_OUT_HEARD || (out->kind >= ND_OUT_DUPLICATE && out->kind <= ND_OUT_FAILED) || out->kind == ND_OUT_RESOLVED ||
                       (out->kind == ND_OUT_REFUSED && out->code == ND_REFUSAL_NOT_OURS);
    require(out->changes == changes_by(out) && (out->code != 0) == has_code && (out->length > 0) == has_bytes, "the fields of a record");
    require((out->limit != 0) == is_full && (has_address || memcmp(&out->address, &none, sizeof none) == 0), "the limit and the address of a record");
}

/* Prints all records, and returns the kind of the last one, or 0. */
static uint32_t print_records(void)
{
    nd_out out;
    uint32_t kind = 0;
    int32_t status;
    while ((status = nd_poll(&node, &out, buffer, sizeof buffer)) == ND_DONE) {
        require_zeros(&out);
        require(out.length <= longest, "ND_BUFFER_BYTES, or the longest frame that was received, is enough");
        print_record(&out);
        kind = out.kind;
    }
    require(status == ND_NOTHING, "the queue is emptied");
    return kind;
}

/* ---- rows ------------------------------------------------------------------------------------ */

static size_t show_neighbours(uint64_t now)
{
    nd_neighbour_row row, same;
    size_t i = 0;
    for (; nd_neighbour_at(&node, now, i, &row) == ND_DONE; i++) {
        say("%t neighbour %a ", now, &row.address);
        row.has_mac ? print_mac(&row.mac) : (void)putchar('-');
        say(" %s %s\n", nd_reachability_text(row.state), row.is_router ? "router" : "host");
        require(nd_neighbour_of(&node, now, &row.address, &same) == ND_DONE && memcmp(&row, &same, sizeof row) == 0, "nd_neighbour_of");
    }
    return i;
}

static size_t show_routers(uint64_t now)
{
    nd_router_row row;
    size_t i = 0;
    for (; nd_router_at(&node, now, i, &row) == ND_DONE; i++)
        say("%t router %a%l %s\n", now, &row.address, row.left, nd_preference_text(row.preference));
    return i;
}

static size_t show_prefixes(uint64_t now)
{
    nd_prefix_row row;
    size_t i = 0;
    for (; nd_prefix_at(&node, now, i, &row) == ND_DONE; i++)
        say("%t prefix %a/%u%l\n", now, &row.prefix, row.bits, row.left);
    return i;
}

static size_t show_addresses(uint64_t now)
{
    nd_address_row row;
    size_t i = 0;
    for (; nd_address_at(&node, now, i, &row) == ND_DONE; i++)
        say("%t address %a %s%l%l\n", now, &row.address, nd_state_text(row.state), row.preferred_left, row.valid_left);
    return i;
}

static size_t show_dns(uint64_t now)
{
    nd_server_row server;
    nd_name_row name;
    size_t i = 0, k = 0;
    for (; nd_server_at(&node, now, i, &server) == ND_DONE; i++)
        say("%t server %a%l\n", now, &server.address, server.left);
    for (; nd_name_at(&node, now, k, &name) == ND_DONE; k++) {
        require(name.length == strlen(name.text), "a name has its length");
        say("%t search %s%l\n", now, name.text, name.left);
    }
    return i + k;
}

static size_t show_redirects(uint64_t now)
{
    nd_redirect_row row;
    size_t i = 0;
    for (; nd_redirect_at(&node, now, i, &row) == ND_DONE; i++)
        say("%t redirect %a %a\n", now, &row.destination, &row.target);
    return i;
}

static size_t show_params(uint64_t now)
{
    nd_parameters_row row;
    require(nd_parameters_of(&node, now, &row) == ND_DONE, "nd_parameters_of");
    say("%t params hop %u mtu %u reachable %u %t retrans %u managed %u other %u\n", now, (uint32_t)row.hop_limit, row.mtu, row.base_reachable_time,
        row.reachable_time, row.retrans_timer, (uint32_t)row.managed, (uint32_t)row.other);
    return 1;
}

static size_t show_advertise(uint64_t now)
{
    nd_advertising settings;
    nd_offer_row row;
    size_t i = 0;
    int32_t status = nd_advertising_of(&node, now, &settings);
    require(status >= 0, "nd_advertising_of");
    if (options.role == ND_ROLE_HOST) {
        require(status == ND_NOTHING && nd_offer_at(&node, now, 0, &row) == ND_NOTHING, "a host advertises nothing");
        return 0;
    }
    say("%t advertise %s\n", now, status == ND_DONE ? "on" : "off");
    for (; nd_offer_at(&node, now, i, &row) == ND_DONE; i++)
        say("%t offer %a/%u %u %u %s%s\n", now, &row.prefix, row.bits, row.valid_lifetime, row.preferred_lifetime, row.on_link ? "l" : "",
            row.autonomous ? "a" : row.on_link ? "" : "-");
    return i + 1;
}

static size_t show_routes(uint64_t now)
{
    nd_route_row row;
    size_t i = 0;
    for (; nd_route_at(&node, now, i, &row) == ND_DONE; i++) {
        say("%t route %a/%u ", now, &row.prefix, row.bits);
        row.hop == ND_HOP_DIRECT ? say("direct\n") : say("%a\n", &row.router);
    }
    return i;
}

struct table {
    const char *word;
    size_t (*show)(uint64_t now);
};

static const struct table TABLES[] = {{"neighbours", show_neighbours}, {"routers", show_routers},     {"prefixes", show_prefixes},
                                      {"addresses", show_addresses},   {"dns", show_dns},             {"redirects", show_redirects},
                                      {"params", show_params},         {"advertise", show_advertise}, {"routes", show_routes}};

/* ---- lines ----------------------------------------------------------------------------------- */

static void malformed(void)
{
    fflush(stdout);
    fprintf(stderr, "trace: a line is malformed\n");
    exit(2);
}

/* Returns the next word of the line. */
static char *word(void)
{
    char *next = strtok(NULL, " \n");
    if (next == NULL)
        malformed();
    return next;
}

/* Reads a number, or takes another one for `-`. */
static uint64_t number_or(uint64_t other)
{
    char *digits = word(), *end;
    uint64_t number = strtoull(digits, &end, 10);
    if (strcmp(digits, "-") == 0)
        return other;
    if (*end != 0)
        malformed();
    return number;
}

static uint32_t number(void)
{
    return (uint32_t)number_or(UINT64_MAX);
}

/* Reads an address: groups with at most one `::`. */
static nd_addr read_address(char *text)
{
    nd_addr address = {{0}};
    uint8_t behind[16];
    size_t before = 0, after = 0;
    bool is_cut = false;
    while (*text != 0) {
        char *end;
        if (text[0] == ':' && text[1] == ':') {
            is_cut = true;
            text += 2;
            continue;
        }
        unsigned long group = strtoul(text, &end, 16);
        if (end == text || before + after > 14)
            malformed();
        uint8_t *place = is_cut ? behind + after : address.bytes + before;
        place[0] = (uint8_t)(group >> 8);
        place[1] = (uint8_t)group;
        is_cut ? (after += 2) : (before += 2);
        text = end + (end[0] == ':' && end[1] != ':');
    }
    memcpy(address.bytes + 16 - after, behind, after);
    return address;
}

static nd_addr read_prefix(uint32_t *bits)
{
    char *text = word(), *slash = strchr(text, '/');
    if (slash == NULL)
        malformed();
    *slash = 0;
    *bits = (uint32_t)strtoul(slash + 1, NULL, 10);
    return read_address(text);
}

static size_t read_hex(uint8_t *bytes, size_t room)
{
    char *digits = word();
    return strcmp(digits, "-") == 0 ? 0 : bytes_of(digits, bytes, room);
}

static int32_t add_address(uint64_t now)
{
    nd_own_address own;
    own.address = read_address(word());
    own.valid_lifetime = (uint32_t)number_or(ND_LIFETIME_INFINITE);
    own.preferred_lifetime = (uint32_t)number_or(ND_LIFETIME_INFINITE);
    return nd_add_address(&node, now, &own);
}

static int32_t advertise(uint64_t now)
{
    nd_advertising settings = {0};
    const char *flags;
    settings.min_interval = number();
    settings.max_interval = (uint32_t)number_or(600);
    settings.lifetime = (uint32_t)number_or(3 * (uint64_t)settings.max_interval);
    settings.hop_limit = (uint8_t)number();
    flags = word();
    settings.managed = strchr(flags, 'm') != NULL;
    settings.other = strchr(flags, 'o') != NULL;
    settings.preference = strchr(flags, 'h') != NULL ? ND_PREFERENCE_HIGH : strchr(flags, 'l') != NULL ? ND_PREFERENCE_LOW : ND_PREFERENCE_MEDIUM;
    settings.reachable_time = number();
    settings.retrans_timer = number();
    settings.mtu = number();
    return nd_advertise(&node, now, &settings);
}

static int32_t offer(uint64_t now)
{
    nd_offer_row row = {0};
    const char *flags;
    row.prefix = read_prefix(&row.bits);
    row.valid_lifetime = (uint32_t)number_or(2592000);
    row.preferred_lifetime = (uint32_t)number_or(604800);
    flags = word();
    row.on_link = strchr(flags, 'l') != NULL;
    row.autonomous = strchr(flags, 'a') != NULL;
    return nd_advertise_prefix(&node, now, &row);
}

static int32_t route(uint64_t now)
{
    nd_route_row row = {0};
    char *hop;
    row.prefix = read_prefix(&row.bits);
    hop = word();
    row.hop = strcmp(hop, "direct") == 0 ? ND_HOP_DIRECT : ND_HOP_VIA;
    if (row.hop == ND_HOP_VIA)
        row.router = read_address(hop);
    return nd_add_route(&node, now, &row);
}

static int32_t send_packet(uint64_t now)
{
    static uint8_t payload[65536];
    const nd_addr source = read_address(word()), destination = read_address(word());
    uint8_t next_header = (uint8_t)number();
    size_t length = read_hex(payload, sizeof payload);
    return nd_send(&node, now, &source, &destination, next_header, payload, length);
}

static int32_t of_address(int32_t (*call)(nd_node *, uint64_t, const nd_addr *), uint64_t now)
{
    const nd_addr address = read_address(word());
    return call(&node, now, &address);
}

/* The destination of the last question for a path, and the path. */
static nd_addr asked;
static nd_path path;

static int32_t resolve(uint64_t now)
{
    asked = read_address(word());
    return nd_resolve(&node, now, &asked, &path);
}

/* Prints what a path says. It is behind the records of its call, and no record says it. */
static void print_path(uint64_t now, int32_t status)
{
    say("%t ", now);
    switch (status) {
    case ND_DONE: say("path %a %a %m\n", &asked, &path.next_hop, &path.mac); break;
    case ND_WAITING: say("path %a %a -\n", &asked, &path.next_hop); break;
    case ND_NOTHING: say("path %a no-route\n", &asked); break;
    default:
        require(nd_refusal_of(status) != 0, "a question for a path has an answer");
        say("%s", nd_kind_text(ND_OUT_REFUSED));
        print_reason(&(nd_out){.code = nd_refusal_of(status), .limit = nd_limit_of(status)}), say("\n");
    }
    require(path.until >= now && (path.until == now || (status == ND_DONE && path.until <= nd_next_due(&node))), "the lease of a path");
}

static int32_t receive(uint64_t now)
{
    static uint8_t frame[65536];
    size_t length = read_hex(frame, sizeof frame);
    longest = length > longest ? length : longest;
    return nd_receive(&node, now, frame, length);
}

static int32_t clear(uint64_t now)
{
    return nd_clear(&node, now, number_of(CLEARABLES, sizeof CLEARABLES / sizeof *CLEARABLES, word()));
}

static int32_t turn(uint64_t now)
{
    int32_t status = nd_pass(&node, now);
    require(status != ND_DONE || nd_next_due(&node) > now, "after a turn nothing is due");
    return status;
}

/* Does the event of a line. */
static int32_t event(uint64_t now, const char *verb)
{
    if (strcmp(verb, "rx") == 0)
        return receive(now);
    if (strcmp(verb, "send") == 0)
        return send_packet(now);
    if (strcmp(verb, "resolve") == 0)
        return resolve(now);
    if (strcmp(verb, "confirm") == 0)
        return of_address(nd_confirm, now);
    if (strcmp(verb, "forget") == 0)
        return of_address(nd_forget, now);
    if (strcmp(verb, "clear") == 0)
        return clear(now);
    if (strcmp(verb, "address") == 0)
        return add_address(now);
    if (strcmp(verb, "withdraw") == 0)
        return of_address(nd_remove_address, now);
    if (strcmp(verb, "advertise") == 0)
        return advertise(now);
    if (strcmp(verb, "prefix") == 0)
        return offer(now);
    if (strcmp(verb, "route") == 0)
        return route(now);
    if (strcmp(verb, "stop") == 0)
        return nd_stop_advertising(&node, now);
    if (strcmp(verb, "at") != 0 && strcmp(verb, "show") != 0)
        malformed();
    return turn(now);
}

static void show(uint64_t now, const char *name)
{
    for (size_t i = 0; i < sizeof TABLES / sizeof *TABLES; i++)
        if (strcmp(TABLES[i].word, name) == 0) {
            say("%t end %t\n", now, (uint64_t)TABLES[i].show(now));
            return;
        }
    malformed();
}

static void answer(char *line)
{
    static char copy[2 * sizeof buffer];
    char *moment, *verb, *end;
    strcpy(copy, line);
    moment = strtok(line, " \n");
    verb = word();
    uint64_t now = strtoull(moment, &end, 10);
    uint64_t last = nd_last_moment(&node);
    if (*end != 0)
        malformed();
    int32_t status = event(now, verb);
    while (status == ND_NO_MEMORY) {
        strcpy(line, copy);
        (void)strtok(line, " \n");
        verb = word();
        status = event(now, verb);
    }
    uint32_t kind = print_records();
    if (status == ND_PAST) {
        require(now < last && kind == 0 && nd_last_moment(&node) == last, "what is past changes nothing");
        say("%t refused past %t\n", now, last);
        return;
    }
    if (status == ND_INVALID)
        malformed();
    require(nd_last_moment(&node) == now && nd_next_due(&node) >= now, "the moments after an event");
    if (strcmp(verb, "resolve") == 0) {
        print_path(now, status);
        return;
    }
    require(status == ND_DONE || status == ND_NOTHING || nd_refusal_of(status) != 0, "an event is done or refused");
    require((nd_refusal_of(status) != 0) == (kind == ND_OUT_REFUSED), "a refusal is the last record of its event");
    if (strcmp(verb, "show") == 0)
        show(now, word());
}

/* ---- the command line ------------------------------------------------------------------------ */

/* Reads a limit. Returns false if the option is another one. */
static bool read_limit(const char *name, const char *value)
{
    for (size_t i = 0; i < RANGES; i++)
        if (strncmp(name, "--", 2) == 0 && strcmp(name + 2, ranges[i].name) == 0) {
            *limit_in(&options.limits, i) = (uint16_t)strtoul(value, NULL, 10);
            return true;
        }
    return false;
}

static const struct {
    const char *name;
    uint32_t bit;
} policies[] = {{"parts", ND_POLICY_PARTS}, {"speakers", ND_POLICY_SPEAKERS}, {"timers", ND_POLICY_TIMERS}, {"self", ND_POLICY_SELF},
                {"unicast", ND_POLICY_UNICAST}, {"unformed", ND_POLICY_UNFORMED}, {"asked", ND_POLICY_ASKED}, {"lifetimes", ND_POLICY_LIFETIMES},
                {"unredirected", ND_POLICY_UNREDIRECTED}, {"strict", ND_POLICY_STRICT}};

/* Reads the words of policies, parted by commas. */
static void read_policies(char *words)
{
    for (char *word = strtok(words, ","); word != NULL; word = strtok(NULL, ",")) {
        size_t i = 0;
        while (i < sizeof policies / sizeof policies[0] && strcmp(word, policies[i].name) != 0)
            i++;
        require(i < sizeof policies / sizeof policies[0], "--policy");
        options.policies |= policies[i].bit;
    }
}

static void read_option(const char *name, char *value)
{
    uint8_t *m = options.mac.bytes;
    if (strcmp(name, "--role") == 0)
        options.role = strcmp(value, "router") == 0 ? ND_ROLE_ROUTER : ND_ROLE_HOST;
    else if (strcmp(name, "--mac") == 0)
        require(sscanf(value, "%hhx:%hhx:%hhx:%hhx:%hhx:%hhx", m, m + 1, m + 2, m + 3, m + 4, m + 5) == 6, "--mac");
    else if (strcmp(name, "--transmits") == 0)
        options.transmits = (uint8_t)strtoul(value, NULL, 10);
    else if (read_limit(name, value))
        return;
    else if (strcmp(name, "--policy") == 0)
        read_policies(value);
    else if (strcmp(name, "--refuse") == 0) {
        heap_refuse = strtoul(value, NULL, 10);
        counts_requests = true;
    } else if (sscanf(value, "word:%" SCNu64, &options.seed) == 1)
        options.draws = ND_DRAWS_WORD;
    else
        require(sscanf(value, "seed:%" SCNu64, &options.seed) == 1, "--draws");
}

int main(int argc, char **argv)
{
    static char line[2 * sizeof buffer];
    const nd_options none = ND_OPTIONS_INIT;
    int32_t status;
    options = none;
    for (int i = 2; i + 1 < argc; i += 2)
        read_option(argv[i], argv[i + 1]);
    while ((status = nd_open(&node, &options, sizeof options)) == ND_NO_MEMORY)
        require(heap_blocks == 0, "nd_open that is refused leaves nothing");
    require(status == ND_DONE, "nd_open");
    while (fgets(line, sizeof line, stdin) != NULL)
        answer(line);
    nd_close(&node);
    require(heap_blocks == 0, "all memory is given back");
    if (counts_requests)
        fprintf(stderr, "%zu\n", heap_requests);
    return 0;
}
