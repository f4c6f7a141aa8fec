
/* ---- front: the functions of nd.h over those of the module (m_nd_..), and what the module calls (os_rattle_..) over the memory functions ----
 *
 * The module has the structures of nd.h as a little-endian machine with 64-bit pointers has them. On such a machine what a call is passed goes on as
 * it is. Where pointers have 32 bits, nd_node and nd_out are copied. On a big-endian machine the numbers of all structures are turned round. */
#include "nd.h"

#define IS_SAME (!BIG && UINTPTR_MAX == UINT64_MAX)

/* nd_out of the module. */
typedef struct {
    uint64_t moment, length;
    uint32_t kind, code, limit, changes;
    nd_addr address;
} module_out;

enum { MODULE_NODE_BYTES = 16, MODULE_AT = 8 };

_Static_assert(sizeof(nd_limits) == 32 && sizeof(nd_options) == 80 && sizeof(nd_own_address) == 24 && sizeof(nd_advertising) == 32 &&
                   sizeof(nd_offer_row) == 32 && sizeof(nd_route_row) == 40 && sizeof(nd_heard) == 108 && sizeof(nd_neighbour_row) == 40 &&
                   sizeof(nd_router_row) == 32 && sizeof(nd_prefix_row) == 32 && sizeof(nd_address_row) == 40 && sizeof(nd_server_row) == 24 &&
                   sizeof(nd_name_row) == 272 && sizeof(nd_redirect_row) == 32 && sizeof(nd_parameters_row) == 24 && sizeof(nd_counts_row) == 72 &&
                   sizeof(nd_next_hop_row) == 24 && sizeof(nd_path) == 48 && sizeof(nd_message) == 36 && sizeof(module_out) == 48,
               "structures have no padding");
_Static_assert(!IS_SAME || (sizeof(nd_node) == MODULE_NODE_BYTES && offsetof(nd_node, at) == MODULE_AT), "nd_node is that of the module");
_Static_assert(!IS_SAME || (sizeof(nd_out) == sizeof(module_out) && offsetof(nd_out, address) == offsetof(module_out, address)),
               "nd_out is that of the module");

/* ---- memory ---- */

/* The pointer of a request that is refused: it is not null, and never used. */
enum { NO_BLOCK = 16 };

static s_u64_u64 block_of(struct nd_block block)
{
    s_u64_u64 result;
    result.f0 = block.ok;
    result.f1 = block.ok ? (uintptr_t)block.p : NO_BLOCK;
    return result;
}

static s_u64_u64 os_rattle_alloc(u64 size, u64 align)
{
    return block_of(size <= SIZE_MAX / 2 ? nd_alloc((size_t)size, (size_t)align) : nd_block_at(NULL));
}

static s_u64_u64 os_rattle_realloc(Q p, u64 kept, u64 size, u64 align)
{
    return block_of(size <= SIZE_MAX / 2 ? nd_realloc(AT(p), (size_t)kept, (size_t)size, (size_t)align) : nd_block_at(NULL));
}

static void os_rattle_dealloc(Q p)
{
    nd_free(AT(p));
}

/* ---- structures ---- */

/* The fields of structures: '8', '4' and '2' are numbers of so many bytes, '1' is a byte, 'a' an address, 'm' an Ethernet address, 't' the text of
 * a name. */
#define LIMITS "2222222222222222"
#define OPTIONS "4m11488" LIMITS "811111111"
#define COUNTS "4444444444" LIMITS
#define OWN_ADDRESS "a44"
#define PATH "88am1144"
#define MESSAGE "aa112"
#define ADVERTISING "44444411114"
#define OFFER "a4441111"
#define ROUTE "aa44"
#define HEARD "aaaa44444444411111111"
#define OUT "884444a"
#define NEXT_HOP "a44"
#define NEIGHBOUR "8am1144"
#define ROUTER "8a44"
#define PREFIX "8a44"
#define OWN_ROW "88a41111"
#define SERVER "8a"
#define NAME "844t"
#define REDIRECT "aa"
#define PARAMETERS "84441111"

#if BIG
static size_t width_of(char field)
{
    return field == 'a' ? 16 : field == 'm' ? 6 : field == 't' ? 256 : (size_t)(field - '0');
}

static void turn_number(u8 *at, size_t width)
{
    for (size_t i = 0, k = width - 1; i < k; i++, k--) {
        const u8 byte = at[i];
        at[i] = at[k];
        at[k] = byte;
    }
}
#endif

/* Turns the numbers of a structure from the order of bytes of the machine to that of the module, or back. */
static void turn(void *structure, const char *fields)
{
#if BIG
    for (u8 *at = structure; *fields != 0; at += width_of(*fields++))
        if (*fields <= '9')
            turn_number(at, width_of(*fields));
#else
    (void)structure;
    (void)fields;
#endif
}

/* PASSED declares `passed`, what the module reads in place of the caller's structure. */
#if BIG
#define PASSED(type, passed, structure, fields) \
    type passed##_turned = *(structure); \
    const Q passed = Q_OF(&passed##_turned); \
    turn(&passed##_turned, fields)
#else
#define PASSED(type, passed, structure, fields) const Q passed = Q_OF(structure)
#endif

/* ENTER declares `inside`, the module's node for the caller's, and LEAVE writes the caller's back. */
#if IS_SAME
#define ENTER(inside, node) const Q inside = Q_OF(node)
#define LEAVE(inside, node) (void)0
#else
static void enter(Q inside, const nd_node *node)
{
    st64_1(inside, 0);
    st8_1(inside, node->is_open);
    st64_1(ADD(inside, MODULE_AT), (uintptr_t)node->at);
}

static void leave(Q inside, nd_node *node)
{
    node->is_open = ld8_1(inside) != 0;
    node->at = (void *)(uintptr_t)ld64_1(ADD(inside, MODULE_AT));
}

#define ENTER(inside, node) \
    _Alignas(8) u8 inside##_bytes[MODULE_NODE_BYTES]; \
    const Q inside = Q_OF(inside##_bytes); \
    enter(inside, node)
#define LEAVE(inside, node) leave(inside, node)
#endif

/* ---- kinds of calls ---- */

/* Makes a call of the module for a node, and returns its result. */
#define CALL(type, node, call) \
    do { \
        ENTER(inside, node); \
        const type result = (type)(call); \
        LEAVE(inside, node); \
        return result; \
    } while (0)

/* The same for a call that may write a row: it is turned round before and after, whether it is written or not. */
#define CALL_FOR_ROW(node, row, fields, call) \
    do { \
        ENTER(inside, node); \
        turn(row, fields); \
        const int32_t result = (int32_t)(call); \
        turn(row, fields); \
        LEAVE(inside, node); \
        return result; \
    } while (0)

/* An event that reads a structure. */
#define EVENT(name, type, fields) \
    int32_t name(nd_node *node, uint64_t now, const type *structure) \
    { \
        PASSED(type, passed, structure, fields); \
        CALL(int32_t, node, m_##name(inside, now, passed)); \
    }

/* A question for the row of an address. */
#define ROW_FOR(name, type, fields) \
    int32_t name(nd_node *node, uint64_t now, const nd_addr *address, type *row) \
    { \
        CALL_FOR_ROW(node, row, fields, m_##name(inside, now, Q_OF(address), Q_OF(row))); \
    }

/* A question for the one row that there is. */
#define ROW_OF(name, type, fields) \
    int32_t name(nd_node *node, uint64_t now, type *row) \
    { \
        CALL_FOR_ROW(node, row, fields, m_##name(inside, now, Q_OF(row))); \
    }

/* The questions for a row of a table by its index, and for all rows. */
#define TABLE(name, name_at, type, fields) \
    int32_t name_at(nd_node *node, uint64_t now, size_t index, type *row) \
    { \
        CALL_FOR_ROW(node, row, fields, m_##name_at(inside, now, index, Q_OF(row))); \
    } \
    int32_t name(nd_node *node, uint64_t now, type *rows, size_t room, size_t *count) \
    { \
        _Alignas(8) u8 written[8] = {0}; \
        ENTER(inside, node); \
        const int32_t result = (int32_t)m_##name(inside, now, Q_OF(rows), room, Q_OF(written)); \
        LEAVE(inside, node); \
        if (result == ND_DONE || result == ND_NO_ROOM) { \
            *count = (size_t)ld64_1(Q_OF(written)); \
            for (size_t i = 0; BIG && i < *count; i++) \
                turn(&rows[i], fields); \
        } \
        return result; \
    }

/* ---- calls without a node ---- */

uint32_t nd_version(void)
{
    return m_nd_version();
}

uint32_t nd_refusal_of(int32_t status)
{
    return m_nd_refusal_of((u32)status);
}

uint32_t nd_limit_of(int32_t status)
{
    return m_nd_limit_of((u32)status);
}

/* Returns a number of bytes, or SIZE_MAX if it is greater. */
static size_t size_of(u64 bytes)
{
    return bytes < SIZE_MAX ? (size_t)bytes : SIZE_MAX;
}

size_t nd_node_bytes(const nd_limits *limits)
{
    PASSED(nd_limits, passed, limits, LIMITS);
    return size_of(m_nd_node_bytes(passed));
}

size_t nd_pool_bytes(const nd_limits *limits, size_t longest)
{
    PASSED(nd_limits, passed, limits, LIMITS);
    return size_of(m_nd_pool_bytes(passed, longest));
}

int32_t nd_hear(const uint8_t *frame, size_t length, uint32_t role, nd_heard *heard)
{
    turn(heard, HEARD);
    const int32_t status = (int32_t)m_nd_hear(Q_OF(frame), length, role, Q_OF(heard));
    turn(heard, HEARD);
    return status;
}

/* ---- events ---- */

#if BIG
/* Reads options of any size, zeros in place of those that are not there, and turns them round. Returns false if one that is not known is not 0. */
static bool read_options(nd_options *known, const nd_options *options, size_t size)
{
    const u8 *from = (const u8 *)options;
    for (size_t i = sizeof *known; i < size; i++)
        if (from[i] != 0)
            return false;
    memset(known, 0, sizeof *known);
    memcpy(known, options, size < sizeof *known ? size : sizeof *known);
    turn(known, OPTIONS);
    return true;
}
#endif

int32_t nd_open(nd_node *node, const nd_options *options, size_t size)
{
#if BIG
    nd_options known;
    if (!read_options(&known, options, size))
        return ND_INVALID;
    CALL(int32_t, node, m_nd_open(inside, Q_OF(&known), sizeof known));
#else
    CALL(int32_t, node, m_nd_open(inside, Q_OF(options), size));
#endif
}

void nd_close(nd_node *node)
{
    ENTER(inside, node);
    m_nd_close(inside);
    LEAVE(inside, node);
}

int32_t nd_pass(nd_node *node, uint64_t now)
{
    CALL(int32_t, node, m_nd_pass(inside, now));
}

int32_t nd_receive(nd_node *node, uint64_t now, const uint8_t *frame, size_t length)
{
    CALL(int32_t, node, m_nd_receive(inside, now, Q_OF(frame), length));
}

int32_t nd_receive_message(nd_node *node, uint64_t now, const nd_message *message, const uint8_t *content, size_t length)
{
    PASSED(nd_message, passed, message, MESSAGE);
    CALL(int32_t, node, m_nd_receive_message(inside, now, passed, Q_OF(content), length));
}

int32_t nd_send(nd_node *node, uint64_t now, const nd_addr *source, const nd_addr *destination, uint8_t next_header, const uint8_t *payload,
                size_t length)
{
    CALL(int32_t, node, m_nd_send(inside, now, Q_OF(source), Q_OF(destination), next_header, Q_OF(payload), length));
}

int32_t nd_confirm_to(nd_node *node, uint64_t now, const nd_addr *destination, uint64_t least)
{
    CALL(int32_t, node, m_nd_confirm_to(inside, now, Q_OF(destination), least));
}

int32_t nd_clear(nd_node *node, uint64_t now, uint32_t table)
{
    CALL(int32_t, node, m_nd_clear(inside, now, table));
}

int32_t nd_stop_advertising(nd_node *node, uint64_t now)
{
    CALL(int32_t, node, m_nd_stop_advertising(inside, now));
}

EVENT(nd_confirm, nd_addr, "a")
EVENT(nd_forget, nd_addr, "a")
EVENT(nd_add_address, nd_own_address, OWN_ADDRESS)
EVENT(nd_remove_address, nd_addr, "a")
EVENT(nd_advertise, nd_advertising, ADVERTISING)
EVENT(nd_advertise_prefix, nd_offer_row, OFFER)
EVENT(nd_add_route, nd_route_row, ROUTE)

/* ---- what a node reports and knows ---- */

int32_t nd_poll(nd_node *node, nd_out *out, uint8_t *buffer, size_t size)
{
#if IS_SAME
    return (int32_t)m_nd_poll(Q_OF(node), Q_OF(out), Q_OF(buffer), size);
#else
    module_out record;
    ENTER(inside, node);
    const int32_t status = (int32_t)m_nd_poll(inside, Q_OF(&record), Q_OF(buffer), size);
    LEAVE(inside, node);
    if (status == ND_DONE || status == ND_NO_ROOM) {
        turn(&record, OUT);
        memset(out, 0, sizeof *out); /* its padding too */
        *out = (nd_out){record.moment, (size_t)record.length, record.kind, record.code, record.limit, record.changes, record.address};
    }
    return status;
#endif
}

uint64_t nd_last_moment(nd_node *node)
{
    CALL(uint64_t, node, m_nd_last_moment(inside));
}

uint64_t nd_next_due(nd_node *node)
{
    CALL(uint64_t, node, m_nd_next_due(inside));
}

uint64_t nd_lease_version(nd_node *node)
{
    CALL(uint64_t, node, m_nd_lease_version(inside));
}

ROW_FOR(nd_next_hop, nd_next_hop_row, NEXT_HOP)
ROW_FOR(nd_resolve, nd_path, PATH)
ROW_FOR(nd_neighbour_of, nd_neighbour_row, NEIGHBOUR)
ROW_OF(nd_parameters_of, nd_parameters_row, PARAMETERS)
ROW_OF(nd_advertising_of, nd_advertising, ADVERTISING)
ROW_OF(nd_counts_of, nd_counts_row, COUNTS)
TABLE(nd_neighbours, nd_neighbour_at, nd_neighbour_row, NEIGHBOUR)
TABLE(nd_routers, nd_router_at, nd_router_row, ROUTER)
TABLE(nd_prefixes, nd_prefix_at, nd_prefix_row, PREFIX)
TABLE(nd_addresses, nd_address_at, nd_address_row, OWN_ROW)
TABLE(nd_servers, nd_server_at, nd_server_row, SERVER)
TABLE(nd_names, nd_name_at, nd_name_row, NAME)
TABLE(nd_redirects, nd_redirect_at, nd_redirect_row, REDIRECT)
TABLE(nd_offers, nd_offer_at, nd_offer_row, OFFER)
TABLE(nd_routes, nd_route_at, nd_route_row, ROUTE)
