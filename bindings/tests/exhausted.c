/* exhausted: a pool that fills up with packets which wait for neighbours that never answer. The pool has each size from what nd_open and one answer
 * need on, in steps of STEP bytes. A host answers datagrams of its neighbours, or a router passes packets on to as many, until nothing more fits; then
 * no frame arrives for a day. It requires: a call with an empty queue is done, or has done something that was due; the node comes to the end of the
 * day; then it defends its address.
 *   A line for each flood says at how many sizes the node was out of memory. */
#include <sys/wait.h>
#include <unistd.h>

#include "tested.h"

enum { AT = 10000, DAY = 86400000, MOST_CALLS = 100000, ROUNDS = 16, LONGEST = 1446 };

enum { STEP = 512, SIZES = 96, UNIT = 16, MOST_BYTES = 262144, NEIGHBOURS = 64 };

static const nd_limits LIMITS = {.neighbours = NEIGHBOURS};

/* The pool of pool.c. */
struct head;
static _Alignas(UNIT) uint8_t memory[MOST_BYTES];
struct head *nd_pool = (struct head *)memory;
size_t nd_pool_units;

static void give_pool(size_t bytes)
{
    nd_pool_units = bytes / UNIT;
}

struct flood {
    const char *what;
    uint32_t role;
    size_t lengths[ROUNDS]; /* of the packets of a round to all neighbours, behind their headers */
    bool is_mixed;          /* each packet has another length, at most that of the round */
};

static const struct flood FLOODS[] = {
    {"a host that answers, ever less", ND_ROLE_HOST, {1446, 1446, 600, 200, 100, 60, 40, 20, 10, 5, 2, 1}, false},
    {"a router with ever shorter packets", ND_ROLE_ROUTER, {1446, 1446, 700, 300, 150, 100, 80, 64, 48, 40, 32, 24, 16, 8, 4, 0}, false},
    {"a router with long and empty packets", ND_ROLE_ROUTER, {1446, 0}, false},
    {"a router with packets of all lengths", ND_ROLE_ROUTER, {1446, 1446, 1446, 1446, 1446, 1446, 1446, 1446}, true},
};

/* The first 64 bits of the neighbours' addresses. */
static const nd_addr ON_LINK = {{0xfe, 0x80}};
static const nd_addr OF_ROUTED = {{0x20, 0x01, 0x0d, 0xb8}};

/* A solicitation of another node that tries the address LINK_LOCAL. */
static const uint8_t DETECTION[] = {0x33, 0x33, 0xff, 0x9a, 0xbc, 0xde, 2, 0, 0, 0, 0, 9, 0x86, 0xdd, 0x60, 0, 0, 0, 0, 24, 58, 255, [38] = 0xff, 2, [49] = 1, 0xff,
                                    0x9a, 0xbc, 0xde, 0x87, 0, 0x53, 0xdf, [62] = 0xfe, 0x80, [70] = 0x36, 0x56, 0x78, 0xff, 0xfe, 0x9a, 0xbc, 0xde};

static uint8_t frame[54 + LONGEST], buffer[ND_BUFFER_BYTES];

/* Takes all records. Returns how many of them are frames that begin an ICMPv6 message of this type. */
static size_t taken(nd_node *node, uint8_t type)
{
    nd_out out;
    size_t count = 0;
    int32_t status;
    while ((status = nd_poll(node, &out, buffer, sizeof buffer)) == ND_DONE)
        count += out.kind == ND_OUT_FRAME && out.length > 54 && buffer[20] == 58 && buffer[54] == type;
    require(status == ND_NOTHING, "the queue is emptied");
    return count;
}

/* Lets time pass up to a moment. Returns how often the node was out of memory. */
static size_t pass(nd_node *node, uint64_t now)
{
    size_t calls = 0;
    int32_t status;
    while ((status = nd_pass(node, now)) == ND_NO_MEMORY) {
        taken(node, 0);
        require(++calls < MOST_CALLS, "a call with an empty queue does something that is due");
    }
    require(status == ND_DONE, "nd_pass");
    taken(node, 0);
    return calls;
}

/* Opens a node in a pool of so many bytes, whose link-local address is assigned. Returns whether the pool is large enough. */
static bool open_in(nd_node *node, size_t bytes, uint32_t role)
{
    const nd_advertising settings = {.min_interval = 200, .max_interval = 600, .lifetime = 1800, .hop_limit = 64};
    const nd_route_row route = {.prefix = OF_ROUTED, .bits = 64, .hop = ND_HOP_DIRECT};
    nd_options options = host_options();
    options.role = role;
    options.limits = LIMITS;
    give_pool(bytes);
    if (nd_open(node, &options, sizeof options) != ND_DONE)
        return false;
    if (role == ND_ROLE_ROUTER) {
        require(nd_add_route(node, 0, &route) == ND_DONE, "nd_add_route");
        require(nd_advertise(node, 0, &settings) == ND_DONE, "nd_advertise");
    }
    pass(node, AT);
    return true;
}

/* Has a packet of so many bytes sent or passed on to a neighbour. */
static int32_t send_to(nd_node *node, uint32_t role, size_t number, size_t length)
{
    nd_addr neighbour = role == ND_ROLE_HOST ? ON_LINK : OF_ROUTED;
    neighbour.bytes[15] = (uint8_t)(0x40 + number);
    if (role == ND_ROLE_HOST)
        return nd_send(node, AT, &LINK_LOCAL, &neighbour, 17, frame, length);
    memset(frame, 0, sizeof frame);
    memcpy(frame, &MAC, sizeof MAC);
    memcpy(frame + 12, (const uint8_t[]){0x86, 0xdd, 0x60}, 3);
    frame[18] = (uint8_t)(length >> 8);
    frame[19] = (uint8_t)length;
    frame[20] = 17;
    frame[21] = 64;
    memcpy(frame + 22, &OF_ROUTED, sizeof OF_ROUTED);
    frame[29] = 0x99; /* a source beyond the routers of the link */
    frame[37] = 0x66;
    memcpy(frame + 38, &neighbour, sizeof neighbour);
    return nd_receive(node, AT, frame, 54 + length);
}

/* Fills the pool. Returns whether the node was out of memory. */
static bool fill(nd_node *node, const struct flood *flood)
{
    bool is_full = false;
    unsigned word = 1;
    for (size_t i = 0; i < ROUNDS; i++)
        for (size_t number = 0; number < NEIGHBOURS; number++) {
            size_t length = flood->lengths[i];
            int32_t status;
            word = word * 1103515245 + 12345;
            if (flood->is_mixed)
                length = (word >> 8) % (length + 1);
            status = send_to(node, flood->role, number, length);
            require(status == ND_DONE || status == ND_NO_MEMORY, "a packet waits, or finds no memory");
            is_full |= status == ND_NO_MEMORY;
            taken(node, 0);
        }
    return is_full;
}

/* Another node's detection of the node's address is answered: there is memory for one frame. */
static bool defends(nd_node *node)
{
    return nd_receive(node, nd_last_moment(node), DETECTION, sizeof DETECTION) == ND_DONE && taken(node, 136) == 1;
}

/* What a run in a pool comes to: 1 is a failure. */
enum { HAD_MEMORY = 0, WAS_FULL = 2, TOO_SMALL = 3 };

/* Requires of a pool of so many bytes what the head of this file says, and returns what it comes to. */
static int run_in(size_t bytes, const struct flood *flood)
{
    nd_node node = ND_NODE_INIT;
    bool is_full;
    if (!open_in(&node, bytes, flood->role) || !defends(&node))
        return TOO_SMALL;
    is_full = fill(&node, flood);
    while (nd_next_due(&node) < AT + DAY)
        is_full |= pass(&node, nd_next_due(&node)) > 0;
    is_full |= pass(&node, AT + DAY) > 0;
    require(nd_last_moment(&node) == AT + DAY, "the day has passed");
    require(defends(&node), "the address is defended");
    nd_close(&node);
    return is_full ? WAS_FULL : HAD_MEMORY;
}

/* Does the same in a process of its own, whose pool is new. */
static int run_apart(size_t bytes, const struct flood *flood)
{
    int status = 0;
    pid_t child = fork();
    require(child >= 0, "fork");
    if (child == 0)
        exit(run_in(bytes, flood));
    require(waitpid(child, &status, 0) == child && WIFEXITED(status), "a run ends");
    if (WEXITSTATUS(status) != HAD_MEMORY && WEXITSTATUS(status) != WAS_FULL && WEXITSTATUS(status) != TOO_SMALL) {
        fprintf(stderr, "%s, in %zu bytes\n", flood->what, bytes);
        exit(1);
    }
    return WEXITSTATUS(status);
}

int main(void)
{
    for (size_t i = 0; i < sizeof FLOODS / sizeof *FLOODS; i++) {
        size_t least = STEP, full = 0;
        while (run_apart(least, &FLOODS[i]) == TOO_SMALL)
            least += STEP;
        for (size_t size = 0; size < SIZES; size++)
            full += run_apart(least + size * STEP, &FLOODS[i]) == WAS_FULL;
        require(full > 0, "a pool is full");
        printf("%s: out of memory at %zu of %d sizes from %zu bytes on\n", FLOODS[i].what, full, SIZES, least);
        fflush(stdout);
    }
    return 0;
}
