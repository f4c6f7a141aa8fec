/*
 * nd.h - IPv6 Neighbor Discovery for one Ethernet interface, as a host or as a router
 * (RFC 4861; RFC 4862, section 5; RFC 8106; RFC 4191 without its route option).
 *
 * A node keeps the tables of Neighbor Discovery, decides what is sent and when, and says why a
 * frame was dropped. It has no clock, no socket, no thread and no callback. The program passes
 * frames and moments in, and polls records out: frames to send, packets for the upper layer, and
 * what happened.
 *
 * A HOST
 *
 *     nd_node node = ND_NODE_INIT;
 *     nd_options options = ND_OPTIONS_INIT;
 *     memcpy(options.mac.bytes, interface_mac, 6);
 *     options.start = clock_ms();
 *     options.seed = random_u64();
 *     if (nd_open(&node, &options, sizeof options) != ND_DONE) return;
 *     while (running) {
 *         nd_out out;
 *         while (nd_poll(&node, &out, buffer, sizeof buffer) == ND_DONE) {
 *             if (out.kind == ND_OUT_FRAME) transmit(buffer, out.length);
 *             if (out.kind == ND_OUT_UP) deliver(buffer, out.length);
 *         }
 *         uint64_t now = clock_ms(), due = nd_next_due(&node);
 *         size_t length = wait_for_frame(frame, due > now ? due - now : 0);
 *         if (length > 0 && length <= sizeof buffer)
 *             nd_receive(&node, clock_ms(), frame, length);
 *         else // a longer frame is dropped: its record might not fit into the buffer
 *             nd_pass(&node, clock_ms());
 *     }
 *     nd_close(&node);
 *
 * THE CALLER'S DUTIES. The proofs assume them; no call can check them.
 *   - An nd_node is all zeros before the first nd_open, and only these functions change it. It may
 *     be moved, but two copies of an open node are never both used.
 *   - Two calls for one node never overlap, questions (nd_.._at, nd_.._of) included. Use a lock of
 *     your own, or let one thread own the node. A node may move from thread to thread. Different
 *     nodes may be used at once, if the memory functions may be. A lock or a join orders the calls
 *     of one thread before those of the next. No call is made from a signal handler, nor in the
 *     forked child of a process with threads.
 *   - No pointer is null, not even to an array of length 0 (an empty C++ span or vector may have
 *     one: pass any other address). A pointer is valid for its length, and for its structure.
 *   - What a call writes overlaps nothing else that it is passed. What it reads does not change
 *     while it runs.
 *   - Structures are aligned as C aligns them. Buffers and addresses may have any alignment.
 *   - A call has 16,384 bytes of stack. On x86-64 this is enough, with the memory functions of
 *     bindings/c/heap.c: for the archive, and for nd.c compiled with -O2 or -Os. Compiled without
 *     optimisation a call over nd.c takes up to 45,000. It is measured, not proved.
 * No pointer is kept after a call: the caller owns every structure and buffer, the library owns the
 * blocks of memory that it requested.
 *
 * TIME. A moment is a number of milliseconds from a beginning of your choice, below
 * ND_MOMENT_LIMIT. Moments of one node never decrease; equal ones are fine. Use a clock that is
 * never set back (CLOCK_MONOTONIC, or CLOCK_BOOTTIME, which runs on while the machine sleeps), not
 * the time of day.
 *   - A call with a moment `now` first does all that is due up to `now`, in the order of its
 *     moments, and reports it with the moment at which it was due. So a late call loses nothing.
 *     But a frame counts as received at the moment that you pass: if a conflicting advertisement
 *     waited in your ring while a detection ended, the address is assigned. Pass the frames that
 *     wait before you call nd_pass, with the moments at which they arrived, if you have them and
 *     they do not decrease.
 *   - A jump costs what is due in it, at least one redraw of ReachableTime every two hours: an idle
 *     host takes seconds to a moment of 2^46, and a day or more to 2^62. A caller that passes
 *     nanoseconds seems to hang.
 *   - A frame costs what its bytes cost: of a Router Advertisement each name and each option is
 *     compared with three times as many as its table may have at most, and not with all before it.
 *   - After a sleep of an hour a router reports all the advertisements of that hour at once.
 *     Compare `moment` with your clock before you send, or close the node before the sleep.
 *   - An event can make something due at its own moment; it is done by the next call. So
 *     nd_next_due may equal the moment of the last call, and the loop above then turns at once.
 *
 * STATUS. Functions that return int32_t return an `enum nd_status` or a refusal. 0 and above: the
 * call took place. Below 0: it did not, and it has changed nothing, but for ND_NO_MEMORY, a
 * refusal, and ND_NO_ROOM: nd_poll has written `out` then, and a question for all rows those that
 * fit, and `count`. If several hold, the first in this order is returned: ND_INVALID, ND_CLOSED,
 * ND_PAST, ND_NO_MEMORY while what is due is done, a refusal, ND_NO_MEMORY for what the event
 * itself adds. Three requests precede a refusal: for the frame of nd_receive_message; for the copy
 * of a payload of nd_send, before ND_REFUSAL_FULL; and for the record of the refusal, if other
 * records were not polled.
 *   That a frame was dropped is no status: nd_receive returns ND_DONE for it too, and the record
 *   ND_OUT_DROPPED says so, and why.
 *   A refusal is ND_REFUSED(refusal, limit), -16 or below: time has passed up to the event, what
 *   was due is done, and nothing else has changed. nd_refusal_of and nd_limit_of say why.
 *   ND_NO_MEMORY: the event has added nothing. A part of what was due may have been done, and is
 *   reported. Poll until ND_NOTHING, and make the same call again: if memory is not refused then,
 *   the node is as if it had not been refused before. Time passes whatever memory there is: if
 *   nothing was left to poll, the call has done at least the first thing that was due, so polling
 *   and calling it again ends. Another event may be refused memory for what it adds itself, however
 *   often it is called; then give it up: a frame is as if the link had lost it.
 *
 * WHAT A NODE REPORTS. Each event appends records to the node's queue, in the order in which things
 * happened; nd_poll takes the oldest. Poll until ND_NOTHING after each call: records take memory,
 * and frames that are sent late break the RFCs' timing. If you poll after each call, a record
 * belongs to that call or to what was due before it.
 *   If a buffer has ND_BUFFER_BYTES bytes, and no fewer than the longest frame that you ever pass
 *   to nd_receive, nd_poll does not return ND_NO_ROOM. A host that passes no longer frames than
 *   1,514 bytes needs ND_BUFFER_BYTES.
 *
 * FRAMES IN. From the Ethernet destination on, without a VLAN tag and without a frame check
 * sequence; of any length; padding is ignored.
 *   - The node does not look at Ethernet addresses, but for a router with ND_POLICY_UNICAST, which
 *     looks at the destination of what it would forward. The caller passes frames to the
 *     interface's own address and to multicast addresses, and no others. A router would forward
 *     others once more. To a router it passes a frame to a multicast address only if that carries
 *     ICMPv6 of types 133 to 137: each router of the link would forward the packet in any other.
 *   - Never pass a frame that the interface itself sent (on Linux, sll_pkttype PACKET_OUTGOING): a
 *     node that hears its own solicitation takes its address for a duplicate (RFC 4862, 5.4.3).
 *   - The ICMPv6 checksum must be in the bytes. Frames of a virtual device with checksum offload
 *     are dropped as ND_WHY_SUM.
 *   - The interface has to receive 33:33:00:00:00:01, a router also 33:33:00:00:00:02, and for each
 *     of the node's addresses 33:33:ff and its last three bytes (RFC 2464, 7), before detection
 *     begins (RFC 4862, 5.4.2). Read nd_addresses after nd_open, after nd_add_address, and where a
 *     record says ND_CHANGE_ADDRESSES, before the next event; or receive all multicast. MLD reports
 *     are the caller's.
 *   - A host needs only ICMPv6 of types 133 to 137; the caller may deliver other packets itself.
 * FRAMES OUT are whole Ethernet frames, without padding and frame check sequence; pad them to the
 * least length of the medium. Frames of the node's own messages have at most 1,294 bytes, those of
 * nd_send at most 14 + MTU. The MTU is 1,500 until a Router Advertisement sets one of 1,280 to
 * 1,500. It cannot be set from outside. A router forwards what it is passed, longer packets too.
 *
 * WHAT A NODE DOES NOT DO: choose source addresses (RFC 6724), keep static neighbours, DHCPv6, MLD,
 * ICMPv6 errors and echo, extension headers, forward between interfaces. It keeps an address that
 * DHCPv6 or a user chose (nd_add_address). One node is one interface; several nodes share nothing.
 * When the link has been down, or the interface has another MAC, close the node and open it again:
 * it begins without what it had, addresses given by hand, offers, routes and leases included. A
 * router whose link is still up stops advertising first (nd_close).
 *
 * DETERMINISM. A node reads its options, its calls and the answers of the memory functions, and
 * nothing else: no clock, no environment, no global state. TESTED below says what that gives.
 *
 * NUMBERS. Addresses are bytes in network order, all other numbers are in the order of the machine.
 * Lifetimes left are in milliseconds. What a router announces is in the units of RFC 4861, 6.2.1.
 * An `enum` names the values of an integer; no parameter or field has an enumerated type. 0 is one
 * of the values only where it is the default. Structures have no padding but nd_node. `reserved`
 * fields are 0: the library writes zeros, and returns ND_INVALID if the caller passes anything
 * else.
 *
 * WITH nd.c, the node as one C file of dist/: cc -O2 program.c nd.c, or nd_small.c, which is the
 * same for little flash. It defines the three memory functions over malloc, unless ND_OWN_MEMORY is
 * defined where it is compiled. All that is said here holds for it too. Its README.md says more.
 *
 * VERSION. The major number changes with any layout, number or meaning, the minor number with an
 * addition: a function, a value of an enumeration, a field in place of `reserved` or at the end of
 * nd_options. So ignore kinds and codes that you do not know. An older library refuses a newer
 * field that is not 0 (ND_INVALID).
 *
 * PROVED. Every call returns, reads no byte outside what it is passed, and writes none outside.
 * Every function has a clause that says when it returns each status, and what the node is then and
 * what is written; docs/PROVED.md lists them. ND_NO_MEMORY is allowed at any time where a call has
 * it. For each event, 0 and above and a refusal mean: from every history that the node represents
 * it goes to one that the RFCs' conceptual host or router has after the event, and the queue gains
 * exactly what is reported of the difference.
 *
 * TESTED, and not proved:
 *   - ND_NO_MEMORY is returned only where a memory function refused a request.
 *   - Equal options and equal calls give equal statuses, records and rows, byte for byte, as long
 *     as no request is refused. Where some are, and each call that returned ND_NO_MEMORY is made
 *     again, the records and the rows at the end are the same bytes. `ndpctl run` with the same
 *     options reports the same on the same frames.
 *   - nd_close, and an nd_open that returned ND_NO_MEMORY, give all memory of the node back, and
 *     nd_poll that of the record that it takes.
 *   - nd_poll, the questions (nd_.._at, nd_.._of, nd_neighbours and so on), nd_last_moment,
 *     nd_next_due and nd_lease_version ask for no memory.
 *   - ND_BUFFER_BYTES, nd_node_bytes and nd_pool_bytes are enough, and a row costs what its index
 *     is.
 *   - The frame that nd_poll takes gives its block back, into which the next frame that is due is
 *     written, if the node has no other room for that. All else of `time passes whatever memory
 *     there is` (STATUS) is proved.
 * TRUSTED: the duties above, enough stack, the three memory functions, and the toolchain; of nd.c
 * also what translates it to C, and your compiler.
 * bindings/check compares this header with the library's source.
 */
#ifndef JONDASIK_ND_H
#define JONDASIK_ND_H

#include <stdbool.h>
#include <stddef.h>
#include <stdint.h>

/* Statuses, roles, preferences, reasons to drop a frame, nd_addr, and nd_hear. */
#include "nd_hear.h"

#ifdef __cplusplus
extern "C" {
#endif

#define ND_VERSION_MAJOR 0
#define ND_VERSION_MINOR 1
#define ND_VERSION_PATCH 0
#define ND_VERSION ((ND_VERSION_MAJOR << 16) | (ND_VERSION_MINOR << 8) | ND_VERSION_PATCH)

/* Returns the version of the library that is linked, in the form of ND_VERSION. It fits this header
 * if nd_version() >> 16 == ND_VERSION_MAJOR and nd_version() >= ND_VERSION. */
uint32_t nd_version(void);

#define ND_MOMENT_LIMIT ((uint64_t)1 << 62) /* moments are below */
#define ND_FOREVER UINT64_MAX               /* a lifetime left without an end */
#define ND_LIFETIME_INFINITE UINT32_MAX     /* an announced lifetime without an end, in seconds */
#define ND_BUFFER_BYTES 1514                /* a frame of a link with an MTU of 1,500 */

typedef struct nd_mac {
    uint8_t bytes[6];
} nd_mac;

/* ---- refusals -------------------------------------------------------------------------------- */

/* Why an event is refused. */
enum nd_refusal {
    ND_REFUSAL_WRONG_ROLE = 1, /* an event of a router at a host */
    ND_REFUSAL_DISABLED = 2,   /* the link-local address is a duplicate (RFC 4862, 5.4.5) */
    ND_REFUSAL_NOT_OURS = 3,   /* the source is no assigned address */
    ND_REFUSAL_TOO_LONG = 4,   /* the packet is longer than the MTU (RFC 8200, 5) */
    ND_REFUSAL_FULL = 5,       /* a table would pass its limit */
    ND_REFUSAL_TENTATIVE = 8   /* the link-local address is not assigned yet (RFC 4862, 5.4) */
};

/* The table that would pass its limit. */
enum nd_limit {
    ND_LIMIT_NEIGHBOURS = 1,
    ND_LIMIT_ROUTERS = 2,
    ND_LIMIT_PREFIXES = 3,
    ND_LIMIT_ADDRESSES = 4,
    ND_LIMIT_SERVERS = 5,
    ND_LIMIT_NAMES = 6,
    ND_LIMIT_OFFERS = 7,
    ND_LIMIT_STATIC_ROUTES = 8
};

/* The status of a refusal, by an `enum nd_refusal`, and an `enum nd_limit` or 0. */
#define ND_REFUSED(refusal, limit) (-16 * (refusal) - (limit))

/* Returns why an event was refused, by the status of its call: an `enum nd_refusal`, or 0 where it
 * was not refused. */
uint32_t nd_refusal_of(int32_t status);

/* Returns the table that would pass its limit, by the status of a call: an `enum nd_limit` where
 * the refusal is ND_REFUSAL_FULL, else 0. */
uint32_t nd_limit_of(int32_t status);

/* ---- memory ---------------------------------------------------------------------------------- */

/* A block of memory, or a request that is refused. `p` is not null then, either. */
struct nd_block {
    bool ok;
    void *p;
};

/* Returns the block at `p`, or a request that is refused if `p` is null. */
static inline struct nd_block nd_block_at(void *p)
{
    static char none;
    struct nd_block block;
    block.ok = p != 0;
    block.p = p != 0 ? p : &none;
    return block;
}

/* The program defines these three functions, so there is one heap for all nodes. The library uses
 * no other memory but the stack, and no other symbol but memcpy, memmove and memset.
 * bindings/c/heap.c defines them over malloc, and nd.c has it; bindings/c/pool.c defines them over
 * a static array.
 *   nd_alloc: a block of `size` bytes (it may be 0), aligned to `align` and to each power of two up
 *     to 16 that divides `size`. Multiples of 16 always are.
 *   nd_realloc: the block at `p` with the new size; its first `kept` bytes are kept. If it is
 *     refused, the block at `p` stays as it is.
 *   nd_free: gives a block back.
 * They do not call the library. They return, and neither throw nor longjmp. All three are of one
 * allocator: they take its blocks from any thread that calls the library. */
struct nd_block nd_alloc(size_t size, size_t align);
struct nd_block nd_realloc(void *p, size_t kept, size_t size, size_t align);
void nd_free(void *p);

/* How many rows each table of a node has at most, and how many packets wait for one neighbour. 0 is
 * the usual number. A limit on a table that the role does not have is accepted. */
typedef struct nd_limits {
    uint16_t neighbours;   /* 1 to 2048; 0: 512 */
    uint16_t routers;      /* default routers (RFC 4861, 6.3.4), 1 to 64; 0: 16 */
    uint16_t prefixes;     /* on the link (RFC 4861, 5.1), 1 to 64; 0: 64 */
    uint16_t addresses;    /* the node's own, the link-local one included, 1 to 64; 0: 64 */
    uint16_t servers;      /* DNS servers (RFC 8106, 5.3.1), 1 to 32; 0: 32 */
    uint16_t names;        /* search names, 1 to 32; 0: 32 */
    uint16_t redirects;    /* destinations whose Redirects are kept, 1 to 64; 0: 64 */
    uint16_t destinations; /* destinations whose next hops are remembered, which no call shows, 1 to
                              256; 0: 256 */
    uint16_t offers;       /* prefixes that a router advertises, 1 to 16; 0: 16 */
    uint16_t routes;       /* static routes of a router, 1 to 64; 0: 64 */
    uint16_t waiting;      /* packets that wait for a neighbour (RFC 4861, 7.2.2), 1 to 8; 0: 3 */
    uint16_t reserved[5];
} nd_limits;

/* Returns how many bytes the tables of an open node take at most with these limits. Returns 0 if a
 * limit is out of its range. nd_open takes nearly all of them at once; Redirects, next hops that
 * are remembered, and DNS search names take the rest as they arrive. Not counted: what the memory
 * functions add to a block; the records that were not polled; for each neighbour that is INCOMPLETE
 * the frames that wait, limits->waiting at most, with 24 bytes for each place; the frames of the
 * call that runs. */
size_t nd_node_bytes(const nd_limits *limits);

/* Returns how many bytes ND_POOL_BYTES of bindings/c/pool.c has to be for one node with these
 * limits, so that no call returns ND_NO_MEMORY: for tables, packets that wait, the queue and the
 * frames of one call, with the heads of the blocks and the holes between them. Its premise: all
 * records are polled after each call; no frame that is received is longer than `longest` bytes, and
 * no payload of nd_send than `longest` - 54; and no call's moment passes what is due by more than a
 * millisecond, since a jump of time reports all of that time. A `longest` below 86 counts as 86,
 * and one above 65,589 as that: what a longer frame has besides is padding, which is not kept.
 * nd_receive_message takes a frame more, for the time of its call: `longest` + 32 bytes. With the
 * usual limits, and frames of 1,514 bytes, it is 7 MB: packets that wait for 512 neighbours.
 * Returns 0 if a limit is out of its range. It is measured and tested, not proved. Several nodes in
 * one pool need the sum. */
size_t nd_pool_bytes(const nd_limits *limits, size_t longest);

/* ---- a node ---------------------------------------------------------------------------------- */

typedef struct nd_node {
    bool is_open; /* private */
    void *at;     /* private */
} nd_node;

/* A closed node, as are zero bytes: 16, or 8 where pointers have 32 bits. */
#define ND_NODE_INIT { false, 0 }

enum nd_draws {
    ND_DRAWS_SEED = 0, /* random words from PCG32, seeded with `seed` */
    ND_DRAWS_WORD = 1  /* each random word is `seed`, below 2^32: for tests */
};

/* What a node does on a link that is not trusted, each where it is asked for. */
enum nd_policy {
    /* A message is taken in part where a table has no room for all of it, and none is refused for a
     * limit (RFC 8106, 5.3.1). Of a Router Advertisement what has room is taken, in order, and what
     * has none is passed over: the router, a prefix on the link, an address that would form, a
     * server, a search name. A refresh or a removal never is. A link-layer address that would need
     * a new neighbour where the cache is full makes no entry. A solicitation whose asker gets no
     * entry is answered to the link-layer address that it gives, unless that is a group's, and is
     * not answered otherwise. ND_OUT_IGNORED reports each limit of which a part was passed over. */
    ND_POLICY_PARTS = 1,

    /* What is known to live goes before what is only asked for. Where a message gives the
     * link-layer address of a new neighbour, the cache is full, and none is STALE, the INCOMPLETE
     * neighbour that was asked for longest fails (ND_OUT_FAILED) instead of a refusal. The answer
     * to a solicitation is no use of the asker's entry, which stays STALE and may go: a neighbour
     * that probes the node is not probed back (nd_confirm). */
    ND_POLICY_SPEAKERS = 2,

    /* Of a Router Advertisement, a Cur Hop Limit below 32, a Reachable Time outside 1,000 to
     * 3,600,000 ms and a Retrans Timer outside 100 to 30,000 ms are read as 0, unspecified. */
    ND_POLICY_TIMERS = 4,

    /* A message whose source is one of the node's assigned addresses is dropped
     * (ND_WHY_NOT_FOR_US), and so is a packet in transit whose source is an address of its own. A
     * source or target link-layer address that is a group's (the lowest bit of its first byte is
     * set), zeros or the node's own is passed over, as if the option were not there. */
    ND_POLICY_SELF = 8,

    /* A router sends on only packets whose frame has its own address as the Ethernet destination,
     * and drops others that are not for it. At a host it has no effect. */
    ND_POLICY_UNICAST = 16,

    /* The flag A of each prefix option is read as 0, so that an advertisement forms and renews no
     * address (RFC 4862, 5.5.3 a), and draws no delay for one. The caller forms addresses by rules
     * of its own (RFC 7217, RFC 8981), and gives them to the node by nd_add_address. */
    ND_POLICY_UNFORMED = 32,

    /* Not built yet: refused. Each address that is assigned is announced to all nodes (RFC 4861,
     * 7.2.6). */
    ND_POLICY_ANNOUNCE = 64,

    /* Not built yet: refused. A host solicits routers until one answers (RFC 7559, 2). */
    ND_POLICY_SOLICIT = 128,

    /* Not built yet: refused. The solicitations of a detection have a nonce, by which the node
     * knows its own (RFC 7527, 4). */
    ND_POLICY_NONCE = 256,

    /* The flag S of a Neighbor Advertisement is read as 0 unless the entry of its target is
     * INCOMPLETE or in PROBE: in no other state is a solicitation of the node's out. By RFC 4861,
     * 7.2.5, the flag confirms an entry in any state. Whether an advertisement is valid is judged
     * by the flag as it was sent (ND_WHY_SOLICITED_MULTICAST). */
    ND_POLICY_ASKED = 512,

    /* Not built yet: refused. At most half of the neighbours are INCOMPLETE for what the node asks
     * (RFC 6583, 7.1). */
    ND_POLICY_LOOKUPS = 1024,

    /* A Router Lifetime above 9,000 s is read as 9,000, the most that a router may be set to (RFC
     * 4861, 6.2.1). A valid or preferred lifetime of a prefix (4.6.2), and a lifetime of DNS
     * servers or search names (RFC 8106, 5.1 and 5.2), that is above 604,800 s or has no end is
     * read as 604,800, a week. What follows from a lifetime, such as whether an address forms, is
     * judged by what was read. Addresses of nd_add_address keep theirs. */
    ND_POLICY_LIFETIMES = 2048,

    /* A host drops each Redirect (ND_WHY_NOT_FOR_US). At a router, which takes none, it has no
     * effect. */
    ND_POLICY_UNREDIRECTED = 4096,

    /* What an RFC forbids to send, and a node takes by default, is dropped (ND_WHY_NOT_FOR_US): a
     * Router or Neighbor Solicitation from :: with an option of type 1 of any length (RFC 4861,
     * 6.1.1 and 7.1.1); a Neighbor Solicitation from another source to a multicast address, without
     * a Source Link-Layer Address that counts (4.3); a message from ::1, and a packet for the node
     * from ::1 or from a multicast address (RFC 4291, 2.5.3 and 2.7). And at a host a neighbour
     * that says that it is a router no longer ends as one (ND_OUT_ENDED_ROUTER) also if it is not
     * in the list of routers, so that Redirects to it end (RFC 4861, 7.3.3). */
    ND_POLICY_STRICT = 8192
};

/* Recommended on a link that is not trusted. UNFORMED and UNREDIRECTED are not in it, since a host
 * may need what they leave out; nor is LOOKUPS, before it is built. What is heard is never refused
 * for a limit: a sender that fills a table does not have the messages of others refused whole, and
 * ND_OUT_IGNORED says which limit a part was passed over for. A forwarded packet and the caller's
 * own events are still refused for one, and a table that a sender has filled stays full:
 * docs/FAULTS.md says for how long, and what else a hostile link can still do. */
#define ND_POLICIES_ROBUST \
    (ND_POLICY_PARTS | ND_POLICY_SPEAKERS | ND_POLICY_TIMERS | ND_POLICY_SELF | \
     ND_POLICY_UNICAST | ND_POLICY_ASKED | ND_POLICY_LIFETIMES | ND_POLICY_STRICT)

typedef struct nd_options {
    uint32_t role;     /* enum nd_role */
    nd_mac mac;        /* the interface's own address; not checked */
    uint8_t transmits; /* DupAddrDetectTransmits (RFC 4862, 5.1), 1 to 8; 0: 1 */
    uint8_t draws;     /* enum nd_draws */
    uint32_t policies; /* a sum of enum nd_policy, such as ND_POLICIES_ROBUST, or 0 */
    uint64_t start;    /* the moment of the start */
    uint64_t seed;     /* decides the random delays: take it from the system's entropy, so that
                          machines that start together do not send together (RFC 4861, 6.3.7) */
    nd_limits limits;
    uint64_t lease_version; /* where nd_lease_version begins; 0: at 1. See nd_close */
    uint8_t identifier[8];  /* not built yet: other bytes than zeros are refused. The identifier of
                               its addresses (RFC 4291, 2.5.1); zeros: that of `mac` */
} nd_options;

/* A host with the usual limits, as are zero bytes. */
#define ND_OPTIONS_INIT \
    { 0, { { 0, 0, 0, 0, 0, 0 } }, 0, 0, 0, 0, 0, \
      { 0, 0, 0, 0, 0, 0, 0, 0, 0, 0, 0, { 0, 0, 0, 0, 0 } }, 0, { 0, 0, 0, 0, 0, 0, 0, 0 } }

/* Makes them those of a host with the usual limits. */
static inline void nd_options_init(nd_options *options)
{
    const nd_options usual = ND_OPTIONS_INIT;
    *options = usual;
}

/* Opens a node: it draws its ReachableTime, forms its link-local address, which is fe80:: with the
 * interface identifier of its MAC (RFC 2464, 4 and 5), and will detect whether that is a duplicate
 * (RFC 4861, 6.3.2; RFC 4862, 5.3 and 5.4). `size` is sizeof(nd_options) as the caller knows it: as
 * many bytes are read, and what the caller's structure does not have yet is 0, the default.
 *   ND_DONE        It is open at the moment `start`; nothing is reported yet.
 *   ND_INVALID     It is open already; or a field is outside its range; or a policy is not built
 *                  yet; or a byte is not 0 behind the fields that the library knows, such as one of
 *                  `identifier`. Nothing has changed.
 *   ND_NO_MEMORY   It is closed. The same call again is as if it were the first. */
int32_t nd_open(nd_node *node, const nd_options *options, size_t size);

/* Closes a node. Nothing is sent, and records that were not polled are lost. So a router calls
 * nd_stop_advertising first, and polls until ND_NOTHING: by its last advertisement it leaves the
 * hosts' lists (RFC 4861, 6.2.5), where it may else stay for its whole lifetime. All leases end:
 * forget the paths of nd_resolve. Or open the next node with `lease_version` above the
 * nd_lease_version of this one: its version is never that of an old path then, since it never
 * falls. A closed node may be closed again, and opened anew. */
void nd_close(nd_node *node);

/* ---- time ------------------------------------------------------------------------------------ */

/* Returns the moment up to which time has passed: that of the start or of the last event. What
 * nd_next_hop finds due, or a call that returns ND_NO_MEMORY, moves it to the last thing that was
 * done. UINT64_MAX if the node is closed. */
uint64_t nd_last_moment(nd_node *node);

/* Returns the earliest moment at which something is due; it is never before nd_last_moment. Call
 * nd_pass then, or any other event. UINT64_MAX if the node is closed: an open node always has
 * something to do, at least every 7,200,000 ms (RFC 4861, 6.3.4). It changes nothing. */
uint64_t nd_next_due(nd_node *node);

/* Lets time pass up to `now`, and does all that is due (RFC 4861, 6.2.4, 6.2.6, 6.3.5, 6.3.7,
 * 7.2.2, 7.3.3; RFC 4862, 5.4 and 5.5.4).
 *   ND_DONE        nd_last_moment is `now`, and nd_next_due is above it.
 *   ND_NO_MEMORY   A part of what is due may have been done, and at least the first thing if the
 *                  queue was empty. Poll until ND_NOTHING, and call again.
 *   ND_INVALID (a moment of ND_MOMENT_LIMIT or above), ND_CLOSED, ND_PAST   Nothing has changed. */
int32_t nd_pass(nd_node *node, uint64_t now);

/* ---- events ---------------------------------------------------------------------------------- */

/* Each event first does what nd_pass does, and then what it says. All of them return
 *   ND_NO_MEMORY   The event has added nothing; a part of what is due may have been done. Poll
 *                  until ND_NOTHING, and call again, or give the event up.
 *   ND_INVALID (a moment of ND_MOMENT_LIMIT or above), ND_CLOSED, ND_PAST   Nothing has changed. */

/* Receives a frame (RFC 4861, 6.1, 6.2.6, 6.3.4, 7.1, 7.2.3 to 7.2.5, 8; RFC 4862, 5.4 and 5.5.3;
 * RFC 8106, 5). See FRAMES IN above. The frame is copied where that is needed, and not kept.
 *   ND_DONE        A record says what it was: ND_OUT_HEARD, ND_OUT_DROPPED or ND_OUT_UP. What
 *                  follows from a message is reported after ND_OUT_HEARD. A packet in transit has
 *                  no such record: a router forwards it, which is ND_OUT_FRAME or ND_OUT_LOST, now
 *                  or once the link-layer address of its next hop is known (RFC 8200, 3).
 *   refused        ND_REFUSAL_FULL, but not of a message with ND_POLICY_PARTS: a part of it would
 *                  pass a limit. No part of it was taken. So once as many DNS servers without end
 *                  are known as the limit says, an advertisement of another server is refused
 *                  whole, with its router and its prefixes. Where the neighbours are at their
 *                  limit, the one that is STALE for longest is evicted for a new one; if none is
 *                  STALE, a message of a new neighbour is refused. */
int32_t nd_receive(nd_node *node, uint64_t now, const uint8_t *frame, size_t length);

typedef struct nd_message { /* what a stack has read of the IPv6 header (RFC 8200, 3) */
    nd_addr source;
    nd_addr destination;
    uint8_t hop_limit;
    uint8_t checksum_good; /* 1: the ICMPv6 checksum was seen to be good; 0: the node looks */
    uint16_t reserved;
} nd_message;

/* Receives a message of a stack that has taken it out of its packet: `bytes` are those of ICMPv6,
 * from the type on. It is what nd_receive does with the frame that has these fields and these
 * bytes, and the right checksum in it if `checksum_good` is 1. `length` is the payload length of
 * the packet less its extension headers, without padding of the frame. A message that came in
 * fragments is the caller's to drop (RFC 6980, 5).
 *   As nd_receive; ND_INVALID also if a field is outside its range, `length` is above 65535, or the
 * type is none of 133 to 137 (there is none if `length` is 0). */
int32_t nd_receive_message(nd_node *node, uint64_t now, const nd_message *message,
                           const uint8_t *bytes, size_t length);

/* Sends a packet of an upper layer (RFC 4861, 5.2, 7.2.2 and 7.3.3). `source` is an assigned
 * address of the node; the caller chooses it. `payload` is what follows the IPv6 header, with its
 * own checksum. The node writes the Ethernet and IPv6 headers: traffic class and flow label 0, the
 * hop limit of nd_parameters_of. The payload is copied.
 *   ND_DONE        It is in a record ND_OUT_FRAME; or it waits for the link-layer address of its
 *                  next hop, as one of `waiting` (one more replaces the oldest: ND_OUT_LOST).
 *   ND_NOTHING     There is no next hop: ND_OUT_LOST with ND_LOSS_NO_ROUTE.
 *   refused        ND_REFUSAL_DISABLED, _NOT_OURS, _TOO_LONG (40 + `length` is above the MTU), or
 *                  _FULL. */
int32_t nd_send(nd_node *node, uint64_t now, const nd_addr *source, const nd_addr *destination,
                uint8_t next_header, const uint8_t *payload, size_t length);

/* Confirms that a neighbour is reached, since an upper layer made forward progress through it (RFC
 * 4861, 7.3.1). `neighbour` is the next hop, which nd_next_hop finds, and not the far end of a
 * connection.
 *   ND_DONE        It is REACHABLE for ReachableTime from now, if its link-layer address is known;
 *                  else nothing has changed.
 * A neighbour that is used and not confirmed is probed when its ReachableTime has ended, and probes
 * back 5 s later, since its answer uses its STALE entry for this node (RFC 4861, 7.2.4 and 7.3.3).
 * A confirmation spares both. Between nodes that send now and then, and confirm nothing, probing
 * back doubles the traffic: 2.2 solicitations for each datagram of a simulation, and 0.9 where all
 * nodes had ND_POLICY_SPEAKERS (docs/MEASURED.md). */
int32_t nd_confirm(nd_node *node, uint64_t now, const nd_addr *neighbour);

/* Confirms the next hop of a destination, since an upper layer knows that packets to it arrive (RFC
 * 4861, 7.3.1): it finds the next hop as nd_next_hop does, and confirms it as nd_confirm does, if
 * that makes it REACHABLE, or moves the end of its ReachableTime by `least` ms or more. So one that
 * was confirmed less than `least` ms ago is left as it is, as long as ReachableTime is the same. A
 * caller may call this for each sign of life: in the lease of a path (nd_resolve) it costs little,
 * and a call that returns ND_NOTHING where nothing is due leaves all leases.
 *   ND_DONE        The neighbour is REACHABLE for ReachableTime from now.
 *   ND_NOTHING     Nothing has changed but what was due: there is no next hop, its link-layer
 *                  address is not known, it was confirmed lately, or the destination is
 *                  multicast. */
int32_t nd_confirm_to(nd_node *node, uint64_t now, const nd_addr *destination, uint64_t least);

/* Removes a neighbour. It does not count as a failure: Redirects to it stay.
 *   ND_DONE        There is no entry for it. Packets that waited for it are reported, oldest first,
 *                  as ND_OUT_LOST with ND_LOSS_FORGOTTEN; those that the caller keeps have no
 *                  record. */
int32_t nd_forget(nd_node *node, uint64_t now, const nd_addr *neighbour);

enum nd_clearable {
    ND_CLEARABLE_NEIGHBOURS = 1, /* as nd_forget for each, in the order of addresses */
    ND_CLEARABLE_ROUTERS = 2,    /* ND_OUT_ENDED_ROUTER for each in list order; Redirects end */
    ND_CLEARABLE_PREFIXES = 3,   /* own addresses formed from them stay */
    ND_CLEARABLE_REDIRECTS = 4,
    ND_CLEARABLE_DNS = 5 /* servers and search names */
};

/* Removes all rows of a table. ND_INVALID also if `table` is no `enum nd_clearable`. A table that
 * the role does not have is empty: ND_DONE. */
int32_t nd_clear(nd_node *node, uint64_t now, uint32_t table);

typedef struct nd_own_address {
    nd_addr address;             /* not multicast, :: or ::1 */
    uint32_t valid_lifetime;     /* s, not 0, or ND_LIFETIME_INFINITE */
    uint32_t preferred_lifetime; /* s, not above valid_lifetime, or ND_LIFETIME_INFINITE */
} nd_own_address;

/* Gives the node an address by hand, at a host or at a router: a static one, one of DHCPv6, a
 * router's global one, or one that the caller chose. Duplicate detection is done for it as for each
 * other address (RFC 4862, 5.4): it is tentative, its first solicitation is due now, and
 * ND_OUT_ASSIGNED or ND_OUT_DUPLICATE says how that ends. It goes at the end of its valid lifetime,
 * with ND_OUT_ENDED_ADDRESS. An address that the node has already gets these lifetimes from now on,
 * in whatever state it is, and counts as given by hand: no Router Advertisement renews it (RFC
 * 4862, 5.5.3 e). A duplicate is not tried again by that: call nd_remove_address first. The node's
 * link-local address stays as it is.
 *   ND_DONE        The node has it, with these lifetimes.
 *   refused        ND_REFUSAL_DISABLED; ND_REFUSAL_TENTATIVE: the link-local address is not
 *                  assigned yet, call again after its ND_OUT_ASSIGNED; or ND_REFUSAL_FULL: there
 *                  are `limits.addresses` others.
 *   ND_INVALID     Also if a field is outside its range. */
int32_t nd_add_address(nd_node *node, uint64_t now, const nd_own_address *own);

/* Ends an address of the node, in whatever state it is, given by hand or formed from a prefix. One
 * that was formed forms again with the next Router Advertisement of its prefix.
 *   ND_DONE        The node does not have it, and ND_OUT_ENDED_ADDRESS is reported if it had it.
 *                  But the link-local address stays, and nothing is reported. */
int32_t nd_remove_address(nd_node *node, uint64_t now, const nd_addr *address);

enum nd_hop {
    ND_HOP_DIRECT = 1, /* the destination is on the link */
    ND_HOP_VIA = 2     /* through a router */
};

typedef struct nd_next_hop_row {
    nd_addr address; /* the destination, or the router */
    uint32_t hop;    /* enum nd_hop */
    uint32_t reserved;
} nd_next_hop_row;

/* Finds where nd_send would send a packet for `destination` now (RFC 4861, 5.2; 8.3 at a host; the
 * longest static route at a router). It uses no neighbour, and apart from what is due changes
 * nothing.
 *   ND_DONE        `row` has the next hop.
 *   ND_NOTHING     There is none; `row` is unchanged.
 * With nd_neighbour_of this serves a data path of your own: to a neighbour in REACHABLE, DELAY or
 * PROBE a packet may be sent without a call, since that changes no entry (RFC 4861, 7.3.3), and to
 * a multicast address too, at 33:33 and its last four bytes (RFC 2464, 7). In any other case call
 * nd_send, or nd_resolve. */
int32_t nd_next_hop(nd_node *node, uint64_t now, const nd_addr *destination, nd_next_hop_row *row);

typedef struct nd_path { /* a field is 0 where the status does not have it, but for `until` */
    uint64_t until;      /* DONE: the end of the lease; else `now` */
    uint64_t version;    /* DONE: nd_lease_version of the lease; else 0 */
    nd_addr next_hop;    /* DONE, WAITING: the destination, or the router */
    nd_mac mac;          /* DONE: its link-layer address */
    uint8_t has_mac;     /* 1: DONE; else 0 */
    uint8_t reserved;
    uint32_t hop;        /* DONE, WAITING: enum nd_hop */
    uint32_t state;      /* DONE, WAITING: enum nd_reachability of the next hop; 0 where it is
                            multicast, or where the call left something due at `now` */
} nd_path;

/* Asks where packets to `destination` go, for a stack that keeps and sends its packets itself (RFC
 * 4861, 5.2, 7.2.2 and 7.3.3; 8.3 at a host; the longest static route at a router). It counts as a
 * use of the next hop, as a packet of nd_send does: a STALE neighbour goes to DELAY, and one whose
 * link-layer address is not known is solicited (ND_OUT_FRAME). The answer is in `path`; no record
 * has it.
 *   ND_DONE        Send to `path->mac`: the next hop's, or that of a multicast destination, 33:33
 *                  and its last four bytes (RFC 2464, 7).
 *   ND_WAITING     Keep the packets until a record says ND_OUT_RESOLVED or ND_OUT_FAILED with
 *                  `address` the next hop, and ask again after ND_OUT_RESOLVED; after ND_OUT_FAILED
 *                  drop them, each with an ICMPv6 error of your own (RFC 4861, 7.2.2). One of them
 *                  comes unless nd_forget or nd_clear removes the neighbour. To ask again before is
 *                  no further use of the neighbour. But what is due is done first, and an
 *                  ND_OUT_FAILED of it, or one that was not polled yet, is of packets that were
 *                  kept before the call: call nd_pass, and nd_poll until ND_NOTHING, before it.
 *   ND_NOTHING     There is no next hop, as for the node's own addresses. `path` has zeros, but for
 *                  `until`.
 *   refused        ND_REFUSAL_DISABLED, _TENTATIVE (the link-local address is not assigned yet), or
 *                  _FULL. There is no ND_OUT_REFUSED, and `path` is as for ND_NOTHING. Ask again
 *                  when a record says ND_OUT_ASSIGNED, or for the next packet; after an
 *                  ND_OUT_DUPLICATE of the link-local address drop what you keep.
 * With any other status `path` is unchanged. The caller writes the whole frame, its link-layer
 * addresses included, and keeps to the MTU; it may ask between two calls of nd_poll.
 * The lease: after ND_DONE packets to `destination` may be sent to `path->mac` without a call while
 *     now < path->until && path->version == version
 * where `version` is nd_lease_version after the last call. Such a packet leaves the node as it
 * would be with a call: its neighbour is used, and not STALE (RFC 4861, 7.3.3). Once the lease is
 * over, ask again. Where `until` is `now` there is none: ask for each packet. nd_close ends all
 * leases; it says how this test shows that.
 * For each packet, with a path that is kept for its destination (examples/c/stack.c):
 *
 *     if (now >= path->until || path->version != version) {
 *         nd_pass(&node, now);
 *         poll_all(); // RESOLVED: send what is kept for its address first; FAILED: drop that
 *         int32_t status = nd_resolve(&node, now, &destination, path);
 *         version = nd_lease_version(&node);
 *         if (status != ND_DONE) {
 *             status == ND_WAITING ? keep(packet, &path->next_hop) : drop(packet);
 *             return poll_all(); // the solicitation of ND_WAITING is sent at once
 *         }
 *     }
 *     transmit(packet, &path->mac);
 *
 * Asked again in its lease, a destination costs little, however many neighbours there are: a node
 * keeps such answers, one for each of limits.destinations, rounded down to a power of two. */
int32_t nd_resolve(nd_node *node, uint64_t now, const nd_addr *destination, nd_path *path);

/* Returns the version of all leases. It never falls, and it grows with each call after which a
 * lease may hold no longer: not with nd_poll, a question, nd_resolve in a lease, a call that
 * returns ND_PAST, ND_INVALID or ND_CLOSED; nor, where nothing is due but solicitations for
 * neighbours, with nd_pass, nd_next_hop, nd_receive of a frame that is dropped or whose packet is
 * for the node (what it reports is ND_OUT_DROPPED or ND_OUT_UP), and nd_confirm and nd_confirm_to,
 * unless ReachableTime has become so short that the lease of a path to the neighbour ends earlier.
 * 0 if the node is closed. It begins where nd_options.lease_version says. It changes nothing. */
uint64_t nd_lease_version(nd_node *node);

/* ---- events at a router ---------------------------------------------------------------------- */

/* At a host all four are refused, ND_REFUSAL_WRONG_ROLE, if their arguments are good. */

typedef struct nd_advertising { /* RFC 4861, 6.2.1 */
    uint32_t min_interval;      /* MinRtrAdvInterval, s: 3 to 3/4 max_interval */
    uint32_t max_interval;      /* MaxRtrAdvInterval, s: 4 to 1800 */
    uint32_t lifetime;          /* AdvDefaultLifetime, s: max_interval to 9000, or 0 (not a
                                   default router) */
    uint32_t reachable_time;    /* AdvReachableTime, ms: 0 (unspecified) to 3600000 */
    uint32_t retrans_timer;     /* AdvRetransTimer, ms; 0: unspecified */
    uint32_t mtu;               /* AdvLinkMTU, bytes: 0 (none), or 1280 to 1500; the router's own
                                   MTU stays 1500 */
    uint8_t hop_limit;          /* AdvCurHopLimit; 0: unspecified */
    uint8_t managed;            /* AdvManagedFlag, 0 or 1 */
    uint8_t other;              /* AdvOtherConfigFlag, 0 or 1 */
    uint8_t preference;         /* enum nd_preference; MEDIUM where lifetime is 0 (RFC 4191, 2.2) */
    uint32_t reserved;
} nd_advertising;

/* Begins to advertise, or changes what is advertised (RFC 4861, 6.2.4). The first advertisement is
 * due now, but not before the link-local address is assigned, nor within 3 s of the last one. While
 * advertising, a change moves no date; it concerns contents and later intervals.
 *   ND_DONE        It advertises so.
 *   ND_INVALID     Also if a field is outside its range. */
int32_t nd_advertise(nd_node *node, uint64_t now, const nd_advertising *settings);

typedef struct nd_offer_row {    /* an advertised prefix (RFC 4861, 6.2.1, AdvPrefixList) */
    nd_addr prefix;              /* not link-local or multicast; bits past its length are zeroed */
    uint32_t bits;               /* its length, 0 to 128 */
    uint32_t valid_lifetime;     /* AdvValidLifetime, s, or ND_LIFETIME_INFINITE */
    uint32_t preferred_lifetime; /* AdvPreferredLifetime, s, not above valid_lifetime */
    uint8_t on_link;             /* AdvOnLinkFlag, 0 or 1 */
    uint8_t autonomous;          /* AdvAutonomousFlag, 0 or 1 */
    uint8_t reserved[2];
} nd_offer_row;

/* Advertises a prefix, from the next advertisement on. It is not on the link for the router itself,
 * as long as no static route says so (nd_add_route, ND_HOP_DIRECT). An offer of the same prefix and
 * length is replaced in its place. None can be removed: offer lifetimes of 0 to withdraw a prefix
 * (RFC 4861, 6.2.1; RFC 4862, 5.5.3).
 *   ND_DONE        It is offered.
 *   refused        ND_REFUSAL_FULL: there are `limits.offers` others.
 *   ND_INVALID     Also if a field is outside its range. */
int32_t nd_advertise_prefix(nd_node *node, uint64_t now, const nd_offer_row *offer);

typedef struct nd_route_row {
    nd_addr prefix; /* bits past its length are zeroed */
    nd_addr router; /* on the link, with ND_HOP_VIA; else ignored, and written as zeros */
    uint32_t bits;  /* the prefix's length, 0 to 128 */
    uint32_t hop;   /* enum nd_hop */
} nd_route_row;

/* Puts a static route (RFC 4861, 5.2). A route of the same prefix and length is replaced in its
 * place. None can be removed. Packets to fe80::/64 and to multicast addresses need no route. The
 * router's address is not checked: a multicast address, :: and ::1 are taken too, and resolved as
 * any other.
 *   ND_DONE        It is there.
 *   refused        ND_REFUSAL_FULL: there are `limits.routes` others.
 *   ND_INVALID     Also if `bits` or `hop` is outside its range. */
int32_t nd_add_route(nd_node *node, uint64_t now, const nd_route_row *route);

/* Ends advertising (RFC 4861, 6.2.5). If an advertisement was sent since it began, a last one with
 * a router lifetime of 0 is reported, to be sent before nd_close. ND_DONE also if it does not
 * advertise. */
int32_t nd_stop_advertising(nd_node *node, uint64_t now);

/* ---- what a node reports --------------------------------------------------------------------- */

enum nd_kind {
    ND_OUT_FRAME = 1,         /* send these bytes */
    ND_OUT_HEARD = 2,         /* a valid message from `address`; `code`: its ICMPv6 type, 133 to
                                 137. nd_hear says what is in it */
    ND_OUT_DROPPED = 3,       /* a frame was dropped; `code`: enum nd_why */
    ND_OUT_UP = 4,            /* a packet for an assigned address or a group of the node; the bytes
                                 begin with its IPv6 header. Its source is not looked at: it may be
                                 multicast, ::, ::1 or the node's own (RFC 4291, 2.5.2, 2.5.3 and
                                 2.7); with ND_POLICY_STRICT it is neither multicast nor ::1. Nor
                                 are extension headers and checksums */
    ND_OUT_DUPLICATE = 5,     /* the node's address `address` is another node's too, and is not
                                 used. If it is the link-local one, the node is disabled: close it
                                 (RFC 4862, 5.4.5) */
    ND_OUT_ASSIGNED = 6,      /* the node's address `address` may be used (RFC 4862, 5.4) */
    ND_OUT_ENDED_ADDRESS = 7, /* the node's address `address` is gone (RFC 4862, 5.5.4), or was
                                 removed by nd_remove_address */
    ND_OUT_ENDED_ROUTER = 8,  /* `address` left the default router list (RFC 4861, 6.3.5), or
                                 by ND_POLICY_STRICT is a router no longer (7.3.3) */
    ND_OUT_FAILED = 9,        /* neighbour `address` was not resolved or not reached, and is removed
                                 (RFC 4861, 7.2.2 and 7.3.3). Its packets follow as ND_OUT_LOST */
    ND_OUT_LOST = 10,         /* a packet is not sent; `code`: enum nd_loss; the bytes begin with
                                 its IPv6 header. ICMPv6 errors are yours (RFC 4443, 3.1 and 3.3) */
    ND_OUT_REFUSED = 11,      /* an event was refused; `code`: enum nd_refusal; `address`: the
                                 source, of ND_REFUSAL_NOT_OURS */
    ND_OUT_RESOLVED = 13,     /* the link-layer address of neighbour `address` is known, for which
                                 nd_resolve returned ND_WAITING (RFC 4861, 7.2.2); the bytes are
                                 that address, 6 bytes. It follows what nd_send had left waiting */
    ND_OUT_IGNORED = 14       /* parts of a message were passed over, by ND_POLICY_PARTS: the table
                                 `limit` has no room for them */
};

enum nd_loss {
    ND_LOSS_UNREACHABLE = 1, /* its neighbour was not resolved (RFC 4861, 7.2.2) */
    ND_LOSS_REPLACED = 2,    /* a later packet waits for its neighbour (RFC 4861, 7.2.2) */
    ND_LOSS_FORGOTTEN = 3,   /* nd_forget or nd_clear removed its neighbour */
    ND_LOSS_NO_ROUTE = 4,    /* it has no next hop (RFC 4861, 5.2) */
    ND_LOSS_HOP_LIMIT = 5    /* to be forwarded with a hop limit below 2 (RFC 8200, 3) */
};

/* The tables that may have changed with a record: after ND_OUT_HEARD of type 134 all but redirects,
 * of 137 these; after ND_OUT_DUPLICATE, _ASSIGNED and _ENDED_ADDRESS the addresses; after
 * ND_OUT_ENDED_ROUTER and _FAILED the routers and the redirects; after others none. */
enum nd_change {
    ND_CHANGE_ROUTERS = 1,
    ND_CHANGE_PREFIXES = 2,
    ND_CHANGE_ADDRESSES = 4, /* the node's own */
    ND_CHANGE_SERVERS = 8,
    ND_CHANGE_NAMES = 16,
    ND_CHANGE_REDIRECTS = 32,
    ND_CHANGE_PARAMETERS = 64
};

typedef struct nd_out {
    uint64_t moment;  /* when it was due, or when its event arrived */
    size_t length;    /* of its bytes: FRAME, UP, LOST and RESOLVED have some, the others none */
    uint32_t kind;    /* enum nd_kind */
    uint32_t code;    /* as the kind says; else 0 */
    uint32_t limit;   /* enum nd_limit, of ND_REFUSAL_FULL and ND_OUT_IGNORED; else 0 */
    uint32_t changes; /* a sum of enum nd_change: what to read again; 0 for most records */
    nd_addr address;  /* as the kind or the refusal says; else :: */
} nd_out;

/* Takes the oldest record, and copies its bytes to the beginning of `buffer`, of `size` bytes.
 *   ND_DONE        `out` and the first `out->length` bytes of `buffer` are written; the record is
 *                  gone.
 *   ND_NOTHING     There is none; nothing is written.
 *   ND_NO_ROOM     `out` is written, `buffer` is not, and the record stays the oldest. Call again
 *                  with `out->length` bytes; until then every call still works, and appends
 *                  records.
 *   ND_CLOSED      Nothing is written. */
int32_t nd_poll(nd_node *node, nd_out *out, uint8_t *buffer, size_t size);

/* ---- what a node knows ----------------------------------------------------------------------- */

/* Questions change nothing. `now` is not before nd_last_moment, and may be after it: a row then
 * says what holds at `now` if nothing is due before; call nd_pass first to be exact.
 *
 * What changed: add up `changes` of the records that you poll. A table without its bit is as it
 * was, but for what your own calls have changed (nd_add_address; nd_clear, which with the routers
 * ends the redirects), and for what time does without a record: a prefix, a server or a name ends
 * and an address becomes DEPRECATED when its `left` has passed, and ReachableTime is drawn anew.
 * Neighbours have no bit: with most frames one of them changes.
 *
 * All rows of a table at once, in the order that the function names:
 *
 *     nd_address_row rows[64];
 *     size_t count;
 *     nd_addresses(&node, now, rows, 64, &count);
 *
 *   ND_DONE        All rows are written, from rows[0] on; `count` is their number.
 *   ND_NO_ROOM     There are more than `room`: the first ones are written, and `count` is `room`.
 *
 * Or one row, by its index from 0 on in the same order. An index names a row until the next event
 * or a later `now`. If one comes between, a loop may miss a row or see one twice, and nothing
 * worse. A call costs what the index is.
 *   ND_DONE        The row is written.
 *   ND_NOTHING     There is no such row; nothing is written.
 *
 * All of them:
 *   ND_INVALID (a moment of ND_MOMENT_LIMIT or above), ND_CLOSED, ND_PAST   Nothing is written. */

enum nd_reachability { /* RFC 4861, 7.3.2 */
    ND_REACHABILITY_INCOMPLETE = 1,
    ND_REACHABILITY_REACHABLE = 2,
    ND_REACHABILITY_STALE = 3,
    ND_REACHABILITY_DELAY = 4,
    ND_REACHABILITY_PROBE = 5
};

typedef struct nd_neighbour_row {
    uint64_t reachable_left; /* of the time for which it is REACHABLE, ms; 0 in another state */
    nd_addr address;
    nd_mac mac;              /* zeros while it is INCOMPLETE */
    uint8_t has_mac;         /* 0 or 1 */
    uint8_t is_router;       /* IsRouter, 0 or 1 (RFC 4861, 5.1) */
    uint32_t state;          /* enum nd_reachability */
    uint32_t reserved;
} nd_neighbour_row;

/* The neighbours, in the order of their addresses (RFC 4861, 5.1). */
int32_t nd_neighbours(nd_node *node, uint64_t now, nd_neighbour_row *rows, size_t room,
                      size_t *count);
int32_t nd_neighbour_at(nd_node *node, uint64_t now, size_t index, nd_neighbour_row *row);

/* The neighbour of an address. */
int32_t nd_neighbour_of(nd_node *node, uint64_t now, const nd_addr *address, nd_neighbour_row *row);

typedef struct nd_router_row {
    uint64_t left;       /* of its lifetime, ms */
    nd_addr address;     /* link-local */
    uint32_t preference; /* enum nd_preference */
    uint32_t reserved;
} nd_router_row;

/* The default routers, in the order in which they entered the list (RFC 4861, 5.1). Which one is
 * used for a destination is nd_next_hop's answer, not the first row. */
int32_t nd_routers(nd_node *node, uint64_t now, nd_router_row *rows, size_t room, size_t *count);
int32_t nd_router_at(nd_node *node, uint64_t now, size_t index, nd_router_row *row);

typedef struct nd_prefix_row {
    uint64_t left; /* of its valid lifetime, ms, or ND_FOREVER */
    nd_addr prefix;
    uint32_t bits; /* its length */
    uint32_t reserved;
} nd_prefix_row;

/* The prefixes on the link, in the order in which they entered the table (RFC 4861, 5.1); fe80::/64
 * is not shown. */
int32_t nd_prefixes(nd_node *node, uint64_t now, nd_prefix_row *rows, size_t room, size_t *count);
int32_t nd_prefix_at(nd_node *node, uint64_t now, size_t index, nd_prefix_row *row);

enum nd_state { /* of an address of the node (RFC 4862, 2) */
    ND_STATE_TENTATIVE = 1,
    ND_STATE_PREFERRED = 2,
    ND_STATE_DEPRECATED = 3,
    ND_STATE_DUPLICATE = 4
};

typedef struct nd_address_row {
    uint64_t preferred_left; /* ms; 0: ended; ND_FOREVER */
    uint64_t valid_left;     /* ms; 0: ended, and not yet removed; ND_FOREVER */
    nd_addr address;
    uint32_t state;  /* enum nd_state */
    uint8_t by_hand; /* 1 if nd_add_address set its lifetimes, else 0 */
    uint8_t reserved[3];
} nd_address_row;

/* The own addresses, the link-local one too, in the order of addresses (RFC 4862, 5.3, 5.4 and
 * 5.5.3). */
int32_t nd_addresses(nd_node *node, uint64_t now, nd_address_row *rows, size_t room, size_t *count);
int32_t nd_address_at(nd_node *node, uint64_t now, size_t index, nd_address_row *row);

typedef struct nd_server_row {
    uint64_t left; /* ms, or ND_FOREVER */
    nd_addr address;
} nd_server_row;

/* The DNS servers, in the order in which they entered the table (RFC 8106, 5.1 and 6.1). */
int32_t nd_servers(nd_node *node, uint64_t now, nd_server_row *rows, size_t room, size_t *count);
int32_t nd_server_at(nd_node *node, uint64_t now, size_t index, nd_server_row *row);

typedef struct nd_name_row {
    uint64_t left;   /* ms, or ND_FOREVER */
    uint32_t length; /* of the text, 1 to 253 */
    uint32_t reserved;
    char text[256]; /* labels joined by dots, then zeros. Only small letters, digits, hyphens and
                       underscores are in a label, so it can be written to a file of a resolver. A
                       label may begin with a hyphen, as in -rf.com: a program that is passed it as
                       an argument may take it for an option */
} nd_name_row;

/* The DNS search names, in the order in which they entered the table (RFC 8106, 5.2 and 6.1). */
int32_t nd_names(nd_node *node, uint64_t now, nd_name_row *rows, size_t room, size_t *count);
int32_t nd_name_at(nd_node *node, uint64_t now, size_t index, nd_name_row *row);

typedef struct nd_redirect_row {
    nd_addr destination;
    nd_addr target; /* its first hop; the destination itself where that is on the link */
} nd_redirect_row;

/* The Redirects in force, the newest first (RFC 4861, 8.3). */
int32_t nd_redirects(nd_node *node, uint64_t now, nd_redirect_row *rows, size_t room,
                     size_t *count);
int32_t nd_redirect_at(nd_node *node, uint64_t now, size_t index, nd_redirect_row *row);

typedef struct nd_parameters_row {
    uint64_t reachable_time;      /* ReachableTime, ms, as last drawn */
    uint32_t base_reachable_time; /* BaseReachableTime, ms */
    uint32_t retrans_timer;       /* RetransTimer, ms */
    uint32_t mtu;                 /* LinkMTU, bytes */
    uint8_t hop_limit;            /* CurHopLimit */
    uint8_t managed;              /* M of the last Router Advertisement, 0 or 1 */
    uint8_t other;                /* O of it, 0 or 1 */
    uint8_t reserved;
} nd_parameters_row;

/* The parameters of the link (RFC 4861, 6.3.2): always one row. A router keeps the defaults. */
int32_t nd_parameters_of(nd_node *node, uint64_t now, nd_parameters_row *row);

/* The offers of a router, in the order in which each was first put. A host has none. */
int32_t nd_offers(nd_node *node, uint64_t now, nd_offer_row *rows, size_t room, size_t *count);
int32_t nd_offer_at(nd_node *node, uint64_t now, size_t index, nd_offer_row *row);

/* The static routes of a router, in the order in which each was first put. A host has none. */
int32_t nd_routes(nd_node *node, uint64_t now, nd_route_row *rows, size_t room, size_t *count);
int32_t nd_route_at(nd_node *node, uint64_t now, size_t index, nd_route_row *row);

/* What a router advertises; ND_NOTHING where it does not advertise, and at a host. */
int32_t nd_advertising_of(nd_node *node, uint64_t now, nd_advertising *row);

typedef struct nd_counts_row {
    uint32_t neighbours, routers, prefixes, addresses, servers, names, redirects, offers, routes;
    uint32_t reserved;
    nd_limits limits; /* that the node was opened with, the usual numbers in place of 0 */
} nd_counts_row;

/* How many entries the tables have, and how many they may have. An entry whose lifetime has
 * ended counts until it is removed: a loop by index ends at ND_NOTHING, not at these numbers. */
int32_t nd_counts_of(nd_node *node, uint64_t now, nd_counts_row *row);

/* ---- without a node -------------------------------------------------------------------------- */

/* nd_hear.h declares nd_hear, which says what a frame is to a host or to a router that knows
 * nothing else: its message, or the first reason to drop it. The library of a node has it too. */

/* ---- planned --------------------------------------------------------------------------------- */

/* Additions of later minor versions. Nothing above changes with them:
 *   nd_send_packet      sends a whole IPv6 packet that the caller built
 *   ND_OUT_FORMED = 12  the node's address `address` is tentative: join its solicited-node group */

#ifdef __cplusplus
}
#endif
#endif
