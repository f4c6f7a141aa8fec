/* nd6: Neighbor Discovery of lwIP 2.1 for one Ethernet interface, over the node of nd.h, in place of lwIP's core/ipv6/nd6.c. lwIP keeps and sends its
 * packets itself, and the node says where they go. lwIP's options for nd6.c are the limits of the node. */
#include "lwip/dns.h"
#include "lwip/ip.h"
#include "lwip/mld6.h"
#include "lwip/nd6.h"
#include "lwip/prot/icmp6.h"
#include "lwip/stats.h"
#include "lwip/sys.h"
#include "lwip/timeouts.h"
#include "netif/ethernet.h"
#include <string.h>
#include "nd.h"

#ifndef LWIP_HOOK_ND6_RECORD
#define LWIP_HOOK_ND6_RECORD(netif, out) ((void)0) /* sees all that the node reports */
#endif
#if MEM_ALIGNMENT < 16 || !LWIP_IPV6_ADDRESS_LIFETIMES || !LWIP_IPV6_MLD || !LWIP_DNS
#error "the blocks of the node need MEM_ALIGNMENT 16, and its addresses LWIP_IPV6_AUTOCONFIG; LWIP_IPV6_MLD and LWIP_DNS are used"
#endif

enum { ETHERNET = 14, MOST_OF_ONE = 3, HINT_MS = 1000 };

static nd_node node;
static struct netif *interface; /* NULL: the node is closed */
static uint64_t version;        /* nd_lease_version after the last call */
static uint64_t timeout_at;     /* the moment of the pending timeout; UINT64_MAX: none is */
static int is_polled;
static uint8_t buffer[ND_BUFFER_BYTES];
static struct waiting { /* the oldest first */
    nd_addr next_hop;
    struct pbuf *packet;
} waiting[MEMP_NUM_ND6_QUEUE];
static size_t waiting_count, servers; /* `servers`: how many DNS servers are set */
static struct lease { /* packets to `destination` go to `path.mac` before `path.until`, while `path.version` is `version` */
    nd_addr destination;
    nd_path path;
    u16_t mtu; /* of the way to it, as a Packet Too Big says; 0: that of the interface */
} leases[LWIP_ND6_NUM_DESTINATIONS];

static uint64_t moment(void) { /* sys_now has 32 bits and wraps after 49.7 days; nd6_tmr asks each second */
    static uint64_t last;
    return last += (u32_t)(sys_now() - (u32_t)last);
}

struct nd_block nd_alloc(size_t size, size_t align) {
    return nd_block_at(size <= MEM_SIZE && align <= MEM_ALIGNMENT ? mem_malloc((mem_size_t)LWIP_MAX(size, 1)) : NULL);
}

struct nd_block nd_realloc(void *p, size_t kept, size_t size, size_t align) {
    struct nd_block block = nd_alloc(size, align);
    if (block.ok) {
        memcpy(block.p, p, kept);
        mem_free(p);
    }
    return block;
}

void nd_free(void *p) { mem_free(p); }
static int is_same(const void *one, const void *other) { return memcmp(one, other, sizeof(nd_addr)) == 0; }

static ip6_addr_t address_of(const void *bytes) {
    ip6_addr_t address;
    memcpy(address.addr, bytes, sizeof address.addr);
    ip6_addr_assign_zone(&address, IP6_UNKNOWN, interface);
    return address;
}

static struct pbuf *take(size_t index) {
    struct pbuf *packet = waiting[index].packet;
    memmove(&waiting[index], &waiting[index + 1], (--waiting_count - index) * sizeof waiting[0]);
    return packet;
}

/* Keeps a copy of a packet until its next hop is resolved or fails, in place of the oldest one where there are three for it (RFC 4861, 7.2.2). */
static err_t keep(const nd_addr *next_hop, struct pbuf *packet) {
    struct pbuf *copy = pbuf_clone(PBUF_LINK, PBUF_RAM, packet);
    size_t same = 0, oldest = 0;
    if (copy == NULL)
        return ERR_MEM;
    for (size_t index = waiting_count; index-- > 0;)
        if (is_same(&waiting[index].next_hop, next_hop))
            same++, oldest = index;
    if (same == MOST_OF_ONE || waiting_count == MEMP_NUM_ND6_QUEUE) {
        ND6_STATS_INC(nd6.drop);
        pbuf_free(take(same == MOST_OF_ONE ? oldest : 0));
    }
    waiting[waiting_count++] = (struct waiting){*next_hop, copy};
    return ERR_OK;
}

/* Sends the packets that waited for a neighbour: each asks again, and may wait anew. Or drops them: lwIP has no ICMPv6 error for its own packets. */
static void release(const nd_out *out) {
    for (size_t index = 0, end = waiting_count; index < end;)
        if (is_same(&waiting[index].next_hop, &out->address)) {
            struct pbuf *packet = take(index);
            ip6_addr_t destination = address_of(&((const struct ip6_hdr *)packet->payload)->dest);
            end--;
            if (out->kind == ND_OUT_RESOLVED)
                interface->output_ip6(interface, packet, &destination);
            else { ND6_STATS_INC(nd6.drop); }
            pbuf_free(packet);
        } else
            index++;
}

static void set_slot(s8_t slot, uint64_t valid, uint64_t preferred, u8_t state) { /* in seconds; 0: the address is static */
    netif_ip6_addr_set_valid_life(interface, slot, (u32_t)LWIP_MIN(valid, IP6_ADDR_LIFE_INFINITE));
    netif_ip6_addr_set_pref_life(interface, slot, (u32_t)LWIP_MIN(preferred, IP6_ADDR_LIFE_INFINITE));
    netif_ip6_addr_set_state(interface, slot, state);
}

/* Puts a row of the node's table into lwIP's, and returns the bit of its slot. With TENTATIVE_1 lwIP joins the group of the address. What was valid
 * when the interface was restarted stays so during its detection, else lwIP would end its connections. */
static u32_t show_address(const nd_address_row *row) {
    ip6_addr_t address = address_of(&row->address);
    int is_static = row->by_hand || ip6_addr_islinklocal(&address);
    s8_t slot = netif_get_ip6_addr_match(interface, &address);
    u8_t state = row->state == ND_STATE_PREFERRED ? IP6_ADDR_PREFERRED : row->state == ND_STATE_DEPRECATED ? IP6_ADDR_DEPRECATED
               : row->state == ND_STATE_DUPLICATE ? IP6_ADDR_DUPLICATED : IP6_ADDR_TENTATIVE_1;
    if (slot < 0 && row->by_hand) /* the program has taken it from the interface */
        nd_remove_address(&node, moment(), &row->address);
    if (slot < 0 && (row->by_hand || netif_add_ip6_address(interface, &address, &slot) != ERR_OK))
        return 0;
    if (state == IP6_ADDR_TENTATIVE_1 && ip6_addr_isvalid(netif_ip6_addr_state(interface, slot)))
        state = netif_ip6_addr_state(interface, slot);
    set_slot(slot, is_static ? 0 : row->valid_left / 1000 + 1, is_static ? 0 : row->preferred_left / 1000 + 1, state);
    return (u32_t)1 << slot;
}

static void show_link(void) { /* the MTU and the DNS servers of Router Advertisements */
    nd_parameters_row link;
    nd_server_row rows[LWIP_MAX(LWIP_ND6_RDNSS_MAX_DNS_SERVERS, 1)];
    size_t count = 0;
    if (nd_parameters_of(&node, moment(), &link) == ND_DONE)
        interface->mtu6 = LWIP_MIN((u16_t)link.mtu, interface->mtu);
    nd_servers(&node, moment(), rows, LWIP_ND6_RDNSS_MAX_DNS_SERVERS, &count);
    for (size_t index = 0; index < LWIP_MAX(count, servers); index++) {
        ip_addr_t address = *IP6_ADDR_ANY;
        if (index < count)
            ip_addr_copy_from_ip6(address, address_of(&rows[index].address));
        dns_setserver((u8_t)index, index < count ? &address : NULL);
    }
    servers = count;
}

/* Makes the tables of the node and of lwIP equal. The node gets the static addresses that the program gave to the interface; those that it refuses,
 * since its link-local address is tentative, a second later. Where `ends`, an address with a lifetime that is not the node's ends. */
static void match(int ends) {
    nd_own_address own = {.valid_lifetime = ND_LIFETIME_INFINITE, .preferred_lifetime = ND_LIFETIME_INFINITE};
    nd_address_row rows[LWIP_IPV6_NUM_ADDRESSES];
    size_t count = 0, known = 0; /* `known`: a bit for each slot */
    nd_addresses(&node, moment(), rows, LWIP_IPV6_NUM_ADDRESSES, &count);
    for (size_t index = 0; index < count; index++)
        known |= show_address(&rows[index]);
    for (s8_t slot = 0; slot < LWIP_IPV6_NUM_ADDRESSES; slot++) {
        u8_t state = netif_ip6_addr_state(interface, slot);
        int is_static = netif_ip6_addr_isstatic(interface, slot);
        if ((known >> slot & 1) != 0 || ip6_addr_isinvalid(state) || (is_static ? ip6_addr_isduplicated(state) : !ends))
            continue;
        memcpy(&own.address, netif_ip6_addr(interface, slot)->addr, sizeof own.address);
        if (!is_static)
            set_slot(slot, 0, 0, IP6_ADDR_INVALID);
        else if (nd_add_address(&node, moment(), &own) == ND_DONE && ip6_addr_istentative(state))
            netif_ip6_addr_set_state(interface, slot, IP6_ADDR_TENTATIVE_1);
    }
    show_link();
}

static void report(const nd_out *out) {
    struct pbuf *packet;
    LWIP_HOOK_ND6_RECORD(interface, out);
    if (out->kind == ND_OUT_FRAME && (packet = pbuf_alloc(PBUF_LINK, (u16_t)(out->length - ETHERNET), PBUF_RAM)) != NULL) {
        pbuf_take(packet, buffer + ETHERNET, packet->tot_len);
        ethernet_output(interface, packet, (const struct eth_addr *)interface->hwaddr, (const struct eth_addr *)buffer, ETHTYPE_IPV6);
        pbuf_free(packet);
    }
    if (out->kind == ND_OUT_RESOLVED || out->kind == ND_OUT_FAILED)
        release(out);
    if ((out->changes & ND_CHANGE_ADDRESSES) != 0)
        match(out->kind != ND_OUT_ASSIGNED && out->kind != ND_OUT_DUPLICATE);
}

/* Follows each call, or is a timeout: takes all records, and schedules the next call. What is called here may call back, and leaves its records. */
static void drain(void *is_due) {
    uint64_t next, now = moment();
    nd_out out;
    if (is_due != NULL) {
        timeout_at = UINT64_MAX;
        nd_pass(&node, now);
    }
    version = nd_lease_version(&node);
    if (is_polled)
        return;
    is_polled = 1;
    while (nd_poll(&node, &out, buffer, sizeof buffer) == ND_DONE)
        report(&out);
    is_polled = 0;
    next = nd_next_due(&node);
    if (next >= timeout_at)
        return; /* the pending timeout asks again */
    sys_untimeout(drain, &node);
    timeout_at = next;
    sys_timeout(next > now ? (u32_t)(next - now) : 0, drain, &node);
}

void nd6_cleanup_netif(struct netif *netif) {
    if (netif != interface)
        return;
    sys_untimeout(drain, &node);
    nd_close(&node);
    while (waiting_count > 0)
        pbuf_free(take(0));
    nd6_clear_destination_cache();
    interface = NULL;
}

/* The interface is up, or up again: its node begins anew. The addresses that it had are lwIP's, and remain. */
void nd6_restart_netif(struct netif *netif) {
    nd_options options = {.transmits = LWIP_IPV6_DUP_DETECT_ATTEMPTS, .policies = ND_POLICIES_ROBUST, .start = moment(),
        .seed = (uint64_t)LWIP_RAND() << 32 | LWIP_RAND(),
        .limits = {.neighbours = LWIP_ND6_NUM_NEIGHBORS, .routers = LWIP_ND6_NUM_ROUTERS, .prefixes = LWIP_ND6_NUM_PREFIXES,
            .addresses = LWIP_IPV6_NUM_ADDRESSES, .servers = LWIP_MAX(LWIP_ND6_RDNSS_MAX_DNS_SERVERS, 1), .names = 1,
            .redirects = LWIP_ND6_NUM_ROUTERS, .destinations = LWIP_ND6_NUM_DESTINATIONS, .offers = 1, .routes = 1, .waiting = 1}};
    if (!netif_is_up(netif) || !netif_is_link_up(netif) || !(netif->flags & NETIF_FLAG_ETHERNET) || (interface != NULL && interface != netif))
        return;
    nd6_cleanup_netif(netif);
    memcpy(options.mac.bytes, netif->hwaddr, sizeof options.mac.bytes);
    if (nd_open(&node, &options, sizeof options) != ND_DONE)
        return; /* without memory, and lwIP does not learn it */
    interface = netif;
    match(0); /* joins the group of the link-local address before its detection begins */
    drain(&node);
}

void nd6_tmr(void) { /* each second: what changes without a record, and what the program gave to the interface or took from it */
    if (interface == NULL)
        return;
    match(0);
    drain(NULL);
}

static struct lease *lease_of(const void *destination) {
    u32_t words[4];
    memcpy(words, destination, sizeof words);
    words[0] = (words[0] + 3 * words[1] + 5 * words[2] + 7 * words[3]) * 2654435761u;
    return &leases[(uint64_t)words[0] * LWIP_ND6_NUM_DESTINATIONS >> 32]; /* by the highest bits, which all others have changed */
}

/* Receives a Packet Too Big, or a message for the node: one of types 133 to 137, directly behind the IPv6 header of one frame. What came in fragments
 * is dropped (RFC 6980, 5). After reassembly lwIP counts no headers but the IPv6 header, but `current` is still the header of the fragment that was
 * received last, whose next header is not ICMPv6. The message has to fit into `buffer` behind an IPv6 header, as nd_poll returns packets. */
void nd6_input(struct pbuf *p, struct netif *inp) {
    const struct ip6_hdr *current = ip6_current_header();
    nd_message header = {.hop_limit = IP6H_HOPLIM(current), .checksum_good = 1}; /* icmp6_input has looked */
    const struct icmp6_hdr *message = p->payload;
    const u8_t *destination = (const u8_t *)message + sizeof *message + IP6_HLEN - sizeof(nd_addr); /* of the packet that was too big */
    int is_for_node = message->type >= ICMP6_TYPE_RS && message->type <= ICMP6_TYPE_RD && IP6H_NEXTH(current) == IP6_NEXTH_ICMP6;
    if (message->type == ICMP6_TYPE_PTB && p->len >= sizeof *message + IP6_HLEN && is_same(&lease_of(destination)->destination, destination))
        lease_of(destination)->mtu = (u16_t)LWIP_MIN(LWIP_MAX(lwip_ntohl(message->data), IP6_MIN_MTU_LENGTH), 0xffff);
    if (inp == interface && is_for_node && p->tot_len <= sizeof buffer - IP6_HLEN) {
        memcpy(&header.source, &current->src, sizeof header.source);
        memcpy(&header.destination, &current->dest, sizeof header.destination);
        pbuf_copy_partial(p, buffer, p->tot_len, 0);
        nd_receive_message(&node, moment(), &header, buffer, p->tot_len); /* ND_NO_MEMORY: as if the link had lost it */
        drain(NULL);
    }
    pbuf_free(p);
}

err_t nd6_get_next_hop_addr_or_queue(struct netif *netif, struct pbuf *q, const ip6_addr_t *ip6addr, const u8_t **hwaddrp) {
    struct lease *lease = lease_of(ip6addr->addr);
    int is_known = is_same(&lease->destination, ip6addr->addr);
    uint64_t now = moment();
    nd_path path;
    err_t kept;
    *hwaddrp = lease->path.mac.bytes;
    if (is_known && now < lease->path.until && lease->path.version == version && netif == interface)
        return ERR_OK;
    *hwaddrp = NULL;
    if (timeout_at <= now)
        drain(&node); /* else a failure that is due is reported after the answer, and drops the packet of a new question */
    int32_t status = netif == interface ? nd_resolve(&node, moment(), (const nd_addr *)ip6addr->addr, &path) : ND_CLOSED;
    kept = status == ND_WAITING ? keep(&path.next_hop, q) : ERR_OK;
    drain(NULL);
    if (status != ND_DONE)
        return status == ND_WAITING ? kept : status == ND_NO_MEMORY || nd_limit_of(status) != 0 ? ERR_MEM : ERR_RTE;
    memcpy(&lease->destination, ip6addr->addr, sizeof lease->destination);
    lease->path = path;
    lease->mtu = is_known ? lease->mtu : 0;
    *hwaddrp = lease->path.mac.bytes;
    return ERR_OK;
}

struct netif *nd6_find_route(const ip6_addr_t *ip6addr) {
    nd_next_hop_row hop;
    int32_t status = nd_next_hop(&node, moment(), (const nd_addr *)ip6addr->addr, &hop);
    drain(NULL);
    return status == ND_DONE ? interface : NULL;
}

u16_t nd6_get_destination_mtu(const ip6_addr_t *ip6addr, struct netif *netif) {
    const struct lease *lease = lease_of(ip6addr->addr);
    u16_t mtu = netif != NULL ? netif_mtu6(netif) : IP6_MIN_MTU_LENGTH;
    return lease->mtu != 0 && is_same(&lease->destination, ip6addr->addr) ? LWIP_MIN(mtu, lease->mtu) : mtu;
}

void nd6_reachability_hint(const ip6_addr_t *ip6addr) { /* for each acknowledgement of TCP. Most change nothing */
    if (nd_confirm_to(&node, moment(), (const nd_addr *)ip6addr->addr, HINT_MS) != ND_NOTHING || timeout_at <= moment())
        drain(NULL);
}

void nd6_clear_destination_cache(void) { memset(leases, 0, sizeof leases); }
static int is_member(u8_t state) { return ip6_addr_isvalid(state) || (ip6_addr_istentative(state) && state != IP6_ADDR_TENTATIVE); }

void nd6_adjust_mld_membership(struct netif *netif, s8_t addr_idx, u8_t new_state) { /* lwIP is about to change the state of an address */
    int was = is_member(netif_ip6_addr_state(netif, addr_idx)), is = is_member(new_state);
    ip6_addr_t group;
    ip6_addr_set_solicitednode(&group, netif_ip6_addr(netif, addr_idx)->addr[3]);
    ip6_addr_assign_zone(&group, IP6_MULTICAST, netif);
    if (was != is)
        (is ? mld6_joingroup_netif : mld6_leavegroup_netif)(netif, &group);
}
