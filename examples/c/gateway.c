/* gateway NAME=PREFIX ..: a router in user space between Ethernet interfaces of Linux, with a node of nd.h and a prefix of 64 bits for each. It
 * advertises the prefix and forms the address PREFIX::1 of it, forwards packets between the links, answers echo requests and sends ICMPv6 errors. On
 * SIGTERM or SIGINT it ceases to be a router, and ends. It needs CAP_NET_RAW. On these interfaces the kernel's own IPv6 has to be off, and so has
 * receive offload (`ethtool -K NAME gro off lro off`): a packet that it has joined of several is longer than the link's, and is dropped.
 *
 * The nodes do all of Neighbor Discovery. A packet for an address of the router, or for the link that it was received from, is passed to a node by
 * nd_receive: the node reports it with ND_OUT_UP, or sends it on with a Redirect (RFC 4861, 8.2). A packet for another link is sent from here, to
 * where nd_resolve of that link's node says.
 *
 * When a link has been down its node is closed and opened again, and so it is when the interface has another MAC. If the link is up then, a last
 * advertisement precedes (RFC 4861, 6.2.5): the link-local address follows the MAC, and the hosts would keep the old router for its lifetime.
 *
 * It is an example: it is no part of what is proved. */
#define _GNU_SOURCE
#include <arpa/inet.h>
#include <errno.h>
#include <limits.h>
#include <linux/if_packet.h>
#include <linux/netlink.h>
#include <linux/rtnetlink.h>
#include <net/ethernet.h>
#include <net/if.h>
#include <poll.h>
#include <signal.h>
#include <stdio.h>
#include <stdlib.h>
#include <string.h>
#include <sys/ioctl.h>
#include <sys/random.h>
#include <sys/signalfd.h>
#include <sys/socket.h>
#include <time.h>
#include <unistd.h>

#include "nd.h"

enum { MOST_PORTS = 8, LEASES = 64, MOST_WAITING = 16 };
enum { ETHERNET = 14, IPV6 = 40, ICMPV6 = 8, LONGEST = ND_BUFFER_BYTES, LEAST_MTU = 1280, MOST_MTU = 1500 };
enum { BURST = 64, RETRY_MS = 100, TOO_LATE_MS = 1000, ERRORS_PER_SECOND = 10 };
enum { ECHO_REQUEST = 128, ECHO_REPLY = 129 };

struct error { /* an ICMPv6 error (RFC 4443, 3) */
    uint8_t type, code;
    uint32_t value; /* of its second word: the MTU of Packet Too Big, else 0 */
};
static const struct error NO_ROUTE = {1, 0, 0}, UNREACHABLE = {1, 3, 0}, HOP_LIMIT_EXCEEDED = {3, 0, 0};

struct lease { /* packets to `destination` go to `path.mac` before `path.until`, while `path.version` is that of the node */
    nd_addr destination;
    nd_path path;
};

struct packet { /* if it waits, it does so for the link-layer address of `next_hop` */
    nd_addr next_hop;
    bool waits;
    size_t length;
    uint8_t frame[LONGEST];
};

static struct port {
    char name[IFNAMSIZ];
    int index, socket; /* the socket is -1 once the interface is gone */
    nd_addr prefix, global, link_local;
    nd_mac mac;
    uint32_t mtu;
    bool is_open, has_global;
    bool is_disabled; /* the link-local address is a duplicate: the node stays closed until the link or the MAC changes (RFC 4862, 5.4.5) */
    nd_node node;
    struct lease leases[LEASES];
    struct packet waiting[MOST_WAITING];
    size_t kept;
} ports[MOST_PORTS];
static size_t count;

/* ---- what all parts use ---- */

static uint64_t clock_ms(void)
{
    struct timespec now;
    if (clock_gettime(CLOCK_BOOTTIME, &now) != 0) { /* never set back, and runs on while the machine sleeps */
        perror("clock_gettime");
        exit(1);
    }
    return (uint64_t)now.tv_sec * 1000 + (uint64_t)now.tv_nsec / 1000000;
}

static void say(const struct port *port, const char *what, const nd_addr *address)
{
    char text[INET6_ADDRSTRLEN];
    printf("%s %s %s\n", port->name, what, inet_ntop(AF_INET6, address, text, sizeof text));
}

/* Prints a status that is a mistake of this program. After ND_NO_MEMORY the event is given up, as if the link had lost it; a refusal is an answer of
 * the node; and it is closed where its link-local address was found to be a duplicate. */
static void expect(const struct port *port, const char *call, int32_t status)
{
    if (status < 0 && status != ND_NO_MEMORY && status != ND_CLOSED && nd_refusal_of(status) == 0)
        fprintf(stderr, "%s: %s returned %d\n", port->name, call, (int)status);
}

static nd_addr address_at(const uint8_t *bytes)
{
    nd_addr address;
    memcpy(&address, bytes, sizeof address);
    return address;
}

static bool is_same(const nd_addr *one, const nd_addr *other)
{
    return memcmp(one, other, sizeof *one) == 0;
}

static bool is_link_local(const nd_addr *address)
{
    return address->bytes[0] == 0xfe && (address->bytes[1] & 0xc0) == 0x80;
}

/* Returns false for a multicast address, :: and ::1, which no packet on a link has as its source (RFC 4291, 2.5.2, 2.5.3 and 2.7). */
static bool is_source(const nd_addr *address)
{
    static const uint8_t zeros[15];
    return address->bytes[0] != 0xff && (memcmp(address->bytes, zeros, sizeof zeros) != 0 || address->bytes[15] > 1);
}

/* Returns the port to whose link packets for an address go: `here` for a link-local one. NULL if there is none whose node is open. */
static struct port *port_to(const nd_addr *address, struct port *here)
{
    if (is_link_local(address))
        return here;
    for (size_t i = 0; i < count; i++)
        if (ports[i].is_open && memcmp(&ports[i].prefix, address, 8) == 0)
            return &ports[i];
    return NULL;
}

/* ---- packets that are sent ---- */

static void transmit(const struct port *port, const uint8_t *frame, size_t length)
{
    if (send(port->socket, frame, length, 0) < 0 && errno != ENETDOWN && errno != ENOBUFS && errno != EAGAIN) /* else it is lost, as on any link */
        perror(port->name);
}

static struct lease *lease_to(struct port *port, const nd_addr *to) /* the one lease that a packet to this destination may have */
{
    return &port->leases[to->bytes[15] % LEASES];
}

static bool is_leased(struct port *port, const nd_addr *to, uint64_t now) /* packets to it may be sent without a call */
{
    const struct lease *lease = lease_to(port, to);
    return is_same(&lease->destination, to) && now < lease->path.until && lease->path.version == nd_lease_version(&port->node);
}

static void keep(struct port *port, const nd_addr *next_hop, const uint8_t *frame, size_t length) /* in place of the oldest one (RFC 4861, 7.2.2) */
{
    struct packet *oldest = &port->waiting[port->kept++ % MOST_WAITING];
    oldest->next_hop = *next_hop;
    oldest->waits = true;
    oldest->length = length;
    memcpy(oldest->frame, frame, length);
}

/* Sends a packet to where the node of its link says, or keeps it until that is known. The packet begins at `frame` + ETHERNET; what is before it is
 * written here. A solicitation that follows is a record of the node: see `settle`. */
static void send_packet(struct port *port, uint8_t *frame, size_t length)
{
    uint64_t now = clock_ms();
    nd_addr to = address_at(frame + ETHERNET + 24);
    struct lease *lease = lease_to(port, &to);
    int32_t status = ND_DONE;
    if (!is_leased(port, &to, now)) {
        *lease = (struct lease){.destination = to};
        status = nd_resolve(&port->node, now, &to, &lease->path);
        expect(port, "nd_resolve", status);
    }
    if (status == ND_DONE) {
        memcpy(frame, &lease->path.mac, sizeof(nd_mac));
        memcpy(frame + 6, &port->mac, sizeof(nd_mac));
        memcpy(frame + 12, "\x86\xdd", 2);
        transmit(port, frame, length);
    } else if (status == ND_WAITING) {
        keep(port, &lease->path.next_hop, frame, length);
    } /* else it has no next hop, or is refused, or memory is: it is dropped */
}

/* Returns the ICMPv6 checksum of a packet (RFC 4443, 2.3; RFC 8200, 8.1), which is 0 if the packet has the right one already. */
static uint16_t checksum(const uint8_t *packet, size_t length)
{
    uint32_t sum = IPPROTO_ICMPV6 + (uint32_t)(length - IPV6);
    for (size_t i = 8; i < length; i++) /* the addresses, and the message */
        sum += (uint32_t)packet[i] << (i % 2 == 0 ? 8 : 0);
    while (sum >> 16 != 0)
        sum = (sum & 0xffff) + (sum >> 16);
    return (uint16_t)~sum;
}

/* Puts an IPv6 header before a message of ICMPv6, and the checksum into it. */
static void put_header(uint8_t *packet, size_t length, const nd_addr *source, const nd_addr *destination)
{
    uint16_t sum;
    memcpy(packet, (const uint8_t[8]){0x60, 0, 0, 0, (uint8_t)((length - IPV6) >> 8), (uint8_t)(length - IPV6), IPPROTO_ICMPV6, 64}, 8);
    memcpy(packet + 8, source, sizeof *source);
    memcpy(packet + 24, destination, sizeof *destination);
    packet[IPV6 + 2] = packet[IPV6 + 3] = 0;
    sum = checksum(packet, length);
    packet[IPV6 + 2] = (uint8_t)(sum >> 8);
    packet[IPV6 + 3] = (uint8_t)sum;
}

/* Returns true if an error for a packet may be sent: not for an ICMPv6 error (RFC 4443, 2.4 e), and not too often (2.4 f). */
static bool may_send_error(const uint8_t *packet, size_t length)
{
    static uint64_t second;
    static unsigned sent;
    uint64_t now = clock_ms() / 1000;
    if (packet[6] == IPPROTO_ICMPV6 && (length == IPV6 || packet[IPV6] < ECHO_REQUEST))
        return false;
    sent = now == second ? sent + 1 : 1;
    second = now;
    return sent <= ERRORS_PER_SECOND;
}

/* Sends an ICMPv6 error for a packet to its source (RFC 4443, 2.4 and 3). `here` is its port if the source is link-local. */
static void send_error(struct port *here, const uint8_t *packet, size_t length, const struct error *error)
{
    uint8_t frame[LONGEST], *message = frame + ETHERNET + IPV6;
    const uint32_t value = htonl(error->value);
    const size_t room = LEAST_MTU - IPV6 - ICMPV6, quoted = length < room ? length : room;
    const nd_addr to = address_at(packet + 8);
    struct port *port = port_to(&to, here);
    if (port == NULL || !port->has_global || !may_send_error(packet, length))
        return;
    message[0] = error->type;
    message[1] = error->code;
    memcpy(message + 4, &value, sizeof value);
    memcpy(message + ICMPV6, packet, quoted);
    put_header(frame + ETHERNET, IPV6 + ICMPV6 + quoted, is_link_local(&to) ? &port->link_local : &port->global, &to);
    send_packet(port, frame, ETHERNET + IPV6 + ICMPV6 + quoted);
}

/* ---- the records of a node ---- */

/* Answers a packet for the router if it is an echo request (RFC 4443, 4.2). */
static void answer(struct port *port, const uint8_t *packet, size_t length)
{
    uint8_t frame[LONGEST];
    const nd_addr source = address_at(packet + 8), destination = address_at(packet + 24);
    struct port *out = port_to(&source, port);
    if (out == NULL || packet[6] != IPPROTO_ICMPV6 || length < IPV6 + ICMPV6 || packet[IPV6] != ECHO_REQUEST || checksum(packet, length) != 0)
        return;
    memcpy(frame + ETHERNET, packet, length);
    frame[ETHERNET + IPV6] = ECHO_REPLY;
    put_header(frame + ETHERNET, length, &destination, &source);
    send_packet(out, frame, ETHERNET + length);
}

/* Takes the packets that wait for a neighbour. If it is resolved they are sent, the oldest first; else their sources get an error. */
static void release(struct port *port, const nd_out *out)
{
    for (size_t i = 0, oldest = port->kept; i < MOST_WAITING; i++) {
        struct packet *slot = &port->waiting[(oldest + i) % MOST_WAITING], packet;
        if (!slot->waits || !is_same(&slot->next_hop, &out->address))
            continue;
        packet = *slot; /* its slot may be taken again below */
        slot->waits = false;
        if (out->kind == ND_OUT_RESOLVED)
            send_packet(port, packet.frame, packet.length);
        else
            send_error(port, packet.frame + ETHERNET, packet.length - ETHERNET, &UNREACHABLE);
    }
}

/* Sends the error for a packet that a node was passed, and has not sent on. */
static void report_loss(struct port *port, const nd_out *out, const uint8_t *packet)
{
    if (out->code == ND_LOSS_UNREACHABLE)
        send_error(port, packet, out->length, &UNREACHABLE);
    else if (out->code == ND_LOSS_NO_ROUTE)
        send_error(port, packet, out->length, &NO_ROUTE);
    else if (out->code == ND_LOSS_HOP_LIMIT)
        send_error(port, packet, out->length, &HOP_LIMIT_EXCEEDED);
}

/* Notes an address that may be used. After the link-local one the node is given the global one, which it would refuse before. */
static void note_assigned(struct port *port, const nd_addr *address)
{
    const nd_own_address own = {port->global, ND_LIFETIME_INFINITE, ND_LIFETIME_INFINITE};
    say(port, "assigned", address);
    if (!is_link_local(address)) {
        port->has_global = true;
        return;
    }
    port->link_local = *address;
    if (nd_add_address(&port->node, clock_ms(), &own) != ND_DONE)
        say(port, "cannot add", &own.address);
}

/* Notes an address that another node has. Without the global one the node is a router still; without the link-local one it is closed. */
static void note_duplicate(struct port *port, const nd_addr *address)
{
    say(port, "duplicate", address);
    if (!is_link_local(address))
        return;
    nd_close(&port->node);
    port->is_open = false;
    port->is_disabled = true;
}

static void take_record(struct port *port, const nd_out *out, const uint8_t *bytes)
{
    switch (out->kind) {
    case ND_OUT_FRAME:
        if (clock_ms() <= out->moment + TOO_LATE_MS) /* else it was due while the machine or this process was stopped */
            transmit(port, bytes, out->length);
        break;
    case ND_OUT_UP:
        answer(port, bytes, out->length);
        break;
    case ND_OUT_LOST:
        report_loss(port, out, bytes);
        break;
    case ND_OUT_RESOLVED:
    case ND_OUT_FAILED:
        release(port, out);
        break;
    case ND_OUT_ASSIGNED:
        note_assigned(port, &out->address);
        break;
    case ND_OUT_DUPLICATE:
        note_duplicate(port, &out->address);
        break;
    default: /* kinds of later versions, too */
        break;
    }
}

/* Takes all records of a port. Returns true if there were some. */
static bool drain(struct port *port)
{
    uint8_t bytes[LONGEST]; /* enough for each record, since no longer frame is passed to the node */
    nd_out out;
    bool has_some = false;
    while (nd_poll(&port->node, &out, bytes, sizeof bytes) == ND_DONE) {
        take_record(port, &out, bytes);
        has_some = true;
    }
    return has_some;
}

/* Takes the records of all ports, until there are none: a record of one may lead to a packet, and so to a record, of another. It is not called while
 * a record is taken. */
static void settle(void)
{
    bool has_some;
    do {
        has_some = false;
        for (size_t i = 0; i < count; i++)
            has_some = drain(&ports[i]) || has_some;
    } while (has_some);
}

/* ---- packets that are received ---- */

/* Forwards a packet to another link (RFC 8200, 3; RFC 4443, 3.2 and 3.3). */
static void forward(struct port *from, struct port *to, uint8_t *frame, size_t length)
{
    uint8_t *packet = frame + ETHERNET;
    const nd_addr destination = address_at(packet + 24);
    const struct error too_big = {2, 0, to->mtu};
    if (packet[7] < 2) {
        send_error(from, packet, length - ETHERNET, &HOP_LIMIT_EXCEEDED);
    } else if (length - ETHERNET > to->mtu) {
        send_error(from, packet, length - ETHERNET, &too_big);
    } else {
        packet[7]--;
        if (!is_leased(to, &destination, clock_ms())) { /* first the failures that are due: they are of packets that wait already (nd_resolve) */
            expect(to, "nd_pass", nd_pass(&to->node, clock_ms()));
            settle();
        }
        send_packet(to, frame, length);
    }
}

static void receive_at(struct port *port, const uint8_t *frame, size_t length)
{
    expect(port, "nd_receive", nd_receive(&port->node, clock_ms(), frame, length));
}

/* Takes a packet that is no message of Neighbor Discovery: it is for the router, for the link it was received from, or for another one. */
static void route(struct port *port, uint8_t *frame, size_t length)
{
    const nd_addr source = address_at(frame + ETHERNET + 8), destination = address_at(frame + ETHERNET + 24);
    struct port *to = port_to(&destination, port);
    if (!is_source(&source) || !is_source(&destination))
        return;
    if (to == port)
        receive_at(port, frame, length);
    else if (is_link_local(&source))
        return; /* no other link may get it (RFC 4291, 2.5.6) */
    else if (to == NULL)
        send_error(port, frame + ETHERNET, length - ETHERNET, &NO_ROUTE);
    else if (to->has_global && is_same(&destination, &to->global))
        receive_at(to, frame, length); /* an address of the router is reached from each of its links */
    else
        forward(port, to, frame, length);
}

/* Takes a frame. The node of a router gets no multicast but Neighbor Discovery: it would forward other packets (nd.h, FRAMES IN). */
static void take_frame(struct port *port, uint8_t *frame, size_t length)
{
    const uint8_t *packet = frame + ETHERNET;
    size_t whole;
    if (length < ETHERNET + IPV6 || packet[0] >> 4 != 6)
        return;
    whole = ETHERNET + IPV6 + ((size_t)packet[4] << 8 | packet[5]);
    if (length < whole)
        return;
    if (packet[6] == IPPROTO_ICMPV6 && whole > ETHERNET + IPV6 && packet[IPV6] >= 133 && packet[IPV6] <= 137)
        receive_at(port, frame, whole);
    else if (packet[24] != 0xff)
        route(port, frame, whole);
}

/* Takes frames that wait at a port. Those that the interface sent, or that are for others, are not for the node. */
static void receive_frames(struct port *port)
{
    uint8_t frame[LONGEST];
    for (int left = port->socket < 0 ? 0 : BURST; left > 0; left--) {
        struct sockaddr_ll from;
        socklen_t size = sizeof from;
        ssize_t length = recvfrom(port->socket, frame, sizeof frame, MSG_TRUNC, (struct sockaddr *)&from, &size);
        if (length < 0 && errno != EAGAIN && errno != EINTR && errno != ENETDOWN)
            perror(port->name);
        if (length < 0)
            return;
        if (!port->is_open || length > LONGEST || (from.sll_pkttype != PACKET_HOST && from.sll_pkttype != PACKET_MULTICAST))
            continue;
        take_frame(port, frame, (size_t)length);
        settle();
    }
}

/* ---- links ---- */

static bool configure(struct port *port, uint64_t now)
{
    const nd_offer_row offer = {
        .prefix = port->prefix, .bits = 64, .valid_lifetime = 86400, .preferred_lifetime = 14400, .on_link = 1, .autonomous = 1};
    const nd_route_row on_link = {.prefix = port->prefix, .bits = 64, .hop = ND_HOP_DIRECT};
    const nd_advertising settings = {.min_interval = 3, .max_interval = 10, .lifetime = 1800, .mtu = port->mtu, .hop_limit = 64};
    return nd_advertise_prefix(&port->node, now, &offer) == ND_DONE && nd_add_route(&port->node, now, &on_link) == ND_DONE &&
           nd_advertise(&port->node, now, &settings) == ND_DONE;
}

static void open_port(struct port *port)
{
    nd_options options = ND_OPTIONS_INIT;
    options.role = ND_ROLE_ROUTER;
    options.mac = port->mac;
    options.policies = ND_POLICIES_ROBUST;
    options.start = clock_ms();
    memset(port->leases, 0, sizeof port->leases); /* those of the node before are over (nd_close) */
    memset(port->waiting, 0, sizeof port->waiting);
    port->has_global = false;
    if (getrandom(&options.seed, sizeof options.seed, 0) != (ssize_t)sizeof options.seed ||
        nd_open(&port->node, &options, sizeof options) != ND_DONE || !configure(port, options.start)) {
        nd_close(&port->node);
        say(port, "cannot advertise", &port->prefix);
        return;
    }
    port->is_open = true;
    say(port, "opened", &port->prefix);
}

/* Closes the node of a port. While its link is up, a last advertisement of lifetime 0 precedes (RFC 4861, 6.2.5). */
static void close_port(struct port *port, bool is_up)
{
    if (!port->is_open)
        return;
    if (is_up) {
        expect(port, "nd_stop_advertising", nd_stop_advertising(&port->node, clock_ms()));
        settle();
    }
    nd_close(&port->node);
    port->is_open = false;
    say(port, "closed", &port->prefix);
}

/* Reads the MAC and the MTU of an interface. Returns true if its link is up, and can carry IPv6 (RFC 8200, 5). */
static bool read_interface(const struct port *port, nd_mac *mac, uint32_t *mtu)
{
    struct ifreq request;
    memset(&request, 0, sizeof request);
    memcpy(request.ifr_name, port->name, sizeof request.ifr_name);
    if (ioctl(port->socket, SIOCGIFHWADDR, &request) < 0)
        return false;
    memcpy(mac, request.ifr_hwaddr.sa_data, sizeof *mac);
    if (ioctl(port->socket, SIOCGIFMTU, &request) < 0 || request.ifr_mtu < LEAST_MTU)
        return false;
    *mtu = request.ifr_mtu < MOST_MTU ? (uint32_t)request.ifr_mtu : MOST_MTU;
    return ioctl(port->socket, SIOCGIFFLAGS, &request) == 0 && (request.ifr_flags & IFF_UP) != 0 && (request.ifr_flags & IFF_RUNNING) != 0;
}

/* Opens or closes the node of a port, as its interface is now. */
static void follow_interface(struct port *port)
{
    nd_mac mac = port->mac;
    uint32_t mtu = 0;
    bool is_up = port->socket >= 0 && read_interface(port, &mac, &mtu), has_another = memcmp(&mac, &port->mac, sizeof mac) != 0;
    if (!is_up || has_another) {
        close_port(port, is_up);
        port->is_disabled = false;
    }
    if (!is_up || port->is_open || port->is_disabled)
        return;
    port->mac = mac;
    port->mtu = mtu;
    open_port(port);
}

/* Takes a message about a link. That it was down closes its node: it may be up again by now. */
static void take_message(struct nlmsghdr *message)
{
    const struct ifinfomsg *link = NLMSG_DATA(message);
    if ((message->nlmsg_type != RTM_NEWLINK && message->nlmsg_type != RTM_DELLINK) || message->nlmsg_len < NLMSG_LENGTH(sizeof *link))
        return;
    for (size_t i = 0; i < count; i++) {
        struct port *port = &ports[i];
        if (port->index != link->ifi_index || link->ifi_family != AF_UNSPEC || port->socket < 0)
            continue;
        if (message->nlmsg_type == RTM_DELLINK || (link->ifi_flags & IFF_UP) == 0 || (link->ifi_flags & IFF_RUNNING) == 0)
            close_port(port, false);
        if (message->nlmsg_type == RTM_DELLINK) {
            close(port->socket);
            port->socket = -1;
        }
    }
}

static void read_messages(int netlink)
{
    static union {
        struct nlmsghdr first;
        char bytes[16384];
    } buffer;
    ssize_t length;
    while ((length = recv(netlink, &buffer, sizeof buffer, MSG_DONTWAIT)) > 0)
        for (struct nlmsghdr *message = &buffer.first; NLMSG_OK(message, length); message = NLMSG_NEXT(message, length))
            take_message(message);
    if (length < 0 && errno != EAGAIN && errno != EINTR && errno != ENOBUFS) /* after ENOBUFS messages are missing */
        perror("netlink");
    for (size_t i = 0; i < count; i++) /* the messages say that something has changed, the interfaces how it is now */
        follow_interface(&ports[i]);
}

/* ---- the program ---- */

/* Reads an argument NAME=PREFIX. Returns false if it is none, or there is no such interface. */
static bool read_argument(struct port *port, const char *argument)
{
    const char *equals = strchr(argument, '=');
    size_t length = equals == NULL ? 0 : (size_t)(equals - argument);
    if (length == 0 || length >= sizeof port->name || inet_pton(AF_INET6, equals + 1, &port->prefix) != 1)
        return false;
    memcpy(port->name, argument, length);
    memset(port->prefix.bytes + 8, 0, 8);
    port->global = port->prefix;
    port->global.bytes[15] = 1;
    port->index = (int)if_nametoindex(port->name);
    return port->index != 0;
}

/* Returns true if the kernel has IPv6 of its own on an interface. It would answer for the same link-local address, and forward packets once more. */
static bool has_kernel_ipv6(const struct port *port)
{
    char path[64 + IFNAMSIZ];
    FILE *file;
    int setting;
    snprintf(path, sizeof path, "/proc/sys/net/ipv6/conf/%s/disable_ipv6", port->name);
    file = fopen(path, "r");
    if (file == NULL)
        return false;
    setting = fgetc(file);
    fclose(file);
    return setting != '1';
}

static bool open_socket(struct port *port)
{
    const struct sockaddr_ll address = {.sll_family = AF_PACKET, .sll_protocol = htons(ETH_P_IPV6), .sll_ifindex = port->index};
    const struct packet_mreq all = {.mr_ifindex = port->index, .mr_type = PACKET_MR_ALLMULTI};
    port->socket = socket(AF_PACKET, SOCK_RAW | SOCK_NONBLOCK | SOCK_CLOEXEC, 0);
    return port->socket >= 0 && bind(port->socket, (const struct sockaddr *)&address, sizeof address) == 0 &&
           setsockopt(port->socket, SOL_PACKET, PACKET_ADD_MEMBERSHIP, &all, sizeof all) == 0;
}

static int open_netlink(void)
{
    const struct sockaddr_nl address = {.nl_family = AF_NETLINK, .nl_groups = RTMGRP_LINK};
    int netlink = socket(AF_NETLINK, SOCK_RAW | SOCK_CLOEXEC, NETLINK_ROUTE);
    return netlink >= 0 && bind(netlink, (const struct sockaddr *)&address, sizeof address) == 0 ? netlink : -1;
}

/* Does what is due at all ports. Returns how long to wait for a frame, in milliseconds. */
static int pass_time(void)
{
    uint64_t now, due = UINT64_MAX;
    bool is_short = false;
    for (size_t i = 0; i < count; i++) {
        int32_t status = nd_pass(&ports[i].node, clock_ms());
        expect(&ports[i], "nd_pass", status);
        is_short = is_short || status == ND_NO_MEMORY;
    }
    settle();
    for (size_t i = 0; i < count; i++) {
        uint64_t next = nd_next_due(&ports[i].node);
        due = next < due ? next : due;
    }
    now = clock_ms();
    if (is_short)
        return RETRY_MS; /* the records are taken, which frees memory; the rest is done later */
    if (due <= now)
        return 0;
    return due - now > INT_MAX ? INT_MAX : (int)(due - now);
}

/* Takes the frames that wait, then does what is due, then waits, until `signals` is readable. Returns false if the wait fails. */
static bool run(int netlink, int signals)
{
    struct pollfd readable[MOST_PORTS + 2];
    do {
        for (size_t i = 0; i < count; i++)
            receive_frames(&ports[i]);
        for (size_t i = 0; i < count; i++)
            readable[i] = (struct pollfd){ports[i].socket, POLLIN, 0}; /* one of -1 is passed over */
        readable[count] = (struct pollfd){netlink, POLLIN, 0};
        readable[count + 1] = (struct pollfd){signals, POLLIN, 0};
        if (poll(readable, count + 2, pass_time()) < 0 && errno != EINTR) {
            perror("poll");
            return false;
        }
        if (readable[count].revents != 0)
            read_messages(netlink);
    } while (readable[count + 1].revents == 0);
    return true;
}

/* Returns a descriptor that is readable once there is a signal that ends the program, or -1. */
static int open_signals(void)
{
    sigset_t ending;
    if (sigemptyset(&ending) == 0 && sigaddset(&ending, SIGTERM) == 0 && sigaddset(&ending, SIGINT) == 0 &&
        sigprocmask(SIG_BLOCK, &ending, NULL) == 0)
        return signalfd(-1, &ending, SFD_CLOEXEC);
    return -1;
}

/* Reads the arguments, and opens a socket for each interface. Returns 0, or the status of the program. */
static int prepare(int argc, char **argv)
{
    if (argc < 2 || argc - 1 > MOST_PORTS) {
        fprintf(stderr, "usage: gateway NAME=PREFIX .., of at most %d interfaces\n", MOST_PORTS);
        return 2;
    }
    for (int i = 1; i < argc; i++) {
        struct port *port = &ports[count];
        if (!read_argument(port, argv[i])) {
            fprintf(stderr, "gateway: %s is no interface with a prefix\n", argv[i]);
            return 2;
        }
        if (has_kernel_ipv6(port)) {
            fprintf(stderr, "gateway: first set net.ipv6.conf.%s.disable_ipv6=1\n", port->name);
            return 2;
        }
        if (!open_socket(port)) {
            perror(port->name);
            return 1;
        }
        count++;
    }
    return 0;
}

int main(int argc, char **argv)
{
    int netlink, signals, status;
    bool is_well;
    if (nd_version() >> 16 != ND_VERSION_MAJOR || nd_version() < ND_VERSION)
        return 2;
    status = prepare(argc, argv);
    if (status != 0)
        return status;
    netlink = open_netlink(); /* before the interfaces are looked at, so that no change is missed */
    signals = open_signals();
    if (netlink < 0 || signals < 0 || setvbuf(stdout, NULL, _IOLBF, 0) != 0) {
        perror("gateway");
        return 1;
    }
    for (size_t i = 0; i < count; i++)
        follow_interface(&ports[i]);
    is_well = run(netlink, signals);
    for (size_t i = 0; i < count; i++)
        close_port(&ports[i], true);
    return is_well ? 0 : 1;
}
