/* lwip: lwIP with its own Neighbor Discovery does the lines of `measure compare`. It receives the frames by its input for Ethernet, sends the packets by
 * ip6_output_if, and is asked where packets go by nd6_get_next_hop_addr_or_queue. The arguments are those of measure.c; the number of neighbours has to
 * be that of LWIP_ND6_NUM_NEIGHBORS. With a third one, `clear`, its destination cache is empty before the lines that are measured.
 *
 * Each frame is copied into a buffer of lwIP's, and what it sends is copied out of one. With NO_COPY it reads a frame where that is, and what it sends is
 * not copied. Its timers run before the lines that are measured, and not between them. */
#include "lwip/ethip6.h"
#include "lwip/init.h"
#include "lwip/ip6.h"
#include "lwip/nd6.h"
#include "lwip/netif.h"
#include "lwip/timeouts.h"
#include "netif/ethernet.h"

#include "lines.h"

enum { UDP = 17, HOP_LIMIT = 64, FIRST_MOMENT = 2500, TYPE = 54, SOLICITATION = 135, REDIRECT = 137, REDIRECTED = TYPE + 24 };

static u32_t now;
static struct netif wire;
static struct pbuf *asked_for; /* the packet whose next hop is asked for */
static ip6_addr_t link_local;
static size_t sent;
static bool is_cleared;

u32_t sys_now(void)
{
    return now;
}

static err_t transmit(struct netif *netif, struct pbuf *packet)
{
    (void)netif;
#ifndef NO_COPY
    static uint8_t frame[LONGEST_FRAME];
    pbuf_copy_partial(packet, frame, packet->tot_len, 0);
#else
    (void)packet;
#endif
    sent++;
    return ERR_OK;
}

static err_t set_up(struct netif *netif)
{
    netif->hwaddr_len = sizeof MAC.bytes;
    memcpy(netif->hwaddr, MAC.bytes, sizeof MAC.bytes);
    netif->mtu = 1500;
    netif->flags = NETIF_FLAG_BROADCAST | NETIF_FLAG_ETHERNET | NETIF_FLAG_MLD6;
    netif->output_ip6 = ethip6_output;
    netif->linkoutput = transmit;
    return ERR_OK;
}

#ifdef NO_COPY
static void keep(struct pbuf *packet)
{
    (void)packet;
}

static struct pbuf *packet_of(const struct frame *frame)
{
    static struct pbuf_custom custom = {.custom_free_function = keep};
    return pbuf_alloced_custom(PBUF_RAW, (u16_t)frame->length, PBUF_REF, &custom, frame->bytes, (u16_t)frame->length);
}
#else
static struct pbuf *packet_of(const struct frame *frame)
{
    struct pbuf *packet = pbuf_alloc(PBUF_RAW, (u16_t)frame->length, PBUF_POOL);
    if (packet != NULL)
        pbuf_take(packet, frame->bytes, (u16_t)frame->length);
    return packet;
}
#endif

static size_t receive(size_t from, size_t end)
{
    size_t refused = 0;
    for (size_t i = from; i < end; i++) {
        struct pbuf *packet = packet_of(&frames[i]);
        now = (u32_t)moments[i];
        refused += packet == NULL || wire.input(packet, &wire) != ERR_OK;
    }
    return refused;
}

static inline ip6_addr_t address_of(const uint8_t *bytes)
{
    ip6_addr_t to;
    memcpy(to.addr, bytes, sizeof to.addr);
    ip6_addr_clear_zone(&to);
    ip6_addr_assign_zone(&to, IP6_UNICAST, &wire);
    return to;
}

static size_t send(size_t from, size_t end)
{
    const size_t before = sent;
    for (size_t i = from; i < end; i++) {
        const ip6_addr_t to = address_of(frames[i].bytes);
        const u16_t length = (u16_t)(frames[i].length - sizeof to.addr);
        struct pbuf *packet = pbuf_alloc(PBUF_IP, length, PBUF_RAM);
        now = (u32_t)moments[i];
        if (length > 0)
            pbuf_take(packet, frames[i].bytes + sizeof to.addr, length);
        ip6_output_if(packet, &link_local, &to, HOP_LIMIT, 0, UDP, &wire);
        pbuf_free(packet);
    }
    return end - from - (sent - before);
}

static size_t resolve(size_t from, size_t end)
{
    size_t refused = 0;
    for (size_t i = from; i < end; i++) {
        const ip6_addr_t to = address_of(frames[i].bytes);
        const u8_t *mac = NULL;
        now = (u32_t)moments[i];
        refused += nd6_get_next_hop_addr_or_queue(&wire, asked_for, &to, &mac) != ERR_OK || mac == NULL;
    }
    return refused;
}

static inline size_t do_lines(size_t from, size_t end)
{
    switch (marks[from]) {
    case SEND:
        return send(from, end);
    case RESOLVE:
        return resolve(from, end);
    default:
        return receive(from, end);
    }
}

__attribute__((noinline)) size_t measured(size_t from, size_t end);

__attribute__((noinline)) size_t measured(size_t from, size_t end)
{
    return do_lines(from, end);
}

/* Lets the timers run up to a moment. */
static void pass(uint64_t moment)
{
    for (; now < moment; now++)
        sys_check_timeouts();
    sys_check_timeouts();
}

static size_t run(void *node, size_t from, size_t end)
{
    size_t refused = 0;
    (void)node;
    for (size_t i = from; i < end; i++) {
        pass(moments[i]);
        refused += do_lines(i, i + 1);
    }
    return refused;
}

/* Returns how many frames lwIP has passed over, of which it has answered some: solicitations without an answer, and Redirects for destinations that are
 * not in its cache. */
static size_t passed_over(size_t from, size_t end, size_t answered)
{
    size_t count = 0;
    for (size_t i = from; i < end && marks[i] == FRAME; i++) {
        const uint8_t *bytes = frames[i].bytes;
        count += bytes[TYPE] == SOLICITATION;
        if (bytes[TYPE] != REDIRECT)
            continue;
        const ip6_addr_t destination = address_of(bytes + REDIRECTED);
        count += nd6_get_destination_mtu(&destination, NULL) == IP6_MIN_MTU_LENGTH; /* where it is not in the cache */
    }
    return count - (count > 0 ? answered : 0);
}

static size_t run_measured(void *node, size_t from, size_t end)
{
    (void)node;
    pass(moments[from]);
    if (is_cleared)
        nd6_clear_destination_cache();
    const size_t before = sent, refused = measured(from, end);
    return refused + passed_over(from, end, sent - before);
}

static void open_interface(void)
{
    lwip_init();
    netif_add_noaddr(&wire, NULL, set_up, ethernet_input);
    netif_set_default(&wire);
    netif_create_ip6_linklocal_address(&wire, 1);
    wire.ip6_autoconfig_enabled = 1;
    netif_set_link_up(&wire);
    netif_set_up(&wire);
    pass(FIRST_MOMENT);
    require(ip6_addr_ispreferred(netif_ip6_addr_state(&wire, 0)), "the link-local address is assigned");
    link_local = *netif_ip6_addr(&wire, 0);
    require(memcmp(link_local.addr, LINK_LOCAL.bytes, sizeof link_local.addr) == 0, "it is that of the lines");
    asked_for = pbuf_alloc(PBUF_IP, 0, PBUF_RAM);
}

int main(int argc, char **argv)
{
    size_t count = read_lines(), refused;
    require(argc == 3 || (argc == 4 && strcmp(argv[3], "clear") == 0), "lwip NEIGHBOURS MOMENT [clear] < moments and frames");
    require(strtoul(argv[1], NULL, 10) == LWIP_ND6_NUM_NEIGHBORS, "the neighbours that it is compiled for");
    is_cleared = argc == 4;
    open_interface();
    refused = run_lines(&wire, count, strtoull(argv[2], NULL, 10), run, run_measured);
    require(ip6_addr_ispreferred(netif_ip6_addr_state(&wire, 1)), "the address of the prefix is assigned");
    free_frames(frames, count);
    return refused > 0;
}
