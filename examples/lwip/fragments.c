/* fragments BYTES: lwIP over the node receives messages in fragments. Those of Neighbor Discovery are dropped (RFC 6980, 5). A Packet Too Big of so
 * many bytes is taken, and all solicitations after it are answered. Prints `passed: ..` or `FAILED: ..` for each step. */
#include <stdlib.h>
#include <string.h>
#include "lwip/ethip6.h"
#include "lwip/inet_chksum.h"
#include "lwip/init.h"
#include "lwip/ip.h"
#include "lwip/nd6.h"
#include "lwip/netif.h"
#include "lwip/prot/icmp6.h"
#include "lwip/timeouts.h"
#include "netif/ethernet.h"

enum { HEADERS = 54, MOST = 2048, SOLICITATIONS = 20, SECOND = 1000, HOUR = 3600 * SECOND };

/* How a message is carried: in one frame; in two fragments, the first one first or last; or with Destination Options before each Fragment header. */
enum carriage { WHOLE, FRAGMENTS, REVERSED, BEHIND_OPTIONS };

struct message { /* of ICMPv6 */
    ip6_addr_t source, destination;
    u8_t hop_limit, body[MOST];
    u16_t length;
};

static u32_t now;
static struct netif wire;
static ip6_addr_t own, router, neighbour, all_nodes, far;
static unsigned answers; /* advertisements of `own` that were sent */
static u8_t identification;
static int is_failed;

u32_t sys_now(void) { return now; }

static err_t count(struct netif *netif, struct pbuf *packet)
{
    const u8_t *frame = packet->payload;
    (void)netif;
    if (packet->len >= HEADERS + 24 && frame[20] == IP6_NEXTH_ICMP6 && frame[HEADERS] == ICMP6_TYPE_NA)
        answers += memcmp(frame + HEADERS + 8, own.addr, sizeof own.addr) == 0;
    return ERR_OK;
}

static err_t set_up(struct netif *netif)
{
    static const u8_t mac[6] = {2, 0, 0, 0, 0, 7};
    netif->hwaddr_len = sizeof mac;
    memcpy(netif->hwaddr, mac, sizeof mac);
    netif->mtu = 1500;
    netif->flags = NETIF_FLAG_BROADCAST | NETIF_FLAG_ETHERNET | NETIF_FLAG_MLD6;
    netif->output_ip6 = ethip6_output;
    netif->linkoutput = count;
    return ERR_OK;
}

static void wait(u32_t milliseconds)
{
    for (u32_t end = now + milliseconds; now != end; now++)
        sys_check_timeouts();
}

static void step(int is_so, const char *text)
{
    printf("%s: %s\n", is_so ? "passed" : "FAILED", text);
    is_failed |= !is_so;
}

/* Passes the bytes of a message from `at` to `end` to lwIP, in a frame of their own (RFC 8200, 4.2, 4.5 and 4.6). */
static void receive_part(const struct message *message, u16_t at, u16_t end, enum carriage carriage)
{
    static const u8_t first[] = {IP6_NEXTH_ICMP6, IP6_NEXTH_FRAGMENT, IP6_NEXTH_FRAGMENT, IP6_NEXTH_DESTOPTS};
    const u8_t options[8] = {IP6_NEXTH_FRAGMENT, 0, 1, 4}; /* PadN */
    const u8_t fragment[8] = {IP6_NEXTH_ICMP6, 0, (u8_t)(at >> 8), (u8_t)(at | (end < message->length)), [7] = identification};
    u8_t head[HEADERS + 16] = {2, 0, 0, 0, 0, 7, 2, 0, 0, 0, 0, 1, 0x86, 0xdd, 0x60, [20] = first[carriage], message->hop_limit};
    u16_t before = carriage == BEHIND_OPTIONS ? sizeof options : 0; /* the bytes of the headers before the Fragment header, and of all */
    u16_t headers = carriage == WHOLE ? 0 : before + sizeof fragment, length = headers + end - at;
    struct pbuf *packet = pbuf_alloc(PBUF_RAW, HEADERS + length, PBUF_POOL);
    head[18] = (u8_t)(length >> 8);
    head[19] = (u8_t)length;
    memcpy(head + 22, message->source.addr, sizeof message->source.addr);
    memcpy(head + 38, message->destination.addr, sizeof message->destination.addr);
    memcpy(head + HEADERS, options, before);
    memcpy(head + HEADERS + before, fragment, sizeof fragment);
    pbuf_take(packet, head, HEADERS + headers);
    pbuf_take_at(packet, message->body + at, end - at, HEADERS + headers);
    if (wire.input(packet, &wire) != ERR_OK)
        pbuf_free(packet);
}

static void receive(struct message message, enum carriage carriage)
{
    u16_t middle = carriage == WHOLE ? 0 : message.length / 2 / 8 * 8; /* a fragment begins at a multiple of 8 bytes */
    struct pbuf *body = pbuf_alloc(PBUF_RAW, message.length, PBUF_RAM);
    u16_t sum;
    pbuf_take(body, message.body, message.length);
    sum = ip6_chksum_pseudo(body, IP6_NEXTH_ICMP6, message.length, &message.source, &message.destination);
    memcpy(message.body + 2, &sum, sizeof sum);
    pbuf_free(body);
    identification++;
    if (carriage == REVERSED)
        receive_part(&message, middle, message.length, carriage);
    if (carriage != WHOLE)
        receive_part(&message, 0, middle, carriage);
    if (carriage != REVERSED)
        receive_part(&message, middle, message.length, carriage);
    wait(SECOND);
}

static struct message advertisement(void) /* of a default router */
{
    return (struct message){router, all_nodes, 255, {ICMP6_TYPE_RA, 0, 0, 0, 64, 0, 7, 8, [16] = 1, 1, 2, 0, 0, 0, 0, 1}, 24};
}

static struct message solicitation(void) /* of `own` */
{
    struct message made = {neighbour, own, 255, {ICMP6_TYPE_NS, [24] = 1, 1, 2, 0, 0, 0, 0, 2}, 32};
    memcpy(made.body + 8, own.addr, sizeof own.addr);
    return made;
}

static struct message detection(void) /* of `own` by another node (RFC 4862, 5.4.2) */
{
    struct message made = solicitation();
    ip6_addr_set_zero(&made.source);
    ip6_addr_set_solicitednode(&made.destination, own.addr[3]);
    made.length = 24; /* no option */
    return made;
}

static struct message too_big(u16_t mtu, u16_t length) /* of a packet to `far` */
{
    struct message made = {far, own, 57, {ICMP6_TYPE_PTB, [6] = (u8_t)(mtu >> 8), (u8_t)mtu, 0x60}, length};
    memcpy(made.body + 8 + 24, far.addr, sizeof far.addr);
    return made;
}

static int is_answered(struct message message, enum carriage carriage)
{
    unsigned before = answers;
    receive(message, carriage);
    return answers > before;
}

static void configure(void)
{
    ip6addr_aton("fe80::1", &router);
    ip6addr_aton("fe80::2", &neighbour);
    ip6addr_aton("ff02::1", &all_nodes);
    ip6addr_aton("2001:db8:9::9", &far);
    lwip_init();
    netif_add_noaddr(&wire, NULL, set_up, ethernet_input);
    netif_set_default(&wire);
    netif_create_ip6_linklocal_address(&wire, 1);
    wire.ip6_autoconfig_enabled = 1;
    netif_set_link_up(&wire);
    netif_set_up(&wire);
    wait(4 * SECOND);
    own = *netif_ip6_addr(&wire, 0);
}

static void drop(void)
{
    int is_router = 0;
    for (enum carriage carriage = FRAGMENTS; carriage <= BEHIND_OPTIONS; carriage++) {
        receive(advertisement(), carriage);
        is_router |= nd6_find_route(&far) != NULL;
    }
    step(!is_router, "Router Advertisements in two fragments are dropped");
    step(!is_answered(solicitation(), FRAGMENTS), "a Neighbor Solicitation in two fragments is dropped");
}

static void answer(u16_t length, enum carriage carriage)
{
    unsigned answered = 0;
    char text[100];
    receive(too_big(1300, length), carriage);
    for (int index = 0; index < SOLICITATIONS; index++)
        answered += is_answered(solicitation(), WHOLE);
    wait(HOUR);
    answered += is_answered(detection(), WHOLE);
    snprintf(text, sizeof text, "after a Packet Too Big in %s %u of %d solicitations are answered", carriage == WHOLE ? "one frame" : "two fragments",
             answered, SOLICITATIONS + 1);
    step(answered == SOLICITATIONS + 1, text);
}

static void take(u16_t length)
{
    struct pbuf *packet = pbuf_alloc(PBUF_LINK, IP6_HLEN, PBUF_RAM);
    receive(advertisement(), WHOLE);
    step(nd6_find_route(&far) == &wire, "a Router Advertisement in one frame is taken");
    memset(packet->payload, 0, IP6_HLEN);
    wire.output_ip6(&wire, packet, &far); /* lwIP keeps the MTU of a path that is in use */
    pbuf_free(packet);
    receive(too_big(1400, 200), WHOLE);
    step(nd6_get_destination_mtu(&far, &wire) == 1400, "a Packet Too Big in one frame is taken");
    receive(too_big(1300, length), FRAGMENTS);
    step(nd6_get_destination_mtu(&far, &wire) == 1300, "a Packet Too Big in two fragments is taken");
}

int main(int argc, char **argv)
{
    int length = argc == 2 ? atoi(argv[1]) : 0;
    if (length < 8 + IP6_HLEN || length > MOST)
        return fprintf(stderr, "usage: fragments BYTES\n"), 2;
    configure();
    drop();
    answer((u16_t)length, WHOLE); /* in a frame longer than the MTU, which lwIP takes */
    answer((u16_t)length, FRAGMENTS);
    take((u16_t)length);
    return is_failed;
}
