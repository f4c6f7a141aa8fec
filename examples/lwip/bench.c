/* bench CASE PACKETS: sends packets to 16 destinations in turn, by 16 neighbours (one of them a router), over a link that only counts. It runs under
 * callgrind, which `cost` asks for the instructions of a function.
 *     again    all is as it was
 *     one      all packets are to one destination
 *     cleared  nd6_clear_destination_cache before each packet
 *     heard    a neighbour has asked for us before each packet
 *     hint     no packets: TCP was acknowledged, a millisecond after the last time */
#include <stdlib.h>
#include <string.h>
#include "lwip/ethip6.h"
#include "lwip/inet_chksum.h"
#include "lwip/init.h"
#include "lwip/ip.h"
#include "lwip/nd6.h"
#include "lwip/netif.h"
#include "lwip/prot/icmp6.h"
#include "lwip/timeouts.h"
#include "netif/ethernet.h"

enum { DESTINATIONS = 16, PAYLOAD = 1000, HEADERS = 54 };

static u32_t now;
static struct netif wire;
static unsigned sent, solicited;
static u8_t target[16]; /* of the last solicitation */

u32_t sys_now(void) { return now; }

static err_t count(struct netif *netif, struct pbuf *packet)
{
    const u8_t *frame = packet->payload;
    (void)netif;
    sent++;
    if (packet->len >= HEADERS + 24 && frame[20] == IP6_NEXTH_ICMP6 && frame[HEADERS] == ICMP6_TYPE_NS) {
        solicited++;
        memcpy(target, frame + HEADERS + 8, sizeof target);
    }
    return ERR_OK;
}

static err_t set_up(struct netif *netif)
{
    static const u8_t mac[6] = {2, 0, 0, 0, 0, 7};
    netif->hwaddr_len = sizeof mac;
    memcpy(netif->hwaddr, mac, sizeof mac);
    netif->mtu = 1500;
    netif->flags = NETIF_FLAG_BROADCAST | NETIF_FLAG_ETHERNET | NETIF_FLAG_MLD6;
    netif->output_ip6 = ethip6_output;
    netif->linkoutput = count;
    return ERR_OK;
}

static void wait(u32_t milliseconds)
{
    for (u32_t end = now + milliseconds; now != end; now++)
        sys_check_timeouts();
}

static void hear(const ip6_addr_t *source, const ip6_addr_t *destination, const u8_t *body, u16_t length)
{
    u8_t frame[HEADERS + 64] = {2, 0, 0, 0, 0, 7, 2, 0, 0, 0, 0, 1, 0x86, 0xdd, 0x60, 0, 0, 0, 0, (u8_t)length, IP6_NEXTH_ICMP6, 255};
    struct pbuf *packet = pbuf_alloc(PBUF_RAW, HEADERS + length, PBUF_POOL), *message = pbuf_alloc(PBUF_RAW, length, PBUF_RAM);
    u16_t sum;
    pbuf_take(message, body, length);
    sum = ip6_chksum_pseudo(message, IP6_NEXTH_ICMP6, length, source, destination);
    pbuf_free(message);
    memcpy(frame + 22, source->addr, 16);
    memcpy(frame + 38, destination->addr, 16);
    memcpy(frame + HEADERS, body, length);
    memcpy(frame + HEADERS + 2, &sum, sizeof sum);
    pbuf_take(packet, frame, HEADERS + length);
    if (wire.input(packet, &wire) != ERR_OK)
        pbuf_free(packet);
}

static void send(const ip6_addr_t *destination)
{
    struct pbuf *packet = pbuf_alloc(PBUF_LINK, IP6_HLEN + PAYLOAD, PBUF_RAM);
    u8_t header[IP6_HLEN] = {0x60, 0, 0, 0, PAYLOAD >> 8, PAYLOAD & 0xff, IP6_NEXTH_UDP, 64};
    memcpy(header + 8, netif_ip6_addr(&wire, 1)->addr, 16);
    memcpy(header + 24, destination->addr, 16);
    pbuf_take(packet, header, sizeof header);
    wire.output_ip6(&wire, packet, destination);
    pbuf_free(packet);
}

static void answer(void) /* the neighbour that was asked for */
{
    u8_t body[32] = {ICMP6_TYPE_NA, 0, 0, 0, 0x60};
    ip6_addr_t from;
    memcpy(from.addr, target, sizeof target);
    body[4] = target[0] == 0xfe ? 0xe0 : 0x60;
    memcpy(body + 8, target, sizeof target);
    memcpy(body + 24, (const u8_t[8]){2, 1, 2, 0, 0, 0, 1, target[15]}, 8);
    hear(&from, netif_ip6_addr(&wire, 0), body, sizeof body);
}

static void configure(ip6_addr_t *destinations)
{
    static const u8_t advertisement[48] = {ICMP6_TYPE_RA, 0, 0, 0, 64, 0, 7, 8, [16] = 3, 4, 64, 0xc0, 0, 0, 8, 0, 0, 0, 8, 0, [32] = 0xfd, 0, 0, 1};
    ip6_addr_t router, all;
    ip6addr_aton("fe80::1", &router);
    ip6addr_aton("ff02::1", &all);
    lwip_init();
    netif_add_noaddr(&wire, NULL, set_up, ethernet_input);
    netif_set_default(&wire);
    netif_create_ip6_linklocal_address(&wire, 1);
    wire.ip6_autoconfig_enabled = 1;
    netif_set_link_up(&wire);
    netif_set_up(&wire);
    wait(4000);
    hear(&router, &all, advertisement, sizeof advertisement);
    wait(4000);
    for (int index = 0; index < DESTINATIONS; index++) {
        char text[40];
        unsigned before = solicited;
        snprintf(text, sizeof text, index == 0 ? "2001:db8::9" : "fd00:1::%x", 0x10 + index);
        ip6addr_aton(text, &destinations[index]);
        send(&destinations[index]);
        for (int waited = 0; solicited == before && waited < 2000; waited++)
            wait(1);
        answer();
    }
}

int main(int argc, char **argv)
{
    ip6_addr_t destinations[DESTINATIONS], us;
    u8_t solicitation[32] = {ICMP6_TYPE_NS, [24] = 1, 1, 2, 0, 0, 0, 1, 0x1f};
    if (argc != 3)
        return fprintf(stderr, "usage: bench CASE PACKETS\n"), 2;
    configure(destinations);
    us = *netif_ip6_addr(&wire, 1);
    memcpy(solicitation + 8, us.addr, sizeof us.addr);
    ip_data.current_input_netif = &wire;
    sent = 0;
    for (int index = 0; index < atoi(argv[2]); index++) {
        if (strcmp(argv[1], "hint") == 0) {
            wait(1);
            nd6_reachability_hint(&destinations[index % DESTINATIONS]);
            sent++;
            continue;
        }
        if (strcmp(argv[1], "cleared") == 0)
            nd6_clear_destination_cache();
        if (strcmp(argv[1], "heard") == 0) {
            hear(&destinations[DESTINATIONS - 1], &us, solicitation, sizeof solicitation);
            sent--; /* the answer */
        }
        send(&destinations[strcmp(argv[1], "one") == 0 ? 5 : index % DESTINATIONS]);
    }
    printf("%u of %s\n", sent, argv[2]);
    return sent != (unsigned)atoi(argv[2]);
}
