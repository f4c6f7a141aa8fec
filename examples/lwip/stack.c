/* stack TAP: lwIP on a TAP device of Linux, with UDP and TCP echo on port 7. Prints what happens, and reads lines:
 *     add A         gives the interface a static address
 *     change A B    the slot of its address A gets B
 *     remove A      takes an address from it
 *     ping A N      sends N echo requests, five a second
 *     link down     and `link up`: the state of the link
 *     show          prints the MTU, the DNS servers, the addresses and counts
 *     quit */
#define _GNU_SOURCE
#include <fcntl.h>
#include <poll.h>
#include <string.h>
#include <sys/ioctl.h>
#include <time.h>
#include <unistd.h>
#include <linux/if.h>
#include <linux/if_tun.h>
#include "lwip/dns.h"
#include "lwip/ethip6.h"
#include "lwip/icmp6.h"
#include "lwip/init.h"
#include "lwip/netif.h"
#include "lwip/raw.h"
#include "lwip/stats.h"
#include "lwip/tcp.h"
#include "lwip/timeouts.h"
#include "lwip/udp.h"
#include "netif/ethernet.h"
#include "nd.h"

enum { LONGEST = 2048, ECHO_PORT = 7, PING_MS = 200, PING_BYTES = 56, PING_ID = 0x1234 };

static struct netif tap;
static int device;
static u32_t started, records[16];
static struct raw_pcb *pings;
static ip_addr_t ping_to;
static unsigned pings_left, pings_sent, pongs;

u32_t sys_now(void)
{
    struct timespec now;
    clock_gettime(CLOCK_MONOTONIC, &now);
    return (u32_t)(now.tv_sec * 1000 + now.tv_nsec / 1000000);
}

static void say(const char *what, const char *more)
{
    u32_t now = sys_now() - started;
    printf("%u.%03u %s %s\n", now / 1000, now % 1000, what, more);
    fflush(stdout);
}

void stack_record(struct netif *netif, const struct nd_out *out)
{
    ip6_addr_t address;
    (void)netif;
    records[out->kind % 16]++;
    memcpy(address.addr, out->address.bytes, sizeof address.addr);
    if (out->kind == ND_OUT_FAILED)
        say("failed", ip6addr_ntoa(&address));
    if (out->kind == ND_OUT_RESOLVED)
        say("resolved", ip6addr_ntoa(&address));
}

static const char *state_of(u8_t state)
{
    return ip6_addr_isinvalid(state) ? "invalid" : ip6_addr_istentative(state) ? "tentative" : ip6_addr_isduplicated(state) ? "duplicate"
         : ip6_addr_ispreferred(state) ? "preferred" : "deprecated";
}

static void on_status(struct netif *netif)
{
    static u8_t last[LWIP_IPV6_NUM_ADDRESSES];
    for (s8_t slot = 0; slot < LWIP_IPV6_NUM_ADDRESSES; slot++)
        if (netif_ip6_addr_state(netif, slot) != last[slot]) {
            last[slot] = netif_ip6_addr_state(netif, slot);
            say(state_of(last[slot]), ip6addr_ntoa(netif_ip6_addr(netif, slot)));
        }
}

static void show(void)
{
    printf("mtu %u\n", tap.mtu6);
    for (u8_t index = 0; index < DNS_MAX_SERVERS; index++)
        if (!ip_addr_isany(dns_getserver(index)))
            printf("dns %s\n", ipaddr_ntoa(dns_getserver(index)));
    for (s8_t slot = 0; slot < LWIP_IPV6_NUM_ADDRESSES; slot++)
        if (!ip6_addr_isinvalid(netif_ip6_addr_state(&tap, slot)))
            printf("address %s %s valid %u preferred %u\n", ip6addr_ntoa(netif_ip6_addr(&tap, slot)), state_of(netif_ip6_addr_state(&tap, slot)),
                   netif_ip6_addr_valid_life(&tap, slot), netif_ip6_addr_pref_life(&tap, slot));
    printf("frames %u heard %u dropped %u failed %u resolved %u ignored %u\n", records[ND_OUT_FRAME], records[ND_OUT_HEARD], records[ND_OUT_DROPPED],
           records[ND_OUT_FAILED], records[ND_OUT_RESOLVED], records[ND_OUT_IGNORED]);
    printf("given up %u\n", (unsigned)lwip_stats.nd6.drop);
    printf("heap used %u most %u failed %u\n", (unsigned)lwip_stats.mem.used, (unsigned)lwip_stats.mem.max, (unsigned)lwip_stats.mem.err);
    say("shown", "");
}

static err_t link_output(struct netif *netif, struct pbuf *packet)
{
    u8_t frame[LONGEST];
    u16_t length = pbuf_copy_partial(packet, frame, sizeof frame, 0);
    (void)netif;
    return write(device, frame, length) == length ? ERR_OK : ERR_IF;
}

static err_t set_up(struct netif *netif)
{
    static const u8_t mac[6] = {0x02, 0, 0, 0, 0, 0x07};
    netif->name[0] = 't';
    netif->name[1] = 'p';
    netif->hwaddr_len = sizeof mac;
    memcpy(netif->hwaddr, mac, sizeof mac);
    netif->mtu = 1500;
    netif->flags = NETIF_FLAG_BROADCAST | NETIF_FLAG_ETHERNET | NETIF_FLAG_MLD6;
    netif->output_ip6 = ethip6_output;
    netif->linkoutput = link_output;
    return ERR_OK;
}

/* ---- echo ------------------------------------------------------------------------------------ */

static void udp_echo(void *argument, struct udp_pcb *pcb, struct pbuf *packet, const ip_addr_t *from, u16_t port)
{
    (void)argument;
    udp_sendto(pcb, packet, from, port);
    pbuf_free(packet);
}

static err_t tcp_echo(void *argument, struct tcp_pcb *pcb, struct pbuf *packet, err_t error)
{
    (void)argument;
    (void)error;
    if (packet == NULL)
        return tcp_close(pcb);
    if (tcp_sndbuf(pcb) < packet->tot_len || tcp_sndqueuelen(pcb) + 4 > TCP_SND_QUEUELEN)
        return ERR_MEM; /* lwIP keeps it, and asks again */
    for (struct pbuf *part = packet; part != NULL; part = part->next)
        tcp_write(pcb, part->payload, part->len, TCP_WRITE_FLAG_COPY);
    tcp_output(pcb);
    tcp_recved(pcb, packet->tot_len);
    pbuf_free(packet);
    return ERR_OK;
}

static err_t on_connection(void *argument, struct tcp_pcb *pcb, err_t error)
{
    (void)argument;
    if (error == ERR_OK && pcb != NULL)
        tcp_recv(pcb, tcp_echo);
    return ERR_OK;
}

static void listen_for_echo(void)
{
    struct udp_pcb *udp = udp_new_ip_type(IPADDR_TYPE_V6);
    struct tcp_pcb *tcp = tcp_new_ip_type(IPADDR_TYPE_V6);
    udp_bind(udp, IP6_ADDR_ANY, ECHO_PORT);
    udp_recv(udp, udp_echo, NULL);
    tcp_bind(tcp, IP6_ADDR_ANY, ECHO_PORT);
    tcp_accept(tcp_listen(tcp), on_connection);
}

/* ---- ping ------------------------------------------------------------------------------------ */

static u8_t on_pong(void *argument, struct raw_pcb *pcb, struct pbuf *packet, const ip_addr_t *from)
{
    struct icmp6_echo_hdr header;
    (void)argument;
    (void)pcb;
    if (pbuf_copy_partial(packet, &header, sizeof header, IP6_HLEN) != sizeof header || header.type != ICMP6_TYPE_EREP || header.id != PING_ID)
        return 0;
    pongs++;
    say("pong", ipaddr_ntoa(from));
    pbuf_free(packet);
    return 1;
}

static void ping(void *argument)
{
    struct pbuf *packet = pbuf_alloc(PBUF_IP, PING_BYTES, PBUF_RAM);
    struct icmp6_echo_hdr header = {.type = ICMP6_TYPE_EREQ, .id = PING_ID, .seqno = lwip_htons((u16_t)pings_sent)};
    (void)argument;
    if (packet != NULL) {
        memset(packet->payload, 0, PING_BYTES);
        pbuf_take(packet, &header, sizeof header);
        if (raw_sendto(pings, packet, &ping_to) != ERR_OK)
            say("unsent", ipaddr_ntoa(&ping_to));
        pings_sent++;
        pbuf_free(packet);
    }
    if (--pings_left > 0)
        sys_timeout(PING_MS, ping, NULL);
    else
        say("pinged", ipaddr_ntoa(&ping_to));
}

/* ---- lines ----------------------------------------------------------------------------------- */

static int follow(const char *line) /* 0: quit */
{
    char word[16] = "", first[64] = "", second[64] = "";
    ip6_addr_t address, other;
    sscanf(line, "%15s %63s %63s", word, first, second);
    s8_t slot = ip6addr_aton(first, &address) ? netif_get_ip6_addr_match(&tap, &address) : -1;
    if (strcmp(word, "add") == 0 && netif_add_ip6_address(&tap, &address, NULL) != ERR_OK)
        say("no room", first);
    if (strcmp(word, "change") == 0 && slot >= 0 && ip6addr_aton(second, &other)) { /* a valid slot keeps the group of its address in lwIP */
        netif_ip6_addr_set_state(&tap, slot, IP6_ADDR_INVALID);
        netif_ip6_addr_set(&tap, slot, &other);
        netif_ip6_addr_set_state(&tap, slot, IP6_ADDR_TENTATIVE);
    }
    if (strcmp(word, "remove") == 0 && slot >= 0)
        netif_ip6_addr_set_state(&tap, slot, IP6_ADDR_INVALID);
    if (strcmp(word, "ping") == 0 && ipaddr_aton(first, &ping_to)) {
        sys_untimeout(ping, NULL);
        pings_left = (unsigned)atoi(second);
        ping(NULL);
    }
    if (strcmp(word, "link") == 0)
        strcmp(first, "up") == 0 ? netif_set_link_up(&tap) : netif_set_link_down(&tap);
    if (strcmp(word, "show") == 0)
        show();
    return strcmp(word, "quit") != 0;
}

static void receive(void)
{
    u8_t frame[LONGEST];
    ssize_t length;
    while ((length = read(device, frame, sizeof frame)) > 0) {
        struct pbuf *packet;
        if (((frame[0] & 1) == 0 && memcmp(frame, tap.hwaddr, 6) != 0) || !netif_is_link_up(&tap))
            continue;
        packet = pbuf_alloc(PBUF_RAW, (u16_t)length, PBUF_POOL);
        if (packet == NULL)
            continue;
        pbuf_take(packet, frame, (u16_t)length);
        if (tap.input(packet, &tap) != ERR_OK)
            pbuf_free(packet);
    }
}

int main(int argc, char **argv)
{
    struct ifreq request = {.ifr_flags = IFF_TAP | IFF_NO_PI};
    char line[160];
    if (argc != 2)
        return fprintf(stderr, "usage: stack TAP\n"), 2;
    started = sys_now();
    srand((unsigned)time(NULL) ^ (unsigned)getpid());
    strncpy(request.ifr_name, argv[1], IFNAMSIZ - 1);
    device = open("/dev/net/tun", O_RDWR | O_NONBLOCK);
    if (device < 0 || ioctl(device, TUNSETIFF, &request) != 0)
        return perror(argv[1]), 1;
    lwip_init();
    netif_add_noaddr(&tap, NULL, set_up, ethernet_input);
    netif_set_status_callback(&tap, on_status);
    netif_set_default(&tap);
    netif_create_ip6_linklocal_address(&tap, 1);
    tap.ip6_autoconfig_enabled = 1;
    netif_set_link_up(&tap);
    netif_set_up(&tap);
    listen_for_echo();
    pings = raw_new_ip6(IP6_NEXTH_ICMP6);
    pings->chksum_reqd = 1;
    pings->chksum_offset = 2;
    raw_recv(pings, on_pong, NULL);
    for (int runs = 1; runs;) {
        u32_t sleep = sys_timeouts_sleeptime();
        struct pollfd inputs[2] = {{device, POLLIN, 0}, {STDIN_FILENO, POLLIN, 0}};
        poll(inputs, 2, sleep > 1000 ? 1000 : (int)sleep);
        receive();
        if (inputs[1].revents != 0)
            runs = fgets(line, sizeof line, stdin) != NULL && follow(line);
        sys_check_timeouts();
    }
    printf("pings %u answered %u\n", pings_sent, pongs);
    show();
    netif_remove(&tap);
    printf("heap used at the end %u\n", (unsigned)lwip_stats.mem.used);
    return 0;
}
