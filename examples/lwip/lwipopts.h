/* lwIP's options, the same over nd6.c and over lwIP's own one. */
#ifndef LWIPOPTS_H
#define LWIPOPTS_H

#define NO_SYS 1
#define SYS_LIGHTWEIGHT_PROT 0
#define LWIP_NETCONN 0
#define LWIP_SOCKET 0
#define LWIP_IPV4 0
#define LWIP_IPV6 1
#define LWIP_RAW 1
#define LWIP_DNS 1
#define LWIP_NETIF_STATUS_CALLBACK 1
#define LWIP_RAND() ((u32_t)rand())

/* The limits of the node. Others of neighbours and destinations may be given to the compiler. */
#ifndef LWIP_ND6_NUM_NEIGHBORS
#define LWIP_ND6_NUM_NEIGHBORS 16
#define LWIP_ND6_NUM_DESTINATIONS 32
#endif
#define LWIP_ND6_NUM_ROUTERS 4
#define LWIP_ND6_NUM_PREFIXES 5
#define LWIP_IPV6_NUM_ADDRESSES 6
#define LWIP_ND6_RDNSS_MAX_DNS_SERVERS 2
#define MEMP_NUM_ND6_QUEUE 20

/* Memory. The node has one timeout besides lwIP's own, and the program two. */
#define MEM_ALIGNMENT 16
#define IPV6_FRAG_COPYHEADER 1
#define MEM_SIZE (1024 * 1024)
#define MEMP_NUM_SYS_TIMEOUT (LWIP_NUM_SYS_TIMEOUT_INTERNAL + 3)
#define MEMP_NUM_MLD6_GROUP 8
#define MEMP_NUM_TCP_SEG 600
#define PBUF_POOL_SIZE 512
#define TCP_MSS 1320
#define TCP_WND (16 * TCP_MSS)
#define TCP_SND_BUF (44 * TCP_MSS)
#define TCP_SND_QUEUELEN 500

#ifdef STACK /* stack.c prints what the node reports, and counts */
#define LWIP_STATS 1
struct nd_out;
struct netif;
void stack_record(struct netif *netif, const struct nd_out *out);
#define LWIP_HOOK_ND6_RECORD(netif, out) stack_record(netif, out)
#else
#define LWIP_STATS 0
#endif
#endif
