/*
 * nd_hear.h - what a frame is to a host or to a router, by the rules of IPv6 Neighbor Discovery
 * (RFC 4861, sections 6.1, 7.1 and 8.1; RFC 4191, section 2.2).
 *
 * One function, with no state: filters, logs and test benches can link it alone, from
 * libnd_hear_c.a. It takes no memory and calls nothing. The crate nd_hear_c has the contract of
 * each field. The library of a whole node, libnd_c.a or nd.c, has the function too: nd.h includes
 * this header.
 */
#ifndef JONDASIK_ND_HEAR_H
#define JONDASIK_ND_HEAR_H

#include <stddef.h>
#include <stdint.h>

#ifdef __cplusplus
extern "C" {
#endif

enum nd_status { /* nd_hear returns ND_DONE or ND_INVALID, the functions of nd.h all of them */
    ND_DONE = 0,
    ND_NOTHING = 1,    /* there is no such row, record or next hop */
    ND_WAITING = 2,    /* nd_resolve: the link-layer address of the next hop is not known yet */
    ND_NO_MEMORY = -1, /* memory was refused */
    ND_CLOSED = -2,    /* the node is not open */
    ND_INVALID = -3,   /* an argument that the call does not take */
    ND_PAST = -4,      /* `now` is before nd_last_moment */
    ND_NO_ROOM = -5    /* the buffer is too short */
    /* -16 and below: a refusal, ND_REFUSED of nd.h */
};

enum nd_role {
    ND_ROLE_HOST = 0,
    ND_ROLE_ROUTER = 1 /* it forms its link-local address alone, takes no Router Advertisement */
};

enum nd_preference { /* of a default router (RFC 4191, 2.1) */
    ND_PREFERENCE_MEDIUM = 0,
    ND_PREFERENCE_HIGH = 1,
    ND_PREFERENCE_LOW = 2
};

/* Why a frame is dropped. The first that holds is reported, in the order 1 to 5, 10, 11, 6 to 9,
 * 12 to 20: no option is looked at before the checksum is good. RS, RA, NS, NA are the messages of
 * RFC 4861, 4.1 to 4.4. */
enum nd_why {
    ND_WHY_FRAME_SHORT = 1,           /* under 14 bytes (RFC 2464, 3) */
    ND_WHY_NOT_IPV6 = 2,              /* the Ethernet type is not 86dd (RFC 2464, 3) */
    ND_WHY_HEADER_SHORT = 3,          /* under 40 bytes follow (RFC 8200, 3) */
    ND_WHY_VERSION = 4,               /* not 6 (RFC 8200, 3) */
    ND_WHY_PAYLOAD_SHORT = 5,         /* fewer bytes than the payload length (RFC 8200, 3) */
    ND_WHY_CODE = 6,                  /* not 0 (RFC 4861, 6.1, 7.1, 8.1) */
    ND_WHY_LENGTH = 7,                /* shorter than its type (RFC 4861, 6.1, 7.1, 8.1) */
    ND_WHY_OPTION_ZERO = 8,           /* an option of length 0 (RFC 4861, 4.6) */
    ND_WHY_OPTION_OVER = 9,           /* an option is not all there (RFC 4861, 4.6) */
    ND_WHY_HOP_LIMIT = 10,            /* not 255 (RFC 4861, 6.1, 7.1, 8.1) */
    ND_WHY_SUM = 11,                  /* a bad ICMPv6 checksum (RFC 4443, 2.3) */
    ND_WHY_SOURCE = 12,               /* an RA or Redirect from an address that is not link-local
                                         (RFC 4861, 6.1.2, 8.1), or any from a multicast one */
    ND_WHY_TARGET = 13,               /* an NS or NA for a multicast target (RFC 4861, 7.1) */
    ND_WHY_UNSPECIFIED_SLLA = 14,     /* an RS or NS from :: with a source link-layer address
                                         (RFC 4861, 6.1.1, 7.1.1) */
    ND_WHY_NOT_SOLICITED_NODE = 15,   /* an NS from :: to another address than a solicited-node one
                                         (RFC 4861, 7.1.1) */
    ND_WHY_SOLICITED_MULTICAST = 16,  /* an NA with S to a multicast address (RFC 4861, 7.1.2) */
    ND_WHY_REDIRECT_TARGET = 17,      /* neither link-local nor the destination (RFC 4861, 8.1) */
    ND_WHY_REDIRECT_DESTINATION = 18, /* multicast (RFC 4861, 8.1) */
    ND_WHY_NOT_FOR_US = 19,           /* a message that the other role takes: an RS at a host, an RA
                                         or a Redirect at a router. At a node also a destination or
                                         target that is not the node's; until its link-local address
                                         is assigned, all but detection */
    ND_WHY_NOT_FIRST_HOP = 20         /* at a node only, not of nd_hear: a Redirect from another
                                         node than the first hop of its destination
                                         (RFC 4861, 8.1) */
};

enum nd_hearing {
    ND_HEARING_VALID = 1, /* a valid message of Neighbor Discovery */
    ND_HEARING_OTHER = 2, /* another IPv6 packet */
    ND_HEARING_DROP = 3   /* `why` says why it is dropped */
};

typedef struct nd_addr {
    uint8_t bytes[16]; /* network order, as in struct in6_addr */
} nd_addr;

/* What a frame is. A field is 0 if the frame or its message has none such. Addresses are in network
 * order, all other numbers in the order of the machine. */
typedef struct nd_heard {
    nd_addr source;           /* of the packet: VALID and OTHER */
    nd_addr destination;      /* of the packet: VALID and OTHER */
    nd_addr target;           /* NS, NA and Redirect */
    nd_addr redirected;       /* the Destination Address field of a Redirect */
    uint32_t hearing;         /* enum nd_hearing */
    uint32_t why;             /* enum nd_why, 1 to 19: DROP */
    uint32_t message_type;    /* the ICMPv6 type, 133 to 137: VALID */
    uint32_t next_header;     /* VALID (58) and OTHER */
    uint32_t options;         /* where the options begin in the frame: VALID */
    uint32_t options_bytes;   /* how many bytes they have. None has length 0, and all are whole */
    uint32_t reachable_time;  /* RA, milliseconds */
    uint32_t retrans_timer;   /* RA, milliseconds */
    uint32_t router_lifetime; /* RA, seconds */
    uint8_t hop_limit;        /* RA: Cur Hop Limit */
    uint8_t managed;          /* RA: M, 0 or 1 */
    uint8_t other;            /* RA: O, 0 or 1 */
    uint8_t preference;       /* RA: enum nd_preference */
    uint8_t router;           /* NA: R, 0 or 1 */
    uint8_t solicited;        /* NA: S, 0 or 1 */
    uint8_t override_flag;    /* NA: O, 0 or 1 */
    uint8_t reserved;         /* 0 */
} nd_heard;

/* Says what a frame is to a host or to a router that knows nothing else: its message, or the first
 * reason to drop it. `frame` has `length` bytes, from the Ethernet destination on; neither it nor
 * `heard` is null, and they do not overlap. It takes no memory, and may be called by any thread at
 * any time.
 *   ND_DONE        `heard` is written.
 *   ND_INVALID     `role` is no `enum nd_role`; nothing is written. */
int32_t nd_hear(const uint8_t *frame, size_t length, uint32_t role, nd_heard *heard);

#ifdef __cplusplus
}
#endif
#endif
