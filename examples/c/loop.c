/* loop DEVICE: a host in an event loop over a TAP device (Linux). It shows how the calls of nd.h fit a loop with poll(2), and answers nothing above
 * Neighbor Discovery. The device's own address is the kernel's end of the link; the host's is another one.
 *
 * The order in the loop matters: first the frames that wait, with the moment at which they are read, then what is due, then the records, then the wait.
 * It is an example: it is no part of what is proved. */
#define _GNU_SOURCE
#include <errno.h>
#include <fcntl.h>
#include <limits.h>
#include <linux/if.h>
#include <linux/if_tun.h>
#include <poll.h>
#include <stdio.h>
#include <string.h>
#include <sys/ioctl.h>
#include <sys/random.h>
#include <time.h>
#include <unistd.h>

#include "nd.h"

enum { RETRY_MS = 100, TOO_LATE_MS = 1000, LONGEST_FRAME = 2048 };

static uint64_t clock_ms(void)
{
    struct timespec now;
    clock_gettime(CLOCK_BOOTTIME, &now); /* never set back, and runs on while the machine sleeps */
    return (uint64_t)now.tv_sec * 1000 + (uint64_t)now.tv_nsec / 1000000;
}

static int open_tap(const char *name)
{
    struct ifreq request;
    int tap = open("/dev/net/tun", O_RDWR | O_NONBLOCK);
    memset(&request, 0, sizeof request);
    request.ifr_flags = IFF_TAP | IFF_NO_PI;
    strncpy(request.ifr_name, name, IFNAMSIZ - 1);
    if (tap >= 0 && ioctl(tap, TUNSETIFF, &request) == 0)
        return tap;
    return -1;
}

/* The node does not look at Ethernet addresses: only frames for this interface may reach it. A TAP device returns no frame that was written to it; on
 * AF_PACKET those of type PACKET_OUTGOING are dropped here. */
static int is_ours(const nd_mac *mac, const uint8_t *frame, size_t length)
{
    return length >= 14 && ((frame[0] & 1) != 0 || memcmp(frame, mac->bytes, 6) == 0);
}

/* Takes all records. A frame that cannot be written now is lost, as on any link. */
static void drain(nd_node *node, int tap)
{
    static uint8_t buffer[LONGEST_FRAME]; /* at least ND_BUFFER_BYTES, and as long as the longest frame that is passed */
    uint64_t now = clock_ms();
    nd_out out;
    while (nd_poll(node, &out, buffer, sizeof buffer) == ND_DONE) {
        switch (out.kind) {
        case ND_OUT_FRAME:
            if (now - out.moment > TOO_LATE_MS)
                break; /* due before a sleep */
            if (write(tap, buffer, out.length) < 0)
                perror("write");
            break;
        case ND_OUT_UP: /* pass the bytes of the buffer to the input of IPv6 */
            break;
        case ND_OUT_HEARD: /* with ND_CHANGE_ADDRESSES: read nd_addresses, join new solicited-node groups */
            break;
        case ND_OUT_ASSIGNED: /* add the address to the stack */
        case ND_OUT_ENDED_ADDRESS: /* remove it */
            break;
        case ND_OUT_DUPLICATE: /* report it to the operator (RFC 4862, 5.4.5) */
            fprintf(stderr, "an address is a duplicate\n");
            break;
        default: /* kinds of later versions, too */
            break;
        }
    }
}

/* Passes all frames that wait. Returns false if the device is gone. A longer frame is dropped: its record might not fit into the buffer of `drain`, and
 * nd_poll would return ND_NO_ROOM for ever. */
static bool receive(nd_node *node, int tap, const nd_mac *mac)
{
    static uint8_t frame[LONGEST_FRAME + 1]; /* read(2) cuts a longer frame to this */
    ssize_t length;
    while ((length = read(tap, frame, sizeof frame)) > 0) {
        if (length > LONGEST_FRAME || !is_ours(mac, frame, (size_t)length))
            continue;
        /* ND_NO_MEMORY: the frame is given up, as if the link had lost it. If it is refused, a record says why. */
        nd_receive(node, clock_ms(), frame, (size_t)length);
        drain(node, tap);
    }
    return length < 0 && (errno == EAGAIN || errno == EINTR);
}

/* Returns how long to wait for a frame, in milliseconds. After ND_NO_MEMORY the records are taken, which frees memory; the rest comes back later. */
static int wait_of(nd_node *node, int32_t status)
{
    uint64_t now = clock_ms(), due = nd_next_due(node);
    if (status == ND_NO_MEMORY)
        return RETRY_MS;
    if (due <= now)
        return 0;
    return due - now > INT_MAX ? INT_MAX : (int)(due - now);
}

static void run(nd_node *node, int tap, const nd_mac *mac)
{
    while (receive(node, tap, mac)) {
        int32_t status = nd_pass(node, clock_ms());
        struct pollfd readable = {tap, POLLIN, 0};
        drain(node, tap);
        if (status < 0 && status != ND_NO_MEMORY)
            return; /* a mistake of the caller */
        if (poll(&readable, 1, wait_of(node, status)) < 0 && errno != EINTR)
            return;
    }
}

int main(int argc, char **argv)
{
    const nd_mac mac = {{0x02, 0, 0, 0, 0, 1}};
    nd_node node = ND_NODE_INIT;
    nd_options options = ND_OPTIONS_INIT;
    int tap;
    if (argc != 2 || nd_version() >> 16 != ND_VERSION_MAJOR || nd_version() < ND_VERSION)
        return 2;
    tap = open_tap(argv[1]);
    if (tap < 0) {
        perror(argv[1]);
        return 1;
    }
    options.mac = mac;
    options.start = clock_ms();
    if (getrandom(&options.seed, sizeof options.seed, 0) != (ssize_t)sizeof options.seed || nd_open(&node, &options, sizeof options) != ND_DONE)
        return 1;
    run(&node, tap, &mac);
    nd_close(&node);
    return 1;
}
