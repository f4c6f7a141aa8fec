/* giant: the loop at the head of nd.h, or that of README.md, on a link that carries one frame of another host. LOOP names the file with its text. The
 * frame is as long as the buffer, one byte longer, or much longer. It requires: the first is delivered, the others are dropped, and the host sends the
 * same frames as if there were none. */
#include "heap.h"
#include "tested.h"

enum { AT = 4000, END = 60000 };

static const nd_addr NEIGHBOUR = {{0xfe, 0x80, [15] = 5}};
static uint8_t interface_mac[6], buffer[ND_BUFFER_BYTES], frame[2 * ND_BUFFER_BYTES];
static size_t giant, delivered, sent;
static uint64_t now;
static bool running;

static uint64_t clock_ms(void)
{
    return now;
}

static uint64_t random_u64(void)
{
    return 1;
}

static void transmit(const uint8_t *bytes, size_t length)
{
    require(bytes == buffer && length <= ND_BUFFER_BYTES, "a frame of the node's own");
    sent++;
}

static void deliver(const uint8_t *bytes, size_t length)
{
    require(bytes == buffer && length == giant - 14, "the packet of the frame");
    delivered++;
}

/* Writes a frame with a packet to the host. Returns its length. */
static size_t make_frame(uint8_t *bytes, size_t length)
{
    memset(bytes, 0, length);
    memcpy(bytes + 12, (const uint8_t[]){0x86, 0xdd, 0x60}, 3);
    bytes[18] = (uint8_t)((length - 54) >> 8);
    bytes[19] = (uint8_t)(length - 54);
    bytes[20] = 17;
    memcpy(bytes + 22, &NEIGHBOUR, sizeof NEIGHBOUR);
    memcpy(bytes + 38, &LINK_LOCAL, sizeof LINK_LOCAL);
    return length;
}

/* Waits for a frame so many milliseconds. Returns its length, or 0 if none has arrived. */
static size_t wait_for_frame(uint8_t *bytes, uint64_t milliseconds)
{
    bool arrives = giant > 0 && now < AT && now + milliseconds >= AT;
    now = arrives ? AT : now + milliseconds;
    running = now < END;
    return arrives ? make_frame(bytes, giant) : 0;
}

static void loop(void)
{
#include LOOP
}

/* Returns how many frames the host sends where a frame of this length arrives. */
static size_t sent_with(size_t length)
{
    giant = length, delivered = 0, sent = 0, now = 0, running = true;
    loop();
    require(heap_blocks == 0, "all memory is given back");
    return sent;
}

int main(void)
{
    size_t usual;
    memcpy(interface_mac, &MAC, sizeof interface_mac);
    usual = sent_with(0);
    require(usual > 3, "the host sends");
    require(sent_with(ND_BUFFER_BYTES) == usual && delivered == 1, "a frame as long as the buffer is delivered");
    require(sent_with(ND_BUFFER_BYTES + 1) == usual && delivered == 0, "a longer one is dropped, and stops nothing");
    require(sent_with(2 * ND_BUFFER_BYTES) == usual && delivered == 0, "so is a much longer one");
    return 0;
}
