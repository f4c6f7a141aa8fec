/* flash: a host for a small processor without a system: the loop at the head of nd.h, whose text LOOP names, over an interface that is one byte. It
 * is linked, and not run: its size is what the loop takes of flash, with the library's functions that it calls, the memory functions, and what they
 * need of the C library. */
#include "nd.h"
#include <string.h>

static uint8_t interface_mac[6], buffer[ND_BUFFER_BYTES], frame[ND_BUFFER_BYTES];
static volatile uint64_t ticks;
static volatile bool running = true;
static volatile uint8_t port;
static volatile size_t waiting;

static uint64_t clock_ms(void)
{
    return ticks;
}

static uint64_t random_u64(void)
{
    return ticks;
}

static void transmit(const uint8_t *bytes, size_t length)
{
    while (length-- > 0)
        port = *bytes++;
}

static void deliver(const uint8_t *bytes, size_t length)
{
    transmit(bytes, length);
}

static size_t wait_for_frame(uint8_t *bytes, uint64_t milliseconds)
{
    ticks += milliseconds;
    for (size_t i = 0; i < waiting && i < sizeof frame; i++)
        bytes[i] = port;
    return waiting;
}

static void loop(void)
{
#include LOOP
}

int main(void)
{
    loop();
    return 0;
}
