/* bare: a host without a C library, in the pool of bindings/c/pool.c, from _start, over the system calls of Linux on x86-64. It prints a line for each
 * record of its first six seconds. */
#include "nd.h"

enum { SYSTEM_WRITE = 1, SYSTEM_EXIT = 60 };

void *memcpy(void *to, const void *from, size_t length)
{
    for (size_t i = 0; i < length; i++)
        ((volatile char *)to)[i] = ((const char *)from)[i];
    return to;
}

void *memmove(void *to, const void *from, size_t length)
{
    if ((uintptr_t)to <= (uintptr_t)from)
        return memcpy(to, from, length);
    while (length-- > 0)
        ((volatile char *)to)[length] = ((const char *)from)[length];
    return to;
}

void *memset(void *to, int byte, size_t length)
{
    for (size_t i = 0; i < length; i++)
        ((volatile char *)to)[i] = (char)byte;
    return to;
}

static long call_system(long number, long first, long second, long third)
{
    long result;
    __asm__ volatile("syscall" : "=a"(result) : "a"(number), "D"(first), "S"(second), "d"(third) : "rcx", "r11", "memory");
    return result;
}

static void say(const char *text)
{
    long length = 0;
    while (text[length] != 0)
        length++;
    call_system(SYSTEM_WRITE, 1, (long)text, length);
}

__attribute__((noreturn)) void start(void);

__attribute__((noreturn)) void start(void)
{
    static uint8_t buffer[ND_BUFFER_BYTES];
    static nd_node node;
    nd_options options = ND_OPTIONS_INIT;
    nd_out out;
    int32_t status;
    options.mac.bytes[0] = 2;
    status = nd_open(&node, &options, sizeof options);
    while (status == ND_DONE && nd_next_due(&node) <= 6000) {
        status = nd_pass(&node, nd_next_due(&node));
        while (nd_poll(&node, &out, buffer, sizeof buffer) == ND_DONE)
            say(out.kind == ND_OUT_FRAME ? "frame\n" : out.kind == ND_OUT_ASSIGNED ? "assigned\n" : "other\n");
    }
    nd_close(&node);
    for (;;)
        call_system(SYSTEM_EXIT, status == ND_DONE ? 0 : 1, 0, 0);
}

__asm__(".globl _start\n_start: xor %ebp, %ebp\n and $-16, %rsp\n call start\n");
