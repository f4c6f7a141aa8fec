
/* ---- system: what the command calls of the system (os_..), over the functions of POSIX, and its main ----
 *
 * The module has the numbers and structures of Linux on a little-endian machine with 64 bits; here they are those of the machine. Sockets, which only
 * `link --wire udp` opens, are for Linux alone. The command has one thread. */
#include <errno.h>
#include <signal.h>
#include <stdbool.h>
#include <stdio.h>
#include <stdlib.h>
#include <unistd.h>

static int argument_count;
static char **arguments;

/* The number of the last error, by Linux. */
static u32 last_error;

/* ---- errors ---- */

/* Returns Linux's number of an error of this system. Those up to EDOM are the same on all. */
static u32 error_of(int error)
{
    static const int known[][2] = {{EAGAIN, 11}, {EADDRINUSE, 98}, {EADDRNOTAVAIL, 99}, {ENETUNREACH, 101}, {ENOBUFS, 105}, {ECONNREFUSED, 111},
                                   {EMSGSIZE, 90}, {ENOSYS, 38}};
    for (size_t i = 0; i < sizeof known / sizeof *known; i++)
        if (known[i][0] == error)
            return (u32)known[i][1];
    return (u32)error;
}

/* Returns the result of a call of the system, and keeps the number of its error if it is negative. */
static u64 result_of(int64_t result)
{
    if (result < 0)
        last_error = error_of(errno);
    return (u64)result;
}

static u32 os_rattle_errno(void)
{
    return last_error;
}

static void os_rattle_set_errno(u32 error)
{
    last_error = error;
}

/* ---- memory ---- */

enum { MOST_ALIGNED = 16 };

static s_u64_u64 block_of(void *p)
{
    s_u64_u64 block;
    block.f0 = p != NULL;
    block.f1 = p != NULL ? (uintptr_t)p : MOST_ALIGNED; /* of a request that is refused it is not null, and never used */
    return block;
}

/* Returns a block that is aligned to 16 bytes, or a null pointer. */
static void *allocated(u64 size)
{
    const u64 whole = size != 0 ? (size + MOST_ALIGNED - 1) / MOST_ALIGNED * MOST_ALIGNED : MOST_ALIGNED;
    if (size > SIZE_MAX / 2)
        return NULL;
    return _Alignof(max_align_t) >= MOST_ALIGNED ? malloc((size_t)whole) : aligned_alloc(MOST_ALIGNED, (size_t)whole);
}

static s_u64_u64 os_rattle_alloc(u64 size, u64 align)
{
    return block_of(align <= MOST_ALIGNED ? allocated(size) : NULL);
}

static s_u64_u64 os_rattle_realloc(Q p, u64 kept, u64 size, u64 align)
{
    void *other;
    if (align <= MOST_ALIGNED && _Alignof(max_align_t) >= MOST_ALIGNED && size <= SIZE_MAX / 2)
        return block_of(realloc(AT(p), (size_t)(size != 0 ? size : MOST_ALIGNED)));
    other = align <= MOST_ALIGNED ? allocated(size) : NULL;
    if (other != NULL) {
        memcpy_n(Q_OF(other), p, kept < size ? kept : size);
        free(AT(p));
    }
    return block_of(other);
}

/* gcc would warn of places on the stack, where a collection that never took memory points, and for which this isn't called. */
static void os_rattle_dealloc(Q p)
{
    void *volatile block = AT(p);
    free(block);
}

/* ---- arguments and files ---- */

enum { NO_ARGUMENT = -1, NO_ROOM = -2 };

/* Copies an argument to the start of a buffer, and returns its length; NO_ARGUMENT if there is none; NO_ROOM, with a full buffer, if it is longer. */
static u64 os_rattle_arg(u64 index, Q to, u64 room)
{
    size_t length;
    if (index >= (u64)argument_count)
        return (u64)NO_ARGUMENT;
    length = strlen(arguments[index]);
    memcpy_n(to, Q_OF(arguments[index]), length < room ? length : room);
    return length <= room ? length : (u64)NO_ROOM;
}

static u64 os_read(u32 file, Q to, u64 room)
{
    return result_of(read((int)file, AT(to), (size_t)room));
}

static u64 os_write(u32 file, Q from, u64 length)
{
    return result_of(write((int)file, AT(from), (size_t)length));
}

static u64 os_lseek(u32 file, u64 to, u32 from)
{
    return result_of(lseek((int)file, (off_t)to, (int)from));
}

static u32 os_close(u32 file)
{
    return (u32)result_of(close((int)file));
}

/* The module ignores SIGPIPE, Linux's 13, by SIG_IGN, which is 1, and sets no other signal. */
static u64 os___sysv_signal(u32 number, u64 handler)
{
    if (number != 13 || handler != 1)
        return (u64)-1;
#ifdef SIGPIPE
    if (signal(SIGPIPE, SIG_IGN) == SIG_ERR)
        return (u64)-1;
#endif
    return 0;
}

/* ---- sockets: datagrams of IPv4 between processes of this machine ---- */

/* What the module passes: Linux's numbers, and the length of an address: two bytes of family, the port, the address, and eight bytes that are 0. */
enum { OF_INET = 2, DATAGRAM_CLOEXEC = 0x80002, LEVEL_SOCKET = 1, RECEIVE_TIMEOUT = 20, NO_SIGNAL = 0x4000, ADDRESS_BYTES = 16, TIME_BYTES = 16 };

#ifdef __linux__
#include <arpa/inet.h>
#include <netinet/in.h>
#include <sys/ioctl.h>
#include <sys/socket.h>
#include <sys/time.h>

union address {
    struct sockaddr any;
    struct sockaddr_in in;
};

/* Refuses a call that the module is not known to make. */
static int64_t refused(void)
{
    errno = EINVAL;
    return -1;
}

/* Reads an address of the module. Returns false if it is none of IPv4. */
static bool read_address(union address *to, Q from, u32 length)
{
    memset(to, 0, sizeof *to);
    if (length < ADDRESS_BYTES || ld16_1(from) != OF_INET)
        return false;
    to->in.sin_family = AF_INET;
    memcpy(&to->in.sin_port, AT(ADD(from, 2)), 2);
    memcpy(&to->in.sin_addr, AT(ADD(from, 4)), 4);
    return true;
}

/* Writes an address for the module: as many bytes as it has room for, and how many there are. */
static void write_address(Q to, Q length, const union address *from)
{
    u8 bytes[ADDRESS_BYTES] = {0};
    const u32 room = ld32_1(length);
    st16_1(Q_OF(bytes), OF_INET);
    memcpy(bytes + 2, &from->in.sin_port, 2);
    memcpy(bytes + 4, &from->in.sin_addr, 4);
    memcpy_n(to, Q_OF(bytes), room < ADDRESS_BYTES ? room : ADDRESS_BYTES);
    st32_1(length, ADDRESS_BYTES);
}

static u32 os_socket(u32 domain, u32 type, u32 protocol)
{
    const bool is_known = domain == OF_INET && type == DATAGRAM_CLOEXEC && protocol == 0;
    return (u32)result_of(is_known ? socket(AF_INET, SOCK_DGRAM | SOCK_CLOEXEC, 0) : refused());
}

static u32 os_bind(u32 socket, Q address, u32 length)
{
    union address to;
    return (u32)result_of(read_address(&to, address, length) ? bind((int)socket, &to.any, sizeof to.in) : refused());
}

static u32 os_connect(u32 socket, Q address, u32 length)
{
    union address to;
    return (u32)result_of(read_address(&to, address, length) ? connect((int)socket, &to.any, sizeof to.in) : refused());
}

static u32 os_getsockname(u32 socket, Q address, Q length)
{
    union address from;
    socklen_t size = sizeof from;
    const u32 result = (u32)result_of(getsockname((int)socket, &from.any, &size));
    if (result == 0)
        write_address(address, length, &from);
    return result;
}

static u32 os_setsockopt(u32 socket, u32 level, u32 option, Q value, u32 length)
{
    struct timeval time;
    if (level != LEVEL_SOCKET || option != RECEIVE_TIMEOUT || length != TIME_BYTES)
        return (u32)result_of(refused());
    memset(&time, 0, sizeof time);
    time.tv_sec = (time_t)ld64_1(value);
    time.tv_usec = (suseconds_t)ld64_1(ADD(value, 8));
    return (u32)result_of(setsockopt((int)socket, SOL_SOCKET, SO_RCVTIMEO, &time, sizeof time));
}

static u32 os_rattle_set_nonblocking(u32 socket, u8 is_on)
{
    int value = is_on;
    return (u32)result_of(ioctl((int)socket, FIONBIO, &value));
}

static u64 os_recv(u32 socket, Q to, u64 room, u32 flags)
{
    return result_of(flags == 0 ? recv((int)socket, AT(to), (size_t)room, 0) : refused());
}

static u64 os_sendto(u32 socket, Q from, u64 length, u32 flags, Q address, u32 address_length)
{
    union address to;
    if (!read_address(&to, address, address_length) || (flags & ~(u32)NO_SIGNAL) != 0)
        return result_of(refused());
    return result_of(sendto((int)socket, AT(from), (size_t)length, flags != 0 ? MSG_NOSIGNAL : 0, &to.any, sizeof to.in));
}

static u64 os_recvfrom(u32 socket, Q to, u64 room, u32 flags, Q address, Q length)
{
    union address from;
    socklen_t size = sizeof from;
    int64_t received;
    memset(&from, 0, sizeof from);
    received = flags == 0 ? recvfrom((int)socket, AT(to), (size_t)room, 0, &from.any, &size) : refused();
    if (received >= 0)
        write_address(address, length, &from);
    return result_of(received);
}
#else

/* No socket is ever opened, so that the other calls are never made. */
static u32 os_socket(u32 domain, u32 type, u32 protocol)
{
    (void)domain, (void)type, (void)protocol;
    fputs("ndpctl: --wire udp is for Linux\n", stderr);
    errno = ENOSYS;
    return (u32)result_of(-1);
}

#define NEVER_CALLED(result, name, parameters, unused) \
    static result name parameters \
    { \
        unused; \
        abort(); \
    }
NEVER_CALLED(u32, os_bind, (u32 socket, Q address, u32 length), ((void)socket, (void)address, (void)length))
NEVER_CALLED(u32, os_connect, (u32 socket, Q address, u32 length), ((void)socket, (void)address, (void)length))
NEVER_CALLED(u32, os_getsockname, (u32 socket, Q address, Q length), ((void)socket, (void)address, (void)length))
NEVER_CALLED(u32, os_setsockopt, (u32 socket, u32 level, u32 option, Q value, u32 length),
             ((void)socket, (void)level, (void)option, (void)value, (void)length))
NEVER_CALLED(u32, os_rattle_set_nonblocking, (u32 socket, u8 is_on), ((void)socket, (void)is_on))
NEVER_CALLED(u64, os_recv, (u32 socket, Q to, u64 room, u32 flags), ((void)socket, (void)to, (void)room, (void)flags))
NEVER_CALLED(u64, os_sendto, (u32 socket, Q from, u64 length, u32 flags, Q address, u32 address_length),
             ((void)socket, (void)from, (void)length, (void)flags, (void)address, (void)address_length))
NEVER_CALLED(u64, os_recvfrom, (u32 socket, Q to, u64 room, u32 flags, Q address, Q length),
             ((void)socket, (void)to, (void)room, (void)flags, (void)address, (void)length))
#endif

int main(int count, char **words)
{
    argument_count = count;
    arguments = words;
    set_pointers();
    return (int)m_main();
}
