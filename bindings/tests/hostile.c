/* hostile: frames that are cut and changed. Each of the first 24 frames of standard input (hostile.py) is cut at each length, and has each byte set
 * to each value. For each of these frames a line says what nd_hear says of it to a host and to a router, and what the busy host and the busy router
 * of busy.h report: two hexadecimal digits each. 01 to 14 is the reason why it is dropped, 85 to 89 the type of a message that is heard, f0 another
 * packet or one for the upper layer, f1 one in transit. Then come the CRC-32 of all fields that nd_hear writes, for a host and for a router.
 * hostile.py reads the lines.
 *   On the way the program requires: nd_hear writes all its fields and the same ones each time. The node reports the reason that nd_hear says, or,
 * where nd_hear hears something, ND_WHY_NOT_FOR_US or ND_WHY_NOT_FIRST_HOP. A frame that is dropped has one record and leaves all tables as they
 * were. The buffer of nd_poll is untouched beyond the bytes of a record. Behind the last byte of a frame memory cannot be read. A node that received
 * all frames that were dropped, and nothing else, later reports what a node reports that received none.
 *   The first argument is `plain`, or `mended`: then the checksum of each frame is made good again, and the payload length of a frame that is cut is
 * what is left. The argument N takes each Nth frame alone. */
#define _DEFAULT_SOURCE
#include "busy.h"

#include <sys/mman.h>
#include <unistd.h>

enum { BASES = 24, OTHER = 0xf0, IN_TRANSIT = 0xf1, UNTOUCHED = 0xc3, MOST_VARIANTS = 600000 };

static uint8_t *end_of_page; /* the byte behind the last one that can be read */
static uint8_t buffer[ND_BUFFER_BYTES];
static uint8_t answers[2][MOST_VARIANTS]; /* what each role reports of each frame */
static nd_node nodes[2];
static uint64_t tables[2];
static bool is_mended;

/* Puts a page before one that cannot be read. */
static void make_page(void)
{
    size_t size = (size_t)sysconf(_SC_PAGESIZE);
    uint8_t *pages = mmap(NULL, 2 * size, PROT_READ | PROT_WRITE, MAP_PRIVATE | MAP_ANONYMOUS, -1, 0);
    require(pages != MAP_FAILED && size >= ND_BUFFER_BYTES && mprotect(pages + size, size, PROT_NONE) == 0, "a page that cannot be read");
    end_of_page = pages + size;
}

/* Makes the checksum of an ICMPv6 message good, if it is all there (RFC 4443, 2.3). */
static void mend(uint8_t *bytes, size_t length, bool is_cut)
{
    size_t payload;
    uint32_t sum = 58;
    if (length < 58 || bytes[20] != 58)
        return;
    if (is_cut) {
        bytes[18] = (uint8_t)((length - 54) >> 8);
        bytes[19] = (uint8_t)(length - 54);
    }
    payload = (size_t)bytes[18] << 8 | bytes[19];
    if (payload < 4 || 54 + payload > length)
        return;
    bytes[56] = bytes[57] = 0;
    sum += (uint32_t)payload;
    for (size_t i = 22; i < 54 + payload; i++)
        sum += (i % 2 == 0) ? (uint32_t)bytes[i] << 8 : bytes[i];
    while (sum >> 16 != 0)
        sum = (sum & 0xffff) + (sum >> 16);
    bytes[56] = (uint8_t)(~sum >> 8);
    bytes[57] = (uint8_t)~sum;
}

/* Writes variant `k` of a frame so that it ends at the page's end, and returns its length: first the frame cut to each length, the whole one too,
 * then each byte with each other value. */
static size_t vary(const struct frame *frame, size_t k, uint8_t **bytes)
{
    size_t length = k <= frame->length ? k : frame->length;
    *bytes = end_of_page - length;
    memcpy(*bytes, frame->bytes, length);
    if (k > frame->length) {
        size_t at = (k - frame->length - 1) / 255, value = (k - frame->length - 1) % 255;
        (*bytes)[at] = (uint8_t)(value < frame->bytes[at] ? value : value + 1);
    }
    if (is_mended)
        mend(*bytes, length, k < frame->length);
    return length;
}

static size_t variants(const struct frame *frame)
{
    return frame->length + 1 + 255 * frame->length;
}

/* Returns what nd_hear says. Two structures that held other bytes before are written alike. */
static uint8_t hear(const uint8_t *bytes, size_t length, uint32_t role, nd_heard *heard)
{
    nd_heard again;
    memset(heard, 0, sizeof *heard);
    memset(&again, UNTOUCHED, sizeof again);
    require(nd_hear(bytes, length, role, heard) == ND_DONE && nd_hear(bytes, length, role, &again) == ND_DONE, "nd_hear");
    require(memcmp(heard, &again, sizeof again) == 0, "nd_hear writes all fields");
    switch (heard->hearing) {
    case ND_HEARING_VALID: return (uint8_t)heard->message_type;
    case ND_HEARING_OTHER: return OTHER;
    default:
        require(heard->hearing == ND_HEARING_DROP && heard->why >= 1 && heard->why <= ND_WHY_NOT_FOR_US, "nd_hear says a reason");
        return (uint8_t)heard->why;
    }
}

/* Takes a record into the buffer, which is untouched beyond its bytes. */
static int32_t poll_whole(nd_node *node, nd_out *out)
{
    size_t from = 0;
    int32_t status;
    memset(buffer, UNTOUCHED, sizeof buffer);
    status = nd_poll(node, out, buffer, sizeof buffer);
    require(status == ND_DONE || status == ND_NOTHING, "nd_poll");
    for (from = status == ND_DONE ? out->length : 0; from < sizeof buffer; from++)
        require(buffer[from] == UNTOUCHED, "the buffer beyond a record is untouched");
    return status;
}

/* Returns what the first record of a frame says, and takes all of them. */
static uint8_t report_of(nd_node *node, const nd_heard *heard)
{
    nd_out out;
    uint8_t said = IN_TRANSIT;
    for (size_t i = 0; poll_whole(node, &out) == ND_DONE; i++) {
        require(out.moment == BUSY_AT, "a record is of its event");
        if (i == 0 && out.kind == ND_OUT_DROPPED)
            said = (uint8_t)out.code;
        else if (i == 0 && out.kind == ND_OUT_UP)
            said = OTHER;
        else if (i == 0 && out.kind == ND_OUT_HEARD) {
            said = (uint8_t)out.code;
            require(memcmp(&out.address, &heard->source, sizeof out.address) == 0, "a message is heard from its source");
        } else
            require(out.kind != ND_OUT_DROPPED && out.kind != ND_OUT_UP && out.kind != ND_OUT_HEARD, "one record says what a frame was");
        require(i == 0 || said > ND_WHY_NOT_FIRST_HOP, "a frame that is dropped has one record");
    }
    return said;
}

static void reopen(uint32_t role)
{
    nd_close(&nodes[role]);
    open_busy(&nodes[role], role);
}

/* Passes a frame to a node, and returns what the node says of it. */
static uint8_t receive(uint32_t role, const uint8_t *bytes, size_t length, uint8_t hearing, const nd_heard *heard)
{
    nd_node *node = &nodes[role];
    uint8_t said;
    require(nd_receive(node, BUSY_AT, bytes, length) == ND_DONE, "nd_receive");
    said = report_of(node, heard);
    if (hearing <= ND_WHY_NOT_FOR_US)
        require(said == hearing, "a node drops a frame for the reason that nd_hear says");
    else if (said != ND_WHY_NOT_FOR_US && said != ND_WHY_NOT_FIRST_HOP)
        require(said == hearing || (hearing == OTHER && said == IN_TRANSIT), "a node hears what nd_hear says");
    if (said > ND_WHY_NOT_FIRST_HOP)
        reopen(role);
    else
        require(tables_of(node, BUSY_AT) == tables[role], "a frame that is dropped leaves all tables as they were");
    return said;
}

static void sweep(size_t step)
{
    size_t at = 0;
    for (size_t i = 0; i < BASES; i++)
        for (size_t k = 0; k < variants(&named[i].frame); k++, at++) {
            uint8_t *bytes, hearing[2];
            uint32_t crc[2];
            size_t length;
            nd_heard heard;
            if (at % step != 0)
                continue;
            length = vary(&named[i].frame, k, &bytes);
            for (uint32_t role = 0; role < 2; role++) {
                hearing[role] = hear(bytes, length, role, &heard);
                crc[role] = crc_of(&heard);
                answers[role][at] = receive(role, bytes, length, hearing[role], &heard);
            }
            printf("%02x%02x%02x%02x %08x%08x\n", hearing[0], hearing[1], answers[0][at], answers[1][at], (unsigned)crc[0], (unsigned)crc[1]);
        }
}

/* Passes all frames that were dropped to one node, and compares what it does later with a node that received none of them. */
static void hear_the_dropped(uint32_t role, size_t step)
{
    nd_node quiet = ND_NODE_INIT;
    size_t at = 0;
    reopen(role);
    open_busy(&quiet, role);
    for (size_t i = 0; i < BASES; i++)
        for (size_t k = 0; k < variants(&named[i].frame); k++, at++) {
            uint8_t *bytes;
            size_t length;
            nd_out out;
            if (at % step != 0 || answers[role][at] > ND_WHY_NOT_FIRST_HOP)
                continue;
            length = vary(&named[i].frame, k, &bytes);
            require(nd_receive(&nodes[role], BUSY_AT, bytes, length) == ND_DONE, "nd_receive");
            require(nd_poll(&nodes[role], &out, buffer, 0) == ND_DONE && out.kind == ND_OUT_DROPPED && out.code == answers[role][at], "its reason");
            require(nd_poll(&nodes[role], &out, buffer, 0) == ND_NOTHING, "and nothing else");
        }
    require(later_of(&nodes[role]) == later_of(&quiet), "frames that are dropped change nothing later");
    nd_close(&quiet);
}

int main(int argc, char **argv)
{
    size_t step = argc > 2 ? strtoul(argv[2], NULL, 10) : 1, all = 0;
    read_named();
    require(named_count >= BASES && argc > 1 && step > 0, "hostile plain|mended [N] < FRAMES");
    is_mended = strcmp(argv[1], "mended") == 0;
    for (size_t i = 0; i < BASES; i++)
        all += variants(&named[i].frame);
    require(all <= MOST_VARIANTS, "there is room for what is reported");
    make_page();
    for (uint32_t role = 0; role < 2; role++) {
        reopen(role);
        tables[role] = tables_of(&nodes[role], BUSY_AT);
    }
    sweep(step);
    for (uint32_t role = 0; role < 2; role++) {
        hear_the_dropped(role, step);
        nd_close(&nodes[role]);
    }
    free_named();
    return 0;
}
