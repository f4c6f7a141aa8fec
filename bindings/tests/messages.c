/* messages ROLE < frames: gives the frames to two nodes of a role, 0 for a host and 1 for a router. The first one receives each frame. The second one
 * receives the messages of Neighbor Discovery among them by nd_receive_message: as they are, and, where their checksum is good, also with a wrong one
 * that is said to be good. Required: equal statuses, records and tables. */
#include "tables.h"

enum { ETHERNET = 14, HEADERS = 54, ICMPV6 = 58, STEP = 40 };

static nd_node one = ND_NODE_INIT, other = ND_NODE_INIT;

/* Returns the length of the message that a frame has: of Neighbor Discovery, whole, without extension headers. 0 if there is none. */
static size_t message_in(const struct frame *frame)
{
    const uint8_t *f = frame->bytes;
    size_t length;
    if (frame->length <= HEADERS || f[12] != 0x86 || f[13] != 0xdd || f[ETHERNET] >> 4 != 6 || f[ETHERNET + 6] != ICMPV6)
        return 0;
    length = (size_t)f[ETHERNET + 4] << 8 | f[ETHERNET + 5];
    return length > 3 && HEADERS + length <= frame->length && f[HEADERS] >= 133 && f[HEADERS] <= 137 ? length : 0;
}

/* Returns true if nothing is wrong with the checksum of a frame. */
static bool is_good(const struct frame *frame, uint32_t role)
{
    nd_heard heard;
    require(nd_hear(frame->bytes, frame->length, role, &heard) == ND_DONE, "nd_hear");
    return heard.hearing == ND_HEARING_VALID;
}

/* Receives a message, with its checksum as it is or with a wrong one that is said to be good. */
static int32_t receive_message(uint64_t now, const struct frame *frame, size_t length, bool is_wrong)
{
    static uint8_t bytes[65536];
    nd_message message = {.hop_limit = frame->bytes[ETHERNET + 7], .checksum_good = is_wrong};
    memcpy(&message.source, frame->bytes + ETHERNET + 8, sizeof message.source);
    memcpy(&message.destination, frame->bytes + ETHERNET + 24, sizeof message.destination);
    memcpy(bytes, frame->bytes + HEADERS, length);
    bytes[2] = (uint8_t)(bytes[2] + is_wrong);
    return nd_receive_message(&other, now, &message, bytes, length);
}

int main(int argc, char **argv)
{
    static struct frame frames[MOST_FRAMES];
    size_t count = read_frames(frames), messages = 0, wrong = 0;
    nd_options options = ND_OPTIONS_INIT;
    uint64_t now = 0;
    options.role = argc > 1 ? (uint32_t)atoi(argv[1]) : ND_ROLE_HOST;
    options.mac = MAC;
    require(nd_open(&one, &options, sizeof options) == ND_DONE && nd_open(&other, &options, sizeof options) == ND_DONE, "nd_open");
    for (size_t i = 0; i < count; i++, now += STEP) {
        size_t length = message_in(&frames[i]);
        bool is_wrong = length > 0 && i % 2 == 1 && is_good(&frames[i], options.role);
        int32_t status = nd_receive(&one, now, frames[i].bytes, frames[i].length);
        require(status == (length > 0 ? receive_message(now, &frames[i], length, is_wrong) : nd_receive(&other, now, frames[i].bytes, frames[i].length)),
                "a message has the status of its frame");
        require(drain(&one, FIRST_HASH) == drain(&other, FIRST_HASH), "a message has the records of its frame");
        messages += length > 0;
        wrong += is_wrong;
    }
    require(tables_of(&one, now) == tables_of(&other, now), "messages leave the tables that their frames leave");
    require(messages > count / 4 && wrong > 0, "there are messages among the frames");
    nd_close(&one);
    nd_close(&other);
    free_frames(frames, count);
    printf("%zu frames, %zu messages, %zu of them with a wrong checksum that is said to be good\n", count, messages, wrong);
    return 0;
}
