/* spelled.h: frames that a test spells: headers with their checksums, and options with search names. */
#ifndef SPELLED_H
#define SPELLED_H
#include "tested.h"

enum { ETHERNET = 14, HEADERS = 54, OPTION_FIELDS = 8, MOST_OPTION = 2040, LONGEST_LABEL = 63, LONGEST_NAME = 254, MOST_NAMES = 32 };
enum { LONGEST = 65589, ICMP = 58, UDP = 17, HOP_LIMIT = 255 };

/* The frame. */
static uint8_t bytes[LONGEST];

/* Search names: how many, their lengths, and the number of the first. */
struct names {
    size_t count, first;
    uint8_t lengths[MOST_NAMES];
};

static inline size_t lesser(size_t one, size_t other)
{
    return one < other ? one : other;
}

static inline void put16(uint8_t *at, size_t value)
{
    at[0] = (uint8_t)(value >> 8);
    at[1] = (uint8_t)value;
}

/* Writes the headers before a payload that is there, and the checksum of a message. Returns the length of the frame. */
static inline size_t framed(const uint8_t *source, const uint8_t *destination, uint8_t protocol, size_t payload)
{
    uint32_t sum = protocol + (uint32_t)payload;
    memset(bytes, 2, ETHERNET - 2);
    put16(bytes + 12, 0x86dd);
    memset(bytes + 14, 0, 4);
    bytes[14] = 0x60;
    put16(bytes + 18, payload);
    bytes[20] = protocol;
    bytes[21] = HOP_LIMIT;
    memcpy(bytes + 22, source, 16);
    memcpy(bytes + 38, destination, 16);
    if (protocol == ICMP) {
        put16(bytes + HEADERS + 2, 0);
        for (size_t i = 22; i < HEADERS + payload; i++)
            sum += (uint32_t)bytes[i] << (i % 2 == 0 ? 8 : 0);
        while (sum >> 16 != 0)
            sum = (sum & 0xffff) + (sum >> 16);
        put16(bytes + HEADERS + 2, ~sum & 0xffff);
    }
    return HEADERS + payload;
}

/* Writes a search name of `length` bytes, its end not counted, which no other `number` has. Returns where it ends. */
static inline size_t put_name(size_t at, size_t length, size_t number)
{
    size_t end = at + length;
    while (at < end) {
        size_t label = lesser(end - at - 1, LONGEST_LABEL);
        if (end - at - 1 - label == 1)
            label--;
        bytes[at++] = (uint8_t)label;
        for (size_t i = 0; i < label; i++, number /= 36)
            bytes[at++] = (uint8_t)(number % 36 < 26 ? 'a' + number % 36 : '0' + number % 36 - 26);
    }
    bytes[at++] = 0;
    return at;
}

/* Returns the length of an option with these names. */
static inline size_t option_length(const struct names *some)
{
    size_t length = OPTION_FIELDS;
    for (size_t i = 0; i < some->count; i++)
        length += some->lengths[i] + 1u;
    return (length + 7) / 8 * 8;
}

/* Writes an option with search names and this lifetime. Returns where it ends. */
static inline size_t put_names(size_t at, const struct names *some, uint8_t lifetime)
{
    size_t end = at + OPTION_FIELDS, length = option_length(some);
    memset(bytes + at, 0, length);
    bytes[at] = 31;
    bytes[at + 1] = (uint8_t)(length / 8);
    bytes[at + 7] = lifetime;
    for (size_t i = 0; i < some->count; i++)
        end = put_name(end, some->lengths[i], some->first + i);
    return at + length;
}
#endif
