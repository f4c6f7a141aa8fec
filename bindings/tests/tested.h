/* tested.h: what the tests share. Frames are read from standard input, one a line in hexadecimal digits. */
#ifndef TESTED_H
#define TESTED_H
#include <stdint.h>
#include <stdio.h>
#include <stdlib.h>
#include <string.h>

#include "nd.h"

enum { LONGEST_FRAME = 16384, MOST_FRAMES = 8192 };

#define FIRST_HASH UINT64_C(14695981039346656037)

/* The policies that a node can have. */
#define POLICIES (ND_POLICIES_ROBUST | ND_POLICY_UNFORMED | ND_POLICY_UNREDIRECTED)

struct frame {
    uint8_t *bytes;
    size_t length;
};

static const nd_mac MAC = {{0x34, 0x56, 0x78, 0x9a, 0xbc, 0xde}};

/* The link-local address of MAC. */
static const nd_addr LINK_LOCAL = {{0xfe, 0x80, 0, 0, 0, 0, 0, 0, 0x36, 0x56, 0x78, 0xff, 0xfe, 0x9a, 0xbc, 0xde}};

/* Ends the program if something does not hold. */
static inline void require(bool holds, const char *what)
{
    if (holds)
        return;
    fprintf(stderr, "failed: %s\n", what);
    exit(1);
}

/* Returns true if a call took place, or its event was refused. */
static inline bool is_taken(int32_t status)
{
    return status >= 0 || nd_refusal_of(status) != 0;
}

/* Returns how many bytes the digits at the beginning of a text are, and writes them. */
static inline size_t bytes_of(const char *digits, uint8_t *bytes, size_t room)
{
    size_t length = 0;
    unsigned byte;
    while (length < room && sscanf(digits + 2 * length, "%2x", &byte) == 1)
        bytes[length++] = (uint8_t)byte;
    return length;
}

static inline size_t read_frames(struct frame *frames)
{
    static char line[2 * LONGEST_FRAME + 2];
    static uint8_t bytes[LONGEST_FRAME];
    size_t count = 0;
    while (count < MOST_FRAMES && fgets(line, sizeof line, stdin) != NULL) {
        size_t length = bytes_of(line, bytes, sizeof bytes);
        uint8_t *own = malloc(length + 1);
        require(own != NULL, "memory for a frame");
        memcpy(own, bytes, length);
        frames[count++] = (struct frame){own, length};
    }
    return count;
}

static inline void free_frames(struct frame *frames, size_t count)
{
    while (count > 0)
        free(frames[--count].bytes);
}

/* Returns the options of a host with MAC, from the moment 0, whose random words are 0. */
static inline nd_options host_options(void)
{
    nd_options options = ND_OPTIONS_INIT;
    options.mac = MAC;
    options.draws = ND_DRAWS_WORD;
    return options;
}

/* Mixes bytes into a hash (FNV-1a). */
static inline uint64_t mix(uint64_t hash, const void *bytes, size_t length)
{
    for (size_t i = 0; i < length; i++)
        hash = (hash ^ ((const uint8_t *)bytes)[i]) * UINT64_C(1099511628211);
    return hash;
}

/* Takes all records, and returns the hash with them mixed in. A buffer of a thread is its own. */
static inline uint64_t drain(nd_node *node, uint64_t hash)
{
    static _Thread_local uint8_t buffer[LONGEST_FRAME];
    nd_out out;
    int32_t status;
    while ((status = nd_poll(node, &out, buffer, sizeof buffer)) == ND_DONE)
        hash = mix(mix(hash, &out, sizeof out), buffer, out.length);
    require(status == ND_NOTHING, "the queue is emptied");
    return hash;
}
/* Returns the sum of the tables that a record may have changed, as nd.h says of each kind. */
static inline uint32_t changes_by(const nd_out *out)
{
    switch (out->kind) {
    case ND_OUT_HEARD:
        if (out->code == 134)
            return ND_CHANGE_ROUTERS | ND_CHANGE_PREFIXES | ND_CHANGE_ADDRESSES | ND_CHANGE_SERVERS | ND_CHANGE_NAMES | ND_CHANGE_PARAMETERS;
        return out->code == 137 ? ND_CHANGE_REDIRECTS : 0;
    case ND_OUT_DUPLICATE: case ND_OUT_ASSIGNED: case ND_OUT_ENDED_ADDRESS: return ND_CHANGE_ADDRESSES;
    case ND_OUT_ENDED_ROUTER: case ND_OUT_FAILED: return ND_CHANGE_ROUTERS | ND_CHANGE_REDIRECTS;
    default: return 0;
    }
}
#endif
