/* hear: reads frames, one a line in hexadecimal digits, and prints what each is to the role that takes it, as `ndpctl check` does, without the
 * options. */
#include "nd_hear.h"

#include <arpa/inet.h>
#include <ctype.h>
#include <stdio.h>
#include <string.h>

/* Reads pairs of digits up to the first that is none. Returns how many there are, at most `room`. */
static size_t bytes_of(const char *digits, uint8_t *frame, size_t room)
{
    size_t length = 0;
    for (; length < room && isxdigit((unsigned char)digits[0]) && isxdigit((unsigned char)digits[1]); digits += 2)
        sscanf(digits, "%2hhx", &frame[length++]);
    return length;
}

static const char *text_of(const nd_addr *address)
{
    static char texts[4][INET6_ADDRSTRLEN];
    static unsigned next;
    char *text = texts[next++ % 4];
    inet_ntop(AF_INET6, address->bytes, text, INET6_ADDRSTRLEN);
    return text;
}

static void print(const nd_heard *heard)
{
    const char *preference[] = {"", "h", "l"};
    char flags[8];
    if (heard->hearing == ND_HEARING_DROP) {
        printf("drop %u\n", heard->why);
        return;
    }
    if (heard->hearing == ND_HEARING_OTHER) {
        printf("other %u\n", heard->next_header);
        return;
    }
    const char *names[] = {"rs", "ra", "ns", "na", "redirect"};
    printf("%s %s %s", names[heard->message_type - 133], text_of(&heard->source), text_of(&heard->destination));
    if (heard->message_type == 134) {
        snprintf(flags, sizeof flags, "%s%s%s", heard->managed ? "m" : "", heard->other ? "o" : "", preference[heard->preference]);
        printf(" hop %u flags %s lifetime %u reachable %u retrans %u", heard->hop_limit, flags[0] ? flags : "-", heard->router_lifetime,
               heard->reachable_time, heard->retrans_timer);
    }
    if (heard->message_type == 136) {
        snprintf(flags, sizeof flags, "%s%s%s", heard->router ? "r" : "", heard->solicited ? "s" : "", heard->override_flag ? "o" : "");
        printf(" flags %s", flags[0] ? flags : "-");
    }
    if (heard->message_type > 134)
        printf(" target %s", text_of(&heard->target));
    if (heard->message_type == 137)
        printf(" destination %s", text_of(&heard->redirected));
    printf("\n");
}

int main(void)
{
    static char line[16400];
    static uint8_t frame[8200];
    while (fgets(line, sizeof line, stdin) != NULL) {
        nd_heard heard;
        size_t length = bytes_of(line, frame, sizeof frame);
        int32_t status = nd_hear(frame, length, ND_ROLE_HOST, &heard);
        if (status == ND_DONE && heard.hearing == ND_HEARING_DROP && heard.why == ND_WHY_NOT_FOR_US)
            status = nd_hear(frame, length, ND_ROLE_ROUTER, &heard);
        if (status == ND_DONE)
            print(&heard);
    }
    return 0;
}
