/* measure: a host receives frames and sends packets, and empties its queue after each, and it is asked where packets go. The arguments are the limit
 * of neighbours and a moment, and lines.h says which lines are read. Lines without a mark are frames. The marks:
 *   '>'  a packet to send: the destination, and then the payload
 *   '?'  nd_resolve of a destination
 *   '='  nd_next_hop of a destination, and nd_neighbour_of of that next hop
 *   '!'  nd_confirm_to of a destination, which was confirmed less than a second ago
 * Run it under callgrind with --toggle-collect=measured, which then counts the lines that are measured alone, with what the memory functions take. With
 * a third argument, `records`, it prints what each line that is measured gives: the status of its call, its records, its path; and then all tables. */
#include "lines.h"

static size_t receive(nd_node *node, size_t from, size_t end)
{
    static uint8_t buffer[LONGEST_FRAME];
    nd_out out;
    size_t refused = 0;
    for (size_t i = from; i < end; i++) {
        refused += nd_receive(node, moments[i], frames[i].bytes, frames[i].length) != ND_DONE;
        while (nd_poll(node, &out, buffer, sizeof buffer) == ND_DONE)
            refused += out.kind == ND_OUT_REFUSED || out.kind == ND_OUT_DROPPED;
    }
    return refused;
}

static size_t send(nd_node *node, size_t from, size_t end)
{
    static uint8_t buffer[LONGEST_FRAME];
    nd_out out;
    size_t refused = 0;
    for (size_t i = from; i < end; i++) {
        const nd_addr to = destination_of(i);
        const uint8_t *payload = frames[i].bytes + sizeof to.bytes;
        refused += nd_send(node, moments[i], &LINK_LOCAL, &to, 17, payload, frames[i].length - sizeof to.bytes) != ND_DONE;
        while (nd_poll(node, &out, buffer, sizeof buffer) == ND_DONE)
            refused += out.kind == ND_OUT_REFUSED || out.kind == ND_OUT_DROPPED;
    }
    return refused;
}

/* A path without a link-layer address counts as refused. No record is taken: main looks whether there is one. */
static size_t resolve(nd_node *node, size_t from, size_t end)
{
    nd_path path;
    size_t refused = 0;
    for (size_t i = from; i < end; i++) {
        const nd_addr to = destination_of(i);
        refused += nd_resolve(node, moments[i], &to, &path) != ND_DONE;
    }
    return refused;
}

static size_t look_up(nd_node *node, size_t from, size_t end)
{
    nd_next_hop_row hop;
    nd_neighbour_row row;
    size_t refused = 0;
    for (size_t i = from; i < end; i++) {
        const nd_addr to = destination_of(i);
        bool found = nd_next_hop(node, moments[i], &to, &hop) == ND_DONE && nd_neighbour_of(node, moments[i], &hop.address, &row) == ND_DONE;
        refused += !found || row.has_mac == 0;
    }
    return refused;
}

/* A sign that confirms a neighbour counts as refused. */
static size_t confirm(nd_node *node, size_t from, size_t end)
{
    size_t refused = 0;
    for (size_t i = from; i < end; i++) {
        const nd_addr to = destination_of(i);
        refused += nd_confirm_to(node, moments[i], &to, 1000) != ND_NOTHING;
    }
    return refused;
}

/* Does lines of one mark, and returns how many are refused or dropped. */
static size_t run(void *node, size_t from, size_t end)
{
    switch (marks[from]) {
    case SEND:
        return send(node, from, end);
    case RESOLVE:
        return resolve(node, from, end);
    case LOOK_UP:
        return look_up(node, from, end);
    case CONFIRM:
        return confirm(node, from, end);
    default:
        return receive(node, from, end);
    }
}

__attribute__((noinline)) size_t measured(void *node, size_t from, size_t end);

__attribute__((noinline)) size_t measured(void *node, size_t from, size_t end)
{
    return run(node, from, end);
}

/* Does a line, and prints what it gives. */
static void print_line(nd_node *node, size_t line)
{
    static uint8_t buffer[LONGEST_FRAME];
    const struct frame *it = &frames[line];
    const nd_addr to = marks[line] == FRAME ? LINK_LOCAL : destination_of(line);
    nd_path path;
    nd_out out;
    int32_t status;
    if (marks[line] == SEND)
        status = nd_send(node, moments[line], &LINK_LOCAL, &to, 17, it->bytes + sizeof to.bytes, it->length - sizeof to.bytes);
    else if (marks[line] == RESOLVE)
        status = nd_resolve(node, moments[line], &to, &path);
    else
        status = nd_receive(node, moments[line], it->bytes, it->length);
    printf("%d\n", status);
    if (marks[line] == RESOLVE && status == ND_DONE)
        print_path(&path);
    while (nd_poll(node, &out, buffer, sizeof buffer) == ND_DONE)
        print_record(&out, buffer);
}

static size_t print_lines(void *node, size_t from, size_t end)
{
    for (size_t i = from; i < end; i++)
        print_line(node, i);
    return 0;
}

#define PRINT_ROWS(row_at, row_type)                                                    \
    do {                                                                                \
        row_type row;                                                                   \
        for (size_t index = 0; row_at(node, now, index, &row) == ND_DONE; index++)      \
            print_bytes(&row, sizeof row);                                              \
    } while (0)

static void print_tables(nd_node *node)
{
    const uint64_t now = nd_last_moment(node);
    nd_parameters_row parameters;
    PRINT_ROWS(nd_neighbour_at, nd_neighbour_row);
    PRINT_ROWS(nd_router_at, nd_router_row);
    PRINT_ROWS(nd_prefix_at, nd_prefix_row);
    PRINT_ROWS(nd_address_at, nd_address_row);
    PRINT_ROWS(nd_server_at, nd_server_row);
    PRINT_ROWS(nd_name_at, nd_name_row);
    PRINT_ROWS(nd_redirect_at, nd_redirect_row);
    require(nd_parameters_of(node, now, &parameters) == ND_DONE, "there are parameters");
    print_bytes(&parameters, sizeof parameters);
}

int main(int argc, char **argv)
{
    static uint8_t buffer[LONGEST_FRAME];
    nd_node node = ND_NODE_INIT;
    nd_options options = host_options();
    nd_out out;
    size_t count = read_lines(), refused;
    require(argc == 3 || (argc == 4 && strcmp(argv[3], "records") == 0), "measure NEIGHBOURS MOMENT [records] < moments and frames");
    options.limits.neighbours = (uint16_t)strtoul(argv[1], NULL, 10);
    require(nd_open(&node, &options, sizeof options) == ND_DONE && nd_pass(&node, 2500) == ND_DONE, "nd_open and nd_pass");
    drain(&node, FIRST_HASH);
    refused = run_lines(&node, count, strtoull(argv[2], NULL, 10), run, argc == 4 ? print_lines : measured);
    require(nd_poll(&node, &out, buffer, sizeof buffer) == ND_NOTHING, "no record is left");
    if (argc == 4)
        print_tables(&node);
    nd_close(&node);
    free_frames(frames, count);
    return refused > 0;
}
