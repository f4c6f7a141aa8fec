/* threads: four threads with a node each, at the same time, and one node that goes through four threads, report the same. Reads frames. */
#include <pthread.h>

#include "tested.h"

enum { THREADS = 4, ROUNDS = 20 };

static struct frame frames[MOST_FRAMES];
static size_t count;

struct part {
    nd_node node;
    uint64_t hash, now;
    size_t from, end;
};

static void *receive(void *argument)
{
    struct part *part = argument;
    for (size_t i = part->from; i < part->end; i++) {
        part->now += 3;
        require(is_taken(nd_receive(&part->node, part->now, frames[i % count].bytes, frames[i % count].length)), "nd_receive");
        part->hash = drain(&part->node, part->hash);
    }
    return NULL;
}

static void open_node(struct part *part)
{
    nd_options options = host_options();
    *part = (struct part){.node = ND_NODE_INIT, .hash = FIRST_HASH, .now = 3000, .end = count * ROUNDS};
    require(nd_open(&part->node, &options, sizeof options) == ND_DONE, "nd_open");
}

static void *alone(void *argument)
{
    struct part *part = argument;
    open_node(part);
    receive(part);
    nd_close(&part->node);
    return NULL;
}

int main(void)
{
    static struct part parts[THREADS], moved;
    pthread_t threads[THREADS];
    count = read_frames(frames);
    require(count > 0, "there are frames");
    for (int i = 0; i < THREADS; i++)
        require(pthread_create(&threads[i], NULL, alone, &parts[i]) == 0, "pthread_create");
    for (int i = 0; i < THREADS; i++)
        pthread_join(threads[i], NULL);
    open_node(&moved);
    for (int i = 0; i < THREADS; i++) {
        moved.from = count * ROUNDS * (size_t)i / THREADS;
        moved.end = count * ROUNDS * (size_t)(i + 1) / THREADS;
        require(pthread_create(&threads[0], NULL, receive, &moved) == 0, "pthread_create");
        pthread_join(threads[0], NULL);
    }
    nd_close(&moved.node);
    for (int i = 0; i < THREADS; i++)
        require(parts[i].hash == moved.hash, "all nodes report the same");
    printf("%d nodes at once and one that moves report the same of %zu frames\n", THREADS, count * ROUNDS);
    free_frames(frames, count);
    return 0;
}
