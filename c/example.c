/* The send queue from C, on one page: two messages in, fragments out, events, and the queue carried to another host.
 *
 *     cc -std=c99 -o example c/example.c $(scripts/libraries) && ./example */
#include "send_queue.h"
#include "send_queue_names.h"
#include "send_queue_structs.h"

#include <stdio.h>
#include <stdlib.h>
#include <string.h>

enum { STORE = 100000, PACKET = 1200 };

/* All of a queue, and what its calls write to. Static, or from malloc: it is too large for most stacks. */
struct host {
    uint64_t queue[DSQ_QUEUE_WORDS];
    uint8_t store[STORE];
    uint64_t events[DSQ_EVENT_WORDS];
    uint64_t out[DSQ_OUT_WORDS];
};

static struct host first, second;
static uint8_t packet[PACKET], image[DSQ_MAX_IMAGE(STORE)], profile[3000];

/* A refusal is a fault of this program. */
static void must(uint32_t refusal, const char *call)
{
    if (refusal != DSQ_ACCEPTED) {
        fprintf(stderr, "%s: %s: %s\n", call, dsq_refusal_name(refusal), dsq_refusal_text(refusal));
        exit(1);
    }
}

static void create(struct host *h)
{
    must(dsq_create(h->queue, h->store, STORE, PACKET, 256, 1000, 0, 1, DSQ_RESTART_DCSCTP), "create");
}

static void add(struct host *h, uint16_t stream, size_t length, uint64_t now)
{
    struct dsq_message m = {.payload = profile, .payload_length = length, .stream_id = stream, .ppid = 53};
    must(dsq_add_message(h->queue, h->store, STORE, now, &m), "add");
}

/* Sends one fragment; 0 where nothing waits. The number is looked at before the out-array. */
static int send_fragment(struct host *h, uint64_t now)
{
    uint64_t k;
    struct dsq_fragment f;
    must(dsq_produce(h->queue, h->store, STORE, h->events, DSQ_EVENT_WORDS, packet, PACKET, h->out, now, PACKET), "produce");
    for (k = 0; k < h->out[DSQ_OUT_EVENTS]; k++) {
        struct dsq_event_told e = dsq_event_at(h->events, k);
        printf("  %s %lu at %lu bytes\n", dsq_event_name(e.kind), (unsigned long)e.number, (unsigned long)e.amount);
    }
    if (h->out[DSQ_OUT_VALUE] == 0)
        return 0;
    f = dsq_fragment_of(h->out);
    printf("  stream %d, MID %lu, fragment %lu, %lu bytes%s\n", f.stream_id, (unsigned long)f.mid, (unsigned long)f.fsn,
           (unsigned long)f.length, f.last ? ", the last" : "");
    return 1;
}

int main(void)
{
    uint64_t now = 5000000;
    size_t length;
    create(&first);
    memset(profile, 7, sizeof profile);
    add(&first, 1, sizeof profile, now);
    add(&first, 2, 2000, now);
    puts("first host");
    send_fragment(&first, now);
    must(dsq_save(first.queue, first.store, STORE, image, sizeof image, first.out, now), "save");
    length = first.out[DSQ_OUT_VALUE];
    create(&second);
    must(dsq_restore(second.queue, second.store, STORE, image, length, now), "restore");
    printf("second host, from an image of %lu bytes\n", (unsigned long)length);
    while (send_fragment(&second, now))
        now += 100000;
    return dsq_is_empty(second.queue) ? 0 : 1;
}
