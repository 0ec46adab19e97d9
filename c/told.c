/* What the headers, the crate and docs/CHANGEOVER.md tell a user of a changeover, of known streams, of refused calls and of the stack, tried
 * on the libraries: each sentence fails here when it is no longer so. Ends with 1 and says what failed where something did. */
#define _POSIX_C_SOURCE 200809L
#include "receiver.h"
#include "send_queue.h"

#include <pthread.h>
#include <stdio.h>
#include <stdlib.h>
#include <string.h>

enum { STORE = 600000, LIMIT = 1200, PAINT = 0xa5, STACK = 1 << 20, SHALLOW = 4 << 10 };

struct host {
    uint64_t queue[DSQ_QUEUE_WORDS];
    uint8_t store[STORE];
    uint64_t events[DSQ_EVENT_WORDS];
    uint64_t out[DSQ_OUT_WORDS];
};

static struct host old_host, new_host;
static uint8_t image[DSQ_MAX_IMAGE(STORE)], other[DSQ_MAX_IMAGE(STORE)], buffer[LIMIT];
static const uint8_t payload[3000] = {1};
static unsigned long passed, failed;

static void check(int ok, int line, const char *text)
{
    passed += ok != 0;
    if (!ok) {
        failed++;
        fprintf(stderr, "c/told.c:%d: failed: %s\n", line, text);
    }
}

#define CHECK(condition) check((condition) ? 1 : 0, __LINE__, #condition)

static uint32_t create(struct host *h)
{
    memset(h->out, 0, sizeof h->out);
    return dsq_create(h->queue, h->store, STORE, LIMIT, 256, 500, 0, 1, DSQ_RESTART_DCSCTP);
}

static uint32_t add(struct host *h, uint16_t stream, size_t length, uint8_t has_lifetime)
{
    return dsq_add(h->queue, h->store, STORE, payload, length, 1, stream, 53, 0, has_lifetime, 0, 0, 0, 7);
}

static uint32_t produce(struct host *h, uint64_t size)
{
    return dsq_produce(h->queue, h->store, STORE, h->events, DSQ_EVENT_WORDS, buffer, sizeof buffer, h->out, 1, size);
}

static uint32_t close_stream(struct host *h, uint16_t stream)
{
    return dsq_prepare_reset_stream(h->queue, h->events, DSQ_EVENT_WORDS, h->out, stream);
}

static uint32_t threshold(struct host *h, uint16_t stream, uint64_t value)
{
    return dsq_set_buffered_amount_low_threshold(h->queue, h->events, DSQ_EVENT_WORDS, h->out, stream, value);
}

static uint64_t value(struct host *h, uint32_t refusal)
{
    CHECK(refusal == DSQ_ACCEPTED);
    return h->out[DSQ_OUT_VALUE];
}

static size_t save(struct host *h, uint8_t *to)
{
    return value(h, dsq_save(h->queue, h->store, STORE, to, DSQ_MAX_IMAGE(STORE), h->out, 1));
}

static uint32_t restore(struct host *h, const uint8_t *from, size_t length)
{
    return dsq_restore(h->queue, h->store, STORE, from, length, 1);
}

/* Not carried: thresholds, closing, the interleaving choice. Carried: counters, priorities, messages and how much of them was sent. */
static void changeover(void)
{
    size_t length;
    CHECK(create(&old_host) == 0 && create(&new_host) == 0);
    CHECK(dsq_enable_message_interleaving(old_host.queue, 1) == 0 && threshold(&old_host, 1, 700) == 0);
    CHECK(dsq_set_priority(old_host.queue, 2, 3) == 0);
    CHECK(add(&old_host, 1, 3000, 0) == 0 && add(&old_host, 2, 40, 0) == 0 && add(&old_host, 3, 40, 0) == 0);
    CHECK(produce(&old_host, 100) == 0 && old_host.out[DSQ_OUT_STREAM_ID] == 3);
    CHECK(produce(&old_host, 100) == 0 && old_host.out[DSQ_OUT_STREAM_ID] == 1);
    CHECK(close_stream(&old_host, 1) == 0 && close_stream(&old_host, 3) == 0);
    CHECK(value(&old_host, dsq_has_streams_ready_to_be_reset(old_host.queue, old_host.out)) == 1);
    length = save(&old_host, image);
    CHECK(restore(&new_host, image, length) == 0);
    CHECK(value(&old_host, dsq_buffered_amount_low_threshold(old_host.queue, old_host.out, 1)) == 700);
    CHECK(value(&new_host, dsq_buffered_amount_low_threshold(new_host.queue, new_host.out, 1)) == 500);
    CHECK(value(&new_host, dsq_has_streams_ready_to_be_reset(new_host.queue, new_host.out)) == 0);
    CHECK(value(&new_host, dsq_get_priority(new_host.queue, new_host.out, 2)) == 3);
    CHECK(value(&new_host, dsq_buffered_amount(new_host.queue, new_host.out, 1)) == 2900);
    /* Without interleaving, which the new queue has not, the rest of stream 1 comes first, and whole. */
    CHECK(produce(&new_host, 100) == 0 && new_host.out[DSQ_OUT_STREAM_ID] == 1 && produce(&new_host, 1200) == 0);
    CHECK(new_host.out[DSQ_OUT_STREAM_ID] == 1 && new_host.out[DSQ_OUT_FSN] == 2);
    /* An open stream is not ready when its message ends: the closing is to be said again. */
    while (new_host.out[DSQ_OUT_VALUE])
        CHECK(produce(&new_host, 1200) == 0);
    CHECK(value(&new_host, dsq_has_streams_ready_to_be_reset(new_host.queue, new_host.out)) == 0);
    CHECK(close_stream(&new_host, 1) == 0);
    CHECK(value(&new_host, dsq_count_streams_ready_to_reset(new_host.queue, new_host.out)) == 1);
}

/* No checksum: with a payload byte changed the image is accepted and is another's; a cut one is refused. */
static void carriage(void)
{
    size_t length, again;
    CHECK(create(&old_host) == 0 && add(&old_host, 1, 40, 0) == 0);
    length = save(&old_host, image);
    image[length - 20 - 1] ^= 1;
    CHECK(create(&new_host) == 0 && restore(&new_host, image, length) == 0);
    again = save(&new_host, other);
    CHECK(again == length && memcmp(image, other, length) == 0);
    for (; length > 0; length--)
        CHECK(create(&new_host) == 0 && restore(&new_host, image, length - 1) == DSQ_IMAGE_WRONG);
}

/* 256 ids in a queue's life, closed and reset or not; a changeover forgets those without counters, priority and messages. */
static void known_streams(void)
{
    static uint16_t ids[DSQ_MAX_STREAMS];
    uint16_t k;
    size_t length;
    CHECK(create(&old_host) == 0 && create(&new_host) == 0);
    for (k = 0; k < 252; k++)
        CHECK(add(&old_host, k, 1, 0) == 0 && produce(&old_host, 1) == 0 && close_stream(&old_host, k) == 0);
    CHECK(dsq_set_priority(old_host.queue, 252, 256) == 0 && threshold(&old_host, 253, 1) == 0 && close_stream(&old_host, 254) == 0);
    CHECK(add(&old_host, 255, 1, 0) == 0);
    CHECK(add(&old_host, 256, 1, 0) == DSQ_STREAMS_FULL && threshold(&old_host, 256, 1) == DSQ_STREAMS_FULL);
    CHECK(dsq_set_priority(old_host.queue, 256, 256) == DSQ_STREAMS_FULL && close_stream(&old_host, 256) == DSQ_STREAMS_FULL);
    CHECK(value(&old_host, dsq_get_streams_ready_to_reset(old_host.queue, ids, old_host.out)) == 253);
    CHECK(dsq_commit_reset_streams(old_host.queue) == 0);
    CHECK(add(&old_host, 256, 1, 0) == DSQ_STREAMS_FULL);
    length = save(&old_host, image);
    CHECK(length == 44 + 1 + 20);
    CHECK(restore(&new_host, image, length) == 0);
    for (k = 0; k < 255; k++)
        CHECK(add(&new_host, (uint16_t)(1000 + k), 1, 0) == 0);
    CHECK(add(&new_host, 9, 1, 0) == DSQ_STREAMS_FULL);
}

/* A refused call leaves the out-array and the events of the call before. Words that were never created get 2 from a call with a store. */
static void refused_calls(void)
{
    static uint64_t out[DSQ_OUT_WORDS], events[DSQ_EVENT_WORDS];
    CHECK(create(&old_host) == 0 && add(&old_host, 1, 40, 1) == 0);
    CHECK(dsq_produce(old_host.queue, old_host.store, STORE, old_host.events, DSQ_EVENT_WORDS, buffer, sizeof buffer, old_host.out,
                      UINT64_C(9000000), 40) == 0);
    CHECK(old_host.out[DSQ_OUT_EVENTS] == 3 && old_host.events[DSQ_PLACE_KIND] == DSQ_EVENT_TOTAL_LOW);
    memcpy(out, old_host.out, sizeof out);
    memcpy(events, old_host.events, sizeof events);
    CHECK(produce(&old_host, 0) == DSQ_SIZE_WRONG && close_stream(&old_host, 1) == 0);
    memcpy(old_host.out, out, sizeof out);
    CHECK(produce(&old_host, DSQ_MAX_PAYLOAD + 1) == DSQ_SIZE_WRONG);
    CHECK(memcmp(out, old_host.out, sizeof out) == 0 && memcmp(events, old_host.events, sizeof events) == 0);
    memset(new_host.queue, 0, sizeof new_host.queue);
    CHECK(add(&new_host, 1, 1, 0) == DSQ_STORE_WRONG && produce(&new_host, 1) == DSQ_STORE_WRONG);
}

/* The receiver: a refused call leaves the out-array of the call before, and the message that is ready. */
enum { HELD = 1000 };
static uint64_t receiver[DSR_RECEIVER_WORDS], told[DSR_OUT_WORDS];
static uint8_t held[HELD], chunk[DSQ_MAX_CHUNK(HELD)];

static size_t unordered(uint32_t tsn, size_t length)
{
    uint64_t out[DSQ_OUT_WORDS] = {0};
    CHECK(dsq_write_chunk(chunk, sizeof chunk, payload, length, out, DSQ_CHUNK_DATA, tsn, 1, 1, 0, 0, 0, 53, 1, 1) == 0);
    return (size_t)out[DSQ_OUT_VALUE];
}

static uint32_t receive(uint32_t tsn, size_t length)
{
    return dsr_receive(receiver, held, HELD, chunk, unordered(tsn, length), told);
}

static uint32_t fetch(size_t length) { return dsr_fetch(receiver, held, HELD, buffer, length, told); }

static void received(void)
{
    static uint64_t before[DSR_OUT_WORDS];
    CHECK(dsr_create(receiver, held, HELD, 0, 7) == 0 && receive(7, 400) == 0 && told[DSR_OUT_VALUE] == 1);
    CHECK(fetch(LIMIT) == 0 && told[DSR_OUT_LENGTH] == 400 && receive(8, 300) == 0);
    memcpy(before, told, sizeof before);
    CHECK(fetch(299) == DSR_BUFFER_SHORT && receive(9, HELD) == DSR_RECEIVER_FULL && receive(9 + DSR_WINDOW, 1) == DSR_TSN_FAR);
    CHECK(receive(8, 299) == DSR_FRAGMENT_OTHER);
    CHECK(memcmp(before, told, sizeof before) == 0 && fetch(300) == 0 && told[DSR_OUT_LENGTH] == 300);
}

/* ---------------------------------------------------------------- the stack of the other calls, each on a painted thread */

static size_t image_length;
static uint32_t given;

static void call_nothing(void) { given = 0; }
static void call_add(void) { given = add(&new_host, 3, 3000, 0); }
static void call_save(void) { given = dsq_save(old_host.queue, old_host.store, STORE, image, sizeof image, old_host.out, 1); }
static void call_restore(void) { given = restore(&new_host, image, image_length); }
static void call_close(void) { given = close_stream(&old_host, 0); }
static void call_discard(void)
{
    given = dsq_discard(new_host.queue, new_host.events, DSQ_EVENT_WORDS, new_host.out, 1, 1);
}
static void call_ready(void)
{
    static uint16_t ids[DSQ_MAX_STREAMS];
    given = dsq_get_streams_ready_to_reset(old_host.queue, ids, old_host.out);
}
static void call_commit(void) { given = dsq_commit_reset_streams(old_host.queue); }
static void call_rollback(void) { given = dsq_rollback_reset_streams(old_host.queue); }
static void call_reset(void) { given = dsq_reset(new_host.queue); }
static void call_interleave(void) { given = dsq_enable_message_interleaving(new_host.queue, 1); }
static void call_priority(void) { given = dsq_set_priority(new_host.queue, 1, 3); }
static void call_threshold(void) { given = threshold(&new_host, 1, 60000); }
static void call_plan(void)
{
    static uint16_t ids[DSQ_MAX_PLANNED], priorities[DSQ_MAX_PLANNED];
    static uint64_t sizes[DSQ_MAX_PLANNED];
    uint16_t k;
    for (k = 0; k < DSQ_MAX_PLANNED; k++) {
        ids[k] = (uint16_t)(DSQ_MAX_PLANNED - k);
        sizes[k] = 100;
    }
    given = dsq_plan_priorities(ids, DSQ_MAX_PLANNED, sizes, DSQ_MAX_PLANNED, priorities, LIMIT);
}
static void call_request(void)
{
    static uint32_t handler[DSQ_HANDLER_NUMBERS];
    static uint8_t output[DSQ_MAX_RESET_REQUEST];
    given = dsq_make_reset_request(old_host.queue, handler, output, sizeof output, old_host.out, 1, 2);
}

static uint32_t handler[DSQ_HANDLER_NUMBERS];
static void call_response(void)
{
    static const uint8_t bytes[] = {130, 0, 0, 16, 0, 16, 0, 12, 0, 0, 0, 0, 0, 0, 0, 1};
    given = dsq_handle_reset_response(old_host.queue, handler, bytes, sizeof bytes, old_host.out);
}
static void call_reset_through(void) { given = dsq_reset_through_handler(old_host.queue, handler); }
static void call_read_chunk(void)
{
    uint64_t fields[DSQ_CHUNK_WORDS];
    given = dsq_read_chunk(chunk, unordered(9, HELD), old_host.out, fields);
}
/* The rest of the store is free in two pieces, and what is held is moved together. */
static void call_receive(void) { given = receive(9, 500); }
static void call_fetch(void) { given = fetch(LIMIT); }
static void call_dsr_create(void) { given = dsr_create(receiver, held, HELD, 1, 0); }

static void *run(void *call)
{
    void (*which)(void);
    memcpy(&which, call, sizeof which);
    which();
    return NULL;
}

static size_t used(void (*call)(void))
{
    pthread_attr_t how;
    pthread_t thread;
    unsigned char *stack;
    size_t i = 0;
    if (posix_memalign((void **)&stack, 4096, STACK) || pthread_attr_init(&how)) {
        fprintf(stderr, "told: no memory\n");
        exit(2);
    }
    memset(stack, PAINT, STACK);
    if (pthread_attr_setstack(&how, stack, STACK) || pthread_create(&thread, &how, run, &call) || pthread_join(thread, NULL)) {
        fprintf(stderr, "told: no thread\n");
        exit(2);
    }
    while (i < STACK && stack[i] == PAINT)
        i++;
    free(stack);
    return STACK - i;
}

static void stack(void)
{
    static void (*const calls[])(void) = {call_save, call_restore, call_add, call_priority, call_threshold, call_interleave, call_discard,
                                          call_reset, call_close, call_ready, call_rollback, call_commit, call_plan, call_request,
                                          call_response, call_reset_through, call_read_chunk, call_receive, call_fetch, call_dsr_create};
    size_t without = used(call_nothing), most = 0, k, bytes;
    CHECK(create(&old_host) == 0 && create(&new_host) == 0);
    for (k = 0; k < DSQ_MAX_MESSAGES - 1; k++)
        CHECK(add(&old_host, k % 4 == 0 ? 0 : (uint16_t)(k % 256), 50, 1) == 0);
    image_length = save(&old_host, image);
    CHECK(dsr_create(receiver, held, HELD, 0, 7) == 0 && receive(7, 400) == 0 && receive(8, 400) == 0 && fetch(LIMIT) == 0);
    for (k = 0; k < sizeof calls / sizeof *calls; k++) {
        bytes = used(calls[k]) - without;
        CHECK(given == DSQ_ACCEPTED && bytes <= SHALLOW);
        if (bytes > most)
            most = bytes;
    }
    printf("told: the calls without a next fragment take at most %lu bytes of stack\n", (unsigned long)most);
}

int main(void)
{
    changeover();
    carriage();
    known_streams();
    refused_calls();
    received();
    stack();
    printf("told: %lu checks passed\n", passed);
    return failed != 0;
}
