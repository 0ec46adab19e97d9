/* Measures the stack of the deepest call: 1,024 expired messages that one dsq_produce passes over; then of 128 and of 17 of them, as many as
 * its longest log and the one before have room for, and of one; 1,024 of them passed over by a filling, too. Then that of adding and of
 * sending the largest payload, and of writing the longest chunk and filling the longest packet, which are copied through a block that the
 * compiler must leave out. Then that of each owned call, which the Rust crate makes, where it has most to do: none takes 8 KB. Each call runs
 * on a thread whose stack was painted before; what is no longer painted was used. */
#define _POSIX_C_SOURCE 200809L
#include "send_queue.h"

#include <pthread.h>
#include <stdio.h>
#include <stdlib.h>
#include <string.h>

#define STACK (4u << 20)
#define STORE DSQ_MAX_STORE
#define PAINT 0xa5
#define SHALLOW 8192
#define LOGGED (16u << 10)
#define LONGEST (40u << 10)
#define DEEP (256u << 10)
#define MANY 128
#define FEW 17

enum call { NOTHING, PASS_ALL, PASS_MANY, PASS_FEW, PASS_ONE, ADD, SEND, WRITE_CHUNK, FILL_PAST_ALL, FILL, OWNED };

static uint64_t queue[DSQ_QUEUE_WORDS], events[DSQ_EVENT_WORDS], out[DSQ_OUT_WORDS];
static uint8_t store[STORE], buffer[DSQ_MAX_PAYLOAD], payload[DSQ_MAX_PAYLOAD];
static enum call call;

static int add(size_t length, uint16_t stream, uint8_t has_lifetime, uint64_t lifecycle_id) {
    return dsq_add(queue, store, STORE, payload, length, 0, stream, 53, 0, has_lifetime, 0, 0, 0, lifecycle_id) == 0;
}

static int produce(uint64_t time, uint64_t value, uint64_t count) {
    return dsq_produce(queue, store, STORE, events, DSQ_EVENT_WORDS, buffer, sizeof buffer, out, time, sizeof buffer) == 0 && out[DSQ_OUT_VALUE] == value
           && out[DSQ_OUT_EVENTS] == count;
}

static int write_chunk(void) {
    return dsq_write_chunk(buffer, sizeof buffer, payload, DSQ_MAX_CHUNK_PAYLOAD, out, DSQ_CHUNK_I_DATA, 1, 2, 0, 0, 3, 4, 53, 1, 1) == 0
           && out[DSQ_OUT_VALUE] == 65536;
}

static int fill(uint64_t chunks, uint64_t length, uint64_t count) {
    return dsq_fill_packet(queue, store, STORE, events, DSQ_EVENT_WORDS, buffer, sizeof buffer, out, 10000000, DSQ_MAX_PACKET_LIMIT, 1, 2, 3, 4) == 0
           && out[DSQ_OUT_VALUE] == chunks && out[DSQ_OUT_LENGTH] == length && out[DSQ_OUT_EVENTS] == count;
}

/* ---------------------------------------------------------------- the owned calls */

/* They are in no header: they ask for the words of a queue, and do not look. Those without an answer are not refused. */
uint32_t dsq_owned_add(uint64_t *, uint8_t *, size_t, const uint8_t *, size_t, uint64_t, uint16_t, uint32_t, uint8_t, uint8_t, uint64_t,
                       uint8_t, uint16_t, uint64_t);
uint32_t dsq_owned_produce(uint64_t *, const uint8_t *, size_t, uint64_t *, size_t, uint8_t *, size_t, uint64_t *, uint64_t, uint64_t);
uint32_t dsq_owned_fill_packet(uint64_t *, const uint8_t *, size_t, uint64_t *, size_t, uint8_t *, size_t, uint64_t *, uint64_t, uint64_t,
                               uint16_t, uint16_t, uint32_t, uint32_t);
uint32_t dsq_owned_discard(uint64_t *, uint64_t *, size_t, uint64_t *, uint16_t, uint32_t);
uint32_t dsq_owned_prepare_reset_stream(uint64_t *, uint64_t *, size_t, uint64_t *, uint16_t);
uint64_t dsq_owned_get_streams_ready_to_reset(uint64_t *, uint16_t *);
void dsq_owned_commit_reset_streams(uint64_t *);
void dsq_owned_rollback_reset_streams(uint64_t *);
void dsq_owned_enable_message_interleaving(uint64_t *, uint8_t);
void dsq_owned_reset(uint64_t *);
uint32_t dsq_owned_save(const uint64_t *, const uint8_t *, size_t, uint8_t *, size_t, uint64_t *, uint64_t);
uint32_t dsq_owned_make_reset_request(uint64_t *, uint32_t *, uint8_t *, size_t, uint64_t *, uint32_t, uint32_t);
uint32_t dsq_owned_handle_reset_response(uint64_t *, uint32_t *, const uint8_t *, size_t, uint64_t *);
void dsq_owned_reset_through_handler(uint64_t *, uint32_t *);

#define STREAMS 256
#define LATE 10000000

static uint32_t handler[DSQ_HANDLER_NUMBERS];
static uint16_t ids[STREAMS];
static uint8_t image[DSQ_MAX_IMAGE(STORE)];

static int owned_produce(uint64_t value, uint64_t count) {
    return dsq_owned_produce(queue, store, STORE, events, DSQ_EVENT_WORDS, buffer, sizeof buffer, out, LATE, sizeof buffer) == 0
           && out[DSQ_OUT_VALUE] == value && out[DSQ_OUT_EVENTS] == count;
}

static int owned_fill(uint64_t chunks, uint64_t count) {
    return dsq_owned_fill_packet(queue, store, STORE, events, DSQ_EVENT_WORDS, buffer, sizeof buffer, out, LATE, DSQ_MAX_PACKET_LIMIT, 1, 2, 3, 4) == 0
           && out[DSQ_OUT_VALUE] == chunks && out[DSQ_OUT_EVENTS] == count;
}

static int adds(void) { return dsq_owned_add(queue, store, STORE, payload, DSQ_MAX_PAYLOAD, 0, 0, 53, 0, 0, 0, 0, 0, 0) == 0; }
static int sends(void) { return owned_produce(1, 2); }
static int passes(void) { return owned_produce(0, DSQ_MAX_EVENTS); }
static int fills(void) { return owned_fill(54, 0); }
static int fills_past(void) { return owned_fill(0, DSQ_MAX_EVENTS); }
static int discards(void) {
    return dsq_owned_discard(queue, events, DSQ_EVENT_WORDS, out, 0, 0) == 0 && dsq_waiting_messages(queue) == DSQ_MAX_MESSAGES - 1;
}
static int closes(void) {
    return dsq_owned_prepare_reset_stream(queue, events, DSQ_EVENT_WORDS, out, 0) == 0 && dsq_waiting_messages(queue) == 0;
}
static int is_ready(void) { return dsq_owned_get_streams_ready_to_reset(queue, ids) == STREAMS; }
static int rolls_back(void) { return dsq_owned_rollback_reset_streams(queue), 1; }
static int commits(void) { return dsq_owned_commit_reset_streams(queue), 1; }
static int switches(void) { return dsq_owned_enable_message_interleaving(queue, 1), 1; }
static int resets(void) { return dsq_owned_reset(queue), 1; }
static int saves(void) {
    return dsq_owned_save(queue, store, STORE, image, sizeof image, out, LATE) == 0 && out[DSQ_OUT_VALUE] > DSQ_MAX_MESSAGES;
}
static int requests(void) {
    return dsq_owned_make_reset_request(queue, handler, buffer, sizeof buffer, out, 1, 2) == 0 && out[DSQ_OUT_VALUE] == 20 + 2 * STREAMS;
}
static int responds(void) {
    static const uint8_t bytes[16] = {0x82, 0, 0, 16, 0, 16, 0, 12, 0, 0, 0, 7, 0, 0, 0, 1};
    return dsq_owned_handle_reset_response(queue, handler, bytes, sizeof bytes, out) == 0 && out[DSQ_OUT_VALUE] == DSQ_RESPONSE_COMMITTED;
}
static int resets_through(void) { return dsq_owned_reset_through_handler(queue, handler), 1; }

/* A call by its name. What it is made on: so many messages of a length, on so many streams, expired or not; and whether those are closed. */
static const struct owned {
    const char *name;
    int (*run)(void);
    unsigned messages, length, streams, expired, closed;
} owned_calls[] = {
    {"adding 262,144 bytes", adds, 0, 0, 0, 0, 0},
    {"sending 262,144 bytes", sends, 1, DSQ_MAX_PAYLOAD, 1, 0, 0},
    {"a fragment past 1,024 expired messages", passes, DSQ_MAX_MESSAGES, 100, STREAMS, 1, 0},
    {"filling the longest packet", fills, 1, DSQ_MAX_PAYLOAD, 1, 0, 0},
    {"filling past 1,024 expired messages", fills_past, DSQ_MAX_MESSAGES, 100, STREAMS, 1, 0},
    {"discarding", discards, DSQ_MAX_MESSAGES, 100, 1, 0, 0},
    {"closing a stream of 1,024 messages", closes, DSQ_MAX_MESSAGES, 100, 1, 0, 0},
    {"256 ready ids", is_ready, DSQ_MAX_MESSAGES, 100, STREAMS, 0, 1},
    {"rollback", rolls_back, DSQ_MAX_MESSAGES, 100, STREAMS, 0, 1},
    {"commit", commits, DSQ_MAX_MESSAGES, 100, STREAMS, 0, 1},
    {"the interleaving switch", switches, DSQ_MAX_MESSAGES, 100, STREAMS, 0, 0},
    {"the whole-queue reset", resets, DSQ_MAX_MESSAGES, 100, STREAMS, 0, 0},
    {"saving", saves, DSQ_MAX_MESSAGES, 100, STREAMS, 0, 0},
    {"a request for 256 streams", requests, DSQ_MAX_MESSAGES, 100, STREAMS, 0, 1},
    {"the response to it", responds, DSQ_MAX_MESSAGES, 100, STREAMS, 0, 2},
    {"the reset through the handler", resets_through, DSQ_MAX_MESSAGES, 100, STREAMS, 0, 2},
};

static const struct owned *owned_call;

/* A queue as the call is made on; closed twice over: a request is underway. */
static int prepare(const struct owned *o) {
    unsigned i;
    if (dsq_create(queue, store, STORE, 1200, 256, 0, 0, 1, DSQ_RESTART_DCSCTP) != 0 || dsq_start_reset_handler(handler, 7) != 0)
        return 0;
    for (i = 0; i < o->messages; i++)
        if (!add(o->length, (uint16_t)(i % o->streams), (uint8_t)o->expired, i + 1))
            return 0;
    for (i = 0; o->closed && i < o->streams; i++)
        if (dsq_prepare_reset_stream(queue, events, DSQ_EVENT_WORDS, out, (uint16_t)i) != 0)
            return 0;
    return o->closed < 2 || dsq_make_reset_request(queue, handler, buffer, sizeof buffer, out, 1, 2) == 0;
}

static void *run(void *unused) {
    int done = 1;
    (void)unused;
    if (call == PASS_ALL)
        done = produce(10000000, 0, DSQ_MAX_EVENTS);
    if (call == PASS_MANY)
        done = produce(10000000, 0, 2 * MANY + 2);
    if (call == PASS_FEW)
        done = produce(10000000, 0, 2 * FEW + 2);
    if (call == PASS_ONE)
        done = produce(10000000, 0, 4);
    if (call == ADD)
        done = add(DSQ_MAX_PAYLOAD, 0, 0, 0);
    if (call == SEND)
        done = produce(10000000, 1, 2);
    if (call == WRITE_CHUNK)
        done = write_chunk();
    if (call == FILL_PAST_ALL)
        done = fill(0, 0, DSQ_MAX_EVENTS);
    if (call == FILL)
        done = fill(54, 12 + 53 * 1216 + 1072, 0);
    if (call == OWNED)
        done = owned_call->run();
    if (!done) {
        fprintf(stderr, "stack: %s did not do its work (%d)\n", call == OWNED ? owned_call->name : "a call", (int)call);
        exit(1);
    }
    return NULL;
}

/* The bytes of stack that a thread used. */
static size_t used(enum call which) {
    pthread_attr_t how;
    pthread_t thread;
    unsigned char *stack;
    size_t i = 0;
    call = which;
    if (posix_memalign((void **)&stack, 4096, STACK) || pthread_attr_init(&how)) {
        fprintf(stderr, "stack: no memory\n");
        exit(2);
    }
    memset(stack, PAINT, STACK);
    if (pthread_attr_setstack(&how, stack, STACK) || pthread_create(&thread, &how, run, NULL) || pthread_join(thread, NULL)) {
        fprintf(stderr, "stack: no thread\n");
        exit(2);
    }
    while (i < STACK && stack[i] == PAINT)
        i++;
    free(stack);
    return STACK - i;
}

/* The deepest owned call. */
static size_t deepest(size_t without, const char **name) {
    size_t most = 0, i;
    for (i = 0; i < sizeof owned_calls / sizeof *owned_calls; i++) {
        size_t taken;
        owned_call = &owned_calls[i];
        if (!prepare(owned_call)) {
            fprintf(stderr, "stack: no queue for %s\n", owned_call->name);
            exit(1);
        }
        taken = used(OWNED) - without;
        if (taken > most) {
            most = taken;
            *name = owned_call->name;
        }
    }
    return most;
}

int main(void) {
    const char *name = "";
    size_t without, owned, all, many, few, one, adding, sending, writing, filling_past, filling;
    unsigned i;
    if (dsq_create(queue, store, STORE, 1200, 256, 0, 0, 1, DSQ_RESTART_DCSCTP) != 0)
        return 1;
    for (i = 0; i < DSQ_MAX_MESSAGES; i++)
        if (!add(100, (uint16_t)(i % 256), 1, i + 1))
            return 1;
    without = used(NOTHING);
    all = used(PASS_ALL) - without;
    for (i = 0; i < MANY; i++)
        if (!add(100, 0, 1, i + 1))
            return 1;
    many = used(PASS_MANY) - without;
    for (i = 0; i < FEW; i++)
        if (!add(100, 0, 1, i + 1))
            return 1;
    few = used(PASS_FEW) - without;
    if (!add(100, 0, 1, 1))
        return 1;
    one = used(PASS_ONE) - without;
    adding = used(ADD) - without;
    sending = used(SEND) - without;
    writing = used(WRITE_CHUNK) - without;
    for (i = 0; i < DSQ_MAX_MESSAGES; i++)
        if (!add(100, (uint16_t)(i % 256), 1, i + 1))
            return 1;
    filling_past = used(FILL_PAST_ALL) - without;
    if (!add(DSQ_MAX_PAYLOAD, 0, 0, 0))
        return 1;
    filling = used(FILL) - without;
    owned = deepest(without, &name);
    printf("stack: %lu KB for 1,024 expired messages in one call, %lu bytes for %d, %lu for %d, %lu for one\n", (unsigned long)((all + 1023) / 1024), (unsigned long)many, MANY, (unsigned long)few, FEW,
           (unsigned long)one);
    printf("stack: %lu KB for a filling past 1,024 of them, %lu bytes to fill the longest packet\n", (unsigned long)((filling_past + 1023) / 1024), (unsigned long)filling);
    printf("stack: %lu bytes to add 262,144 bytes, %lu to send them, %lu to write the longest chunk\n", (unsigned long)adding, (unsigned long)sending,
           (unsigned long)writing);
    printf("stack: %lu bytes for the deepest owned call, %s\n", (unsigned long)owned, name);
    if (owned > SHALLOW) {
        fprintf(stderr, "stack: an owned call takes more than 8 KB\n");
        return 1;
    }
    if (all > DEEP || filling_past > DEEP || many > LONGEST || few > LOGGED || one > LOGGED) {
        fprintf(stderr, "stack: more than the header promises\n");
        return 1;
    }
    if (adding > SHALLOW || sending > SHALLOW || writing > SHALLOW || filling > SHALLOW) {
        fprintf(stderr, "stack: the block is on the stack\n");
        return 1;
    }
    return 0;
}
