/* Hard use of the C interface: random calls of every function on a queue, on words that somebody has damaged, and with images, chunks,
 * packets and responses that came damaged. Meant to run under valgrind (scripts/hard): every buffer that is lent ends where its block ends.
 *
 * usage: hard [CALLS] [SEED]
 *
 * It ends when so many calls were on damaged words or with damaged bytes; the others come on top. Then, for each 400 of these
 * calls, one next fragment where up to 1,024 messages have expired and some of the words in use were damaged. Each answer must be one of
 * those that the header lists behind the function, and each event of a kind that there is, without an amount where its kind has none; at
 * one refusal in eight, and at every refused restoring, all that was lent is compared with what it was before the call. */
#include "send_queue.h"

#include <stdio.h>
#include <stdlib.h>
#include <string.h>

#define STORE 6000
#define BUFFER 1500
#define IMAGE DSQ_MAX_IMAGE(STORE)
#define QUEUE_BYTES (DSQ_QUEUE_WORDS * sizeof(uint64_t))
#define EVENT_BYTES (DSQ_EVENT_WORDS * sizeof(uint64_t))

static uint64_t seed = 1;

static uint64_t next(void) {
    seed ^= seed << 13;
    seed ^= seed >> 7;
    seed ^= seed << 17;
    return seed;
}

static uint64_t below(uint64_t n) {
    return next() % n;
}

static void *block(size_t bytes) {
    void *p = calloc(bytes ? bytes : 1, 1);
    if (!p) {
        fprintf(stderr, "hard: no memory\n");
        exit(2);
    }
    return p;
}

/* Numbers at which something may go wrong. */
static uint64_t odd_number(void) {
    static const uint64_t some[] = {0, 1, 2, 3, 20, 255, 256, 257, 1023, 1024, 1025, 1200, DSQ_EVENT_WORDS, 5999, 6000, 6001, 20767, 20768, 65535, 65536, 262144, 262145,
        UINT32_MAX, UINT64_C(4294967296), DSQ_MAX_TIME, DSQ_MAX_TIME + 1, UINT64_MAX >> 1, UINT64_MAX - 1, UINT64_MAX};
    return below(4) ? some[below(sizeof some / sizeof *some)] : next();
}

/* All that is lent, and what it was before the call. */
struct lent {
    uint64_t *queue, *events, *out, *chunk;
    uint8_t *store, *buffer, *image;
    uint16_t *ids, *priorities;
    uint32_t *handler;
};

/* Its arrays, each with its bytes. */
#define ARRAYS(OF)                                   \
    OF(queue, QUEUE_BYTES)                           \
    OF(events, EVENT_BYTES)                          \
    OF(out, DSQ_OUT_WORDS * sizeof(uint64_t))        \
    OF(chunk, DSQ_CHUNK_WORDS * sizeof(uint64_t))    \
    OF(store, STORE)                                 \
    OF(buffer, BUFFER)                               \
    OF(image, IMAGE)                                 \
    OF(ids, DSQ_MAX_STREAMS * sizeof(uint16_t))      \
    OF(priorities, DSQ_MAX_PLANNED * sizeof(uint16_t)) \
    OF(handler, DSQ_HANDLER_NUMBERS * sizeof(uint32_t))

static struct lent now, was;

/* The length of the store with which the queue was created, and whether somebody has damaged its words since. */
static size_t store_length = STORE;
static int damaged;

/* Whether the bytes that the call reads came damaged: changed, cut, or at random. */
static int spoiled;

static size_t a_store(void) {
    return below(32) ? store_length : (size_t)below(STORE);
}

static struct lent lend(void) {
    struct lent l;
#define LEND(array, bytes) l.array = block(bytes);
    ARRAYS(LEND)
    return l;
}

static void keep(void) {
#define KEEP(array, bytes) memcpy(was.array, now.array, bytes);
    ARRAYS(KEEP)
}

static int changed(void) {
#define DIFFERS(array, bytes) || memcmp(was.array, now.array, bytes)
    return 0 ARRAYS(DIFFERS);
}

/* A store of this length, at the end of its block: what is read or written past it is not the queue's. */
static uint8_t *store_of(size_t length) {
    return now.store + (STORE - length);
}

static size_t odd_length(size_t right) {
    return below(16) ? right : (size_t)below(right + 1);
}

static uint64_t a_time(void) {
    return below(16) ? below(40000000) : odd_number();
}

static uint16_t a_stream(void) {
    return (uint16_t)(below(8) ? below(12) : next());
}

/* A rule of a restart: half of the queues are strict, by any number that says so. */
static uint8_t a_rule(void) {
    return below(2) ? (uint8_t)(DSQ_RESTART_STRICT + below(255)) : DSQ_RESTART_DCSCTP;
}

static uint32_t add(void) {
    size_t length = below(16) ? 1 + (size_t)below(900) : (size_t)below(2) * (DSQ_MAX_PAYLOAD + 1);
    uint8_t *payload = block(length);
    size_t store = a_store();
    uint32_t r = dsq_add(now.queue, store_of(store), store, payload, length, a_time(), a_stream(), (uint32_t)next(), (uint8_t)below(3), (uint8_t)below(3),
        below(8) ? below(20000000) : odd_number(), (uint8_t)below(2), (uint16_t)next(), below(3) ? 0 : next());
    free(payload);
    return r;
}

static uint32_t produce(void) {
    /* a buffer that ends where its block ends */
    size_t length = odd_length(BUFFER);
    uint8_t *buffer = now.buffer + (BUFFER - length);
    size_t store = a_store(), places = odd_length(DSQ_EVENT_WORDS);
    return dsq_produce(now.queue, store_of(store), store, now.events + (DSQ_EVENT_WORDS - places), places, buffer, length, now.out, a_time(), below(8) ? 1 + below(BUFFER) : odd_number());
}

/* These bytes in a block of their own: whole, cut off, longer, some of them changed, or, at times, others at random. */
static uint8_t *carried(const uint8_t *sent, size_t *length) {
    uint8_t *bytes;
    size_t i, whole = *length;
    int any = whole == 0 || below(8) == 0;
    if (any)
        *length = (size_t)below(200);
    else if (below(4) == 0)
        *length = below(2) ? (size_t)below(whole + 1) : whole + (size_t)below(9);
    bytes = block(*length);
    for (i = 0; i < *length; i++)
        bytes[i] = any || i >= whole ? (uint8_t)next() : sent[i];
    if (!any && below(2) && *length > 0)
        for (i = 1 + (size_t)below(4); i > 0; i--)
            bytes[below(*length)] = (uint8_t)next();
    spoiled = any || *length != whole || memcmp(bytes, sent, whole) != 0;
    return bytes;
}

/* The image of the queue as it is, carried. */
static uint32_t restore(void) {
    static uint8_t saved[IMAGE];
    size_t length = 0, store;
    uint8_t *image;
    uint32_t r;
    uint64_t out[DSQ_OUT_WORDS] = {0};
    if (dsq_save(now.queue, store_of(store_length), store_length, saved, IMAGE, out, 1) == 0)
        length = (size_t)out[DSQ_OUT_VALUE];
    image = carried(saved, &length);
    if (below(4)) { /* into a new queue, sometimes with less room */
        store_length = below(4) ? STORE : 600;
        (void)!dsq_create(now.queue, store_of(store_length), store_length, 1200, 256, 0, 0, 1, a_rule());
        damaged = below(4) == 0;
        if (damaged)
            now.queue[below(DSQ_QUEUE_WORDS)] = odd_number();
    }
    keep();
    store = a_store();
    r = dsq_restore(now.queue, store_of(store), store, image, length, a_time());
    free(image);
    return r;
}

static uint32_t save(void) {
    size_t length = odd_length(IMAGE);
    size_t store = a_store();
    return dsq_save(now.queue, store_of(store), store, now.image + (IMAGE - length), length, now.out, a_time());
}

static uint32_t create(void) {
    size_t length = below(8) ? STORE : (size_t)below(STORE);
    uint32_t r = dsq_create(now.queue, store_of(length), length, below(4) ? 1200 : odd_number(), below(2) ? 256 : (uint16_t)next(), odd_number(), odd_number(), (uint8_t)next(), a_rule());
    if (r == 0) {
        store_length = length;
        damaged = 0;
    }
    return r;
}

enum kind { ADD, PRODUCE, DISCARD, CLOSE, READY, COMMIT, ROLLBACK, RESET, SWITCH, PRIORITY, THRESHOLD, ASK_PRIORITY, ASK_AMOUNT, ASK_THRESHOLD, ASK_DATA, ASK_READY, ASK_COUNT, START, REQUEST, RESPONSE, RESET_THROUGH, ASK_PLAIN, PLAN, WRITE, READ, FILL, READ_PACKET, SAVE, RESTORE, CREATE, KINDS };

#define N(k) (UINT32_C(1) << (k))

/* The refusals that the header lists behind each function. */
static const uint32_t listed[KINDS] = {
    [ADD] = N(2) | N(4) | N(5) | N(6) | N(7) | N(8) | N(16),
    [PRODUCE] = N(2) | N(3) | N(4) | N(9) | N(10) | N(16),
    [DISCARD] = N(3) | N(16),
    [CLOSE] = N(3) | N(6) | N(16),
    [READY] = N(16),
    [COMMIT] = N(16),
    [ROLLBACK] = N(16),
    [RESET] = N(16),
    [SWITCH] = N(16),
    [PRIORITY] = N(6) | N(16),
    [THRESHOLD] = N(3) | N(6) | N(16),
    [ASK_PRIORITY] = N(16),
    [ASK_AMOUNT] = N(16),
    [ASK_THRESHOLD] = N(16),
    [ASK_DATA] = N(16),
    [ASK_READY] = N(16),
    [ASK_COUNT] = N(16),
    [START] = 0,
    [REQUEST] = N(25) | N(16) | N(26),
    [RESPONSE] = N(27) | N(16),
    [RESET_THROUGH] = N(16),
    [ASK_PLAIN] = 0,
    [PLAN] = N(1) | N(28) | N(29),
    [WRITE] = N(17) | N(18),
    [READ] = N(19),
    [FILL] = N(20) | N(21) | N(2) | N(3) | N(4) | N(16),
    [READ_PACKET] = N(19),
    [SAVE] = N(2) | N(4) | N(11) | N(16),
    [RESTORE] = N(2) | N(4) | N(12) | N(13) | N(14) | N(15),
    [CREATE] = N(1) | N(2),
};

/* A request into an output that ends where its block ends, mostly long enough. */
static uint32_t request(void) {
    size_t length = below(4) ? 64 : (size_t)below(64);
    if (below(4) == 0)
        now.handler[below(DSQ_HANDLER_NUMBERS)] = (uint32_t)odd_number();
    keep();
    return dsq_make_reset_request(now.queue, now.handler, now.buffer + (BUFFER - length), length, now.out, (uint32_t)next(), (uint32_t)next());
}

/* A response, mostly to the request underway, carried. */
static uint32_t response(void) {
    uint8_t right[16] = {130, 0, 0, 16, 0, 16, 0, 12, 0}, *bytes;
    size_t length = sizeof right, i;
    uint32_t r;
    for (i = 0; i < 4; i++)
        right[8 + i] = (uint8_t)(now.handler[DSQ_HANDLER_NUMBER] >> (24 - 8 * i));
    right[15] = (uint8_t)below(9);
    bytes = carried(right, &length);
    r = dsq_handle_reset_response(now.queue, now.handler, bytes, length, now.out);
    free(bytes);
    return r;
}

/* A wanted order, mostly one that can be; ids and sizes end where their blocks end. */
static uint32_t plan(void) {
    size_t count = (size_t)below(below(8) ? 8 : DSQ_MAX_PLANNED + 2), sizes = below(16) ? count : (size_t)below(DSQ_MAX_PLANNED + 2), i;
    uint16_t *id = block(count * sizeof *id);
    uint64_t *size = block(sizes * sizeof *size);
    uint32_t r;
    for (i = 0; i < count; i++)
        id[i] = (uint16_t)(below(64) ? 7 * i : below(40));
    for (i = 0; i < sizes; i++)
        size[i] = below(64) ? 1 + below(3000) : odd_number();
    r = dsq_plan_priorities(id, count, size, sizes, now.priorities, below(8) ? 1 + below(1500) : odd_number());
    free(id);
    free(size);
    return r;
}

/* The last chunk that was written, and the last packet that was filled. */
static uint8_t chunk[BUFFER], packet[BUFFER];
static size_t chunk_length, packet_length;

/* A chunk into an output that ends where its block ends. */
static uint32_t write_chunk(void) {
    size_t length = below(16) ? 1 + (size_t)below(300) : below(2) ? 0 : DSQ_MAX_CHUNK_PAYLOAD + (size_t)below(2), room = below(4) ? BUFFER : (size_t)below(BUFFER);
    uint8_t *payload = block(length), *output = now.buffer + (BUFFER - room);
    uint32_t r = dsq_write_chunk(output, room, payload, length, now.out, (uint8_t)below(3), (uint32_t)next(), a_stream(), (uint8_t)below(3), (uint16_t)next(),
        (uint32_t)next(), (uint32_t)next(), (uint32_t)next(), (uint8_t)below(3), (uint8_t)below(3));
    free(payload);
    if (r == 0) {
        chunk_length = (size_t)now.out[DSQ_OUT_VALUE];
        memcpy(chunk, output, chunk_length);
    }
    return r;
}

/* Reads these bytes, of so many; what is read lies inside them. */
static uint32_t read_bytes(const uint8_t *bytes, size_t length) {
    uint32_t r = dsq_read_chunk(bytes, length, now.out, now.chunk);
    return r == 0 && (now.chunk[DSQ_CHUNK_PAYLOAD_AT] > length || now.out[DSQ_OUT_LENGTH] > length - now.chunk[DSQ_CHUNK_PAYLOAD_AT]) ? 99 : r;
}

static uint32_t read_chunk(void) {
    size_t length = chunk_length;
    uint8_t *bytes = carried(chunk, &length);
    uint32_t r = read_bytes(bytes, length);
    free(bytes);
    return r;
}

static uint32_t fill_packet(void) {
    size_t room = odd_length(BUFFER), store = a_store(), places = odd_length(DSQ_EVENT_WORDS);
    uint8_t *buffer = now.buffer + (BUFFER - room);
    uint32_t r = dsq_fill_packet(now.queue, store_of(store), store, now.events + (DSQ_EVENT_WORDS - places), places, buffer, room, now.out, a_time(),
        below(8) ? DSQ_MIN_PACKET_LIMIT + below(BUFFER - DSQ_MIN_PACKET_LIMIT + 1) : odd_number(), (uint16_t)next(), (uint16_t)next(), (uint32_t)next(), (uint32_t)next());
    if (r == 0 && now.out[DSQ_OUT_VALUE] > 0) {
        if (now.out[DSQ_OUT_LENGTH] > room)
            return 99;
        packet_length = (size_t)now.out[DSQ_OUT_LENGTH];
        memcpy(packet, buffer, packet_length);
    }
    return r;
}

/* The last packet, carried, and taken apart by the lengths that its chunks tell, as a host would; the first refusal ends it. */
static uint32_t read_packet(void) {
    size_t length = packet_length, at = 12;
    uint8_t *bytes = carried(packet, &length);
    uint32_t r = 0;
    while (r == 0 && at < length) {
        size_t left = length - at, told = left < 4 ? left : ((size_t)bytes[at + 2] * 256 + bytes[at + 3] + 3) / 4 * 4, one = told < left ? told : left;
        uint8_t *alone = block(one);
        memcpy(alone, bytes + at, one);
        memcpy(was.out, now.out, DSQ_OUT_WORDS * sizeof(uint64_t));
        memcpy(was.chunk, now.chunk, DSQ_CHUNK_WORDS * sizeof(uint64_t));
        r = read_bytes(alone, one);
        free(alone);
        at += one;
    }
    free(bytes);
    return r;
}

static uint32_t ask_plain(void) {
    uint64_t room = dsq_free_bytes(now.queue), messages = dsq_waiting_messages(now.queue), streams = dsq_known_streams(now.queue);
    if (!damaged && (room > store_length || messages > DSQ_MAX_MESSAGES || streams > DSQ_MAX_STREAMS))
        return 99;
    if (dsq_is_empty(now.queue) != (dsq_total_buffered_amount(now.queue) == 0))
        return 99;
    return dsq_get_handover_readiness(now.queue) & ~UINT64_C(2) ? 99 : 0;
}

static uint32_t call(enum kind k) {
    size_t places = odd_length(DSQ_EVENT_WORDS);
    switch (k) {
    case ADD: return add();
    case PRODUCE: return produce();
    case DISCARD: return dsq_discard(now.queue, now.events + (DSQ_EVENT_WORDS - places), places, now.out, a_stream(), (uint32_t)(below(2) ? now.out[DSQ_OUT_MESSAGE_ID] : next()));
    case CLOSE: return dsq_prepare_reset_stream(now.queue, now.events + (DSQ_EVENT_WORDS - places), places, now.out, a_stream());
    case READY: return dsq_get_streams_ready_to_reset(now.queue, now.ids, now.out);
    case COMMIT: return dsq_commit_reset_streams(now.queue);
    case ROLLBACK: return dsq_rollback_reset_streams(now.queue);
    case RESET: return dsq_reset(now.queue);
    case SWITCH: return dsq_enable_message_interleaving(now.queue, (uint8_t)below(3));
    case PRIORITY: return dsq_set_priority(now.queue, a_stream(), (uint16_t)next());
    case THRESHOLD: return dsq_set_buffered_amount_low_threshold(now.queue, now.events + (DSQ_EVENT_WORDS - places), places, now.out, a_stream(), odd_number());
    case ASK_PRIORITY: return dsq_get_priority(now.queue, now.out, a_stream());
    case ASK_AMOUNT: return dsq_buffered_amount(now.queue, now.out, a_stream());
    case ASK_THRESHOLD: return dsq_buffered_amount_low_threshold(now.queue, now.out, a_stream());
    case ASK_DATA: return dsq_has_data_to_send(now.queue, now.out);
    case ASK_READY: return dsq_has_streams_ready_to_be_reset(now.queue, now.out);
    case ASK_COUNT: return dsq_count_streams_ready_to_reset(now.queue, now.out);
    case START: return dsq_start_reset_handler(now.handler, (uint32_t)next());
    case REQUEST: return request();
    case RESPONSE: return response();
    case RESET_THROUGH: return dsq_reset_through_handler(now.queue, now.handler);
    case ASK_PLAIN: return ask_plain();
    case PLAN: return plan();
    case WRITE: return write_chunk();
    case READ: return read_chunk();
    case FILL: return fill_packet();
    case READ_PACKET: return read_packet();
    case SAVE: return save();
    case RESTORE: return restore();
    default: return create();
    }
}

/* Those that can be refused for the event list write events: of the kinds 1 to 4, and an amount with the first two only. */
static int right_events(enum kind k) {
    uint64_t i, count = listed[k] & N(3) ? now.out[DSQ_OUT_EVENTS] : 0;
    if (count > DSQ_MAX_EVENTS)
        return 0;
    for (i = 0; i < count; i++) {
        const uint64_t *place = now.events + DSQ_PLACE_WORDS * i;
        uint64_t kind = place[DSQ_PLACE_KIND];
        if (kind < DSQ_EVENT_STREAM_LOW || kind > DSQ_EVENT_END || (kind >= DSQ_EVENT_EXPIRED && place[DSQ_PLACE_AMOUNT] != 0))
            return 0;
    }
    return 1;
}

static enum kind a_kind(void) {
    static const enum kind often[] = {ADD, ADD, ADD, ADD, PRODUCE, PRODUCE, PRODUCE, PRODUCE, FILL, CLOSE, DISCARD};
    return below(2) ? often[below(sizeof often / sizeof *often)] : (enum kind)below(KINDS - 1);
}

/* Some words become others, mostly among those that are used most. */
static void damage(void) {
    uint64_t i;
    for (i = 1 + below(8); i > 0; i--) {
        uint64_t at = below(3) ? below(400) : below(DSQ_QUEUE_WORDS);
        now.queue[at] = below(2) ? odd_number() : now.queue[below(DSQ_QUEUE_WORDS)];
    }
}

/* One to three of the words that so many messages on so many streams use become others: of the header, of the streams, a message's length
 * or next place, the scheduler's rows. */
static void damage_used(uint64_t messages, uint64_t streams) {
    uint64_t i;
    for (i = 1 + below(3); i > 0; i--) {
        uint64_t at = below(3) == 0 ? 6 + below(14) : below(3) == 0 ? 32 + below(2 * streams) : below(3) == 0 ? 544 + below(10 * streams)
                    : below(2) ? 3104 + 16 * below(messages) + 12 + below(3) : 19488 + below(5 * streams);
        now.queue[at] = below(2) ? odd_number() : now.queue[below(DSQ_QUEUE_WORDS)];
    }
}

/* A next fragment past expired messages on such words: what it refuses it leaves as it was. Tells the answer, or 99. */
static uint32_t past_expired(void) {
    uint64_t messages = below(3) ? 1 + below(40) : 1 + below(DSQ_MAX_MESSAGES), streams = 1 + below(below(2) ? 4 : DSQ_MAX_STREAMS), i;
    uint8_t payload[5] = {0};
    uint32_t r;
    if (dsq_create(now.queue, now.store, STORE, 1200, 256, 100, 500, 1, (uint8_t)below(2)) != 0 || dsq_enable_message_interleaving(now.queue, (uint8_t)below(2)) != 0)
        return 99;
    for (i = 0; i < messages; i++)
        if (dsq_add(now.queue, now.store, STORE, payload, 1 + below(5), 0, (uint16_t)below(streams), 53, 0, below(64) != 0, 0, 0, 0, below(2)) != 0)
            return 99;
    damage_used(messages, streams);
    keep();
    r = dsq_produce(now.queue, now.store, STORE, now.events, DSQ_EVENT_WORDS, now.buffer, BUFFER, now.out, 10000000, BUFFER);
    return r != 0 && (r > 16 || !(listed[PRODUCE] >> r & 1) || changed()) ? 99 : r;
}

int main(int argc, char **argv) {
    long wanted = argc > 1 ? atol(argv[1]) : 1000000, n, calls, left = 0, on_damaged = 0, with[KINDS] = {0}, hard = 0, accepted = 0, refused[32] = {0};
    uint64_t *good = block(QUEUE_BYTES);
    size_t good_length = STORE;
    int good_damaged = 0;
    if (argc > 2)
        seed = (uint64_t)atol(argv[2]) * 2 + 1;
    now = lend();
    was = lend();
    if (dsq_create(now.queue, now.store, STORE, 1200, 256, 100, 500, 1, DSQ_RESTART_DCSCTP) != 0)
        return 1;
    for (calls = 0; hard < wanted; calls++) {
        enum kind k = a_kind();
        int look = below(8) == 0, on_words;
        uint32_t r;
        if (left > 0) {
            if (--left == 0) { /* back to the words of a queue */
                memcpy(now.queue, good, QUEUE_BYTES);
                store_length = good_length;
                damaged = good_damaged;
            }
        } else if (below(60) == 0) {
            memcpy(good, now.queue, QUEUE_BYTES);
            good_length = store_length;
            good_damaged = damaged;
            damage();
            damaged = 1;
            left = 40;
        } else if (below(400) == 0) {
            k = CREATE;
        }
        if (look)
            keep();
        on_words = damaged;
        spoiled = 0;
        r = call(k);
        with[k] += spoiled;
        on_damaged += on_words && !spoiled;
        hard += on_words || spoiled;
        if (r != 0 && (r > 31 || !(listed[k] >> r & 1))) {
            printf("hard: call %ld of kind %d answers %u, which is not listed\n", calls, (int)k, r);
            return 1;
        }
        if (r != 0 && (look || k == RESTORE) && changed()) {
            printf("hard: call %ld of kind %d is refused with %u, and something has changed\n", calls, (int)k, r);
            return 1;
        }
        if (r == 0 && !right_events(k)) {
            printf("hard: call %ld of kind %d writes an event that is none\n", calls, (int)k);
            return 1;
        }
        if (r == 0)
            accepted++;
        else
            refused[r]++;
    }
    printf("hard: %ld calls, %ld of them on damaged words, and with damaged bytes %ld images, %ld chunks, %ld packets, %ld responses; %ld accepted; refused", calls, on_damaged,
        with[RESTORE], with[READ], with[READ_PACKET], with[RESPONSE], accepted);
    for (n = 1; n < 32; n++)
        if (n <= 16 || refused[n])
            printf(" %ld:%ld", n, refused[n]);
    printf("; every answer is listed, a refused call changed nothing\n");
    for (n = calls = accepted = 0; calls < wanted / 400; calls++) {
        uint32_t r = past_expired();
        if (r == 99) {
            printf("hard: next fragment %ld past expired messages has a wrong answer, or is refused and something has changed\n", calls);
            return 1;
        }
        if (r == 0)
            accepted++;
        else
            n++;
    }
    printf("hard: %ld next fragments past expired messages on damaged words; %ld accepted, %ld refused, which changed nothing\n", calls, accepted, n);
    return 0;
}
