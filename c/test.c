/* Tests the send queue from C: a main path through all calls, document 01's examples as far as they show from outside, every refusal,
 * and that a refused call leaves every array as it was. Ends with 1 and says what failed where something did.
 *
 * Every array is allocated with exactly its length, so that valgrind sees an access past its end. */
#include "send_queue.h"

#include <stdio.h>
#include <stdlib.h>
#include <string.h>

static unsigned long passed, failed;

static void check(int ok, int line, const char *text)
{
    if (ok) {
        passed++;
    } else {
        failed++;
        fprintf(stderr, "c/test.c:%d: failed: %s\n", line, text);
    }
}

#define CHECK(condition) check((condition) ? 1 : 0, __LINE__, #condition)

static void *allocate(size_t bytes, int mark)
{
    void *p = malloc(bytes ? bytes : 1);
    if (!p) {
        fprintf(stderr, "no memory\n");
        exit(2);
    }
    memset(p, mark, bytes ? bytes : 1);
    return p;
}

/* ---------------------------------------------------------------- a host: a queue with all that it lends to it */

enum { ARRAYS = 7, BUFFER = 3000, SMALL_STORE = 10000 };

struct array {
    void *at;
    size_t bytes;
    void *copy;
};

struct host {
    uint64_t *queue;
    uint8_t *store;
    size_t store_length;
    uint64_t *events;
    size_t events_length;
    uint8_t *buffer;
    size_t buffer_length;
    uint8_t *image;
    size_t image_length;
    uint16_t *ids;
    uint64_t *out;
    uint64_t time;
    struct array all[ARRAYS];
};

static struct array array(void *at, size_t bytes)
{
    struct array a = {at, bytes, NULL};
    a.copy = allocate(bytes, 0);
    return a;
}

/* Another event list, of so many words. */
static void lend_events(struct host *h, size_t words)
{
    free(h->all[2].at);
    free(h->all[2].copy);
    h->events = allocate(words * sizeof *h->events, 0xEE);
    h->events_length = words;
    h->all[2] = array(h->events, words * sizeof *h->events);
}

/* Arrays full of marks; no queue is in the words yet. */
static struct host *lend(size_t store_length, size_t buffer_length, size_t image_length)
{
    struct host *h = allocate(sizeof *h, 0);
    h->queue = allocate(DSQ_QUEUE_WORDS * sizeof *h->queue, 0xA5);
    h->store = allocate(store_length, 0x53);
    h->store_length = store_length;
    h->buffer = allocate(buffer_length, 0xBB);
    h->buffer_length = buffer_length;
    h->image = allocate(image_length, 0x11);
    h->image_length = image_length;
    h->ids = allocate(DSQ_MAX_STREAMS * sizeof *h->ids, 0x1D);
    h->out = allocate(DSQ_OUT_WORDS * sizeof *h->out, 0x0A);
    h->all[0] = array(h->queue, DSQ_QUEUE_WORDS * sizeof *h->queue);
    h->all[1] = array(h->store, store_length);
    lend_events(h, DSQ_EVENT_WORDS);
    h->all[3] = array(h->buffer, buffer_length);
    h->all[4] = array(h->image, image_length);
    h->all[5] = array(h->ids, DSQ_MAX_STREAMS * sizeof *h->ids);
    h->all[6] = array(h->out, DSQ_OUT_WORDS * sizeof *h->out);
    return h;
}

static void give_back(struct host *h)
{
    int i;
    for (i = 0; i < ARRAYS; i++) {
        free(h->all[i].at);
        free(h->all[i].copy);
    }
    free(h);
}

static void remember(struct host *h)
{
    int i;
    for (i = 0; i < ARRAYS; i++)
        memcpy(h->all[i].copy, h->all[i].at, h->all[i].bytes);
}

static int as_remembered(const struct host *h)
{
    int i;
    for (i = 0; i < ARRAYS; i++)
        if (memcmp(h->all[i].copy, h->all[i].at, h->all[i].bytes) != 0)
            return 0;
    return 1;
}

/* The call is refused with this number, and every array stays as it was. */
#define REFUSED(h, number, call)             \
    do {                                     \
        remember(h);                         \
        CHECK((call) == (number));           \
        CHECK(as_remembered(h) && (number)); \
    } while (0)

static uint32_t create(struct host *h, uint64_t payload_limit, uint16_t priority, uint64_t threshold, uint64_t total, uint8_t with_data)
{
    return dsq_create(h->queue, h->store, h->store_length, payload_limit, priority, threshold, total, with_data, DSQ_RESTART_DCSCTP);
}

/* A queue with payload limit 1,000, default priority 256 and thresholds of 0, by a rule of a restart; and by dcSCTP's. */
static struct host *new_queue_by(uint8_t rule, size_t store_length)
{
    struct host *h = lend(store_length, BUFFER, DSQ_MAX_IMAGE(store_length));
    CHECK(dsq_create(h->queue, h->store, h->store_length, 1000, 256, 0, 0, 1, rule) == DSQ_ACCEPTED);
    return h;
}

static struct host *new_queue(size_t store_length)
{
    return new_queue_by(DSQ_RESTART_DCSCTP, store_length);
}

/* A payload whose bytes tell their places. */
static uint8_t byte_at(size_t i)
{
    return (uint8_t)(i * 7 + i / 256);
}

static uint8_t *payload_of(size_t length)
{
    uint8_t *p = allocate(length, 0);
    size_t i;
    for (i = 0; i < length; i++)
        p[i] = byte_at(i);
    return p;
}

/* A message with a lifecycle id (0 for none) that expires (lifetime) or not (NEVER). */
#define NEVER UINT64_MAX

static uint32_t add(struct host *h, uint16_t stream, size_t length, uint8_t unordered, uint64_t lifetime, uint64_t lifecycle_id)
{
    uint8_t *payload = payload_of(length);
    uint32_t r = dsq_add(h->queue, h->store, h->store_length, payload, length, h->time, stream, 53, unordered, lifetime != NEVER,
                        lifetime, 0, 9, lifecycle_id);
    free(payload);
    return r;
}

static uint32_t plain(struct host *h, uint16_t stream, size_t length)
{
    return add(h, stream, length, 0, NEVER, 0);
}

static uint32_t produce(struct host *h, uint64_t size)
{
    return dsq_produce(h->queue, h->store, h->store_length, h->events, h->events_length, h->buffer, h->buffer_length, h->out, h->time,
                       size);
}

static uint32_t discard(struct host *h, uint16_t stream, uint32_t message)
{
    return dsq_discard(h->queue, h->events, h->events_length, h->out, stream, message);
}

static uint32_t close_stream(struct host *h, uint16_t stream)
{
    return dsq_prepare_reset_stream(h->queue, h->events, h->events_length, h->out, stream);
}

static uint32_t set_threshold(struct host *h, uint16_t stream, uint64_t threshold)
{
    return dsq_set_buffered_amount_low_threshold(h->queue, h->events, h->events_length, h->out, stream, threshold);
}

static uint32_t ready(struct host *h)
{
    return dsq_get_streams_ready_to_reset(h->queue, h->ids, h->out);
}

static uint32_t save(struct host *h)
{
    return dsq_save(h->queue, h->store, h->store_length, h->image, h->image_length, h->out, h->time);
}

/* From a block of exactly the image's length. */
static uint32_t restore(struct host *h, const uint8_t *image, size_t length)
{
    uint8_t *own = allocate(length, 0);
    uint32_t answer;
    memcpy(own, image, length);
    answer = dsq_restore(h->queue, h->store, h->store_length, own, length, h->time);
    free(own);
    return answer;
}

/* The answers of questions; a refused one would not be 0. */
static uint64_t amount(struct host *h, uint16_t stream)
{
    CHECK(dsq_buffered_amount(h->queue, h->out, stream) == DSQ_ACCEPTED);
    return h->out[DSQ_OUT_VALUE];
}

static uint64_t threshold(struct host *h, uint16_t stream)
{
    CHECK(dsq_buffered_amount_low_threshold(h->queue, h->out, stream) == DSQ_ACCEPTED);
    return h->out[DSQ_OUT_VALUE];
}

static uint64_t priority(struct host *h, uint16_t stream)
{
    CHECK(dsq_get_priority(h->queue, h->out, stream) == DSQ_ACCEPTED);
    return h->out[DSQ_OUT_VALUE];
}

static uint64_t has_data(struct host *h)
{
    CHECK(dsq_has_data_to_send(h->queue, h->out) == DSQ_ACCEPTED);
    return h->out[DSQ_OUT_VALUE];
}

static uint64_t has_ready(struct host *h)
{
    CHECK(dsq_count_streams_ready_to_reset(h->queue, h->out) == DSQ_ACCEPTED);
    CHECK(dsq_has_streams_ready_to_be_reset(h->queue, h->out) == DSQ_ACCEPTED);
    return h->out[DSQ_OUT_VALUE];
}

/* The next fragment is of this stream, so long, and has these marks; its bytes are the payload's from `offset` on. */
static int sends(struct host *h, uint64_t size, uint16_t stream, uint64_t length, uint64_t offset, int first, int last)
{
    uint64_t i;
    if (produce(h, size) != DSQ_ACCEPTED || h->out[DSQ_OUT_VALUE] != 1)
        return 0;
    if (h->out[DSQ_OUT_STREAM_ID] != stream || h->out[DSQ_OUT_LENGTH] != length)
        return 0;
    if (h->out[DSQ_OUT_FIRST] != (uint64_t)first || h->out[DSQ_OUT_LAST] != (uint64_t)last)
        return 0;
    for (i = 0; i < length; i++)
        if (h->buffer[i] != byte_at((size_t)(offset + i)))
            return 0;
    return 1;
}

/* The fragment's counters. */
static int counts(const struct host *h, uint64_t ssn, uint64_t mid, uint64_t fsn)
{
    return h->out[DSQ_OUT_SSN] == ssn && h->out[DSQ_OUT_MID] == mid && h->out[DSQ_OUT_FSN] == fsn;
}

/* Nothing waits. */
static int sends_nothing(struct host *h)
{
    return produce(h, 1000) == DSQ_ACCEPTED && h->out[DSQ_OUT_VALUE] == 0;
}

static int event(const struct host *h, size_t k, uint64_t kind, uint64_t number, uint64_t told)
{
    const uint64_t *place = h->events + DSQ_PLACE_WORDS * k;
    return place[DSQ_PLACE_KIND] == kind && place[DSQ_PLACE_NUMBER] == number && place[DSQ_PLACE_AMOUNT] == told;
}

/* A drop of the message with this lifecycle id, in place k and the next. */
static int dropped(const struct host *h, size_t k, uint64_t id)
{
    return event(h, k, DSQ_EVENT_EXPIRED, id, 0) && event(h, k + 1, DSQ_EVENT_END, id, 0);
}

/* ---------------------------------------------------------------- images by hand */

struct draft {
    uint8_t *bytes;
    size_t length;
    size_t streams_size;
    size_t streams, messages;
};

static void put(struct draft *d, uint64_t value, int width)
{
    int i;
    for (i = width - 1; i >= 0; i--)
        d->bytes[d->length++] = (uint8_t)(value >> (8 * i));
}

static struct draft draft(size_t room)
{
    struct draft d = {NULL, 0, 0, 0, 0};
    d.bytes = allocate(room, 0);
    return d;
}

static void put_stream(struct draft *d, uint16_t id, uint16_t ssn, uint32_t unordered_mid, uint32_t ordered_mid, uint16_t priority_)
{
    put(d, id, 2);
    put(d, ssn, 2);
    put(d, unordered_mid, 4);
    put(d, ordered_mid, 4);
    put(d, priority_, 2);
    d->streams++;
    d->streams_size = d->length;
}

static void put_message(struct draft *d, uint16_t id, uint8_t flags, uint16_t ssn, uint32_t mid, uint32_t fsn, uint32_t message_id,
                        uint32_t offset, uint32_t length)
{
    uint32_t i;
    put(d, id, 2);
    put(d, flags, 1);
    put(d, 0, 1);
    put(d, 53, 4);
    put(d, 0, 4);
    put(d, 65535, 2);
    put(d, ssn, 2);
    put(d, mid, 4);
    put(d, fsn, 4);
    put(d, 0, 8);
    put(d, message_id, 4);
    put(d, offset, 4);
    put(d, length, 4);
    for (i = 0; i < length; i++)
        put(d, byte_at(i), 1);
    d->messages++;
}

static void put_trailer(struct draft *d, uint32_t next_message_id, uint16_t default_priority)
{
    size_t messages_size = d->length - d->streams_size;
    put(d, next_message_id, 4);
    put(d, default_priority, 2);
    put(d, d->streams, 2);
    put(d, d->messages, 2);
    put(d, 1, 2);
    put(d, messages_size, 4);
    put(d, d->streams_size, 4);
}

/* ---------------------------------------------------------------- the main path, with all calls */

/* what there is room for: free bytes, waiting messages, known streams */
static int room(const struct host *h, uint64_t bytes, uint64_t messages, uint64_t streams)
{
    return dsq_free_bytes(h->queue) == bytes && dsq_waiting_messages(h->queue) == messages && dsq_known_streams(h->queue) == streams;
}

static void main_path(void)
{
    struct host *h = lend(SMALL_STORE, BUFFER, DSQ_MAX_IMAGE(SMALL_STORE));
    struct host *g = lend(SMALL_STORE, BUFFER, DSQ_MAX_IMAGE(SMALL_STORE));
    uint8_t *payload = payload_of(1500);
    uint64_t i;

    /* a new queue, on words that held anything */
    CHECK(create(h, 1000, 256, 20, 30, 0) == DSQ_ACCEPTED);
    CHECK(dsq_is_empty(h->queue) == 1);
    CHECK(dsq_total_buffered_amount(h->queue) == 0);
    CHECK(room(h, SMALL_STORE, 0, 0));
    CHECK(dsq_get_handover_readiness(h->queue) == DSQ_READY);
    CHECK(has_data(h) == 0);
    CHECK(has_ready(h) == 0);
    CHECK(sends_nothing(h) && h->out[DSQ_OUT_EVENTS] == 0);
    for (i = DSQ_OUT_LENGTH; i < DSQ_OUT_WORDS; i++)
        CHECK(h->out[i] == UINT64_C(0x0A0A0A0A0A0A0A0A));

    /* settings */
    CHECK(dsq_set_priority(h->queue, 5, 512) == DSQ_ACCEPTED);
    CHECK(priority(h, 5) == 512 && priority(h, 6) == 256);
    CHECK(set_threshold(h, 5, 700) == DSQ_ACCEPTED && h->out[DSQ_OUT_EVENTS] == 0);
    CHECK(threshold(h, 5) == 700 && threshold(h, 6) == 20);
    CHECK(room(h, SMALL_STORE, 0, 1));

    /* a message with all its options, and one behind it */
    CHECK(dsq_add(h->queue, h->store, h->store_length, payload, 1500, 7, 5, 51, 255, 1, 2000000, 2, 3, 99) == DSQ_ACCEPTED);
    CHECK(plain(h, 5, 30) == DSQ_ACCEPTED);
    CHECK(amount(h, 5) == 1530 && amount(h, 6) == 0);
    CHECK(dsq_total_buffered_amount(h->queue) == 1530);
    CHECK(room(h, SMALL_STORE - 1530, 2, 1));
    CHECK(dsq_is_empty(h->queue) == 0);
    CHECK(dsq_get_handover_readiness(h->queue) == DSQ_SEND_QUEUE_NOT_EMPTY);
    CHECK(has_data(h) == 1);

    /* its first fragment, with all that goes with it; what lies behind in the buffer stays */
    h->time = 8;
    CHECK(sends(h, 1000, 5, 1000, 0, 1, 0));
    CHECK(h->buffer[1000] == 0xBB);
    CHECK(h->out[DSQ_OUT_EVENTS] == 1 && event(h, 0, DSQ_EVENT_STREAM_LOW, 5, 530));
    CHECK(h->events[DSQ_PLACE_WORDS] == UINT64_C(0xEEEEEEEEEEEEEEEE));
    CHECK(h->out[DSQ_OUT_MESSAGE_ID] == 0);
    CHECK(h->out[DSQ_OUT_UNORDERED] == 1);
    CHECK(counts(h, 0, 0, 0));
    CHECK(h->out[DSQ_OUT_PPID] == 51);
    CHECK(h->out[DSQ_OUT_MAX_RETRANSMISSIONS] == 3);
    CHECK(h->out[DSQ_OUT_EXPIRES] == 1 && h->out[DSQ_OUT_EXPIRES_AT] == 7 + 2000000 + 1000000);
    CHECK(h->out[DSQ_OUT_LIFECYCLE_ID] == 0);
    /* a half-sent message occupies its full length */
    CHECK(room(h, SMALL_STORE - 1530, 2, 1));
    /* its last */
    CHECK(sends(h, 1000, 5, 500, 1000, 0, 1));
    CHECK(counts(h, 0, 0, 1));
    CHECK(h->out[DSQ_OUT_EVENTS] == 1 && event(h, 0, DSQ_EVENT_TOTAL_LOW, 0, 30));
    CHECK(h->out[DSQ_OUT_LIFECYCLE_ID] == 99);
    CHECK(room(h, SMALL_STORE - 30, 1, 1));
    /* the message behind it */
    CHECK(sends(h, 1000, 5, 30, 0, 1, 1));
    CHECK(h->out[DSQ_OUT_MESSAGE_ID] == 1 && h->out[DSQ_OUT_UNORDERED] == 0 && counts(h, 0, 0, 0));
    CHECK(h->out[DSQ_OUT_PPID] == 53 && h->out[DSQ_OUT_MAX_RETRANSMISSIONS] == 65535);
    CHECK(h->out[DSQ_OUT_EXPIRES] == 0 && h->out[DSQ_OUT_EXPIRES_AT] == 0);
    CHECK(h->out[DSQ_OUT_EVENTS] == 0);
    CHECK(dsq_is_empty(h->queue) == 1);

    /* counters of ordered and unordered messages */
    CHECK(plain(h, 5, 10) == DSQ_ACCEPTED && add(h, 5, 10, 1, NEVER, 0) == DSQ_ACCEPTED);
    CHECK(sends(h, 1000, 5, 10, 0, 1, 1) && counts(h, 1, 1, 0));
    CHECK(sends(h, 1000, 5, 10, 0, 1, 1) && counts(h, 0, 1, 0) && h->out[DSQ_OUT_UNORDERED] == 1);

    /* discard: only a head with that id */
    CHECK(add(h, 7, 40, 0, NEVER, 70) == DSQ_ACCEPTED && add(h, 7, 25, 0, NEVER, 71) == DSQ_ACCEPTED);
    CHECK(discard(h, 7, 5) == DSQ_ACCEPTED && h->out[DSQ_OUT_EVENTS] == 0 && amount(h, 7) == 65);
    CHECK(discard(h, 8, 4) == DSQ_ACCEPTED && h->out[DSQ_OUT_EVENTS] == 0);
    CHECK(discard(h, 7, 4) == DSQ_ACCEPTED && amount(h, 7) == 25);
    CHECK(h->out[DSQ_OUT_EVENTS] == 3);
    CHECK(event(h, 0, DSQ_EVENT_TOTAL_LOW, 0, 25) && dropped(h, 1, 70));
    CHECK(discard(h, 7, 5) == DSQ_ACCEPTED && h->out[DSQ_OUT_EVENTS] == 3);
    CHECK(event(h, 0, DSQ_EVENT_STREAM_LOW, 7, 0) && dropped(h, 1, 71));
    CHECK(amount(h, 7) == 0 && dsq_is_empty(h->queue) == 1);

    /* closing a stream with nothing half-sent drops all; stream before total */
    CHECK(add(h, 7, 40, 0, NEVER, 72) == DSQ_ACCEPTED);
    CHECK(close_stream(h, 7) == DSQ_ACCEPTED && h->out[DSQ_OUT_EVENTS] == 4);
    CHECK(event(h, 0, DSQ_EVENT_STREAM_LOW, 7, 0) && event(h, 1, DSQ_EVENT_TOTAL_LOW, 0, 0) && dropped(h, 2, 72));
    CHECK(has_ready(h) == 1);
    /* one with a half-sent message keeps it, and is ready when it ends */
    CHECK(plain(h, 5, 100) == DSQ_ACCEPTED && plain(h, 5, 9) == DSQ_ACCEPTED);
    CHECK(sends(h, 60, 5, 60, 0, 1, 0));
    CHECK(close_stream(h, 5) == DSQ_ACCEPTED && amount(h, 5) == 40);
    CHECK(ready(h) == DSQ_ACCEPTED && h->out[DSQ_OUT_VALUE] == 1);
    CHECK(h->ids[0] == 7 && h->ids[1] == 0x1D1D);
    CHECK(has_ready(h) == 0);
    CHECK(sends(h, 60, 5, 40, 60, 0, 1));
    CHECK(has_ready(h) == 1);
    /* a stream that nobody knew, and both in ascending order; rolled back, the counters stay */
    CHECK(dsq_rollback_reset_streams(h->queue) == DSQ_ACCEPTED);
    CHECK(close_stream(h, 2) == DSQ_ACCEPTED && h->out[DSQ_OUT_EVENTS] == 0);
    CHECK(ready(h) == DSQ_ACCEPTED && h->out[DSQ_OUT_VALUE] == 2 && h->ids[0] == 2 && h->ids[1] == 5 && h->ids[2] == 0x1D1D);
    CHECK(plain(h, 5, 9) == DSQ_ACCEPTED && has_data(h) == 0);
    CHECK(dsq_rollback_reset_streams(h->queue) == DSQ_ACCEPTED && has_data(h) == 1);
    CHECK(sends(h, 60, 5, 9, 0, 1, 1) && counts(h, 3, 3, 0));
    /* committed, they are 0 */
    CHECK(close_stream(h, 5) == DSQ_ACCEPTED && ready(h) == DSQ_ACCEPTED && h->out[DSQ_OUT_VALUE] == 1);
    CHECK(dsq_commit_reset_streams(h->queue) == DSQ_ACCEPTED);
    CHECK(plain(h, 5, 9) == DSQ_ACCEPTED && sends(h, 60, 5, 9, 0, 1, 1) && counts(h, 0, 0, 0));
    CHECK(ready(h) == DSQ_ACCEPTED && h->out[DSQ_OUT_VALUE] == 0);

    /* the image, restored by another host: the same bytes again, and what is left of the messages */
    CHECK(plain(h, 5, 1500) == DSQ_ACCEPTED && add(h, 6, 1200, 1, 5000000, 66) == DSQ_ACCEPTED && plain(h, 5, 10) == DSQ_ACCEPTED);
    CHECK(dsq_enable_message_interleaving(h->queue, 1) == DSQ_ACCEPTED);
    CHECK(sends(h, 1000, 5, 1000, 0, 1, 0));
    CHECK(save(h) == DSQ_ACCEPTED);
    i = h->out[DSQ_OUT_VALUE];
    CHECK(i == 14 + 3 * 44 + 1500 + 1200 + 10 + 20 && h->image[i] == 0x11);
    CHECK(create(g, 1000, 256, 20, 30, 0) == DSQ_ACCEPTED);
    CHECK(dsq_enable_message_interleaving(g->queue, 3) == DSQ_ACCEPTED);
    g->time = h->time;
    CHECK(restore(g, h->image, (size_t)i) == DSQ_ACCEPTED);
    CHECK(save(g) == DSQ_ACCEPTED && g->out[DSQ_OUT_VALUE] == i && memcmp(g->image, h->image, (size_t)i) == 0);
    CHECK(amount(g, 5) == 510 && amount(g, 6) == 1200 && priority(g, 5) == 512 && threshold(g, 5) == 20);
    CHECK(sends(g, 1000, 5, 500, 1000, 0, 1) && counts(g, 1, 1, 1));
    CHECK(sends(g, 1000, 5, 10, 0, 1, 1) && counts(g, 2, 2, 0));
    CHECK(sends(g, 1000, 6, 1000, 0, 1, 0) && g->out[DSQ_OUT_UNORDERED] == 1);
    CHECK(sends(g, 1000, 6, 200, 1000, 0, 1) && g->out[DSQ_OUT_LIFECYCLE_ID] == 66);
    CHECK(sends_nothing(g));

    /* whole-queue reset */
    CHECK(dsq_reset(h->queue) == DSQ_ACCEPTED && amount(h, 5) == 1510 && dsq_total_buffered_amount(h->queue) == 2710);

    free(payload);
    give_back(h);
    give_back(g);
}

/* ---------------------------------------------------------------- document 01's examples */

static void examples(void)
{
    static const uint8_t new_image[20] = {0, 0, 0, 0, 1, 0, 0, 0, 0, 0, 0, 1, 0, 0, 0, 0, 0, 0, 0, 0};
    struct host *h = new_queue(SMALL_STORE);
    struct draft d;

    /* "New queue, default 256, image in hexadecimal: .." */
    CHECK(save(h) == DSQ_ACCEPTED && h->out[DSQ_OUT_VALUE] == 20 && memcmp(h->image, new_image, 20) == 0 && h->image[20] == 0x11);

    /* "Payload limit and size asked 1,000, two 1,500-byte messages, on 5 then 3: without interleaving sent 3, 3, 5, 5 as 1,000 and
     * 500." */
    CHECK(plain(h, 5, 1500) == DSQ_ACCEPTED && plain(h, 3, 1500) == DSQ_ACCEPTED);
    CHECK(sends(h, 1000, 3, 1000, 0, 1, 0) && sends(h, 1000, 3, 500, 1000, 0, 1));
    CHECK(sends(h, 1000, 5, 1000, 0, 1, 0) && sends(h, 1000, 5, 500, 1000, 0, 1) && sends_nothing(h));
    give_back(h);

    /* "With it, weights 512 on 5 and 256 on 3: 5, 5, 3, 3". */
    h = new_queue(SMALL_STORE);
    CHECK(dsq_enable_message_interleaving(h->queue, 1) == DSQ_ACCEPTED);
    CHECK(dsq_set_priority(h->queue, 5, 512) == DSQ_ACCEPTED && dsq_set_priority(h->queue, 3, 256) == DSQ_ACCEPTED);
    CHECK(plain(h, 5, 1500) == DSQ_ACCEPTED && plain(h, 3, 1500) == DSQ_ACCEPTED);
    CHECK(sends(h, 1000, 5, 1000, 0, 1, 0) && sends(h, 1000, 5, 500, 1000, 0, 1));
    CHECK(sends(h, 1000, 3, 1000, 0, 1, 0) && sends(h, 1000, 3, 500, 1000, 0, 1) && sends_nothing(h));
    give_back(h);

    /* "weight 0 counting as 1": 7 bytes cost the same with both, so the smaller id is sent first. */
    h = new_queue(SMALL_STORE);
    CHECK(dsq_enable_message_interleaving(h->queue, 1) == DSQ_ACCEPTED);
    CHECK(dsq_set_priority(h->queue, 4, 0) == DSQ_ACCEPTED && dsq_set_priority(h->queue, 2, 1) == DSQ_ACCEPTED);
    CHECK(plain(h, 4, 7) == DSQ_ACCEPTED && plain(h, 2, 7) == DSQ_ACCEPTED);
    CHECK(sends(h, 7, 2, 7, 0, 1, 1) && sends(h, 7, 4, 7, 0, 1, 1));
    CHECK(dsq_set_priority(h->queue, 4, 1) == DSQ_ACCEPTED && dsq_set_priority(h->queue, 2, 0) == DSQ_ACCEPTED);
    CHECK(plain(h, 4, 7) == DSQ_ACCEPTED && plain(h, 2, 7) == DSQ_ACCEPTED);
    CHECK(sends(h, 7, 2, 7, 0, 1, 1) && sends(h, 7, 4, 7, 0, 1, 1));
    give_back(h);

    /* "Lifetime 0 at 5,000,000 ns: sent at 5,999,999, expired at 6,000,000." "Left at 5,500,000: 0 ms." */
    h = new_queue(SMALL_STORE);
    h->time = 5000000;
    CHECK(add(h, 1, 10, 0, 0, 0) == DSQ_ACCEPTED && add(h, 1, 20, 0, 0, 8) == DSQ_ACCEPTED);
    h->time = 5500000;
    CHECK(save(h) == DSQ_ACCEPTED && h->image[2] == 4 && memcmp(h->image + 8, "\0\0\0\0", 4) == 0);
    h->time = 4999999;
    CHECK(save(h) == DSQ_ACCEPTED && h->image[2] == 4 && memcmp(h->image + 8, "\0\0\0\1", 4) == 0);
    h->time = 5999999;
    CHECK(sends(h, 100, 1, 10, 0, 1, 1) && h->out[DSQ_OUT_EXPIRES_AT] == 6000000);
    h->time = 6000000;
    CHECK(sends_nothing(h) && h->out[DSQ_OUT_EVENTS] == 4);
    CHECK(event(h, 0, DSQ_EVENT_TOTAL_LOW, 0, 0) && event(h, 1, DSQ_EVENT_STREAM_LOW, 1, 0) && dropped(h, 2, 8));
    give_back(h);

    /* "Amount 10, threshold 4, 6 sent: fires." "Threshold 4 raised to 10 at amount 10: fires; 10 to 12: silent." */
    h = new_queue(SMALL_STORE);
    CHECK(plain(h, 1, 10) == DSQ_ACCEPTED && set_threshold(h, 1, 4) == DSQ_ACCEPTED && h->out[DSQ_OUT_EVENTS] == 0);
    CHECK(sends(h, 6, 1, 6, 0, 1, 0) && h->out[DSQ_OUT_EVENTS] == 1 && event(h, 0, DSQ_EVENT_STREAM_LOW, 1, 4));
    CHECK(plain(h, 2, 10) == DSQ_ACCEPTED && set_threshold(h, 2, 4) == DSQ_ACCEPTED && h->out[DSQ_OUT_EVENTS] == 0);
    CHECK(set_threshold(h, 2, 10) == DSQ_ACCEPTED && h->out[DSQ_OUT_EVENTS] == 1 && event(h, 0, DSQ_EVENT_STREAM_LOW, 2, 10));
    CHECK(set_threshold(h, 2, 12) == DSQ_ACCEPTED && h->out[DSQ_OUT_EVENTS] == 0);
    give_back(h);

    /* "After MID 4,294,967,295 comes 0." "After SSN 65,535 comes 0." The FSN and the message id wrap too. */
    d = draft(1000);
    put_stream(&d, 1, 65535, UINT32_MAX, UINT32_MAX, 256);
    put_stream(&d, 2, 1, 0, 1, 256);
    put_message(&d, 2, 2, 0, 0, UINT32_MAX, 5, 10, 30);
    put_trailer(&d, UINT32_MAX, 256);
    h = new_queue(SMALL_STORE);
    CHECK(restore(h, d.bytes, d.length) == DSQ_ACCEPTED);
    CHECK(sends(h, 10, 2, 10, 10, 0, 0) && counts(h, 0, 0, UINT32_MAX) && h->out[DSQ_OUT_MESSAGE_ID] == 5);
    CHECK(sends(h, 10, 2, 10, 20, 0, 1) && counts(h, 0, 0, 0));
    CHECK(plain(h, 1, 10) == DSQ_ACCEPTED && plain(h, 1, 10) == DSQ_ACCEPTED);
    CHECK(add(h, 1, 10, 1, NEVER, 0) == DSQ_ACCEPTED && add(h, 1, 10, 1, NEVER, 0) == DSQ_ACCEPTED);
    CHECK(sends(h, 10, 1, 10, 0, 1, 1) && counts(h, 65535, UINT32_MAX, 0) && h->out[DSQ_OUT_MESSAGE_ID] == UINT32_MAX);
    CHECK(sends(h, 10, 1, 10, 0, 1, 1) && counts(h, 0, 0, 0) && h->out[DSQ_OUT_MESSAGE_ID] == 0);
    CHECK(sends(h, 10, 1, 10, 0, 1, 1) && counts(h, 0, UINT32_MAX, 0));
    CHECK(sends(h, 10, 1, 10, 0, 1, 1) && counts(h, 0, 0, 0));
    free(d.bytes);
    give_back(h);

    /* "First message of a stream, 1,500 bytes, 1,000 sent, reset: amount 1,500, next fragment first, FSN 1." */
    h = new_queue(SMALL_STORE);
    CHECK(plain(h, 1, 1500) == DSQ_ACCEPTED && sends(h, 1000, 1, 1000, 0, 1, 0) && amount(h, 1) == 500);
    CHECK(dsq_reset(h->queue) == DSQ_ACCEPTED && amount(h, 1) == 1500);
    CHECK(sends(h, 1000, 1, 1000, 0, 1, 0) && counts(h, 0, 0, 1));
    give_back(h);
}

/* ---------------------------------------------------------------- the layout, and the amounts that events tell */

static void layout(void)
{
    CHECK(dsq_layout() == DSQ_LAYOUT);
    CHECK(DSQ_EVENT_WORDS == DSQ_PLACE_WORDS * DSQ_MAX_EVENTS);
}

/* Three messages of 10 bytes on stream 1, whose threshold is 15, and 100 bytes on stream 2; the total's threshold is 115. */
static struct host *three_of_ten(uint64_t lifetime)
{
    struct host *h = lend(SMALL_STORE, BUFFER, 100);
    uint64_t id;
    CHECK(create(h, 1000, 256, 0, 115, 1) == DSQ_ACCEPTED && set_threshold(h, 1, 15) == DSQ_ACCEPTED);
    for (id = 1; id <= 3; id++)
        CHECK(add(h, 1, 10, 0, lifetime, id) == DSQ_ACCEPTED);
    CHECK(plain(h, 2, 100) == DSQ_ACCEPTED);
    return h;
}

/* "the amount after the fall, stepped as in the Rust, or the raise that fires it; kinds 3 and 4 carry 0" (document 02, 2/13) */
static void amounts(void)
{
    struct host *h;

    /* closing steps message by message: both fire at the second message, and its end is not the call's */
    h = three_of_ten(NEVER);
    CHECK(close_stream(h, 1) == DSQ_ACCEPTED && h->out[DSQ_OUT_EVENTS] == 8);
    CHECK(dropped(h, 0, 1));
    CHECK(event(h, 2, DSQ_EVENT_STREAM_LOW, 1, 10) && event(h, 3, DSQ_EVENT_TOTAL_LOW, 0, 110) && dropped(h, 4, 2));
    CHECK(dropped(h, 6, 3));
    CHECK(amount(h, 1) == 0 && dsq_total_buffered_amount(h->queue) == 100);
    give_back(h);

    /* and so does passing over expired heads, total before stream; then stream 2 is sent from */
    h = three_of_ten(0);
    h->time = 1000000;
    CHECK(sends(h, 40, 2, 40, 0, 1, 0) && h->out[DSQ_OUT_EVENTS] == 8);
    CHECK(dropped(h, 0, 1));
    CHECK(event(h, 2, DSQ_EVENT_TOTAL_LOW, 0, 110) && event(h, 3, DSQ_EVENT_STREAM_LOW, 1, 10) && dropped(h, 4, 2));
    CHECK(dropped(h, 6, 3));
    CHECK(amount(h, 1) == 0 && dsq_total_buffered_amount(h->queue) == 60);
    give_back(h);

    /* a discard is one step, and so is a fragment, whatever it leaves */
    h = three_of_ten(NEVER);
    CHECK(discard(h, 1, 0) == DSQ_ACCEPTED && h->out[DSQ_OUT_EVENTS] == 2 && dropped(h, 0, 1));
    CHECK(sends(h, 7, 1, 7, 0, 1, 0) && h->out[DSQ_OUT_EVENTS] == 2);
    CHECK(event(h, 0, DSQ_EVENT_TOTAL_LOW, 0, 113) && event(h, 1, DSQ_EVENT_STREAM_LOW, 1, 13));
    give_back(h);

    /* a raise past the amount tells the amount, and not the threshold */
    h = three_of_ten(NEVER);
    CHECK(set_threshold(h, 1, 31) == DSQ_ACCEPTED && h->out[DSQ_OUT_EVENTS] == 1 && event(h, 0, DSQ_EVENT_STREAM_LOW, 1, 30));
    give_back(h);
}

/* ---------------------------------------------------------------- the rule of a restart (document 02, 6/13) */

/* A queue whose second message on stream 1 is half-sent, with one behind it. */
static struct host *half_sent(uint8_t rule, uint8_t unordered, uint8_t interleaved)
{
    struct host *h = new_queue_by(rule, SMALL_STORE);
    CHECK(dsq_enable_message_interleaving(h->queue, interleaved) == DSQ_ACCEPTED);
    CHECK(add(h, 1, 10, unordered, NEVER, 0) == DSQ_ACCEPTED && add(h, 1, 1500, unordered, NEVER, 0) == DSQ_ACCEPTED);
    CHECK(add(h, 1, 20, unordered, NEVER, 0) == DSQ_ACCEPTED);
    CHECK(sends(h, 1000, 1, 10, 0, 1, 1) && counts(h, 0, 0, 0));
    CHECK(sends(h, 1000, 1, 1000, 0, 1, 0) && counts(h, !unordered, 1, 0));
    return h;
}

/* The next two messages, of 1,500 and 20 bytes, have these MIDs; the longer one starts with this FSN. An ordered one's SSN is its MID here. */
static int continues(struct host *h, uint8_t unordered, uint64_t mid, uint64_t fsn, uint64_t mid_behind)
{
    return sends(h, 1000, 1, 1000, 0, 1, 0) && counts(h, unordered ? 0 : mid, mid, fsn)
        && sends(h, 1000, 1, 500, 1000, 0, 1) && counts(h, unordered ? 0 : mid, mid, fsn + 1)
        && sends(h, 1000, 1, 20, 0, 1, 1) && counts(h, unordered ? 0 : mid_behind, mid_behind, 0) && sends_nothing(h);
}

/* "a message put back starts with FSN 0 and with numbers from the zeroed counters" */
static void restarts_by(uint8_t unordered, uint8_t interleaved)
{
    static const uint8_t strict[] = {DSQ_RESTART_STRICT, 2, 255};
    struct host *h = half_sent(DSQ_RESTART_DCSCTP, unordered, interleaved);
    size_t i;
    CHECK(dsq_reset(h->queue) == DSQ_ACCEPTED && amount(h, 1) == 1520);
    CHECK(continues(h, unordered, 1, 1, 0));
    give_back(h);
    for (i = 0; i < sizeof strict; i++) {
        h = half_sent(strict[i], unordered, interleaved);
        CHECK(dsq_reset(h->queue) == DSQ_ACCEPTED && amount(h, 1) == 1520);
        CHECK(continues(h, unordered, 0, 0, 1));
        give_back(h);
    }
}

/* The image of a queue goes into a new one by either rule; or the strict rule refuses it with 13. */
static void carried(struct host *h, int strictly)
{
    struct host *g = new_queue_by(DSQ_RESTART_DCSCTP, SMALL_STORE), *s = new_queue_by(DSQ_RESTART_STRICT, SMALL_STORE);
    size_t n;
    CHECK(save(h) == DSQ_ACCEPTED);
    n = (size_t)h->out[DSQ_OUT_VALUE];
    CHECK(restore(g, h->image, n) == DSQ_ACCEPTED);
    if (strictly)
        CHECK(restore(s, h->image, n) == DSQ_ACCEPTED && save(s) == DSQ_ACCEPTED && memcmp(s->image, h->image, n) == 0);
    else
        REFUSED(s, DSQ_IMAGE_WRONG, restore(s, h->image, n));
    give_back(g);
    give_back(s);
}

/* "Strict restoring answers 13 also to a MID on a message at offset 0." */
static void restarts(void)
{
    struct host *h, *g;
    struct draft d;
    uint8_t unordered;

    for (unordered = 0; unordered < 2; unordered++) {
        restarts_by(unordered, 0);
        restarts_by(unordered, 1);
        h = half_sent(DSQ_RESTART_DCSCTP, unordered, 0);
        carried(h, 1);
        CHECK(dsq_reset(h->queue) == DSQ_ACCEPTED);
        carried(h, 0);
        give_back(h);
        h = half_sent(DSQ_RESTART_STRICT, unordered, 0);
        carried(h, 1);
        CHECK(dsq_reset(h->queue) == DSQ_ACCEPTED);
        carried(h, 1);
        give_back(h);
    }

    /* it comes before 14 and 15 */
    d = draft(44 + SMALL_STORE + 1 + 20);
    put_message(&d, 1, 2, 7, 7, 3, 0, 0, SMALL_STORE + 1);
    put_trailer(&d, 1, 255);
    h = new_queue_by(DSQ_RESTART_STRICT, SMALL_STORE);
    g = new_queue_by(DSQ_RESTART_DCSCTP, SMALL_STORE);
    REFUSED(h, DSQ_IMAGE_WRONG, restore(h, d.bytes, d.length));
    REFUSED(g, DSQ_PRIORITY_OTHER, restore(g, d.bytes, d.length));
    free(d.bytes);
    give_back(h);
    give_back(g);
}

/* ---------------------------------------------------------------- a changeover in mid-message (document 02, 10/13) */

/* A queue whose given streams have begun a message of 2,500 bytes each, one alone without interleaving; stream 3 has one that is not
 * begun. */
static struct host *begun(const uint16_t *streams, size_t count)
{
    struct host *h = new_queue(SMALL_STORE);
    size_t i;
    CHECK(dsq_enable_message_interleaving(h->queue, count > 1) == DSQ_ACCEPTED);
    for (i = 0; i < count; i++)
        CHECK(plain(h, streams[i], 2500) == DSQ_ACCEPTED && sends(h, 1000, streams[i], 1000, 0, 1, 0));
    CHECK(plain(h, 3, 2500) == DSQ_ACCEPTED && save(h) == DSQ_ACCEPTED);
    return h;
}

/* Its image in a new queue. */
static struct host *gone_over(struct host *h, uint8_t interleaved)
{
    struct host *g = new_queue(SMALL_STORE);
    CHECK(dsq_enable_message_interleaving(g->queue, interleaved) == DSQ_ACCEPTED);
    CHECK(restore(g, h->image, (size_t)h->out[DSQ_OUT_VALUE]) == DSQ_ACCEPTED);
    return g;
}

/* The rest of such a message, and a whole one, in fragments one behind the other. */
static int sends_rest(struct host *h, uint16_t stream)
{
    return sends(h, 1000, stream, 1000, 1000, 0, 0) && sends(h, 1000, stream, 500, 2000, 0, 1);
}

static int sends_whole(struct host *h, uint16_t stream)
{
    return sends(h, 1000, stream, 1000, 0, 1, 0) && sends_rest(h, stream);
}

/* "Restoring without interleaving shall remember the stream whose first message is half-sent, the smallest id if several are, and send its
 * rest first." */
static void mid_message(void)
{
    static const uint16_t streams[] = {7, 5};
    struct host *h = begun(streams + 1, 1), *g = gone_over(h, 0), *f;
    CHECK(save(g) == DSQ_ACCEPTED && memcmp(g->image, h->image, (size_t)h->out[DSQ_OUT_VALUE]) == 0);
    f = gone_over(g, 0);
    CHECK(sends_rest(g, 5) && sends_whole(g, 3) && sends_nothing(g));
    CHECK(plain(f, 1, 2500) == DSQ_ACCEPTED && sends_rest(f, 5) && sends_whole(f, 1) && sends_whole(f, 3) && sends_nothing(f));
    give_back(f);
    give_back(g);
    g = gone_over(h, 1);
    CHECK(sends(g, 1000, 3, 1000, 0, 1, 0) && sends(g, 1000, 5, 1000, 1000, 0, 0));
    give_back(g);
    give_back(h);
    h = begun(streams, 2);
    g = gone_over(h, 0);
    CHECK(sends_rest(g, 5) && sends_whole(g, 3) && sends_rest(g, 7) && sends_nothing(g));
    give_back(g);
    give_back(h);
}

/* ---------------------------------------------------------------- the ends of the domain */

static void limits(void)
{
    struct host *h = lend(DSQ_MAX_STORE, DSQ_MAX_PAYLOAD, DSQ_MAX_IMAGE(DSQ_MAX_STORE));
    unsigned i;

    /* "Payload 262,144 passes, 262,145 gets 5" */
    CHECK(create(h, 1, 0, UINT64_MAX, UINT64_MAX, 1) == DSQ_ACCEPTED);
    CHECK(create(h, DSQ_MAX_PAYLOAD_LIMIT, 65535, 0, 0, 1) == DSQ_ACCEPTED);
    CHECK(plain(h, 65535, DSQ_MAX_PAYLOAD) == DSQ_ACCEPTED);
    REFUSED(h, DSQ_PAYLOAD_WRONG, plain(h, 65535, DSQ_MAX_PAYLOAD + 1));
    CHECK(sends(h, DSQ_MAX_PAYLOAD, 65535, DSQ_MAX_PAYLOAD, 0, 1, 1));

    /* "free bytes count together, however scattered": the store is filled, every other message dropped, and the gaps taken by one */
    CHECK(create(h, 1000, 256, 0, 0, 1) == DSQ_ACCEPTED);
    for (i = 0; i < 200; i++)
        if (plain(h, (uint16_t)i, 10000) != DSQ_ACCEPTED)
            break;
    CHECK(i == 200);
    REFUSED(h, DSQ_STORE_FULL, plain(h, 0, 1));
    for (i = 0; i < 200; i += 8)
        if (discard(h, (uint16_t)i, i) != DSQ_ACCEPTED)
            break;
    CHECK(i == 200 && dsq_total_buffered_amount(h->queue) == 1750000);
    REFUSED(h, DSQ_STORE_FULL, plain(h, 0, 250001));
    CHECK(plain(h, 0, 250000) == DSQ_ACCEPTED);
    for (i = 0; i < 200; i++)
        if (i % 8 != 0 ? !sends(h, 10000, (uint16_t)i, 10000, 0, 1, 1) : i == 0 && !sends(h, 250000, 0, 250000, 0, 1, 1))
            break;
    CHECK(i == 200 && dsq_is_empty(h->queue) == 1);

    /* "stream 256 passes, 257th gets 6"; 1,024 messages and a full store pass; the longest image */
    CHECK(create(h, 1000, 256, 0, 0, 1) == DSQ_ACCEPTED);
    for (i = 0; i < DSQ_MAX_STREAMS; i++)
        if (dsq_set_priority(h->queue, (uint16_t)(255 - i), 1) != DSQ_ACCEPTED)
            break;
    CHECK(i == DSQ_MAX_STREAMS);
    REFUSED(h, DSQ_STREAMS_FULL, plain(h, 256, 10));
    REFUSED(h, DSQ_STREAMS_FULL, close_stream(h, 256));
    REFUSED(h, DSQ_STREAMS_FULL, set_threshold(h, 256, 1));
    REFUSED(h, DSQ_STREAMS_FULL, dsq_set_priority(h->queue, 256, 1));
    for (i = 0; i < DSQ_MAX_MESSAGES; i++)
        if (add(h, (uint16_t)(i % 256), i == DSQ_MAX_MESSAGES - 1 ? 2081 : 1953, 0, 0, i + 1) != DSQ_ACCEPTED)
            break;
    CHECK(i == DSQ_MAX_MESSAGES && dsq_total_buffered_amount(h->queue) == DSQ_MAX_STORE);
    REFUSED(h, DSQ_MESSAGES_FULL, plain(h, 0, 1));
    CHECK(save(h) == DSQ_ACCEPTED && h->out[DSQ_OUT_VALUE] == DSQ_MAX_IMAGE(DSQ_MAX_STORE));

    /* all of them expired in one call: two events for each, a low one for each stream, one for the total */
    h->time = 1000000;
    CHECK(sends_nothing(h) && h->out[DSQ_OUT_EVENTS] == DSQ_MAX_EVENTS);
    CHECK(dsq_is_empty(h->queue) == 1);

    /* all 256 ids */
    for (i = 0; i < DSQ_MAX_STREAMS; i++)
        if (close_stream(h, (uint16_t)(255 - i)) != DSQ_ACCEPTED)
            break;
    CHECK(i == DSQ_MAX_STREAMS && ready(h) == DSQ_ACCEPTED && h->out[DSQ_OUT_VALUE] == DSQ_MAX_STREAMS);
    for (i = 0; i < DSQ_MAX_STREAMS && h->ids[i] == i; i++)
        ;
    CHECK(i == DSQ_MAX_STREAMS);

    /* the latest time */
    CHECK(create(h, 1000, 256, 0, 0, 1) == DSQ_ACCEPTED);
    h->time = DSQ_MAX_TIME;
    CHECK(add(h, 1, 10, 0, DSQ_MAX_TIME, 0) == DSQ_ACCEPTED);
    CHECK(sends(h, 10, 1, 10, 0, 1, 1) && h->out[DSQ_OUT_EXPIRES_AT] == 2 * DSQ_MAX_TIME + 1000000);
    give_back(h);
}

/* ---------------------------------------------------------------- refusals; each leaves every array as it was */

static void refusals(void)
{
    static const size_t few[] = {0, 2 * DSQ_MAX_EVENTS, DSQ_EVENT_WORDS - 1};
    struct host *h = lend(SMALL_STORE, BUFFER, DSQ_MAX_IMAGE(SMALL_STORE));
    struct host *g;
    struct draft d;
    size_t i, n;

    /* 1 and 2 at creation */
    REFUSED(h, DSQ_PAYLOAD_LIMIT_WRONG, create(h, 0, 256, 0, 0, 1));
    REFUSED(h, DSQ_PAYLOAD_LIMIT_WRONG, create(h, DSQ_MAX_PAYLOAD_LIMIT + 1, 256, 0, 0, 1));
    REFUSED(h, DSQ_PAYLOAD_LIMIT_WRONG, create(h, UINT64_MAX, 256, 0, 0, 1));
    REFUSED(h, DSQ_STORE_WRONG, dsq_create(h->queue, h->store, 0, 1000, 256, 0, 0, 1, DSQ_RESTART_STRICT));
    REFUSED(h, DSQ_PAYLOAD_LIMIT_WRONG, dsq_create(h->queue, h->store, 0, 0, 256, 0, 0, 1, DSQ_RESTART_STRICT));
    g = lend(DSQ_MAX_STORE + 1, BUFFER, 100);
    REFUSED(g, DSQ_STORE_WRONG, create(g, 1000, 256, 0, 0, 1));
    give_back(g);

    CHECK(create(h, 1000, 256, 0, 0, 1) == DSQ_ACCEPTED);
    CHECK(plain(h, 1, 100) == DSQ_ACCEPTED);

    /* 2 later */
    h->store_length = SMALL_STORE - 1;
    REFUSED(h, DSQ_STORE_WRONG, plain(h, 1, 100));
    REFUSED(h, DSQ_STORE_WRONG, produce(h, 1000));
    REFUSED(h, DSQ_STORE_WRONG, save(h));
    REFUSED(h, DSQ_STORE_WRONG, restore(h, h->image, 20));
    h->store_length = SMALL_STORE;

    /* 3: no list; the list of a host compiled for two words an event; one word too few */
    for (i = 0; i < sizeof few / sizeof *few; i++) {
        lend_events(h, few[i]);
        REFUSED(h, DSQ_EVENT_LIST_SHORT, produce(h, 1000));
        REFUSED(h, DSQ_EVENT_LIST_SHORT, produce(h, 0));
        REFUSED(h, DSQ_EVENT_LIST_SHORT, discard(h, 1, 0));
        REFUSED(h, DSQ_EVENT_LIST_SHORT, close_stream(h, 1));
        REFUSED(h, DSQ_EVENT_LIST_SHORT, set_threshold(h, 1, 200));
    }
    lend_events(h, DSQ_EVENT_WORDS);

    /* 4 */
    h->time = DSQ_MAX_TIME + 1;
    REFUSED(h, DSQ_TIME_LATE, plain(h, 1, 100));
    REFUSED(h, DSQ_TIME_LATE, plain(h, 1, 0));
    REFUSED(h, DSQ_TIME_LATE, produce(h, 1000));
    REFUSED(h, DSQ_TIME_LATE, produce(h, 0));
    REFUSED(h, DSQ_TIME_LATE, save(h));
    REFUSED(h, DSQ_TIME_LATE, restore(h, h->image, 20));
    h->time = 0;
    REFUSED(h, DSQ_TIME_LATE, add(h, 1, 100, 0, DSQ_MAX_TIME + 1, 0));

    /* 5 (6 and 7: limits) */
    REFUSED(h, DSQ_PAYLOAD_WRONG, plain(h, 1, 0));

    /* 8 */
    REFUSED(h, DSQ_STORE_FULL, plain(h, 1, SMALL_STORE - 99));

    /* 9 and 10 */
    REFUSED(h, DSQ_SIZE_WRONG, produce(h, 0));
    REFUSED(h, DSQ_SIZE_WRONG, produce(h, DSQ_MAX_PAYLOAD + 1));
    REFUSED(h, DSQ_SIZE_WRONG, produce(h, UINT64_MAX));
    REFUSED(h, DSQ_BUFFER_SHORT, produce(h, BUFFER + 1));
    h->buffer_length = 0;
    REFUSED(h, DSQ_BUFFER_SHORT, produce(h, 1));
    h->buffer_length = BUFFER;

    /* 11 */
    CHECK(save(h) == DSQ_ACCEPTED);
    n = (size_t)h->out[DSQ_OUT_VALUE];
    h->image_length = n - 1;
    REFUSED(h, DSQ_IMAGE_BUFFER_SHORT, save(h));
    h->image_length = 0;
    REFUSED(h, DSQ_IMAGE_BUFFER_SHORT, save(h));
    h->image_length = n;
    CHECK(save(h) == DSQ_ACCEPTED && h->out[DSQ_OUT_VALUE] == n);

    /* 12: a queue that knows a stream; one whose next message id is not 0 */
    REFUSED(h, DSQ_QUEUE_USED, restore(h, h->image, n));
    g = new_queue(SMALL_STORE);
    d = draft(100);
    put_trailer(&d, 7, 256);
    CHECK(restore(g, d.bytes, d.length) == DSQ_ACCEPTED);
    REFUSED(g, DSQ_QUEUE_USED, restore(g, d.bytes, d.length));
    free(d.bytes);
    give_back(g);

    /* 13: a length that is not the image's; a rule of the stream, of the message, of the trailer broken */
    g = new_queue(SMALL_STORE);
    for (i = 0; i < n; i++)
        if (restore(g, h->image, i) != DSQ_IMAGE_WRONG)
            break;
    CHECK(i == n);
    REFUSED(g, DSQ_IMAGE_WRONG, restore(g, h->image, 0));
    REFUSED(g, DSQ_IMAGE_WRONG, restore(g, h->image, n - 1));
    h->image[n - 9] ^= 2; /* form */
    REFUSED(g, DSQ_IMAGE_WRONG, restore(g, h->image, n));
    h->image[n - 9] ^= 2;
    h->image[2] ^= 8; /* the first message's flags */
    REFUSED(g, DSQ_IMAGE_WRONG, restore(g, h->image, n));
    h->image[2] ^= 8;
    d = draft(100);
    put_stream(&d, 1, 0, 0, 0, 256); /* a stream that needs no record */
    put_trailer(&d, 0, 256);
    REFUSED(g, DSQ_IMAGE_WRONG, restore(g, d.bytes, d.length));
    free(d.bytes);
    d = draft(100);
    put_stream(&d, 2, 1, 0, 0, 256); /* ids that do not rise */
    put_stream(&d, 1, 1, 0, 0, 256);
    put_trailer(&d, 0, 256);
    REFUSED(g, DSQ_IMAGE_WRONG, restore(g, d.bytes, d.length));
    free(d.bytes);

    /* 14, after 13 */
    d = draft(100);
    put_stream(&d, 1, 1, 0, 0, 256);
    put_trailer(&d, 0, 255);
    REFUSED(g, DSQ_PRIORITY_OTHER, restore(g, d.bytes, d.length));
    d.bytes[d.length - 9] = 2;
    REFUSED(g, DSQ_IMAGE_WRONG, restore(g, d.bytes, d.length));
    free(d.bytes);
    CHECK(restore(g, h->image, n) == DSQ_ACCEPTED);
    give_back(g);

    /* 15: streams, streams that only messages name, messages, store */
    g = new_queue(SMALL_STORE);
    d = draft(14 * 257 + 20);
    for (i = 0; i < 257; i++)
        put_stream(&d, (uint16_t)i, 1, 0, 0, 256);
    put_trailer(&d, 0, 256);
    REFUSED(g, DSQ_IMAGE_LARGE, restore(g, d.bytes, d.length));
    free(d.bytes);
    d = draft(14 * 256 + 45 + 20);
    for (i = 0; i < 256; i++)
        put_stream(&d, (uint16_t)i, 1, 0, 0, 256);
    put_message(&d, 256, 0, 0, 0, 0, 0, 0, 1);
    put_trailer(&d, 1, 256);
    REFUSED(g, DSQ_IMAGE_LARGE, restore(g, d.bytes, d.length));
    free(d.bytes);
    d = draft(45 * 1025 + 20);
    for (i = 0; i < 1025; i++)
        put_message(&d, 1, 0, 0, 0, 0, (uint32_t)i, 0, 1);
    put_trailer(&d, 1025, 256);
    REFUSED(g, DSQ_IMAGE_LARGE, restore(g, d.bytes, d.length));
    free(d.bytes);
    d = draft(44 + SMALL_STORE + 1 + 20);
    put_message(&d, 1, 0, 0, 0, 0, 0, 0, SMALL_STORE + 1);
    put_trailer(&d, 1, 256);
    REFUSED(g, DSQ_IMAGE_LARGE, restore(g, d.bytes, d.length));
    free(d.bytes);
    give_back(g);

    /* after all those the message is still there */
    CHECK(sends(h, 1000, 1, 100, 0, 1, 1) && sends_nothing(h));
    give_back(h);
}

/* ---------------------------------------------------------------- priorities for a wanted order */

enum { MARK = 0x5A5A };

/* A list lent to the call, with the places for its answer full of marks. */
struct order {
    uint16_t *ids;
    size_t ids_length;
    uint64_t *sizes;
    size_t sizes_length;
    uint16_t *priorities;
};

/* Ids from `first` on, each `step` more than the one before, and sizes alike. */
static struct order *ordered(size_t ids, uint16_t first, int step, size_t sizes, uint64_t size)
{
    struct order *o = allocate(sizeof *o, 0);
    size_t i;
    o->ids = allocate(ids * sizeof *o->ids, 0);
    o->ids_length = ids;
    for (i = 0; i < ids; i++)
        o->ids[i] = (uint16_t)(first + (int)i * step);
    o->sizes = allocate(sizes * sizeof *o->sizes, 0);
    o->sizes_length = sizes;
    for (i = 0; i < sizes; i++)
        o->sizes[i] = size;
    o->priorities = allocate(DSQ_MAX_PLANNED * sizeof *o->priorities, 0);
    for (i = 0; i < DSQ_MAX_PLANNED; i++)
        o->priorities[i] = MARK;
    return o;
}

static uint32_t plan(struct order *o, uint64_t payload_limit)
{
    return dsq_plan_priorities(o->ids, o->ids_length, o->sizes, o->sizes_length, o->priorities, payload_limit);
}

/* Whether the places from one on are as they were. */
static int marked_from(const struct order *o, size_t from)
{
    size_t i;
    for (i = from; i < DSQ_MAX_PLANNED; i++)
        if (o->priorities[i] != MARK)
            return 0;
    return 1;
}

static void give_order_back(struct order *o)
{
    free(o->ids);
    free(o->sizes);
    free(o->priorities);
    free(o);
}

/* The call is refused with this number, and no place is written. */
#define NO_PLAN(number, limit, order_)                       \
    do {                                                     \
        struct order *o_ = (order_);                         \
        CHECK(plan(o_, (limit)) == (number));                \
        CHECK(marked_from(o_, 0));                           \
        give_order_back(o_);                                 \
    } while (0)

/* The same with one size that is another. */
static struct order *with_size(struct order *o, size_t at, uint64_t size)
{
    o->sizes[at] = size;
    return o;
}

static void planning_refusals(void)
{
    /* 1, before 28 and 29 */
    NO_PLAN(DSQ_PAYLOAD_LIMIT_WRONG, 0, ordered(1, 1, 1, 1, 1));
    NO_PLAN(DSQ_PAYLOAD_LIMIT_WRONG, DSQ_MAX_PAYLOAD_LIMIT + 1, ordered(1, 1, 1, 1, 1));
    NO_PLAN(DSQ_PAYLOAD_LIMIT_WRONG, UINT64_MAX, ordered(1, 1, 1, 1, 1));
    NO_PLAN(DSQ_PAYLOAD_LIMIT_WRONG, 0, ordered(0, 1, 1, 0, 1));
    NO_PLAN(DSQ_PAYLOAD_LIMIT_WRONG, DSQ_MAX_PAYLOAD_LIMIT + 1, with_size(ordered(2, 2, -1, 2, 65535), 1, 1));

    /* 28, each reason of it */
    NO_PLAN(DSQ_ORDER_WRONG, 1000, ordered(0, 1, 1, 0, 1));
    NO_PLAN(DSQ_ORDER_WRONG, 1000, ordered(DSQ_MAX_PLANNED + 1, 1, 1, DSQ_MAX_PLANNED + 1, 1));
    NO_PLAN(DSQ_ORDER_WRONG, 1000, ordered(2, 7, 0, 2, 1));
    NO_PLAN(DSQ_ORDER_WRONG, 1000, with_size(ordered(3, 1, 1, 3, 1), 2, 0));
    NO_PLAN(DSQ_ORDER_WRONG, 1000, with_size(ordered(3, 1, 1, 3, 1), 0, DSQ_MAX_PAYLOAD + 1));
    NO_PLAN(DSQ_ORDER_WRONG, 1000, with_size(ordered(1, 1, 1, 1, 1), 0, UINT64_MAX));
    NO_PLAN(DSQ_ORDER_WRONG, 1000, ordered(2, 1, 1, 3, 1));
    NO_PLAN(DSQ_ORDER_WRONG, 1000, ordered(3, 1, 1, 2, 1));
    NO_PLAN(DSQ_ORDER_WRONG, 1000, ordered(0, 1, 1, 1, 1));

    /* 29, and 28 before it: the first of two streams has 65,535 times the cost of the second and the larger id */
    NO_PLAN(DSQ_ORDER_IMPOSSIBLE, 65535, with_size(ordered(2, 2, -1, 2, 65535), 1, 1));
    NO_PLAN(DSQ_ORDER_WRONG, 65535, with_size(ordered(2, 2, -1, 3, 65535), 1, 1));
}

static void planning(void)
{
    struct order *o = ordered(2, 5, -2, 2, 1500);
    struct host *h;
    size_t i;

    /* equal costs, the larger id first */
    CHECK(plan(o, 1000) == DSQ_ACCEPTED && o->priorities[0] == 2 && o->priorities[1] == 1 && marked_from(o, 2));
    give_order_back(o);

    /* the most streams, the largest size, the largest priority */
    o = ordered(DSQ_MAX_PLANNED, 65535, -1, DSQ_MAX_PLANNED, DSQ_MAX_PAYLOAD);
    CHECK(plan(o, 1) == DSQ_ACCEPTED && o->priorities[DSQ_MAX_PLANNED - 1] == 1 && o->priorities[0] == DSQ_MAX_PLANNED);
    give_order_back(o);
    o = with_size(ordered(2, 1, 1, 2, 65535), 1, 1);
    CHECK(plan(o, 65535) == DSQ_ACCEPTED && o->priorities[0] == 65535 && o->priorities[1] == 1 && marked_from(o, 2));
    give_order_back(o);

    /* a whole job: eight streams, the largest id first; the messages are added in another order */
    o = ordered(8, 8, -1, 8, 700);
    CHECK(plan(o, 1000) == DSQ_ACCEPTED && marked_from(o, 8));
    h = new_queue(SMALL_STORE);
    CHECK(dsq_enable_message_interleaving(h->queue, 1) == DSQ_ACCEPTED);
    for (i = 0; i < o->ids_length; i++)
        CHECK(dsq_set_priority(h->queue, o->ids[i], o->priorities[i]) == DSQ_ACCEPTED);
    for (i = 0; i < o->ids_length; i++)
        CHECK(plain(h, (uint16_t)(1 + (3 * i) % 8), 700) == DSQ_ACCEPTED);
    for (i = 0; i < o->ids_length; i++)
        CHECK(sends(h, 1000, o->ids[i], 700, 0, 1, 1));
    CHECK(sends_nothing(h));
    give_back(h);
    give_order_back(o);
}

/* ---------------------------------------------------------------- closing after a lifetime ran out (document 02, 3/13) */

/* "When a pending stream's half-sent head expires, the stream becomes paused, its later messages wait": it is ready at once, and the
 * message behind is sent after the commit. */
static void closing_expires(void)
{
    struct host *h = new_queue(SMALL_STORE);
    h->time = 0;
    CHECK(add(h, 5, 100, 0, 0, 7) == DSQ_ACCEPTED && sends(h, 60, 5, 60, 0, 1, 0));
    CHECK(close_stream(h, 5) == DSQ_ACCEPTED && has_ready(h) == 0);
    CHECK(plain(h, 5, 9) == DSQ_ACCEPTED && plain(h, 6, 8) == DSQ_ACCEPTED);
    h->time = 1000000;
    CHECK(sends(h, 60, 6, 8, 0, 1, 1) && has_ready(h) == 1);
    CHECK(sends_nothing(h) && amount(h, 5) == 9);
    CHECK(ready(h) == DSQ_ACCEPTED && h->out[DSQ_OUT_VALUE] == 1 && h->ids[0] == 5);
    CHECK(sends_nothing(h) && dsq_commit_reset_streams(h->queue) == DSQ_ACCEPTED);
    CHECK(sends(h, 60, 5, 9, 0, 1, 1));
    give_back(h);
}

/* ---------------------------------------------------------------- words that no queue has */

static uint64_t seed = 88172645463325252u;

static uint64_t any(void)
{
    seed ^= seed << 13;
    seed ^= seed >> 7;
    seed ^= seed << 17;
    return seed;
}

/* The options (words 0 to 6), the count of messages and the occupied bytes (11 and 13) are kept, since refusals of a smaller number are
 * judged by them; all else is as large as can be. */
static void broken_words(void)
{
    struct host *h = new_queue(SMALL_STORE);
    size_t i;
    CHECK(plain(h, 1, 100) == DSQ_ACCEPTED);
    for (i = 7; i < DSQ_QUEUE_WORDS; i++)
        if (i != 11 && i != 13)
            h->queue[i] = UINT64_MAX;
    REFUSED(h, DSQ_WORDS_BROKEN, plain(h, 1, 100));
    REFUSED(h, DSQ_WORDS_BROKEN, produce(h, 1000));
    REFUSED(h, DSQ_WORDS_BROKEN, discard(h, 1, 0));
    REFUSED(h, DSQ_WORDS_BROKEN, close_stream(h, 1));
    REFUSED(h, DSQ_WORDS_BROKEN, set_threshold(h, 1, 1));
    REFUSED(h, DSQ_WORDS_BROKEN, dsq_set_priority(h->queue, 1, 1));
    REFUSED(h, DSQ_WORDS_BROKEN, ready(h));
    REFUSED(h, DSQ_WORDS_BROKEN, dsq_commit_reset_streams(h->queue));
    REFUSED(h, DSQ_WORDS_BROKEN, dsq_rollback_reset_streams(h->queue));
    REFUSED(h, DSQ_WORDS_BROKEN, dsq_reset(h->queue));
    REFUSED(h, DSQ_WORDS_BROKEN, dsq_enable_message_interleaving(h->queue, 1));
    REFUSED(h, DSQ_WORDS_BROKEN, dsq_get_priority(h->queue, h->out, 1));
    REFUSED(h, DSQ_WORDS_BROKEN, dsq_buffered_amount(h->queue, h->out, 1));
    REFUSED(h, DSQ_WORDS_BROKEN, dsq_buffered_amount_low_threshold(h->queue, h->out, 1));
    REFUSED(h, DSQ_WORDS_BROKEN, dsq_has_data_to_send(h->queue, h->out));
    REFUSED(h, DSQ_WORDS_BROKEN, dsq_has_streams_ready_to_be_reset(h->queue, h->out));
    REFUSED(h, DSQ_WORDS_BROKEN, dsq_count_streams_ready_to_reset(h->queue, h->out));
    REFUSED(h, DSQ_WORDS_BROKEN, save(h));
    REFUSED(h, DSQ_QUEUE_USED, restore(h, h->image, 20));
    CHECK(dsq_is_empty(h->queue) == 0);
    CHECK(create(h, 1000, 256, 0, 0, 1) == DSQ_ACCEPTED && plain(h, 1, 100) == DSQ_ACCEPTED && sends(h, 1000, 1, 100, 0, 1, 1));
    give_back(h);
}

/* One of all calls that can be refused. */
static uint32_t some_call(struct host *h, unsigned which)
{
    uint16_t stream = (uint16_t)(any() % 5);
    switch (which) {
    case 0: return plain(h, stream, 1 + (size_t)(any() % 200));
    case 1: return produce(h, 1 + any() % 200);
    case 2: return discard(h, stream, (uint32_t)(any() % 20));
    case 3: return close_stream(h, stream);
    case 4: return set_threshold(h, stream, any() % 300);
    case 5: return dsq_set_priority(h->queue, stream, (uint16_t)any());
    case 6: return ready(h);
    case 7: return dsq_commit_reset_streams(h->queue);
    case 8: return dsq_rollback_reset_streams(h->queue);
    case 9: return dsq_reset(h->queue);
    case 10: return dsq_enable_message_interleaving(h->queue, (uint8_t)(any() % 2));
    case 11: return dsq_get_priority(h->queue, h->out, stream);
    case 12: return dsq_buffered_amount(h->queue, h->out, stream);
    case 13: return dsq_buffered_amount_low_threshold(h->queue, h->out, stream);
    case 14: return dsq_has_data_to_send(h->queue, h->out);
    case 15: return dsq_has_streams_ready_to_be_reset(h->queue, h->out);
    case 16: return dsq_count_streams_ready_to_reset(h->queue, h->out);
    case 17: return save(h);
    default: return restore(h, h->image, 20 + (size_t)(any() % 50));
    }
}

/* A queue in use, some of its words from the rule of a restart on (word 6) damaged: every call returns, and where it refuses leaves every array as it was. */
static void damaged_words(void)
{
    struct host *h = new_queue(SMALL_STORE);
    unsigned round, i, refused = 0, right = 1;
    for (round = 0; round < 60; round++) {
        if (dsq_create(h->queue, h->store, h->store_length, 1000, 256, 0, 0, 1, (uint8_t)(round % 2)) != DSQ_ACCEPTED)
            right = 0;
        for (i = 0; i < 12; i++)
            (void)some_call(h, (unsigned)(any() % 6));
        for (i = 0; i < 1 + round % 5; i++)
            h->queue[6 + any() % (i % 2 ? DSQ_QUEUE_WORDS - 6 : 600)] = any() % 2 ? any() : any() % 2000;
        for (i = 0; i < 19; i++) {
            uint32_t r;
            remember(h);
            r = some_call(h, i);
            if (r > DSQ_WORDS_BROKEN || (r != DSQ_ACCEPTED && !as_remembered(h)))
                right = 0;
            if (r == DSQ_WORDS_BROKEN)
                refused++;
        }
    }
    CHECK(right);
    CHECK(refused > 0);
    give_back(h);
}

/* ---------------------------------------------------------------- chunks on the wire */

/* A fragment to write with all that is lent for it; every byte of the output is 165 before. */
struct wire {
    uint8_t *output;
    size_t output_length;
    uint8_t *payload;
    size_t payload_length;
    uint64_t *out;
    uint64_t *chunk;
    uint8_t first;
};

static struct wire *wired(size_t output_length, size_t payload_length)
{
    struct wire *w = allocate(sizeof *w, 0);
    size_t i;
    w->output = allocate(output_length, 165);
    w->output_length = output_length;
    w->payload = allocate(payload_length, 0);
    w->payload_length = payload_length;
    for (i = 0; i < payload_length; i++)
        w->payload[i] = (uint8_t)(i * 7 + 1);
    w->out = allocate(DSQ_OUT_WORDS * sizeof *w->out, 0x0A);
    w->chunk = allocate(DSQ_CHUNK_WORDS * sizeof *w->chunk, 0x0C);
    w->first = 1;
    return w;
}

static void unwire(struct wire *w)
{
    free(w->output);
    free(w->payload);
    free(w->out);
    free(w->chunk);
    free(w);
}

static uint32_t write_chunk(struct wire *w, uint8_t kind)
{
    return dsq_write_chunk(w->output, w->output_length, w->payload, w->payload_length, w->out, kind, 0xFFFEFDFC, 0x0102, 7, 0x0304,
                           0x05060708, 0x090A0B0C, 0x0D0E0F10, w->first, 0);
}

/* Whether the output is 165 from a place on. */
static int unwritten(const struct wire *w, size_t from)
{
    size_t i;
    for (i = from; i < w->output_length; i++)
        if (w->output[i] != 165)
            return 0;
    return 1;
}

/* Whether each word is as it was lent. */
static int untold(const uint64_t *words, size_t n, int mark)
{
    uint64_t lent;
    size_t i;
    memset(&lent, mark, sizeof lent);
    for (i = 0; i < n; i++)
        if (words[i] != lent)
            return 0;
    return 1;
}

/* The call is refused with this number, and nothing is written. */
static void no_chunk(uint32_t number, size_t room, uint8_t kind, size_t payload_length)
{
    struct wire *w = wired(room, payload_length);
    CHECK(write_chunk(w, kind) == number);
    CHECK(unwritten(w, 0) && untold(w->out, DSQ_OUT_WORDS, 0x0A));
    unwire(w);
}

static void no_read(const uint8_t *bytes, size_t n)
{
    struct wire *w = wired(1, 0);
    uint8_t *exact = allocate(n, 0);
    if (n)
        memcpy(exact, bytes, n);
    CHECK(dsq_read_chunk(exact, n, w->out, w->chunk) == DSQ_CHUNK_WRONG);
    CHECK(untold(w->out, DSQ_OUT_WORDS, 0x0A) && untold(w->chunk, DSQ_CHUNK_WORDS, 0x0C));
    free(exact);
    unwire(w);
}

/* Writes a chunk, reads it and compares all that is told. */
static void there_and_back(uint8_t kind, size_t payload_length, uint8_t first)
{
    int i_data = kind != DSQ_CHUNK_DATA;
    size_t header = i_data ? 20 : 16, length = (header + payload_length + 3) / 4 * 4;
    struct wire *w = wired(length + 5, payload_length);
    uint8_t *bytes;
    w->first = first;
    CHECK(write_chunk(w, kind) == DSQ_ACCEPTED);
    CHECK(w->out[DSQ_OUT_VALUE] == length && untold(w->out + 1, DSQ_OUT_WORDS - 1, 0x0A));
    CHECK(unwritten(w, length));
    bytes = allocate(length, 0);
    memcpy(bytes, w->output, length);
    CHECK(dsq_read_chunk(bytes, length, w->out, w->chunk) == DSQ_ACCEPTED);
    CHECK(w->chunk[DSQ_CHUNK_KIND] == (i_data ? DSQ_CHUNK_I_DATA : DSQ_CHUNK_DATA));
    CHECK(w->chunk[DSQ_CHUNK_TSN] == 0xFFFEFDFC && w->chunk[DSQ_CHUNK_PAYLOAD_AT] == header);
    CHECK(w->out[DSQ_OUT_VALUE] == 1 && w->out[DSQ_OUT_EVENTS] == 0 && w->out[DSQ_OUT_LENGTH] == payload_length);
    CHECK(w->out[DSQ_OUT_MESSAGE_ID] == 0 && w->out[DSQ_OUT_STREAM_ID] == 0x0102 && w->out[DSQ_OUT_UNORDERED] == 1);
    CHECK(w->out[DSQ_OUT_SSN] == (i_data ? 0 : 0x0304) && w->out[DSQ_OUT_MID] == (i_data ? 0x05060708 : 0));
    CHECK(w->out[DSQ_OUT_FSN] == (i_data && !first ? 0x090A0B0C : 0));
    CHECK(w->out[DSQ_OUT_PPID] == (i_data && !first ? 0 : 0x0D0E0F10));
    CHECK(w->out[DSQ_OUT_FIRST] == (first ? 1 : 0) && w->out[DSQ_OUT_LAST] == 0);
    CHECK(w->out[DSQ_OUT_MAX_RETRANSMISSIONS] == 0 && w->out[DSQ_OUT_LIFECYCLE_ID] == 0);
    CHECK(w->out[DSQ_OUT_EXPIRES] == 1 && w->out[DSQ_OUT_EXPIRES_AT] == 0);
    CHECK(memcmp(bytes + header, w->payload, payload_length) == 0);
    free(bytes);
    unwire(w);
}

static void chunks(void)
{
    static const uint8_t written[] = {0x40, 0x06, 0x00, 0x16, 0xFF, 0xFE, 0xFD, 0xFC, 0x01, 0x02, 0x00, 0x00,
                                      0x05, 0x06, 0x07, 0x08, 0x0D, 0x0E, 0x0F, 0x10, 0x01, 0x08, 0x00, 0x00};
    static const size_t lengths[] = {1, 2, 3, 4, 5, 1200, DSQ_MAX_CHUNK_PAYLOAD};
    struct wire *w = wired(sizeof written, 2);
    size_t i;
    CHECK(write_chunk(w, DSQ_CHUNK_I_DATA) == DSQ_ACCEPTED && memcmp(w->output, written, sizeof written) == 0);
    CHECK(DSQ_MAX_CHUNK(2) >= sizeof written);
    unwire(w);
    for (i = 0; i < sizeof lengths / sizeof *lengths; i++) {
        there_and_back(DSQ_CHUNK_DATA, lengths[i], 1);
        there_and_back(DSQ_CHUNK_DATA, lengths[i], 0);
        there_and_back(DSQ_CHUNK_I_DATA, lengths[i], 200);
        there_and_back(255, lengths[i], 0);
    }
}

static void chunk_refusals(void)
{
    uint8_t bytes[32] = {0, 3, 0, 17};
    size_t n;

    /* 17, before 18 */
    no_chunk(DSQ_CHUNK_PAYLOAD_WRONG, 100, DSQ_CHUNK_DATA, 0);
    no_chunk(DSQ_CHUNK_PAYLOAD_WRONG, 0, DSQ_CHUNK_I_DATA, 0);
    no_chunk(DSQ_CHUNK_PAYLOAD_WRONG, 70000, DSQ_CHUNK_DATA, DSQ_MAX_CHUNK_PAYLOAD + 1);
    no_chunk(DSQ_CHUNK_PAYLOAD_WRONG, 0, DSQ_CHUNK_I_DATA, DSQ_MAX_CHUNK_PAYLOAD + 1);

    /* 18, with the padding */
    no_chunk(DSQ_CHUNK_OUTPUT_SHORT, 0, DSQ_CHUNK_DATA, 1);
    no_chunk(DSQ_CHUNK_OUTPUT_SHORT, 19, DSQ_CHUNK_DATA, 1);
    no_chunk(DSQ_CHUNK_OUTPUT_SHORT, 23, DSQ_CHUNK_I_DATA, 3);
    no_chunk(DSQ_CHUNK_OUTPUT_SHORT, 65535, DSQ_CHUNK_I_DATA, DSQ_MAX_CHUNK_PAYLOAD);

    /* 19: a chunk of 20 bytes cut anywhere or with more behind it; another type; a header alone */
    for (n = 0; n < 20; n++)
        no_read(bytes, n);
    for (n = 21; n <= sizeof bytes; n++)
        no_read(bytes, n);
    bytes[0] = 64;
    no_read(bytes, 20);
    bytes[0] = 1;
    no_read(bytes, 20);
    bytes[0] = 0;
    bytes[3] = 16;
    no_read(bytes, 16);
    no_read(bytes, 20);
}

/* ---------------------------------------------------------------- packets on the wire */

static uint32_t fill(struct host *h, uint64_t limit)
{
    return dsq_fill_packet(h->queue, h->store, h->store_length, h->events, h->events_length, h->buffer, h->buffer_length, h->out, h->time,
                           limit, 0x0102, 0x0304, 0x05060708, 0xFFFFFFFF);
}

static void packets(void)
{
    static const uint8_t written[] = {1, 2, 3, 4, 5, 6, 7, 8, 0, 0, 0, 0, 0, 3, 0, 19, 255, 255, 255, 255, 0, 5, 0, 0, 0, 0, 0, 53,
                                      'a', 'b', 'c', 0, 0, 2, 0, 20, 0, 0, 0, 0, 0, 6, 0, 0, 0, 0, 0, 53, 'd', 'e', 'f', 'g'};
    static const uint8_t bytes[] = {'a', 'b', 'c', 'd', 'e', 'f', 'g', 'h', 'i'};
    struct host *h = lend(SMALL_STORE, 60, 1);
    size_t i;
    CHECK(dsq_create(h->queue, h->store, h->store_length, 1000, 256, 0, 0, 1, 0) == DSQ_ACCEPTED);
    CHECK(dsq_add(h->queue, h->store, h->store_length, bytes, 3, 0, 5, 53, 0, 0, 0, 0, 0, 0) == DSQ_ACCEPTED);
    CHECK(dsq_add(h->queue, h->store, h->store_length, bytes + 3, 6, 0, 6, 53, 0, 0, 0, 0, 0, 0) == DSQ_ACCEPTED);

    /* 20, 21, then 2, 3, 4; nothing changes */
    remember(h);
    CHECK(fill(h, 35) == DSQ_PACKET_LIMIT_WRONG && as_remembered(h));
    CHECK(fill(h, 65536) == DSQ_PACKET_LIMIT_WRONG && as_remembered(h));
    CHECK(fill(h, UINT64_MAX) == DSQ_PACKET_LIMIT_WRONG && as_remembered(h));
    CHECK(fill(h, 61) == DSQ_PACKET_BUFFER_SHORT && as_remembered(h));
    h->store_length--;
    CHECK(fill(h, 60) == DSQ_STORE_WRONG && as_remembered(h));
    h->store_length++;
    h->events_length--;
    CHECK(fill(h, 60) == DSQ_EVENT_LIST_SHORT && as_remembered(h));
    h->events_length++;
    h->time = DSQ_MAX_TIME + 1;
    CHECK(fill(h, 60) == DSQ_TIME_LATE && as_remembered(h));
    h->time = 0;

    /* two chunks, the second cut to the room left; the TSNs wrap */
    CHECK(fill(h, 54) == DSQ_ACCEPTED);
    CHECK(h->out[DSQ_OUT_VALUE] == 2 && h->out[DSQ_OUT_EVENTS] == 1 && h->out[DSQ_OUT_LENGTH] == sizeof written);
    CHECK(memcmp(h->buffer, written, sizeof written) == 0);
    for (i = sizeof written; i < h->buffer_length; i++)
        CHECK(h->buffer[i] == 0xBB);

    /* the rest; then nothing waits: no packet */
    CHECK(fill(h, 60) == DSQ_ACCEPTED && h->out[DSQ_OUT_VALUE] == 1 && h->out[DSQ_OUT_LENGTH] == 32 && h->out[DSQ_OUT_EVENTS] == 2);
    remember(h);
    CHECK(fill(h, 60) == DSQ_ACCEPTED && h->out[DSQ_OUT_VALUE] == 0 && h->out[DSQ_OUT_LENGTH] == 0 && h->out[DSQ_OUT_EVENTS] == 0);
    CHECK(memcmp(h->buffer, h->all[3].copy, h->buffer_length) == 0);
    give_back(h);
}

/* ---------------------------------------------------------------- reset requests to the peer */

/* A queue on which these streams are closed, and its handler. */
struct closer {
    struct host *host;
    uint32_t *handler;
    uint8_t *output;
    size_t output_length;
};

static struct closer closer(uint32_t number, const uint16_t *ids, size_t count, size_t output_length)
{
    struct closer c;
    size_t i;
    c.host = new_queue(SMALL_STORE);
    c.handler = allocate(DSQ_HANDLER_NUMBERS * sizeof *c.handler, 0x77);
    c.output = allocate(output_length, 165);
    c.output_length = output_length;
    CHECK(dsq_start_reset_handler(c.handler, number) == DSQ_ACCEPTED);
    CHECK(c.handler[DSQ_HANDLER_NEXT] == number && c.handler[DSQ_HANDLER_UNDERWAY] == 0);
    for (i = 0; i < count; i++)
        CHECK(dsq_prepare_reset_stream(c.host->queue, c.host->events, c.host->events_length, c.host->out, ids[i]) == DSQ_ACCEPTED);
    return c;
}

static void close_closer(struct closer c)
{
    give_back(c.host);
    free(c.handler);
    free(c.output);
}

static uint32_t ask(struct closer c)
{
    return dsq_make_reset_request(c.host->queue, c.handler, c.output, c.output_length, c.host->out, 9, 0x01020304);
}

/* The response to a request, with any flags. */
static uint32_t answer(struct closer c, uint32_t number, uint32_t result)
{
    uint8_t *bytes = allocate(16, 0);
    uint32_t r;
    int i;
    bytes[0] = 130;
    bytes[1] = 255;
    bytes[3] = 16;
    bytes[5] = 16;
    bytes[7] = 12;
    for (i = 0; i < 4; i++) {
        bytes[8 + i] = (uint8_t)(number >> (24 - 8 * i));
        bytes[12 + i] = (uint8_t)(result >> (24 - 8 * i));
    }
    r = dsq_handle_reset_response(c.host->queue, c.handler, bytes, 16, c.host->out);
    free(bytes);
    return r;
}

/* A call is refused with this number and changes nothing: no array of the host, no number of the handler, no byte of the output. */
#define UNASKED(c, number, call)                                                                       \
    do {                                                                                                \
        uint32_t kept[DSQ_HANDLER_NUMBERS];                                                             \
        size_t at;                                                                                      \
        memcpy(kept, (c).handler, sizeof kept);                                                         \
        REFUSED((c).host, number, call);                                                                \
        CHECK(memcmp(kept, (c).handler, sizeof kept) == 0);                                             \
        for (at = 0; at < (c).output_length && (c).output[at] == 165; at++)                             \
            ;                                                                                           \
        CHECK(at == (c).output_length);                                                                 \
    } while (0)

static uint64_t ready_count(struct closer c)
{
    CHECK(dsq_count_streams_ready_to_reset(c.host->queue, c.host->out) == DSQ_ACCEPTED);
    return c.host->out[DSQ_OUT_VALUE];
}

static void reset_requests(void)
{
    static const uint16_t ids[] = {258, 5, 1};
    static const uint8_t written[] = {130, 0, 0, 26, 0, 13, 0, 22, 255, 255, 255, 255, 0, 0, 0, 9, 1, 2, 3, 4, 0, 1, 0, 5, 1, 2, 0, 0};
    static const uint8_t outcomes[] = {1, 1, 2, 2, 2, 2, 3};
    struct closer c = closer(UINT32_MAX, ids, 3, sizeof written + 3);
    uint32_t result;
    CHECK(ready_count(c) == 3);
    CHECK(ask(c) == DSQ_ACCEPTED && c.host->out[DSQ_OUT_VALUE] == sizeof written);
    CHECK(memcmp(c.output, written, sizeof written) == 0 && c.output[sizeof written] == 165 && c.output[sizeof written + 2] == 165);
    CHECK(c.handler[DSQ_HANDLER_NEXT] == 0 && c.handler[DSQ_HANDLER_UNDERWAY] == 1 && c.handler[DSQ_HANDLER_NUMBER] == UINT32_MAX);
    CHECK(ready_count(c) == 0);
    memset(c.output, 165, c.output_length);
    UNASKED(c, DSQ_REQUEST_UNDERWAY, ask(c));
    /* for another request, then result by result; with none underway it is ignored, and no stream is ready */
    CHECK(answer(c, 7, 0) == DSQ_ACCEPTED && c.host->out[DSQ_OUT_VALUE] == DSQ_RESPONSE_IGNORED && c.handler[DSQ_HANDLER_UNDERWAY] == 1);
    CHECK(answer(c, UINT32_MAX, 6) == DSQ_ACCEPTED && c.host->out[DSQ_OUT_VALUE] == DSQ_RESPONSE_WAITING && c.handler[DSQ_HANDLER_UNDERWAY] == 1);
    UNASKED(c, DSQ_RESPONSE_WRONG, answer(c, UINT32_MAX, 7));
    CHECK(answer(c, UINT32_MAX, 1) == DSQ_ACCEPTED && c.host->out[DSQ_OUT_VALUE] == DSQ_RESPONSE_COMMITTED && c.handler[DSQ_HANDLER_UNDERWAY] == 0);
    CHECK(answer(c, UINT32_MAX, 0) == DSQ_ACCEPTED && c.host->out[DSQ_OUT_VALUE] == DSQ_RESPONSE_IGNORED);
    CHECK(ask(c) == DSQ_ACCEPTED && c.host->out[DSQ_OUT_VALUE] == 0 && c.output[0] == 165);
    close_closer(c);
    for (result = 0; result <= 6; result++) {
        c = closer(3, ids, 1, 24);
        CHECK(ask(c) == DSQ_ACCEPTED && answer(c, 3, result) == DSQ_ACCEPTED && c.host->out[DSQ_OUT_VALUE] == outcomes[result]);
        CHECK(c.handler[DSQ_HANDLER_UNDERWAY] == (result == 6));
        /* the whole-queue reset ends the request; a late response to it is ignored; the numbers go on */
        CHECK(dsq_reset_through_handler(c.host->queue, c.handler) == DSQ_ACCEPTED && c.handler[DSQ_HANDLER_UNDERWAY] == 0);
        CHECK(answer(c, 3, 0) == DSQ_ACCEPTED && c.host->out[DSQ_OUT_VALUE] == DSQ_RESPONSE_IGNORED);
        CHECK(c.handler[DSQ_HANDLER_NEXT] == 4);
        close_closer(c);
    }
}

static void reset_refusals(void)
{
    static const uint16_t ids[] = {1};
    struct closer c = closer(3, ids, 1, 23);
    uint8_t bytes[20] = {130, 0, 0, 16, 0, 16, 0, 12, 0, 0, 0, 3, 0, 0, 0, 6};
    size_t n;
    /* 26 counts the padding and takes no stream; any other number is as good a flag as 1: 25 comes first */
    UNASKED(c, DSQ_REQUEST_OUTPUT_SHORT, ask(c));
    CHECK(ready_count(c) == 1);
    c.handler[DSQ_HANDLER_UNDERWAY] = UINT32_MAX;
    UNASKED(c, DSQ_REQUEST_UNDERWAY, ask(c));
    c.handler[DSQ_HANDLER_UNDERWAY] = 0;
    /* 27: cut, longer, another type, length or parameter, a result above 6 */
    for (n = 0; n <= 20; n++)
        if (n != 16)
            UNASKED(c, DSQ_RESPONSE_WRONG, dsq_handle_reset_response(c.host->queue, c.handler, bytes, n, c.host->out));
    for (n = 0; n < 16; n++) {
        bytes[n] ^= 1;
        if (n == 1 || (n >= 8 && n < 12))
            CHECK(dsq_handle_reset_response(c.host->queue, c.handler, bytes, 16, c.host->out) == DSQ_ACCEPTED && c.host->out[DSQ_OUT_VALUE] == 0);
        else
            UNASKED(c, DSQ_RESPONSE_WRONG, dsq_handle_reset_response(c.host->queue, c.handler, bytes, 16, c.host->out));
        bytes[n] ^= 1;
    }
    /* 16 of the queue's own calls is passed on, and the handler stays: the known streams (words 32 to 543) have places outside their table */
    for (n = 32; n < 544; n++)
        c.host->queue[n] = UINT64_MAX;
    UNASKED(c, DSQ_WORDS_BROKEN, ask(c));
    UNASKED(c, DSQ_WORDS_BROKEN, dsq_reset_through_handler(c.host->queue, c.handler));
    c.handler[DSQ_HANDLER_UNDERWAY] = 1;
    c.handler[DSQ_HANDLER_NUMBER] = 3;
    UNASKED(c, DSQ_WORDS_BROKEN, answer(c, 3, 0));
    UNASKED(c, DSQ_WORDS_BROKEN, answer(c, 3, 2));
    close_closer(c);
}

int main(void)
{
    layout();
    main_path();
    examples();
    amounts();
    closing_expires();
    restarts();
    mid_message();
    limits();
    refusals();
    planning();
    planning_refusals();
    chunks();
    chunk_refusals();
    packets();
    reset_requests();
    reset_refusals();
    broken_words();
    damaged_words();
    if (failed) {
        fprintf(stderr, "c: %lu checks failed\n", failed);
        return 1;
    }
    printf("c: %lu checks passed\n", passed);
    return 0;
}
