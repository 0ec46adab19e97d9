/* Structs over send_queue.h, for a host in C99 or C++: a message, a fragment, an event. All of it is `static inline` over the proved
 * functions: nothing of it is proved or in the library, and a host can do without it. */
#ifndef DSQ_SEND_QUEUE_STRUCTS_H
#define DSQ_SEND_QUEUE_STRUCTS_H

#include "send_queue.h"

/* A message, for designated initialisers: what is left out is not given. */
struct dsq_message {
    const uint8_t *payload;
    size_t payload_length;
    uint16_t stream_id;
    uint32_t ppid;
    uint8_t unordered;           /* a flag */
    uint8_t has_lifetime;        /* a flag; without it the message never expires */
    uint64_t lifetime;           /* nanoseconds */
    uint8_t has_retransmissions; /* a flag; without it there is no limit */
    uint16_t max_retransmissions;
    uint64_t lifecycle_id; /* 0 for none */
};

/* dsq_add of a message. (2, 4, 5, 6, 7, 8, 16) */
DSQ_MUST_USE
static inline uint32_t dsq_add_message(uint64_t queue[DSQ_QUEUE_WORDS], uint8_t *store, size_t store_length, uint64_t time,
                                      const struct dsq_message *m)
{
    return dsq_add(queue, store, store_length, m->payload, m->payload_length, time, m->stream_id, m->ppid, m->unordered,
                   m->has_lifetime, m->lifetime, m->has_retransmissions, m->max_retransmissions, m->lifecycle_id);
}

/* What goes with a fragment, each field of its own width. Its bytes are `length` of the buffer that was lent. */
struct dsq_fragment {
    size_t length;
    uint32_t message_id;
    uint16_t stream_id;
    uint8_t unordered; /* a flag */
    uint16_t ssn;
    uint32_t mid;
    uint32_t fsn;
    uint32_t ppid;
    uint8_t first;                /* a flag */
    uint8_t last;                 /* a flag */
    uint16_t max_retransmissions; /* 65,535 where no limit was given */
    uint8_t expires;              /* a flag */
    uint64_t expires_at;          /* 0 where it never does */
    uint64_t lifecycle_id;        /* 0 but for a last fragment */
};

/* The fragment that an accepted call told of: dsq_produce with VALUE 1, or dsq_read_chunk. */
static inline struct dsq_fragment dsq_fragment_of(const uint64_t out[DSQ_OUT_WORDS])
{
    struct dsq_fragment f;
    f.length = (size_t)out[DSQ_OUT_LENGTH];
    f.message_id = (uint32_t)out[DSQ_OUT_MESSAGE_ID];
    f.stream_id = (uint16_t)out[DSQ_OUT_STREAM_ID];
    f.unordered = (uint8_t)out[DSQ_OUT_UNORDERED];
    f.ssn = (uint16_t)out[DSQ_OUT_SSN];
    f.mid = (uint32_t)out[DSQ_OUT_MID];
    f.fsn = (uint32_t)out[DSQ_OUT_FSN];
    f.ppid = (uint32_t)out[DSQ_OUT_PPID];
    f.first = (uint8_t)out[DSQ_OUT_FIRST];
    f.last = (uint8_t)out[DSQ_OUT_LAST];
    f.max_retransmissions = (uint16_t)out[DSQ_OUT_MAX_RETRANSMISSIONS];
    f.expires = (uint8_t)out[DSQ_OUT_EXPIRES];
    f.expires_at = out[DSQ_OUT_EXPIRES_AT];
    f.lifecycle_id = out[DSQ_OUT_LIFECYCLE_ID];
    return f;
}

/* dsq_write_chunk of a fragment with its payload. Tells VALUE, the bytes written. (17, 18) */
DSQ_MUST_USE
static inline uint32_t dsq_write_fragment(uint8_t *output, size_t output_length, const struct dsq_fragment *f, const uint8_t *payload,
                                         uint64_t out[DSQ_OUT_WORDS], enum dsq_chunk_kind kind, uint32_t tsn)
{
    return dsq_write_chunk(output, output_length, payload, f->length, out, (uint8_t)kind, tsn, f->stream_id, f->unordered, f->ssn, f->mid,
                           f->fsn, f->ppid, f->first, f->last);
}

/* An event of a call. */
struct dsq_event_told {
    uint64_t kind; /* of enum dsq_event */
    uint64_t number;
    uint64_t amount;
};

/* Event k of the call before, for k below what that call told as EVENTS. */
static inline struct dsq_event_told dsq_event_at(const uint64_t *events, size_t k)
{
    const uint64_t *place = events + DSQ_PLACE_WORDS * k;
    struct dsq_event_told e;
    e.kind = place[DSQ_PLACE_KIND];
    e.number = place[DSQ_PLACE_NUMBER];
    e.amount = place[DSQ_PLACE_AMOUNT];
    return e;
}

#endif
