/* The send queue for a host in C99 or C++: link it with libsend_queue_c.a and, where dsq_fill_packet is called, with libpackets_c.a beside
 * it; that one function is in the second, all others are in the first. Or with libdesqariy.so, which scripts/install makes of them and of the
 * receiver's library. They are for x86-64 Linux: the toolchain compiles for nothing else (no ARM64). Of the C library they use memcpy,
 * memmove and memset. They allocate nothing and keep nothing: all of a queue is in the words and the store that the host lends to each call.
 *
 * The functions are proved: on any words, any store and any buffers they return, they read and write inside what is lent to them
 * only, and a refused call changes nothing, in no array. What a host must keep, since no proof of theirs can see it:
 *
 *   - Every pointer is valid for as many elements as the array or the length beside it says, and aligned for its type. None is null,
 *     not even one to no bytes.
 *   - What it points to has been written before (all zeroes will do; what is in it does not matter).
 *   - No two arguments of a call overlap, and nobody else writes to them while it runs.
 *   - The words of a queue, from creation on, and the bytes of its store are changed by these functions only, and each call gets both
 *     as the last one left them. The words hold no pointer: between two calls words and store may be moved or copied.
 *   - 256 KB of stack for dsq_produce or dsq_fill_packet alone: where more than 128 messages have expired each takes 253 KB, since it keeps a
 *     copy of the words and of the events, up to 128 of them 37 KB, and up to 17 of them 7 KB (measured: c/stack.c); give a thread more.
 *     The other calls take at most 4 KB (c/told.c). The functions have no unwind tables: a report of a crash in one does not show who called it.
 *
 * Lengths count elements: events_length counts words, of which DSQ_EVENT_WORDS are asked for.
 * The libraries and this header belong together: a host compiled with a header of another layout does not link (dsq_layout_5 below).
 * A flag that is passed in is 0 for no and anything else for yes; one that is told is 0 or 1. Times are counts of nanoseconds. */
#ifndef DSQ_SEND_QUEUE_H
#define DSQ_SEND_QUEUE_H

#include <stddef.h>
#include <stdint.h>

#include "desqariy_host.h"

#ifdef __cplusplus
extern "C" {
#endif

/* The version of header, library and crate, as CHANGELOG.md has it. */
#define DSQ_VERSION "0.3.0"

/* The layout that a host with this header is compiled for: the words of a queue, of an event, of the event list and of an out-array, what
 * each place means, and the arguments of the functions. It moves when one of these does. In layout 1, whose header has no such number, an
 * event had two words; a list for 2,305 of those is refused here (DSQ_EVENT_LIST_SHORT), not written past. In layout 2 dsq_create had no
 * restart_rule; nothing but a comparison of the layouts tells a host compiled for it. In layout 3 the header of the words was shorter by
 * one word: words of a queue that were kept from it are not read right here. In layout 4 functions returned 8 bits, and the rest of the
 * register meant nothing; and words 21 to 31 of a queue meant nothing: with words that were kept from it the choice among more than 48
 * waiting streams is not right here. */
#define DSQ_LAYOUT 5

/* The words of a queue, and of the list of events: DSQ_MAX_EVENTS places of DSQ_PLACE_WORDS words. */
#define DSQ_QUEUE_WORDS 20768
#define DSQ_EVENT_WORDS 6915

/* The most that a queue takes. */
#define DSQ_MAX_STREAMS 256
#define DSQ_MAX_MESSAGES 1024
#define DSQ_MAX_PAYLOAD 262144
#define DSQ_MAX_STORE 2000000
#define DSQ_MAX_PAYLOAD_LIMIT 65535
#define DSQ_MAX_EVENTS 2305
#define DSQ_MAX_TIME UINT64_C(4611686018427387903)
/* The most streams that a wanted order names. */
#define DSQ_MAX_PLANNED 32
/* The longest payload that is written into a chunk, of either kind. */
#define DSQ_MAX_CHUNK_PAYLOAD 65515

/* The longest reset request: 20 bytes and 256 stream ids. */
#define DSQ_MAX_RESET_REQUEST 532

/* So many bytes hold every chunk with a payload of this length: the longer header, and at most 3 bytes of padding. */
#define DSQ_MAX_CHUNK(payload_length) (UINT64_C(23) + (payload_length))

/* So many bytes hold every image of a queue with a store of this length: 20 and, at most, 256 records of 14 bytes, 1,024 of 44, and
 * the payloads. */
#define DSQ_MAX_IMAGE(store_length) (UINT64_C(48660) + (store_length))

/* What a function returns: 0 for accepted, else the refusal. Of several that apply the first is given. It is as wide as an int, which a
 * foreign function interface often takes an answer for. */
enum dsq_refusal {
    DSQ_ACCEPTED = 0,
    /* At creation, or where priorities are planned, the payload limit is outside 1 to 65,535. */
    DSQ_PAYLOAD_LIMIT_WRONG = 1,
    /* The store is outside 1 to 2,000,000 bytes at creation, or not of its creation length later. Words that were never created
     * get this, too, from a call that takes a store. */
    DSQ_STORE_WRONG = 2,
    /* The event list has fewer than 2,305 places. */
    DSQ_EVENT_LIST_SHORT = 3,
    /* A time or lifetime is above 4,611,686,018,427,387,903. */
    DSQ_TIME_LATE = 4,
    /* The payload is empty or above 262,144 bytes. */
    DSQ_PAYLOAD_WRONG = 5,
    /* The call would make a 257th known stream. A stream is known from its first message, priority, threshold or closing on, and stays
     * known when it was closed and reset: a queue takes 256 different ids in its life. Saving, and restoring into a new queue, forgets those
     * without a message whose counters are 0 and whose priority is the default one. */
    DSQ_STREAMS_FULL = 6,
    /* The message would be the 1,025th waiting. */
    DSQ_MESSAGES_FULL = 7,
    /* The payload is longer than the free bytes. */
    DSQ_STORE_FULL = 8,
    /* The size asked for is outside 1 to 262,144. */
    DSQ_SIZE_WRONG = 9,
    /* The fragment buffer is shorter than the size asked for. */
    DSQ_BUFFER_SHORT = 10,
    /* The image buffer is shorter than the image. */
    DSQ_IMAGE_BUFFER_SHORT = 11,
    /* Restoring finds a queue that knows a stream, or whose next message id is not 0. */
    DSQ_QUEUE_USED = 12,
    /* The image breaks a rule; one of them holds under DSQ_RESTART_STRICT alone. */
    DSQ_IMAGE_WRONG = 13,
    /* The image's default priority is not the queue's. */
    DSQ_PRIORITY_OTHER = 14,
    /* The image, with the streams that only messages name, passes 256 streams, 1,024 messages or the store. */
    DSQ_IMAGE_LARGE = 15,
    /* The words are not those of a queue: somebody else wrote into them. From creation on no call of these functions leads to it. */
    DSQ_WORDS_BROKEN = 16,
    /* The payload to write into a chunk is empty or above 65,515 bytes. */
    DSQ_CHUNK_PAYLOAD_WRONG = 17,
    /* The output is shorter than the padded chunk. */
    DSQ_CHUNK_OUTPUT_SHORT = 18,
    /* The bytes read are not one DATA or I-DATA chunk with payload and padding. */
    DSQ_CHUNK_WRONG = 19,
    /* The packet limit is outside 36 to 65,535. */
    DSQ_PACKET_LIMIT_WRONG = 20,
    /* The packet buffer is shorter than the packet limit. */
    DSQ_PACKET_BUFFER_SHORT = 21,
    /* A reset request is wanted while one is underway. */
    DSQ_REQUEST_UNDERWAY = 25,
    /* The output is shorter than the reset request. */
    DSQ_REQUEST_OUTPUT_SHORT = 26,
    /* The bytes received are not one RE-CONFIG chunk with a response. */
    DSQ_RESPONSE_WRONG = 27,
    /* The wanted order is empty, has more than 32 ids or names one twice, or a size is outside 1 to 262,144, or ids and sizes differ in
     * count. */
    DSQ_ORDER_WRONG = 28,
    /* No set of priorities works for the wanted order. */
    DSQ_ORDER_IMPOSSIBLE = 29
};

/* The places of an out-array. An accepted call writes those that are named at it; the others stay. A refused call leaves all as they were:
 * the array, and the list of events, then still tell of the call before, so look at the number first. */
enum dsq_out {
    DSQ_OUT_VALUE = 0,  /* a question's answer; 1 for a fragment, 0 for none; the length of an image, a chunk or a reset request; what a
                         * response led to; the count of ready ids or of a packet's chunks */
    DSQ_OUT_EVENTS = 1, /* how many events the call wrote, from the list's start on */
    /* What goes with a fragment. */
    DSQ_OUT_LENGTH = 2,               /* its bytes, at the buffer's start; of a packet, all its bytes */
    DSQ_OUT_MESSAGE_ID = 3,           /* 32 bits: 0 for the first message accepted, then one more for each, modulo 2^32 */
    DSQ_OUT_STREAM_ID = 4,            /* 16 bits */
    DSQ_OUT_UNORDERED = 5,            /* a flag */
    DSQ_OUT_SSN = 6,                  /* stream sequence number, 16 bits; 0 for an unordered message */
    DSQ_OUT_MID = 7,                  /* message identifier, 32 bits */
    DSQ_OUT_FSN = 8,                  /* fragment number, 32 bits */
    DSQ_OUT_PPID = 9,                 /* payload protocol id, 32 bits */
    DSQ_OUT_FIRST = 10,               /* a flag: the message's first fragment */
    DSQ_OUT_LAST = 11,                /* a flag: its last */
    DSQ_OUT_MAX_RETRANSMISSIONS = 12, /* 16 bits; 65,535 where no limit was given */
    DSQ_OUT_EXPIRES = 13,             /* a flag: whether the message expires */
    DSQ_OUT_EXPIRES_AT = 14,          /* when; 0 where it never does */
    DSQ_OUT_LIFECYCLE_ID = 15,        /* shown by a last fragment, else 0 */
    DSQ_OUT_WORDS = 16
};

/* The words of an event: event k of a call begins at events[DSQ_PLACE_WORDS * k]. */
enum dsq_place {
    DSQ_PLACE_KIND = 0,
    DSQ_PLACE_NUMBER = 1,
    DSQ_PLACE_AMOUNT = 2,
    DSQ_PLACE_WORDS = 3
};

/* The kinds of events, and the number that each has. The amount of the first two is the one at which the event fired: the stream's or the
 * total, after the fall or at the raise. It need not be the amount after the whole call: one that drops several messages steps message by
 * message (three messages of 10 bytes, closed at the threshold 15, tell 10 and not 0). The amount of the last two is 0. */
enum dsq_event {
    DSQ_EVENT_STREAM_LOW = 1, /* a stream's amount fell to or below its threshold, or that was raised to it or past it; the stream's id */
    DSQ_EVENT_TOTAL_LOW = 2,  /* the total fell to or below its threshold; 0 */
    DSQ_EVENT_EXPIRED = 3,    /* a message with a lifecycle id was dropped; that id */
    DSQ_EVENT_END = 4         /* follows each DSQ_EVENT_EXPIRED, with the same id */
};

/* How a whole-queue reset puts a half-sent message back, chosen at creation. The message is sent whole again under either rule. */
enum dsq_restart {
    DSQ_RESTART_DCSCTP = 0, /* as dcSCTP: it keeps its MID and SSN and counts its FSN on, whatever its stream counts from then on */
    DSQ_RESTART_STRICT = 1  /* as RFC 8260: it starts with FSN 0, and with a MID and SSN from its stream's counters, which are 0 then */
};

/* The kinds of chunks, and the places of a chunk-array. */
enum dsq_chunk_kind {
    DSQ_CHUNK_DATA = 0,  /* RFC 9260 */
    DSQ_CHUNK_I_DATA = 1 /* RFC 8260 */
};

enum dsq_chunk {
    DSQ_CHUNK_KIND = 0,
    DSQ_CHUNK_TSN = 1,        /* 32 bits */
    DSQ_CHUNK_PAYLOAD_AT = 2, /* where the payload begins in the bytes read; DSQ_OUT_LENGTH tells its length */
    DSQ_CHUNK_WORDS = 3
};

/* The numbers of a stream reset handler, 32 bits each; any three are one. */
enum dsq_handler {
    DSQ_HANDLER_NEXT = 0,     /* the number of the next request */
    DSQ_HANDLER_UNDERWAY = 1, /* a flag: whether a request is underway */
    DSQ_HANDLER_NUMBER = 2,   /* its number, where one is */
    DSQ_HANDLER_NUMBERS = 3
};

/* What VALUE tells of a response. */
enum dsq_response {
    DSQ_RESPONSE_IGNORED = 0,    /* it answers another request, or none is underway: nothing has changed */
    DSQ_RESPONSE_COMMITTED = 1,  /* the peer has reset the streams: they are open, with their counters at 0 */
    DSQ_RESPONSE_ROLLED_BACK = 2, /* it has not: they are open and count on */
    DSQ_RESPONSE_WAITING = 3     /* it is at it: the request goes on waiting */
};

/* What dsq_get_handover_readiness tells. */
enum dsq_readiness {
    DSQ_READY = 0,
    DSQ_SEND_QUEUE_NOT_EMPTY = 2
};

/* ---------------------------------------------------------------- the layout */

/* The library's DSQ_LAYOUT. */
uint64_t dsq_layout(void);

/* The same under a name that moves with the layout. */
uint64_t dsq_layout_5(void);

/* Every object that was compiled with this header names that function: with a library of another layout it does not link. */
DSQ_LINKED_WITH(dsq_layout_5);

/* The numbers behind a function's description are the refusals that it can give, in the order in which they are checked.
 *
 * ---------------------------------------------------------------- creation and messages */

/* Makes the words those of a new queue without streams or messages; interleaving is off. Only the store's length is looked at.
 * payload_limit: the most payload that goes into a packet, for the scheduler's costs. handover_with_data: see readiness. restart_rule: of
 * enum dsq_restart; it counts in dsq_reset and dsq_restore; as with a flag, anything but 0 is DSQ_RESTART_STRICT. (1, 2) */
DSQ_MUST_USE
uint32_t dsq_create(uint64_t queue[DSQ_QUEUE_WORDS], const uint8_t *store, size_t store_length, uint64_t payload_limit,
                    uint16_t default_priority, uint64_t default_threshold, uint64_t total_threshold, uint8_t handover_with_data,
                    uint8_t restart_rule);

/* Adds a message; its payload is copied to the store. With has_lifetime it expires lifetime nanoseconds and 1 ms after time, else
 * never (and lifetime is not looked at). Without has_retransmissions no limit is given. Lifecycle id 0 means none. The first message
 * to a stream makes it known. (2, 4, 5, 6, 7, 8, 16) */
DSQ_MUST_USE
uint32_t dsq_add(uint64_t queue[DSQ_QUEUE_WORDS], uint8_t *store, size_t store_length, const uint8_t *payload, size_t payload_length,
                 uint64_t time, uint16_t stream_id, uint32_t ppid, uint8_t unordered, uint8_t has_lifetime, uint64_t lifetime,
                 uint8_t has_retransmissions, uint16_t max_retransmissions, uint64_t lifecycle_id);

/* Drops the message, where it is the first that waits on its stream; else changes nothing. Tells EVENTS. (3, 16) */
DSQ_MUST_USE
uint32_t dsq_discard(uint64_t queue[DSQ_QUEUE_WORDS], uint64_t *events, size_t events_length, uint64_t out[DSQ_OUT_WORDS],
                     uint16_t stream_id, uint32_t message_id);

/* ---------------------------------------------------------------- the next fragment */

/* Takes at most size bytes of the message whose turn it is; they are copied to the buffer's start. Messages whose time is at or before
 * `time` are dropped on the way. Tells VALUE (1 for a fragment, 0 if nothing waits) and EVENTS, and with a fragment all that goes with
 * it. (2, 3, 4, 9, 10, 16) */
DSQ_MUST_USE
uint32_t dsq_produce(uint64_t queue[DSQ_QUEUE_WORDS], const uint8_t *store, size_t store_length, uint64_t *events, size_t events_length,
                     uint8_t *buffer, size_t buffer_length, uint64_t out[DSQ_OUT_WORDS], uint64_t time, uint64_t size);

/* ---------------------------------------------------------------- closing and restarting streams */

/* Closes a stream, known or not: drops every message that is not half-sent. Without a half-sent one the stream is then ready to be
 * reset, else when that one was sent or discarded. A stream that is not open stays as it is. Tells EVENTS. (3, 6, 16) */
DSQ_MUST_USE
uint32_t dsq_prepare_reset_stream(uint64_t queue[DSQ_QUEUE_WORDS], uint64_t *events, size_t events_length,
                                  uint64_t out[DSQ_OUT_WORDS], uint16_t stream_id);

/* The streams that are ready to be reset, in ascending order; they are resetting from then on. Tells VALUE, their count; so many
 * places of ids are written, the others stay. (16) */
DSQ_MUST_USE
uint32_t dsq_get_streams_ready_to_reset(uint64_t queue[DSQ_QUEUE_WORDS], uint16_t ids[DSQ_MAX_STREAMS], uint64_t out[DSQ_OUT_WORDS]);

/* Opens every resetting stream, with its three counters at 0. (16) */
DSQ_MUST_USE
uint32_t dsq_commit_reset_streams(uint64_t queue[DSQ_QUEUE_WORDS]);

/* Opens every resetting stream. (16) */
DSQ_MUST_USE
uint32_t dsq_rollback_reset_streams(uint64_t queue[DSQ_QUEUE_WORDS]);

/* After a restart of the peer: opens all streams, sets their counters to 0 and puts half-sent messages back whole. These keep the numbers
 * that they have under DSQ_RESTART_DCSCTP, and have none under DSQ_RESTART_STRICT, as if never begun: the first fragment gives them new
 * ones. (16) */
DSQ_MUST_USE
uint32_t dsq_reset(uint64_t queue[DSQ_QUEUE_WORDS]);

/* ---------------------------------------------------------------- settings */

/* Switches message interleaving (RFC 8260). (16) */
DSQ_MUST_USE
uint32_t dsq_enable_message_interleaving(uint64_t queue[DSQ_QUEUE_WORDS], uint8_t enabled);

/* Sets a stream's priority, its weight with interleaving; it counts from the next time that the weight is read. (6, 16) */
DSQ_MUST_USE
uint32_t dsq_set_priority(uint64_t queue[DSQ_QUEUE_WORDS], uint16_t stream_id, uint16_t priority);

/* Sets the amount at which a stream is low. Tells EVENTS: 1 if a threshold below the amount is raised to or past it. (3, 6, 16) */
DSQ_MUST_USE
uint32_t dsq_set_buffered_amount_low_threshold(uint64_t queue[DSQ_QUEUE_WORDS], uint64_t *events, size_t events_length,
                                               uint64_t out[DSQ_OUT_WORDS], uint16_t stream_id, uint64_t threshold);

/* ---------------------------------------------------------------- priorities for a wanted order; no queue is looked at */

/* The least priorities, from 1 to 65,535, that give the streams their first fragments in the order of ids: set on a new queue with this
 * payload limit, interleaving on, before the messages are added, if these are all accepted. sizes: of each stream's first message. One
 * priority is written for each id, in the same order; the other places stay. (1, 28, 29) */
DSQ_MUST_USE
uint32_t dsq_plan_priorities(const uint16_t *ids, size_t ids_length, const uint64_t *sizes, size_t sizes_length,
                             uint16_t priorities[DSQ_MAX_PLANNED], uint64_t payload_limit);

/* ---------------------------------------------------------------- chunks on the wire; no queue is looked at */

/* Writes a fragment as a chunk to the output's start: header, payload, and zeros up to a multiple of 4 bytes; the rest of the output
 * stays. kind: of enum dsq_chunk_kind; as with a flag, anything but 0 is DSQ_CHUNK_I_DATA. A DATA chunk carries ssn and ppid, an I-DATA
 * chunk mid, and ppid on a first fragment, fsn on others. Tells VALUE, the bytes written, padding included. (17, 18) */
DSQ_MUST_USE
uint32_t dsq_write_chunk(uint8_t *output, size_t output_length, const uint8_t *payload, size_t payload_length,
                         uint64_t out[DSQ_OUT_WORDS], uint8_t kind, uint32_t tsn, uint16_t stream_id, uint8_t unordered, uint16_t ssn,
                         uint32_t mid, uint32_t fsn, uint32_t ppid, uint8_t first, uint8_t last);

/* Reads the chunk that the bytes are, with its padding, of any value, and nothing behind it. Flags other than the three marks and the
 * reserved bits are not looked at. Nothing is copied: the payload is LENGTH bytes of `bytes` from chunk[DSQ_CHUNK_PAYLOAD_AT] on. Tells
 * all that goes with a fragment, what the chunk does not carry as 0 (EXPIRES 1, EXPIRES_AT 0); VALUE 1, EVENTS 0; and the places of the
 * chunk-array. (19) */
DSQ_MUST_USE
uint32_t dsq_read_chunk(const uint8_t *bytes, size_t bytes_length, uint64_t out[DSQ_OUT_WORDS], uint64_t chunk[DSQ_CHUNK_WORDS]);

/* ---------------------------------------------------------------- packets on the wire: libpackets_c.a */

/* The least and the greatest packet limit. */
#define DSQ_MIN_PACKET_LIMIT 36
#define DSQ_MAX_PACKET_LIMIT 65535

/* Fills a packet of at most limit bytes, from the buffer's start on: the common header with checksum 0 (RFC 9653), then a chunk for
 * each fragment, I-DATA while interleaving is on, else DATA, with consecutive TSNs from tsn on. Each chunk is what one dsq_produce gives at
 * this time, asked for as many bytes as the packet has left for a payload, rounded down to a multiple of 4, at most the payload limit; its
 * payload goes from the store to its place. The buffer behind the packet stays as it was. Tells VALUE, the number of chunks; EVENTS, of
 * all those calls together; LENGTH, the packet's bytes. Where nothing waits no packet is written, VALUE and LENGTH are 0, and the buffer
 * stays; expired messages are dropped and their events written all the same. Stack: as dsq_produce. (20, 21, 2, 3, 4, 16) */
DSQ_MUST_USE
uint32_t dsq_fill_packet(uint64_t queue[DSQ_QUEUE_WORDS], const uint8_t *store, size_t store_length, uint64_t *events, size_t events_length,
                         uint8_t *packet, size_t packet_length, uint64_t out[DSQ_OUT_WORDS], uint64_t time, uint64_t limit,
                         uint16_t source_port, uint16_t destination_port, uint32_t verification_tag, uint32_t tsn);

/* ---------------------------------------------------------------- reset requests to the peer (RFC 6525)
 *
 * A stream reset handler makes the requests for a queue and takes the peer's responses. Start it on a new or restored queue; from then on
 * call dsq_get_streams_ready_to_reset, dsq_commit_reset_streams, dsq_rollback_reset_streams and dsq_reset for that queue no more, but
 * these functions: then exactly the streams of the request underway are resetting, none without one. */

/* The handler without a request underway; its first request gets this number. */
DSQ_MUST_USE
uint32_t dsq_start_reset_handler(uint32_t handler[DSQ_HANDLER_NUMBERS], uint32_t number);

/* Writes a request for all streams that are ready to be reset to the output's start: a RE-CONFIG chunk, with its padding, that names them
 * in ascending order; they are resetting from then on. The rest of the output stays. response_number and last_tsn are the association's.
 * Tells VALUE, the bytes written; 0 if no stream is ready, and then nothing has changed. (25, 16, 26) */
DSQ_MUST_USE
uint32_t dsq_make_reset_request(uint64_t queue[DSQ_QUEUE_WORDS], uint32_t handler[DSQ_HANDLER_NUMBERS], uint8_t *output,
                                size_t output_length, uint64_t out[DSQ_OUT_WORDS], uint32_t response_number, uint32_t last_tsn);

/* Takes the RE-CONFIG chunk that the bytes are, with the peer's response to a request: result 0 or 1 commits the reset, 2 to 5 roll it
 * back, 6 keeps the request waiting. Tells VALUE, of enum dsq_response. (27, 16) */
DSQ_MUST_USE
uint32_t dsq_handle_reset_response(uint64_t queue[DSQ_QUEUE_WORDS], uint32_t handler[DSQ_HANDLER_NUMBERS], const uint8_t *bytes,
                                   size_t bytes_length, uint64_t out[DSQ_OUT_WORDS]);

/* dsq_reset, which ends the request underway; the numbers go on. (16) */
DSQ_MUST_USE
uint32_t dsq_reset_through_handler(uint64_t queue[DSQ_QUEUE_WORDS], uint32_t handler[DSQ_HANDLER_NUMBERS]);

/* ---------------------------------------------------------------- questions; they change nothing */

/* VALUE: a stream's priority, the default where none was set. (16) */
DSQ_MUST_USE
uint32_t dsq_get_priority(const uint64_t queue[DSQ_QUEUE_WORDS], uint64_t out[DSQ_OUT_WORDS], uint16_t stream_id);

/* VALUE: the bytes that wait on a stream. (16) */
DSQ_MUST_USE
uint32_t dsq_buffered_amount(const uint64_t queue[DSQ_QUEUE_WORDS], uint64_t out[DSQ_OUT_WORDS], uint16_t stream_id);

/* VALUE: a stream's threshold, the default where none was set. (16) */
DSQ_MUST_USE
uint32_t dsq_buffered_amount_low_threshold(const uint64_t queue[DSQ_QUEUE_WORDS], uint64_t out[DSQ_OUT_WORDS], uint16_t stream_id);

/* VALUE: 1 if a stream waits to be sent from, else 0. (16) */
DSQ_MUST_USE
uint32_t dsq_has_data_to_send(const uint64_t queue[DSQ_QUEUE_WORDS], uint64_t out[DSQ_OUT_WORDS]);

/* VALUE: 1 if a stream is ready to be reset, else 0. (16) */
DSQ_MUST_USE
uint32_t dsq_has_streams_ready_to_be_reset(const uint64_t queue[DSQ_QUEUE_WORDS], uint64_t out[DSQ_OUT_WORDS]);

/* VALUE: how many streams are ready to be reset; they are not taken. (16) */
DSQ_MUST_USE
uint32_t dsq_count_streams_ready_to_reset(const uint64_t queue[DSQ_QUEUE_WORDS], uint64_t out[DSQ_OUT_WORDS]);

/* The answer itself, never a refusal: the bytes that wait in all; */
DSQ_MUST_USE
uint64_t dsq_total_buffered_amount(const uint64_t queue[DSQ_QUEUE_WORDS]);

/* 1 if no byte waits, else 0; */
DSQ_MUST_USE
uint32_t dsq_is_empty(const uint64_t queue[DSQ_QUEUE_WORDS]);

/* the bytes of the store that are free: a longer payload is refused, with DSQ_STORE_FULL where nothing before it in the list applies (a
 * message occupies its full length until its last fragment); */
DSQ_MUST_USE
uint64_t dsq_free_bytes(const uint64_t queue[DSQ_QUEUE_WORDS]);

/* the messages that wait: with 1,024 of them the next one gets DSQ_MESSAGES_FULL; */
DSQ_MUST_USE
uint64_t dsq_waiting_messages(const uint64_t queue[DSQ_QUEUE_WORDS]);

/* the streams that are known: with 256 of them a new one gets DSQ_STREAMS_FULL; */
DSQ_MUST_USE
uint64_t dsq_known_streams(const uint64_t queue[DSQ_QUEUE_WORDS]);

/* 2 if handover with waiting data is off and the total is above 0, else 0. */
DSQ_MUST_USE
uint64_t dsq_get_handover_readiness(const uint64_t queue[DSQ_QUEUE_WORDS]);

/* ---------------------------------------------------------------- the changeover image */

/* Writes the image of the queue to the buffer's start, also in the middle of a message; the queue stays as it is. Tells VALUE, its length.
 * In the image: the waiting messages, with the whole milliseconds that they have left, each stream's counters and priority, the next
 * message id. Not in it: thresholds, closing, the interleaving choice, the rule of a restart, and streams with zero counters, the default
 * priority and no message. It has no checksum: carry it by a channel that protects it. docs/CHANGEOVER.md has it step by step.
 * (2, 4, 16, 11) */
DSQ_MUST_USE
uint32_t dsq_save(const uint64_t queue[DSQ_QUEUE_WORDS], const uint8_t *store, size_t store_length, uint8_t *image, size_t image_length,
                  uint64_t out[DSQ_OUT_WORDS], uint64_t time);

/* Restores an image of exactly image_length bytes into a queue that knows no stream and has accepted no message. All streams are then open,
 * also those that were closing, with the default thresholds: close them and set those again. The rules find a cut image; one with a changed
 * byte of a payload, a counter or an id may keep them all and is then accepted as another queue's. Choose interleaving before: the image
 * does not tell it. Without interleaving the rest of a half-sent message is sent first, before any other message is begun; of
 * several (the saved queue had interleaving) that of the smallest stream id. The image does not tell the rule of the queue that was saved
 * either. Under DSQ_RESTART_STRICT a message of which nothing was sent must have no MID, else 13: such an image comes from a queue that was
 * reset under DSQ_RESTART_DCSCTP. (2, 4, 12, 13, 14, 15) */
DSQ_MUST_USE
uint32_t dsq_restore(uint64_t queue[DSQ_QUEUE_WORDS], uint8_t *store, size_t store_length, const uint8_t *image, size_t image_length,
                     uint64_t time);

#ifdef __cplusplus
}
#endif

#endif
