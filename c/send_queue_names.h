/* The names of refusals and events, for a log. Written by scripts/names from the enums of send_queue.h: change those. Nothing of it is proved
 * or in the library. Each function answers a string for every number, and never null. */
#ifndef DSQ_SEND_QUEUE_NAMES_H
#define DSQ_SEND_QUEUE_NAMES_H

#include "send_queue.h"

/* Each refusal, and what is wrong, in words. */
#define DSQ_REFUSALS(row) \
    row(DSQ_ACCEPTED, "Accepted") \
    row(DSQ_PAYLOAD_LIMIT_WRONG, "At creation, or where priorities are planned, the payload limit is outside 1 to 65,535") \
    row(DSQ_STORE_WRONG, "The store is outside 1 to 2,000,000 bytes at creation, or not of its creation length later") \
    row(DSQ_EVENT_LIST_SHORT, "The event list has fewer than 2,305 places") \
    row(DSQ_TIME_LATE, "A time or lifetime is above 4,611,686,018,427,387,903") \
    row(DSQ_PAYLOAD_WRONG, "The payload is empty or above 262,144 bytes") \
    row(DSQ_STREAMS_FULL, "The call would make a 257th known stream") \
    row(DSQ_MESSAGES_FULL, "The message would be the 1,025th waiting") \
    row(DSQ_STORE_FULL, "The payload is longer than the free bytes") \
    row(DSQ_SIZE_WRONG, "The size asked for is outside 1 to 262,144") \
    row(DSQ_BUFFER_SHORT, "The fragment buffer is shorter than the size asked for") \
    row(DSQ_IMAGE_BUFFER_SHORT, "The image buffer is shorter than the image") \
    row(DSQ_QUEUE_USED, "Restoring finds a queue that knows a stream, or whose next message id is not 0") \
    row(DSQ_IMAGE_WRONG, "The image breaks a rule") \
    row(DSQ_PRIORITY_OTHER, "The image's default priority is not the queue's") \
    row(DSQ_IMAGE_LARGE, "The image, with the streams that only messages name, passes 256 streams, 1,024 messages or the store") \
    row(DSQ_WORDS_BROKEN, "The words are not those of a queue") \
    row(DSQ_CHUNK_PAYLOAD_WRONG, "The payload to write into a chunk is empty or above 65,515 bytes") \
    row(DSQ_CHUNK_OUTPUT_SHORT, "The output is shorter than the padded chunk") \
    row(DSQ_CHUNK_WRONG, "The bytes read are not one DATA or I-DATA chunk with payload and padding") \
    row(DSQ_PACKET_LIMIT_WRONG, "The packet limit is outside 36 to 65,535") \
    row(DSQ_PACKET_BUFFER_SHORT, "The packet buffer is shorter than the packet limit") \
    row(DSQ_REQUEST_UNDERWAY, "A reset request is wanted while one is underway") \
    row(DSQ_REQUEST_OUTPUT_SHORT, "The output is shorter than the reset request") \
    row(DSQ_RESPONSE_WRONG, "The bytes received are not one RE-CONFIG chunk with a response") \
    row(DSQ_ORDER_WRONG, "The wanted order is empty, has more than 32 ids or names one twice, or a size is outside 1 to 262,144, or ids and sizes differ in count") \
    row(DSQ_ORDER_IMPOSSIBLE, "No set of priorities works for the wanted order")

/* As the enum has it: DSQ_STORE_FULL for 8. */
static inline const char *dsq_refusal_name(unsigned refusal)
{
    DSQ_STRING_OF(refusal, DSQ_REFUSALS, DSQ_NAME_CASE, "not a refusal")
}

/* What is wrong, in words. */
static inline const char *dsq_refusal_text(unsigned refusal)
{
    DSQ_STRING_OF(refusal, DSQ_REFUSALS, DSQ_TEXT_CASE, "not a refusal")
}

/* Each kind of event. */
#define DSQ_EVENTS(row) \
    row(DSQ_EVENT_STREAM_LOW, ) \
    row(DSQ_EVENT_TOTAL_LOW, ) \
    row(DSQ_EVENT_EXPIRED, ) \
    row(DSQ_EVENT_END, )

/* As the enum has it: DSQ_EVENT_STREAM_LOW for 1. */
static inline const char *dsq_event_name(uint64_t kind)
{
    DSQ_STRING_OF(kind, DSQ_EVENTS, DSQ_NAME_CASE, "not an event")
}

#endif
