/* The names of refusals, for a log. Written by scripts/names from the enums of receiver.h: change those. Nothing of it is proved
 * or in the library. Each function answers a string for every number, and never null. */
#ifndef DSR_RECEIVER_NAMES_H
#define DSR_RECEIVER_NAMES_H

#include "receiver.h"

/* Each refusal, and what is wrong, in words. */
#define DSR_REFUSALS(row) \
    row(DSR_ACCEPTED, "Accepted") \
    row(DSR_STORE_WRONG, "The store is outside 1 to 2,000,000 bytes at creation, or not of its creation length later") \
    row(DSR_BUFFER_SHORT, "The buffer is shorter than the message") \
    row(DSR_WORDS_BROKEN, "The words are not those of a receiver") \
    row(DSR_CHUNK_WRONG, "The bytes are not one chunk of the receiver's kind with payload and padding") \
    row(DSR_TSN_FAR, "The TSN is more than 1,024 past the last one received without a gap") \
    row(DSR_RECEIVER_FULL, "The payload is longer than the free store, or it would be the 4,097th held fragment or from the 257th stream") \
    row(DSR_FRAGMENT_OTHER, "A fragment at a TSN that is held differs in payload or a field read")

/* As the enum has it: DSR_TSN_FAR for 22. */
static inline const char *dsr_refusal_name(unsigned refusal)
{
    DSQ_STRING_OF(refusal, DSR_REFUSALS, DSQ_NAME_CASE, "not a refusal")
}

/* What is wrong, in words. */
static inline const char *dsr_refusal_text(unsigned refusal)
{
    DSQ_STRING_OF(refusal, DSR_REFUSALS, DSQ_TEXT_CASE, "not a refusal")
}

#endif
