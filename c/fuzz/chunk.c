/* Chunks: dsq_read_chunk beside document 02, 1/13. What is read has the fields of the bytes, and written again it is the same bytes with the
 * marks alone as flags, no reserved bits and zeros as padding; a refused read has told nothing. */
#include "target.h"

enum { DATA = 0, I_DATA = 64, MARK = 0x5a };

static uint64_t out[DSQ_OUT_WORDS], chunk[DSQ_CHUNK_WORDS], untold[DSQ_OUT_WORDS];
static uint8_t again[DSQ_MAX_CHUNK(DSQ_MAX_CHUNK_PAYLOAD)];

/* The header's bytes of a chunk that keeps the rules, else 0. */
static size_t header(const uint8_t *bytes, size_t size)
{
    size_t head, length;
    if (size < 4)
        return 0;
    if (bytes[0] == DATA)
        head = 16;
    else if (bytes[0] == I_DATA)
        head = 20;
    else
        return 0;
    length = (size_t)number(bytes + 2, 2);
    if (length <= head)
        return 0;
    return (length + 3) / 4 * 4 == size ? head : 0;
}

static void fields(const uint8_t *bytes, size_t head)
{
    int interleaved = head == 20, first = (bytes[1] & 2) != 0;
    MUST(chunk[DSQ_CHUNK_KIND] == (interleaved ? DSQ_CHUNK_I_DATA : DSQ_CHUNK_DATA));
    MUST(chunk[DSQ_CHUNK_TSN] == number(bytes + 4, 4) && chunk[DSQ_CHUNK_PAYLOAD_AT] == head);
    MUST(out[DSQ_OUT_LENGTH] == number(bytes + 2, 2) - head && out[DSQ_OUT_STREAM_ID] == number(bytes + 8, 2));
    MUST(out[DSQ_OUT_UNORDERED] == ((bytes[1] & 4) != 0) && out[DSQ_OUT_FIRST] == (uint64_t)first && out[DSQ_OUT_LAST] == (bytes[1] & 1));
    MUST(out[DSQ_OUT_SSN] == (interleaved ? 0 : number(bytes + 10, 2)));
    MUST(out[DSQ_OUT_MID] == (interleaved ? number(bytes + 12, 4) : 0));
    MUST(out[DSQ_OUT_FSN] == (interleaved && !first ? number(bytes + 16, 4) : 0));
    MUST(out[DSQ_OUT_PPID] == (!interleaved ? number(bytes + 12, 4) : first ? number(bytes + 16, 4) : 0));
    MUST(out[DSQ_OUT_VALUE] == 1 && out[DSQ_OUT_EVENTS] == 0 && out[DSQ_OUT_MESSAGE_ID] == 0 && out[DSQ_OUT_LIFECYCLE_ID] == 0);
}

static void rewritten(uint8_t *bytes, size_t size, size_t head)
{
    size_t length = (size_t)out[DSQ_OUT_LENGTH];
    if (length > DSQ_MAX_CHUNK_PAYLOAD)
        return;
    MUST(dsq_write_chunk(again, sizeof again, bytes + head, length, untold, (uint8_t)chunk[DSQ_CHUNK_KIND], (uint32_t)chunk[DSQ_CHUNK_TSN],
                         (uint16_t)out[DSQ_OUT_STREAM_ID], (uint8_t)out[DSQ_OUT_UNORDERED], (uint16_t)out[DSQ_OUT_SSN],
                         (uint32_t)out[DSQ_OUT_MID], (uint32_t)out[DSQ_OUT_FSN], (uint32_t)out[DSQ_OUT_PPID],
                         (uint8_t)out[DSQ_OUT_FIRST], (uint8_t)out[DSQ_OUT_LAST]) == 0);
    MUST(untold[DSQ_OUT_VALUE] == size);
    bytes[1] &= 7;
    if (head == 20)
        bytes[10] = bytes[11] = 0;
    memset(bytes + head + length, 0, size - head - length);
    MUST(memcmp(again, bytes, size) == 0);
}

int LLVMFuzzerTestOneInput(const uint8_t *data, size_t size)
{
    uint8_t *bytes = copied(data, size);
    size_t head = header(bytes, size);
    memset(out, MARK, sizeof out);
    memset(untold, MARK, sizeof untold);
    MUST(dsq_read_chunk(bytes, size, out, chunk) == (head ? DSQ_ACCEPTED : DSQ_CHUNK_WRONG));
    if (head) {
        fields(bytes, head);
        rewritten(bytes, size, head);
    } else {
        MUST(memcmp(out, untold, sizeof out) == 0);
    }
    free(bytes);
    return 0;
}
