/* Images: the reader of dsq_restore beside document 01's rules. The first byte chooses the rule of a restart, the rest is the image. One that
 * is accepted is saved again byte for byte; a refused one has changed nothing. */
#include "target.h"

enum { STORE = 3000, PRIORITY = 256, TRAILER = 20, STREAM = 14, RECORD = 44 };

static uint64_t fresh[DSQ_QUEUE_WORDS], queue[DSQ_QUEUE_WORDS], out[DSQ_OUT_WORDS];
static uint8_t blank[STORE], store[STORE], again[DSQ_MAX_IMAGE(STORE)];

/* What is counted for 15. */
struct counts {
    uint64_t streams, messages, bytes;
};

static int streams_right(const uint8_t *image, uint64_t n, uint64_t priority)
{
    uint64_t k;
    for (k = 0; k < n; k++) {
        const uint8_t *s = image + STREAM * k;
        if (k && number(s - STREAM, 2) >= number(s, 2))
            return 0;
        if (number(s + 2, 2) == 0 && number(s + 4, 4) == 0 && number(s + 8, 4) == 0 && number(s + 12, 2) == priority)
            return 0;
    }
    return 1;
}

static int message_right(const uint8_t *m, const uint8_t *before, int strict)
{
    uint64_t flags = m[2], left = number(m + 8, 4), ssn = number(m + 14, 2), mid = number(m + 16, 4), fsn = number(m + 20, 4);
    uint64_t offset = number(m + 36, 4), length = number(m + 40, 4);
    int given = (flags & 2) != 0;
    if (before && number(before, 2) > number(m, 2))
        return 0;
    if (flags > 7 || m[3] != 0)
        return 0;
    if (length < 1 || length > 262144 || offset >= length)
        return 0;
    if (left > ((flags & 4) ? UINT64_C(2147483647) : 0))
        return 0;
    if (!given && (mid || ssn || fsn || offset))
        return 0;
    if ((flags & 1) && ssn)
        return 0;
    if (given && before && number(before, 2) == number(m, 2))
        return 0;
    if (strict && given && offset == 0)
        return 0;
    return 1;
}

static int named(const uint8_t *image, uint64_t n, uint64_t id)
{
    uint64_t k;
    for (k = 0; k < n; k++)
        if (number(image + STREAM * k, 2) == id)
            return 1;
    return 0;
}

/* The refusal by the documents, 0 for none. */
static uint32_t judged(const uint8_t *image, size_t size, int strict)
{
    const uint8_t *trailer, *m, *end, *before = NULL;
    uint64_t streams, bytes, priority;
    struct counts c = {0, 0, 0};
    if (size < TRAILER)
        return DSQ_IMAGE_WRONG;
    trailer = image + size - TRAILER;
    priority = number(trailer + 4, 2);
    streams = number(trailer + 6, 2);
    bytes = number(trailer + 12, 4);
    if (number(trailer + 10, 2) != 1 || number(trailer + 16, 4) != STREAM * streams)
        return DSQ_IMAGE_WRONG;
    if (STREAM * streams + bytes + TRAILER != size)
        return DSQ_IMAGE_WRONG;
    if (!streams_right(image, streams, priority))
        return DSQ_IMAGE_WRONG;
    c.streams = streams;
    end = trailer;
    for (m = image + STREAM * streams; m < end; m += RECORD + number(m + 40, 4)) {
        if (end - m < RECORD || !message_right(m, before, strict) || number(m + 40, 4) > (uint64_t)(end - m - RECORD))
            return DSQ_IMAGE_WRONG;
        if (!(before && number(before, 2) == number(m, 2)) && !named(image, streams, number(m, 2)))
            c.streams++;
        c.messages++;
        c.bytes += number(m + 40, 4);
        before = m;
    }
    if (c.messages != number(trailer + 8, 2))
        return DSQ_IMAGE_WRONG;
    if (priority != PRIORITY)
        return DSQ_PRIORITY_OTHER;
    return c.streams > 256 || c.messages > 1024 || c.bytes > STORE ? DSQ_IMAGE_LARGE : DSQ_ACCEPTED;
}

int LLVMFuzzerTestOneInput(const uint8_t *data, size_t size)
{
    uint8_t *image, refusal;
    int strict;
    if (size < 1)
        return 0;
    strict = data[0] & 1;
    image = copied(data + 1, size - 1);
    MUST(dsq_create(fresh, blank, STORE, 1200, PRIORITY, 0, 0, 1, (uint8_t)strict) == 0);
    memcpy(queue, fresh, sizeof queue);
    memcpy(store, blank, sizeof store);
    refusal = dsq_restore(queue, store, STORE, image, size - 1, 1);
    MUST(refusal == judged(image, size - 1, strict));
    if (refusal) {
        MUST(memcmp(queue, fresh, sizeof queue) == 0 && memcmp(store, blank, sizeof store) == 0);
    } else {
        MUST(dsq_save(queue, store, STORE, again, sizeof again, out, 1) == 0);
        MUST(out[DSQ_OUT_VALUE] == size - 1 && memcmp(again, image, size - 1) == 0);
    }
    free(image);
    return 0;
}
