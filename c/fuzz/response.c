/* Responses: dsq_handle_reset_response beside document 02, 9/13. The first byte chooses whether a request is underway, the next four its
 * number, the rest is the response. A committed or rolled back request is over and its stream open; else queue and handler are as before. */
#include "target.h"

enum { STORE = 64, STREAM = 3, RE_CONFIG = 130, RESPONSE = 16, BYTES = 16 };

static uint64_t queue[DSQ_QUEUE_WORDS], before[DSQ_QUEUE_WORDS], events[DSQ_EVENT_WORDS], out[DSQ_OUT_WORDS];
static uint8_t store[STORE], request[DSQ_MAX_RESET_REQUEST];
static uint32_t handler[DSQ_HANDLER_NUMBERS], numbers[DSQ_HANDLER_NUMBERS];

static int right(const uint8_t *bytes, size_t size)
{
    if (size != BYTES)
        return 0;
    if (bytes[0] != RE_CONFIG)
        return 0;
    if (number(bytes + 2, 2) != BYTES)
        return 0;
    if (number(bytes + 4, 2) != RESPONSE)
        return 0;
    if (number(bytes + 6, 2) != BYTES - 4)
        return 0;
    return number(bytes + 12, 4) <= 6;
}

/* What a response that keeps the rules leads to. */
static uint64_t led_to(const uint8_t *bytes, int underway, uint32_t asked)
{
    uint64_t result = number(bytes + 12, 4);
    if (!underway || number(bytes + 8, 4) != asked)
        return DSQ_RESPONSE_IGNORED;
    if (result <= 1)
        return DSQ_RESPONSE_COMMITTED;
    return result <= 5 ? DSQ_RESPONSE_ROLLED_BACK : DSQ_RESPONSE_WAITING;
}

/* A queue with one stream closed, and the request for it made or not. */
static void prepared(int underway, uint32_t asked)
{
    static const uint8_t payload[1] = {7};
    MUST(dsq_create(queue, store, STORE, 1200, 256, 0, 0, 1, DSQ_RESTART_DCSCTP) == 0);
    MUST(dsq_add(queue, store, STORE, payload, 1, 1, STREAM, 53, 0, 0, 0, 0, 0, 0) == 0);
    MUST(dsq_prepare_reset_stream(queue, events, DSQ_EVENT_WORDS, out, STREAM) == 0);
    MUST(dsq_start_reset_handler(handler, asked) == 0);
    if (underway)
        MUST(dsq_make_reset_request(queue, handler, request, sizeof request, out, 1, 2) == 0 && out[DSQ_OUT_VALUE] == 24);
    memcpy(before, queue, sizeof before);
    memcpy(numbers, handler, sizeof numbers);
}

int LLVMFuzzerTestOneInput(const uint8_t *data, size_t size)
{
    uint8_t *bytes, refusal;
    int underway, ok;
    uint32_t asked;
    if (size < 5)
        return 0;
    underway = data[0] & 1;
    asked = (uint32_t)number(data + 1, 4);
    bytes = copied(data + 5, size - 5);
    ok = right(bytes, size - 5);
    prepared(underway, asked);
    refusal = dsq_handle_reset_response(queue, handler, bytes, size - 5, out);
    MUST(refusal == (ok ? DSQ_ACCEPTED : DSQ_RESPONSE_WRONG));
    if (ok)
        MUST(out[DSQ_OUT_VALUE] == led_to(bytes, underway, asked));
    if (ok && (out[DSQ_OUT_VALUE] == DSQ_RESPONSE_COMMITTED || out[DSQ_OUT_VALUE] == DSQ_RESPONSE_ROLLED_BACK)) {
        MUST(handler[DSQ_HANDLER_UNDERWAY] == 0 && handler[DSQ_HANDLER_NEXT] == numbers[DSQ_HANDLER_NEXT]);
        MUST(dsq_prepare_reset_stream(queue, events, DSQ_EVENT_WORDS, out, STREAM) == 0);
        MUST(dsq_count_streams_ready_to_reset(queue, out) == 0 && out[DSQ_OUT_VALUE] == 1);
    } else {
        MUST(memcmp(before, queue, sizeof before) == 0 && memcmp(numbers, handler, sizeof numbers) == 0);
    }
    free(bytes);
    return 0;
}
