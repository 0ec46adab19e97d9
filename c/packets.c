/* Packets (request 5/13) through the C interface.
 *
 *   packets capture COUNT SEED   fills COUNT packets of a queue and prints, for each, a line with the packet's bytes in hexadecimal, and a line for
 *                                each fragment that dsq_produce gives on a copy of the queue, asked as the packet asks (scripts/tshark-packets)
 *   packets speed                times a packet of 1,200 bytes by one filling, and by the separate calls: dsq_produce, dsq_write_chunk, the header */
#include "send_queue.h"

#include <stdio.h>
#include <stdlib.h>
#include <string.h>
#include <time.h>

enum { STORE = 2000000, ROOM = 65536, STREAMS = 8 };

struct queue {
    uint64_t words[DSQ_QUEUE_WORDS], events[DSQ_EVENT_WORDS], out[DSQ_OUT_WORDS];
    uint8_t *store;
};

static struct queue one, other;
static uint8_t packet[ROOM], buffer[ROOM], payload[ROOM];
static uint64_t state;

static uint64_t dice(uint64_t below)
{
    state = state * 6364136223846793005u + 1442695040888963407u;
    return (state >> 33) % below;
}

static void must(uint8_t answer, const char *call)
{
    if (answer != DSQ_ACCEPTED) {
        fprintf(stderr, "%s: refused with %u\n", call, answer);
        exit(2);
    }
}

static void create(struct queue *q, int interleaving)
{
    if (!q->store && !(q->store = malloc(STORE)))
        exit(2);
    must(dsq_create(q->words, q->store, STORE, 60000, 256, 0, 0, 1, 0), "create");
    must(dsq_enable_message_interleaving(q->words, (uint8_t)interleaving), "interleaving");
}

static void add(struct queue *q, uint64_t now, uint16_t stream, uint32_t ppid, uint8_t unordered, uint8_t lives, size_t length)
{
    must(dsq_add(q->words, q->store, STORE, payload, length, now, stream, ppid, unordered, lives, 3, 0, 0, 0), "add");
}

static void put(uint8_t *at, uint64_t value, int bytes)
{
    while (bytes--) {
        at[bytes] = (uint8_t)value;
        value >>= 8;
    }
}

/* A packet by separate calls. Its length; 0 where nothing waits. */
static size_t separately(struct queue *q, uint64_t now, size_t limit, int interleaving, uint32_t tsn, int shown)
{
    size_t header = interleaving ? 20 : 16, at = 12;
    const uint64_t *o = q->out;
    while (limit - at >= header + 4) {
        size_t size = (limit - at - header) / 4 * 4;
        if (size > 60000)
            size = 60000;
        must(dsq_produce(q->words, q->store, STORE, q->events, DSQ_EVENT_WORDS, buffer, ROOM, q->out, now, size), "produce");
        if (!o[DSQ_OUT_VALUE])
            break;
        if (shown)
            printf("F %d %u %llu %llu %llu %llu %llu %llu %llu %llu %llu\n", interleaving, (unsigned)tsn, (unsigned long long)o[DSQ_OUT_STREAM_ID],
                   (unsigned long long)o[DSQ_OUT_UNORDERED], (unsigned long long)o[DSQ_OUT_SSN], (unsigned long long)o[DSQ_OUT_MID],
                   (unsigned long long)o[DSQ_OUT_FSN], (unsigned long long)o[DSQ_OUT_PPID], (unsigned long long)o[DSQ_OUT_FIRST],
                   (unsigned long long)o[DSQ_OUT_LAST], (unsigned long long)o[DSQ_OUT_LENGTH]);
        else {
            uint64_t told[DSQ_OUT_WORDS];
            must(dsq_write_chunk(packet + at, limit - at, buffer, o[DSQ_OUT_LENGTH], told, (uint8_t)interleaving, tsn, (uint16_t)o[DSQ_OUT_STREAM_ID],
                                 (uint8_t)o[DSQ_OUT_UNORDERED], (uint16_t)o[DSQ_OUT_SSN], (uint32_t)o[DSQ_OUT_MID], (uint32_t)o[DSQ_OUT_FSN],
                                 (uint32_t)o[DSQ_OUT_PPID], (uint8_t)o[DSQ_OUT_FIRST], (uint8_t)o[DSQ_OUT_LAST]),
                 "write");
        }
        at += (header + o[DSQ_OUT_LENGTH] + 3) / 4 * 4;
        tsn++;
    }
    if (at == 12)
        return 0;
    put(packet, 5000, 2);
    put(packet + 2, 6000, 2);
    put(packet + 4, 0xdeadbeef, 4);
    put(packet + 8, 0, 4);
    return at;
}

static size_t filled(struct queue *q, uint64_t now, size_t limit, uint32_t tsn)
{
    must(dsq_fill_packet(q->words, q->store, STORE, q->events, DSQ_EVENT_WORDS, packet, ROOM, q->out, now, limit, 5000, 6000, 0xdeadbeef, tsn), "fill");
    return q->out[DSQ_OUT_LENGTH];
}

static void capture(unsigned long count, uint64_t seed)
{
    uint64_t now = 0;
    unsigned long done;
    int interleaving = 0;
    state = seed;
    for (done = 0; done < count;) {
        size_t limit = 36 + (dice(3) ? dice(1500) : dice(5000)), length, i;
        uint32_t tsn = dice(4) ? (uint32_t)dice(1ull << 31) : 0xffffffffu - (uint32_t)dice(3);
        if (done % 50 == 0) {
            interleaving = (int)dice(2);
            create(&one, interleaving);
            create(&other, interleaving);
        }
        while (dice(5)) {
            uint16_t stream = (uint16_t)(dice(4) ? dice(STREAMS) : 65535 - dice(STREAMS));
            uint32_t ppid = (uint32_t)dice(1ull << 31);
            uint8_t unordered = (uint8_t)dice(2), lives = !dice(8);
            size_t size = 1 + (dice(3) ? dice(60) : dice(4000));
            for (i = 0; i < size; i++)
                payload[i] = (uint8_t)dice(256);
            add(&one, now, stream, ppid, unordered, lives, size);
            add(&other, now, stream, ppid, unordered, lives, size);
        }
        now += dice(400000);
        length = filled(&one, now, limit, tsn);
        if (length) {
            printf("P ");
            for (i = 0; i < length; i++)
                printf("%02x", packet[i]);
            printf("\n");
            done++;
        }
        separately(&other, now, limit, interleaving, tsn, 1);
    }
}

static double seconds(void)
{
    struct timespec t;
    clock_gettime(CLOCK_MONOTONIC, &t);
    return (double)t.tv_sec + 1e-9 * (double)t.tv_nsec;
}

/* The least of 200 rounds of up to 20 packets, so that none runs empty: nanoseconds for a packet. */
static void timed(size_t length, int interleaving)
{
    double least[2] = {1e9, 1e9};
    int round, way;
    for (round = 0; round < 200; round++)
        for (way = 0; way < 2; way++) {
            struct queue *q = way ? &other : &one;
            unsigned packets = 0, i;
            double from, spent;
            create(q, interleaving);
            for (i = 0; i < 900 && i * length < 1900000; i++)
                add(q, 0, (uint16_t)(i % 4), 53, 0, 0, length);
            from = seconds();
            for (i = 0; i < 20; i++)
                packets += 0 != (way ? separately(q, 0, 1200, interleaving, i, 0) : filled(q, 0, 1200, i));
            spent = (seconds() - from) * 1e9 / packets;
            if (spent < least[way])
                least[way] = spent;
        }
    printf("%s, messages of %zu bytes: filled %.0f ns, separate calls %.0f ns, %.2f of it\n", interleaving ? "I-DATA" : "DATA", length, least[0],
           least[1], least[0] / least[1]);
}

int main(int count, char **words)
{
    static const size_t lengths[] = {16, 64, 100, 300, 500, 1168, 4000};
    size_t i;
    if (count == 4 && strcmp(words[1], "capture") == 0)
        capture(strtoul(words[2], 0, 10), strtoull(words[3], 0, 10));
    else if (count == 2 && strcmp(words[1], "speed") == 0)
        for (i = 0; i < sizeof lengths / sizeof *lengths; i++) {
            timed(lengths[i], 0);
            timed(lengths[i], 1);
        }
    else {
        fprintf(stderr, "usage: packets capture COUNT SEED | packets speed\n");
        return 2;
    }
    return 0;
}
