/* Answers the receiving head's lines of a trace (H, V, D, G), as the reference does, from the functions of c/receiver.h; and holds every
 * refused call, every repeat and every fetch that finds none to having changed nothing, in no array.
 *
 * usage: receiver < TRACE > ANSWERS     (exit status 1 where a call changed what it must not, 2 for a malformed trace) */
#include <stdio.h>
#include <stdlib.h>
#include <string.h>

#include "receiver.h"

#define MAX_BYTES 70000
#define MAX_BUFFER 2100000
#define MAX_LINE 300000
/* So many bytes of a message are shown. */
#define SHOWN 128
/* Every byte of a buffer before a call. */
#define FILLER 165

static uint64_t words[DSR_RECEIVER_WORDS], words_before[DSR_RECEIVER_WORDS];
static uint8_t store[MAX_BUFFER], store_before[MAX_BUFFER];
static uint8_t buffer[MAX_BUFFER];
static uint8_t bytes[MAX_BYTES];
static char line[MAX_LINE];
static uint64_t out[DSR_OUT_WORDS], out_before[DSR_OUT_WORDS];
static size_t store_length;
static int receiver_there;
static unsigned long calls;

static void malformed(void)
{
    fprintf(stderr, "malformed: %.60s\n", line);
    exit(2);
}

static void changed(const char *what)
{
    fprintf(stderr, "call %lu changed %s: %.60s\n", calls, what, line);
    exit(1);
}

static void keep(void)
{
    memcpy(words_before, words, sizeof words);
    memcpy(store_before, store, store_length);
    memcpy(out_before, out, sizeof out);
}

/* Nothing is changed; of the out-array the value may be told. */
static void unchanged(int refused)
{
    if (memcmp(words_before, words, sizeof words))
        changed("the words");
    if (memcmp(store_before, store, store_length))
        changed("the store");
    if (memcmp(out_before + !refused, out + !refused, sizeof out - (refused ? 0 : sizeof out[0])))
        changed("the out-array");
}

static uint32_t sum_of(const uint8_t *data, size_t n)
{
    uint32_t s = 17;
    for (size_t i = 0; i < n; i++)
        s = s * 31 + data[i];
    return s;
}

static size_t pattern(size_t at, unsigned long long n, unsigned long long seed)
{
    uint32_t x = (uint32_t)(seed % 2147483648u);
    for (; n > 0; n--) {
        x = (uint32_t)(((uint64_t)x * 1103515245u + 12345u) % 2147483648u);
        if (at >= MAX_BYTES)
            malformed();
        bytes[at++] = (uint8_t)(x / 65536 % 256);
    }
    return at;
}

/* Parts joined by '+': hexadecimal, or LENGTH*SEED; '-' for no bytes. */
static size_t read_bytes(char *text)
{
    size_t at = 0;
    if (strcmp(text, "-") == 0)
        return 0;
    for (char *part = strtok(text, "+"); part; part = strtok(NULL, "+")) {
        unsigned long long n, seed;
        unsigned pair;
        if (strchr(part, '*')) {
            if (sscanf(part, "%llu*%llu", &n, &seed) != 2)
                malformed();
            at = pattern(at, n, seed);
            continue;
        }
        for (; part[0]; part += 2) {
            if (at >= MAX_BYTES || !part[1] || sscanf(part, "%2x", &pair) != 1)
                malformed();
            bytes[at++] = (uint8_t)pair;
        }
    }
    return at;
}

static void create(void)
{
    unsigned kind, tsn;
    unsigned long long length;
    uint32_t r;
    if (sscanf(line, "H %u %u %llu", &kind, &tsn, &length) != 3 || length > MAX_BUFFER)
        malformed();
    memset(store, 0, sizeof store);
    store_length = (size_t)length;
    keep();
    r = dsr_create(words, store, store_length, (uint8_t)kind, tsn);
    if (r)
        unchanged(1);
    receiver_there = r == 0;
    printf("H %u\n", r);
}

static void receive(void)
{
    size_t n = read_bytes(line + 2);
    uint32_t r;
    keep();
    r = dsr_receive(words, store, store_length, bytes, n, out);
    if (r || !out[DSR_OUT_VALUE])
        unchanged(r);
    if (r)
        printf("D %u\n", r);
    else
        printf("D 0 %u\n", (unsigned)out[DSR_OUT_VALUE]);
}

static void show_message(size_t length)
{
    size_t n = (size_t)out[DSR_OUT_LENGTH];
    printf("G 0 1 %u %u %u %u %u", (unsigned)out[DSR_OUT_STREAM_ID], (unsigned)out[DSR_OUT_UNORDERED], (unsigned)out[DSR_OUT_PPID],
           (unsigned)n, sum_of(buffer, length));
    if (n >= 1 && n <= SHOWN) {
        printf(" ");
        for (size_t i = 0; i < n; i++)
            printf("%02x", buffer[i]);
    }
    printf("\n");
}

static void fetch(void)
{
    unsigned long long length;
    uint32_t r;
    if (sscanf(line, "G %llu", &length) != 1 || length > MAX_BUFFER)
        malformed();
    memset(buffer, FILLER, (size_t)length);
    keep();
    r = dsr_fetch(words, store, store_length, buffer, (size_t)length, out);
    if (r || !out[DSR_OUT_VALUE]) {
        unchanged(r);
        for (size_t i = 0; i < length; i++)
            if (buffer[i] != FILLER)
                changed("the buffer");
    }
    if (r)
        printf("G %u\n", r);
    else if (out[DSR_OUT_VALUE])
        show_message((size_t)length);
    else
        printf("G 0 0\n");
}

static void lend(void)
{
    unsigned long long length;
    if (sscanf(line, "V %llu", &length) != 1 || length > MAX_BUFFER)
        malformed();
    store_length = (size_t)length;
    printf("V\n");
}

int main(void)
{
    if (dsr_layout() != DSR_LAYOUT)
        return 2;
    while (fgets(line, sizeof line, stdin)) {
        line[strcspn(line, "\n")] = 0;
        calls++;
        if (line[0] == 'H')
            create();
        else if (!receiver_there)
            malformed();
        else if (line[0] == 'V')
            lend();
        else if (line[0] == 'D' && line[1] == ' ')
            receive();
        else if (line[0] == 'G')
            fetch();
        else
            malformed();
    }
    return 0;
}
