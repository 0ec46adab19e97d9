/* Hard use of the receiving head's C interface: random chunks, some of them damaged, on a receiver, on words that somebody has damaged, with
 * stores of other lengths and bytes, and buffers of any length. Meant to run under valgrind (scripts/hard): every array that is lent ends where its block ends.
 *
 * usage: hard_receiver [CALLS] [SEED]
 *
 * It ends when so many calls were on damaged words; those on the words of a receiver come on top. Each answer must be one of those that the
 * header lists behind the function, 16 on damaged words alone, and what is told must be in its range; at every refusal, every repeat and
 * every fetch that finds none, store, buffer, out-array and the words that a receiver with few rows uses are compared with what they were
 * before the call, at one in 16 all words. */
#include "receiver.h"

#include <stdio.h>
#include <stdlib.h>
#include <string.h>

#define STORE 3000
#define BUFFER 1500
#define CHUNK 420
#define WORD_BYTES (DSR_RECEIVER_WORDS * sizeof(uint64_t))
#define OUT_BYTES (DSR_OUT_WORDS * sizeof(uint64_t))
/* Calls on words once they are damaged. */
#define ON_DAMAGED 40
/* At one call in so many all words are compared with the copy; at the others those that a receiver with few rows uses. */
#define WHOLE 16

static uint64_t seed = 1;

static uint64_t next(void) {
    seed ^= seed << 13;
    seed ^= seed >> 7;
    seed ^= seed << 17;
    return seed;
}

static uint64_t below(uint64_t n) {
    return next() % n;
}

static void *block(size_t bytes) {
    void *p = calloc(bytes ? bytes : 1, 1);
    if (!p) {
        fprintf(stderr, "hard_receiver: no memory\n");
        exit(2);
    }
    return p;
}

/* Numbers at which something may go wrong. */
static uint64_t odd_number(void) {
    static const uint64_t some[] = {0, 1, 2, 3, 255, 256, 257, 1023, 1024, 1025, STORE - 1, STORE, STORE + 1, 4095, 4096, 4097, 65535, 65536, 83471, 83472, 2000000,
        UINT32_MAX, UINT64_C(4294967296), UINT64_MAX >> 1, UINT64_MAX - 1, UINT64_MAX};
    return below(4) ? some[below(sizeof some / sizeof *some)] : next();
}

/* The tables of the words: where each begins, and the words of its first few rows, which are used most. */
struct part {
    size_t at, length;
};

static const struct part used[] = {{0, 16}, {16, 24}, {528, 64}, {1552, 3 * 4096}, {13840, 9 * 160}, {50704, 8 * 160}};
#define PARTS (sizeof used / sizeof *used)

/* All that is lent, and what it was before the call. */
struct lent {
    uint64_t *words, *out;
    uint8_t *store, *buffer;
};

static struct lent now, was;
static size_t store_length = STORE;
static uint8_t kind;
static uint32_t first_tsn;
static uint64_t reached;
static int damaged, whole;
/* Whether the chunk came damaged: a byte of it changed, or cut. */
static int spoiled;

static struct lent lend(void) {
    struct lent l;
    l.words = block(WORD_BYTES);
    l.out = block(OUT_BYTES);
    l.store = block(STORE);
    l.buffer = block(BUFFER);
    return l;
}

static void keep(void) {
    size_t i;
    if (whole)
        memcpy(was.words, now.words, WORD_BYTES);
    else
        for (i = 0; i < PARTS; i++)
            memcpy(was.words + used[i].at, now.words + used[i].at, used[i].length * sizeof(uint64_t));
    memcpy(was.out, now.out, OUT_BYTES);
    memcpy(was.store, now.store, STORE);
    memcpy(was.buffer, now.buffer, BUFFER);
}

static int words_changed(void) {
    size_t i;
    if (whole)
        return memcmp(was.words, now.words, WORD_BYTES) != 0;
    for (i = 0; i < PARTS; i++)
        if (memcmp(was.words + used[i].at, now.words + used[i].at, used[i].length * sizeof(uint64_t)))
            return 1;
    return 0;
}

/* Of the out-array a call that is not refused tells the value. */
static int changed(int refused) {
    if (!refused)
        was.out[DSR_OUT_VALUE] = now.out[DSR_OUT_VALUE];
    return words_changed() || memcmp(was.out, now.out, OUT_BYTES) || memcmp(was.store, now.store, STORE) || memcmp(was.buffer, now.buffer, BUFFER);
}

static size_t a_store(void) {
    return below(32) ? store_length : (size_t)below(STORE + 1);
}

static void big(uint8_t *at, uint64_t value, int bytes) {
    for (; bytes > 0; bytes--, value >>= 8)
        at[bytes - 1] = (uint8_t)value;
}

/* A fragment of the messages of three fragments that a sender gives the receiver: mostly one of the 32 TSNs from `reached` on, which moves on.
 * Tells how far it is past the first. */
static uint64_t a_place(void) {
    if (below(6) == 0)
        reached++;
    return below(16) ? reached + below(32) : below(2) ? reached + below(1100) : next();
}

/* Its chunk, on few streams with low numbers, so that messages become whole; at times with something of it another. Tells its length. */
static size_t a_chunk(uint8_t bytes[CHUNK]) {
    uint8_t of = below(64) ? kind : !kind;
    uint64_t near = a_place(), message = near / 3, marks = near % 3;
    size_t header = of ? 20 : 16, payload = 1 + (size_t)(below(16) ? near % 24 : below(380)), length = header + payload, end = (length + 3) / 4 * 4, i;
    memset(bytes, 0, CHUNK);
    bytes[0] = of ? 64 : 0;
    bytes[1] = (uint8_t)((message % 3 == 2) * 4 + (marks == 0) * 2 + (marks == 2));
    if (below(32) == 0)
        bytes[1] = (uint8_t)next();
    big(bytes + 2, length, 2);
    big(bytes + 4, first_tsn + near, 4);
    big(bytes + 8, below(32) ? message % 3 : next(), 2);
    if (of) {
        big(bytes + 12, below(32) ? message / 3 : next(), 4);
        big(bytes + 16, below(32) ? marks : next(), 4);
    } else {
        big(bytes + 10, below(32) ? message / 3 : next(), 2);
        big(bytes + 12, 53, 4);
    }
    for (i = 0; i < payload; i++)
        bytes[header + i] = (uint8_t)(near + i);
    spoiled = below(16) == 0;
    if (spoiled)
        bytes[below(end)] ^= (uint8_t)(1 + below(255));
    if (below(16))
        return end;
    spoiled = 1;
    return (size_t)below(end);
}

static uint32_t receive(void) {
    uint8_t any[CHUNK], *bytes;
    uint32_t r;
    size_t length = a_chunk(any), store = a_store();
    bytes = block(length);
    memcpy(bytes, any, length);
    r = dsr_receive(now.words, now.store + (STORE - store), store, bytes, length, now.out);
    free(bytes);
    return r;
}

static uint32_t fetch(void) {
    size_t length = below(4) ? BUFFER : (size_t)below(BUFFER + 1), store = a_store();
    return dsr_fetch(now.words, now.store + (STORE - store), store, now.buffer + (BUFFER - length), length, now.out);
}

static uint32_t create(void) {
    size_t length = below(8) ? STORE - (size_t)below(2) * 2400 : (size_t)below(STORE + 1);
    uint8_t of = below(2) ? (uint8_t)(1 + below(255)) : 0;
    uint32_t r;
    uint32_t tsn = below(2) ? UINT32_MAX - (uint32_t)below(40) : (uint32_t)next();
    r = dsr_create(now.words, now.store + (STORE - length), length, of, tsn);
    if (r == 0) {
        store_length = length;
        kind = of != 0;
        first_tsn = tsn;
        reached = 0;
        damaged = 0;
    }
    return r;
}

enum call { RECEIVE, FETCH, CREATE, CALLS };

#define N(k) (UINT32_C(1) << (k))

/* The refusals that the header lists behind each function. */
static const uint32_t listed[CALLS] = {
    [RECEIVE] = N(2) | N(16) | N(19) | N(22) | N(23) | N(24),
    [FETCH] = N(2) | N(10) | N(16),
    [CREATE] = N(2),
};

/* What a call that is not refused tells is in its range. */
static int right_out(enum call k) {
    if (k == CREATE)
        return 1;
    if (now.out[DSR_OUT_VALUE] > 1)
        return 0;
    return k == RECEIVE || now.out[DSR_OUT_VALUE] == 0
        || (now.out[DSR_OUT_LENGTH] <= BUFFER && now.out[DSR_OUT_STREAM_ID] <= UINT16_MAX && now.out[DSR_OUT_UNORDERED] <= 1 && now.out[DSR_OUT_PPID] <= UINT32_MAX);
}

/* A place of a word, mostly of one that is in use: it is not 0. */
static uint64_t a_word(void) {
    const struct part *p = &used[below(PARTS)];
    uint64_t tries = 64, at;
    do
        at = p->at + below(p->length);
    while (now.words[at] == 0 && --tries > 0);
    return below(8) ? at : below(DSR_RECEIVER_WORDS);
}

/* Some words become others. */
static void damage(void) {
    uint64_t i;
    for (i = 1 + below(6); i > 0; i--) {
        uint64_t at = a_word();
        now.words[at] = below(2) ? odd_number() : now.words[used[below(PARTS)].at + below(16)];
    }
    if (below(4) == 0)
        now.store[below(STORE)] ^= (uint8_t)(1 + below(255));
}

static void wrong(long calls, enum call k, uint32_t r, const char *what) {
    printf("hard_receiver: call %ld of kind %d answers %u%s\n", calls, (int)k, r, what);
    exit(1);
}

/* One call, looked at. Tells its answer. */
static uint32_t looked_at(long calls, enum call k) {
    int were_damaged = damaged;
    uint32_t r;
    whole = below(WHOLE) == 0;
    keep();
    r = k == RECEIVE ? receive() : k == FETCH ? fetch() : create();
    if (r != 0 && (r > 31 || !(listed[k] >> r & 1)))
        wrong(calls, k, r, ", which is not listed");
    if (r == DSR_WORDS_BROKEN && !were_damaged)
        wrong(calls, k, r, " on the words of a receiver");
    if (r == 0 && !right_out(k))
        wrong(calls, k, r, " and tells what is out of range");
    if ((r != 0 || (k != CREATE && now.out[DSR_OUT_VALUE] == 0)) && changed(r != 0))
        wrong(calls, k, r, ", and something has changed");
    return r;
}

int main(int argc, char **argv) {
    long wanted = argc > 1 ? atol(argv[1]) : 1000000, n, calls, left = 0, on_damaged = 0, chunks = 0, accepted = 0, messages = 0, refused[32] = {0};
    struct lent good;
    uint64_t good_reached = 0;
    if (argc > 2)
        seed = (uint64_t)atol(argv[2]) * 2 + 1;
    if (dsr_layout() != DSR_LAYOUT)
        return 2;
    now = lend();
    was = lend();
    good = lend();
    if (dsr_create(now.words, now.store, STORE, 0, first_tsn) != 0)
        return 1;
    for (calls = 0; on_damaged < wanted; calls++) {
        enum call k = below(4) ? RECEIVE : FETCH;
        uint32_t r;
        if (left > 0) {
            if (--left == 0) { /* back to the words of a receiver */
                memcpy(now.words, good.words, WORD_BYTES);
                memcpy(now.store, good.store, STORE);
                reached = good_reached;
                damaged = 0;
            }
        } else if (below(12) == 0) {
            memcpy(good.words, now.words, WORD_BYTES);
            memcpy(good.store, now.store, STORE);
            good_reached = reached;
            damage();
            damaged = 1;
            left = ON_DAMAGED;
        } else if (below(200) == 0) {
            k = CREATE;
        }
        on_damaged += damaged;
        spoiled = 0;
        r = looked_at(calls, k);
        chunks += spoiled;
        if (r != 0)
            refused[r]++;
        else
            accepted++;
        messages += k == FETCH && r == 0 && now.out[DSR_OUT_VALUE] == 1;
    }
    printf("hard_receiver: %ld calls, %ld of them on damaged words, %ld with a damaged chunk; %ld accepted, %ld messages; refused", calls, on_damaged, chunks, accepted, messages);
    for (n = 1; n < 32; n++)
        if (refused[n])
            printf(" %ld:%ld", n, refused[n]);
    printf("; every answer is listed, a refused call changed nothing\n");
    return 0;
}
