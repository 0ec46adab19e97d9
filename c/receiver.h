/* The receiving head for a host in C99 or C++: link it with libreceiver_c.a, or with libdesqariy.so (see send_queue.h). DATA or
 * I-DATA chunks go in, in any order and with repeats; the messages that they carry come out. Of the C library it uses memcpy, memmove and
 * memset. It allocates nothing and keeps nothing: all of a receiver is in the words and the store that the host lends to each call.
 *
 * The functions are proved: on any words, any store and any bytes they return, they read and write inside what is lent to them only, and
 * a refused call changes nothing, in no array. And where all fragments of a new send queue, fewer than 2^31 of them, are written as chunks
 * with consecutive TSNs from the starting TSN on, and every message was sent whole, without a drop, reset, closing or restoring (for DATA
 * without interleaving), then, received in any order with repeats and none refused, each message is fetched exactly once, and the ordered
 * ones of a stream come in the order in which they were added. What a host must keep, since no proof of theirs can see it:
 *
 *   - Every pointer is valid for as many elements as the array or the length beside it says, and aligned for its type. None is null,
 *     not even one to no bytes.
 *   - What it points to has been written before (all zeroes will do; what is in it does not matter).
 *   - No two arguments of a call overlap, and nobody else writes to them while it runs.
 *   - The words of a receiver, from creation on, and the bytes of its store are changed by these functions only, and each call gets both
 *     as the last one left them. The words hold no pointer: between two calls words and store may be moved or copied.
 *   - 4 KB of stack: a call takes at most that (measured: c/told.c). The functions have no unwind tables: a report of a crash in one does not
 *     show who called it.
 *
 * The library and this header belong together: a host compiled with a header of another layout does not link (dsr_layout_2 below).
 * A flag that is passed in is 0 for no and anything else for yes; one that is told is 0 or 1.
 *
 * A receiver knows no resets of streams: where its sender counts from 0 again, a new receiver is needed. */
#ifndef DSR_RECEIVER_H
#define DSR_RECEIVER_H

#include <stddef.h>
#include <stdint.h>

#include "desqariy_host.h"

#ifdef __cplusplus
extern "C" {
#endif

/* The layout that a host with this header is compiled for: the words of a receiver and of an out-array, what each place means, and the
 * arguments of the functions. It moves when one of these does. In layout 1 functions returned 8 bits, and the
 * rest of the register meant nothing. */
#define DSR_LAYOUT 2

/* The words of a receiver. */
#define DSR_RECEIVER_WORDS 83472

/* The most that a receiver takes. */
#define DSR_MAX_STORE 2000000
#define DSR_MAX_FRAGMENTS 4096
#define DSR_MAX_STREAMS 256
/* How far a TSN may be past the last one received without a gap. */
#define DSR_WINDOW 1024

/* What a function returns: 0 where it is not refused, else the refusal. Of several that apply the first is given, in the order that stands
 * at the function. */
enum dsr_refusal {
    DSR_ACCEPTED = 0,
    /* The store is outside 1 to 2,000,000 bytes at creation, or not of its creation length later. */
    DSR_STORE_WRONG = 2,
    /* The buffer is shorter than the message. */
    DSR_BUFFER_SHORT = 10,
    /* The words are not those of a receiver: somebody else wrote into them. From creation on no call of these functions leads to it. */
    DSR_WORDS_BROKEN = 16,
    /* The bytes are not one chunk of the receiver's kind with payload and padding. */
    DSR_CHUNK_WRONG = 19,
    /* The TSN is more than 1,024 past the last one received without a gap. */
    DSR_TSN_FAR = 22,
    /* The payload is longer than the free store, or it would be the 4,097th held fragment or from the 257th stream. */
    DSR_RECEIVER_FULL = 23,
    /* A fragment at a TSN that is held differs in payload or a field read. */
    DSR_FRAGMENT_OTHER = 24
};

/* The places of an out-array. A call that is not refused writes those that are named at it; the others stay. A refused call leaves all as they
 * were: the array then still tells of the call before, so look at the number first. */
enum dsr_out {
    DSR_OUT_VALUE = 0, /* 1 for a chunk accepted or a message, 0 for a repeat or where none is ready */
    /* What goes with a message. */
    DSR_OUT_LENGTH = 1,    /* its bytes, at the buffer's start */
    DSR_OUT_STREAM_ID = 2, /* 16 bits */
    DSR_OUT_UNORDERED = 3, /* a flag */
    DSR_OUT_PPID = 4       /* its first fragment's payload protocol id, 32 bits */
};

/* How many places an out-array has. */
#define DSR_OUT_WORDS 5

/* The library's DSR_LAYOUT. */
uint64_t dsr_layout(void);

/* The same under a name that moves with the layout. */
uint64_t dsr_layout_2(void);

/* Every object that was compiled with this header names that function: with a library of another layout it does not link. */
DSQ_LINKED_WITH(dsr_layout_2);

/* Makes a new receiver of the words, for I-DATA chunks or, where i_data is 0, for DATA chunks; its first TSN is starting_tsn. The store
 * has 1 to 2,000,000 bytes, and every later call gets it with the same length. (2) */
DSQ_MUST_USE
uint32_t dsr_create(uint64_t receiver[DSR_RECEIVER_WORDS], const uint8_t *store, size_t store_length, uint8_t i_data, uint32_t starting_tsn);

/* Takes the chunk that the bytes are, with its padding, and nothing behind it. Tells VALUE: 1 where it is accepted, 0 for a repeat, which
 * changes nothing. A chunk that is refused with 22 or 23 may be received again later, when a gap was closed or a message was fetched.
 * (2, 19, 24, repeats, 22, 23; 16) */
DSQ_MUST_USE
uint32_t dsr_receive(uint64_t receiver[DSR_RECEIVER_WORDS], uint8_t *store, size_t store_length, const uint8_t *bytes, size_t bytes_length,
                     uint64_t out[DSR_OUT_WORDS]);

/* Copies the message that is ready first to the buffer's start and frees it; the rest of the buffer stays. Unordered messages are ready
 * when complete, ordered ones when also next in their stream. Tells VALUE, 1, and LENGTH, STREAM_ID, UNORDERED and PPID; VALUE alone, 0,
 * where none is ready. No message is longer than the store. (2, 10; 16) */
DSQ_MUST_USE
uint32_t dsr_fetch(uint64_t receiver[DSR_RECEIVER_WORDS], const uint8_t *store, size_t store_length, uint8_t *buffer, size_t buffer_length,
                   uint64_t out[DSR_OUT_WORDS]);

#ifdef __cplusplus
}
#endif

#endif
