/* What the fuzz targets share. A target gives bytes to a proved reader and to a reader of its own, written from documents 01 and 02 alone;
 * where the two judge differently it stops the program. The fuzzer sees the target's reader, not the library, and is led by that. */
#ifndef FUZZ_TARGET_H
#define FUZZ_TARGET_H

#include "../send_queue.h"

#include <stdio.h>
#include <stdlib.h>
#include <string.h>

int LLVMFuzzerTestOneInput(const uint8_t *data, size_t size);

#define MUST(condition) must((condition) ? 1 : 0, __LINE__, #condition)

static inline void must(int holds, int line, const char *text)
{
    if (!holds) {
        fprintf(stderr, "line %d: %s does not hold\n", line, text);
        abort();
    }
}

/* Numbers are unsigned, high byte first. */
static inline uint64_t number(const uint8_t *at, size_t bytes)
{
    uint64_t n = 0;
    while (bytes--)
        n = n << 8 | *at++;
    return n;
}

/* The bytes at the end of a block of their own, so that valgrind sees a read past them. The caller frees. */
static inline uint8_t *copied(const uint8_t *data, size_t size)
{
    uint8_t *block = (uint8_t *)malloc(size ? size : 1);
    MUST(block != NULL);
    if (size)
        memcpy(block, data, size);
    return block;
}

#endif
