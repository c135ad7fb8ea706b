/* An input of the fuzzer, read as numbers and pieces. */
#ifndef FUZZ_INPUT_H
#define FUZZ_INPUT_H

#include <stdbool.h>
#include <stdint.h>
#include <stdlib.h>
#include <string.h>

static const uint8_t *input;
static size_t left;

static inline void must(bool is_so)
{
    if (!is_so)
        abort();
}

static inline uint8_t byte(void)
{
    if (left == 0)
        return 0;
    left--;
    return *input++;
}

/* A number: mostly small, sometimes any. */
static inline uint32_t number(void)
{
    uint8_t kind = byte();
    if (kind < 240)
        return kind;
    uint32_t value = 0;
    for (int i = 0; i < 4; i++)
        value = value << 8 | byte();
    return value;
}

/* A piece of the input, in a block of its own that ends where the piece ends. */
static inline uint8_t *piece(size_t *length)
{
    size_t wanted = (size_t)byte() * (byte() % 8 + 1u);
    *length = wanted < left ? wanted : left;
    uint8_t *block = malloc(*length + 1);
    must(block != NULL);
    memcpy(block, input, *length);
    input += *length, left -= *length;
    return block;
}

#endif
