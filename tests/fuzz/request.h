/*
 * An input of the fuzzer: 16 bytes that say what is asked of the calls, then the image.
 *
 * Byte 0 chooses the file, byte 1 the offset, byte 2 the length of the buffer: below 128 a number of the table, else
 * the one that is given. Given are the file in byte 3, the length in bytes 4 and 5, the offset in bytes 8 to 15.
 */
#ifndef REQUEST_H
#define REQUEST_H

#include <stddef.h>
#include <stdint.h>

enum { REQUEST_BYTES = 16, MOST_OUT = 32768 + 100 };
enum { FILE_CHOICE = 0, OFFSET_CHOICE = 1, LENGTH_CHOICE = 2, FILE_GIVEN = 3, LENGTH_GIVEN = 4, OFFSET_GIVEN = 8 };
enum { GIVEN = 128 };

#define LONG_OUT ((size_t)1 << 32) /* what a longer buffer becomes: there is no memory for more */
#define COUNT(list) (sizeof(list) / sizeof *(list))

/* Numbers at which an answer may change. */
static const uint64_t bounds[] = {
    0, 1, 2, 7, 8, 9, 31, 32, 63, 64, 65, 511, 512, 513, 4095, 4096, 4097, 32767, 32768, 32769, 65535, 65536,
    UINT32_MAX, (uint64_t)1 << 32, ((uint64_t)1 << 32) + 1, ((uint64_t)1 << 61) + 1, INT64_MAX, (uint64_t)1 << 63,
    UINT64_MAX - 1, UINT64_MAX,
};

typedef struct {
    uint64_t file, offset;
    size_t out_len;
    const uint8_t *image;
    size_t image_len;
} Request;

static inline uint64_t load_word(const uint8_t *p)
{
    uint64_t word = 0;
    for (unsigned i = 0; i < 8; i++)
        word |= (uint64_t)p[i] << (8 * i);
    return word;
}

static inline uint64_t chosen(uint8_t choice, uint64_t given)
{
    return choice < GIVEN ? bounds[choice % COUNT(bounds)] : given;
}

/* Takes an input of at least REQUEST_BYTES apart. */
static inline Request request_of(const uint8_t *input, size_t len)
{
    uint64_t given = input[LENGTH_GIVEN] | (uint64_t)input[LENGTH_GIVEN + 1] << 8;
    uint64_t out_len = chosen(input[LENGTH_CHOICE], given % (MOST_OUT + 1));
    return (Request){
        .file = chosen(input[FILE_CHOICE], input[FILE_GIVEN]),
        .offset = chosen(input[OFFSET_CHOICE], load_word(input + OFFSET_GIVEN)),
        .out_len = out_len > MOST_OUT ? LONG_OUT : (size_t)out_len,
        .image = input + REQUEST_BYTES,
        .image_len = len - REQUEST_BYTES,
    };
}

#endif
