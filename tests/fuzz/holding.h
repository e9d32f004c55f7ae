/* The calls of include/montebeech.h held against the same calls in plain C, bench/plain.c, on one image. */
#ifndef HOLDING_H
#define HOLDING_H

#include "montebeech.h"
#include "request.h"

#include <inttypes.h>
#include <stdio.h>
#include <stdlib.h>
#include <string.h>

int64_t plain_check(const uint8_t *image, size_t image_len);
int64_t plain_size(const uint8_t *image, size_t image_len, uint64_t file);
int64_t plain_read(const uint8_t *image, size_t image_len, uint64_t file, uint64_t offset, uint8_t *out,
                   size_t out_len);

/* What plain C answers, and the bytes that it reads. */
typedef struct {
    int64_t check, size, read;
    uint8_t bytes[MOST_OUT];
} Answers;

/* No file is longer than MOST_OUT, so a longer buffer gets the same count. */
static size_t out_bytes(const Request *asked)
{
    return asked->out_len < MOST_OUT ? asked->out_len : MOST_OUT;
}

static void answer_plainly(const Request *asked, Answers *wanted)
{
    const uint8_t *image = asked->image;
    size_t len = asked->image_len;
    wanted->check = plain_check(image, len);
    wanted->size = plain_size(image, len, asked->file);
    wanted->read = plain_read(image, len, asked->file, asked->offset, wanted->bytes, out_bytes(asked));
}

static void differ(const char *what, const Request *asked, int64_t wanted, int64_t found)
{
    fprintf(stderr,
            "montebeech: image of %zu bytes, file %" PRIu64 ", offset %" PRIu64 ", buffer of %zu"
            " bytes: %s: expected %" PRId64 ", found %" PRId64 "\n",
            asked->image_len, asked->file, asked->offset, asked->out_len, what, wanted, found);
    abort();
}

static void same(const char *what, const Request *asked, int64_t wanted, int64_t found)
{
    if (wanted != found)
        differ(what, asked, wanted, found);
}

/* The buffer has what plain C read, and after that what it had: all of it after a refusal. */
static void out_holds(const Request *asked, const Answers *wanted, const uint8_t *out, uint8_t fill)
{
    size_t count = wanted->read > 0 ? (size_t)wanted->read : 0;
    for (size_t i = 0; i < count; i++)
        if (out[i] != wanted->bytes[i])
            differ("a byte read", asked, wanted->bytes[i], out[i]);
    for (size_t i = count; i < out_bytes(asked); i++)
        if (out[i] != fill)
            differ("a byte of the buffer after the count", asked, fill, out[i]);
}

/* Asks the library, which is lent the image as a copy at `image` and a buffer at `out`. */
static void hold(const Request *asked, const Answers *wanted, const uint8_t *image, uint8_t *out, size_t out_len,
                 uint8_t fill)
{
    size_t len = asked->image_len;
    if (out_bytes(asked) > 0)
        memset(out, fill, out_bytes(asked));
    same("check", asked, wanted->check, montebeech_check(image, len));
    same("size", asked, wanted->size, montebeech_size(image, len, asked->file));
    same("read", asked, wanted->read, montebeech_read(image, len, asked->file, asked->offset, out, out_len));
    out_holds(asked, wanted, out, fill);
}

#endif
