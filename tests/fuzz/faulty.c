/*
 * montebeech_read with one fault, chosen by FAULT, around the library's own, which tests/fuzz/faults renames to
 * sound_read. The fuzzer must find each.
 */
#include "montebeech.h"

enum {
    READS_PAST_THE_IMAGE = 1,
    READS_BEFORE_THE_IMAGE,
    STORES_AFTER_THE_COUNT,
    STORES_AFTER_THE_BUFFER,
    STORES_TO_THE_IMAGE,
    STORES_AND_REFUSES,
    COUNTS_ONE_TOO_FEW,
    REFUSES_BY_ANOTHER_NUMBER,
    DECIDES_BY_UNSET_MEMORY,
};

int64_t sound_read(const uint8_t *image, size_t image_len, uint64_t file, uint64_t offset, uint8_t *out,
                   size_t out_len);

/* Whether the fault shows itself: not at every call, so that it has to be met. */
static int shows(int64_t answer, size_t out_len)
{
    if (FAULT == STORES_AND_REFUSES || FAULT == REFUSES_BY_ANOTHER_NUMBER)
        return answer == -MONTEBEECH_DAMAGED && out_len > 0;
    return answer > 9 && (size_t)answer < out_len;
}

static int64_t with_fault(const uint8_t *image, size_t image_len, int64_t answer, uint8_t *out, size_t out_len)
{
    volatile uint8_t unset[64], seen = 0;
    switch (FAULT) {
    case READS_PAST_THE_IMAGE:
        seen = image[image_len];
        break;
    case READS_BEFORE_THE_IMAGE:
        seen = image[-1];
        break;
    case STORES_AFTER_THE_COUNT:
        out[answer] ^= 1;
        break;
    case STORES_AFTER_THE_BUFFER:
        out[out_len] = 0;
        break;
    case STORES_TO_THE_IMAGE:
        ((volatile uint8_t *)(uintptr_t)image)[64] = image[64];
        break;
    case STORES_AND_REFUSES:
        out[0] ^= 1;
        break;
    case COUNTS_ONE_TOO_FEW:
        return answer - 1;
    case REFUSES_BY_ANOTHER_NUMBER:
        return -MONTEBEECH_TRAILER;
    case DECIDES_BY_UNSET_MEMORY:
        if (unset[out_len % 64] == 99)
            seen = 1;
        break;
    }
    (void)seen;
    return answer;
}

int64_t montebeech_read(const uint8_t *image, size_t image_len, uint64_t file, uint64_t offset, uint8_t *out,
                        size_t out_len)
{
    int64_t answer = sound_read(image, image_len, file, offset, out, out_len);
    return shows(answer, out_len) ? with_fault(image, image_len, answer, out, out_len) : answer;
}
