/*
 * Makes the calls that vectors.py sends on standard input, and prints what they answer and leave, a line for each.
 *
 *   I length bytes                  an image, for the calls that follow
 *   C                               check
 *   S file                          size
 *   R file offset length fill       read into a buffer of that length, each byte of which holds `fill`
 *
 * A letter is one byte; bytes are as they are; each number has eight bytes, the lowest first.
 */
#define PROGRAM "vectors"
#include "montebeech.h"
#include "sent.h"

#include <inttypes.h>

static uint8_t *image;
static size_t image_len;

static int64_t read_image(uint64_t file, uint64_t offset, uint8_t *out, size_t out_len)
{
    return montebeech_read(image, image_len, file, offset, out, out_len);
}

int main(void)
{
    for (int letter; (letter = getchar()) != EOF;) {
        switch (letter) {
        case 'I':
            free(image);
            image_len = get_number();
            image = buffer(image_len);
            get(image, image_len);
            break;
        case 'C':
            printf("check %" PRId64 "\n", montebeech_check(image, image_len));
            break;
        case 'S':
            printf("size %" PRId64 "\n", montebeech_size(image, image_len, get_number()));
            break;
        case 'R':
            read_call(read_image);
            break;
        default:
            stop("a letter that is none of I, C, S, R");
        }
    }
    free(image);
    return 0;
}
