/*
 * Inputs of the fuzzer once more, for valgrind, which sees the library's own loads and stores: image and buffer are
 * allocated at exactly their lengths, so that a byte used outside them is an error, and comparing what the library
 * answers shows an answer made of memory that was never set. Reads the names of the files, one on each line; prints
 * each before it is tried, then their number.
 */
#include "holding.h"

enum { MOST_INPUT = 4 * 65536 };

static void *allocated(size_t bytes)
{
    void *at = malloc(bytes);
    if (at == NULL && bytes > 0) {
        perror("replay");
        exit(2);
    }
    return at;
}

static size_t read_input(const char *name, uint8_t *input)
{
    FILE *file = fopen(name, "rb");
    if (file == NULL) {
        perror(name);
        exit(2);
    }
    size_t len = fread(input, 1, MOST_INPUT, file);
    fclose(file);
    return len;
}

static void replay(const uint8_t *input, size_t len)
{
    static Answers wanted;
    Request asked = request_of(input, len);
    uint8_t *image = allocated(asked.image_len), *out = allocated(out_bytes(&asked));
    if (asked.image_len > 0)
        memcpy(image, asked.image, asked.image_len);
    answer_plainly(&asked, &wanted);
    hold(&asked, &wanted, image, out, out_bytes(&asked), 0x5a);
    if (asked.image_len > 0 && memcmp(image, asked.image, asked.image_len) != 0)
        differ("the image", &asked, 0, 1);
    free(image);
    free(out);
}

int main(void)
{
    static uint8_t input[MOST_INPUT];
    char name[4096];
    unsigned long number = 0;
    while (fgets(name, sizeof name, stdin) != NULL) {
        name[strcspn(name, "\n")] = '\0';
        printf("%s\n", name);
        fflush(stdout);
        size_t len = read_input(name, input);
        if (len < REQUEST_BYTES)
            continue;
        replay(input, len);
        number++;
    }
    printf("%lu\n", number);
    return 0;
}
