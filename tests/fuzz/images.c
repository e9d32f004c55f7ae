/*
 * The calls on an image under libFuzzer. This is a differential fuzzer: the library is compiled without
 * instrumentation, so coverage comes from the same calls in plain C, bench/plain.c, which decide the same on the same
 * image, so that an input new to them is a new behaviour of the call. Each input is given to both, and an answer or a
 * buffer that differs aborts.
 *
 * AddressSanitizer does not see into the library either. What the library touches outside the memory that it is lent is
 * caught by guard pages, which cannot be touched: image and buffer are lent once right behind one and once right
 * before one. The library sees the image through a read-only mapping, so a store to it is caught too.
 */
#define _GNU_SOURCE /* memfd_create */
#include "holding.h"

#include <sys/mman.h>
#include <unistd.h>

/* Whole pages. */
enum { IMAGE_ROOM = 2 * 65536, OUT_ROOM = 65536, GUARD = 65536 };

static uint8_t *image_store;      /* the image's memory as the harness writes to it */
static const uint8_t *image_lent; /* the same memory as the library sees it, between guard pages */
static uint8_t *out_lent;         /* the buffer's memory, between guard pages */

/* ---- Guard pages */

static void *mapped(void *at, size_t bytes, int protection, int flags, int memory)
{
    void *found = mmap(at, bytes, protection, flags, memory, 0);
    if (found == MAP_FAILED) {
        perror("memory for the fuzzer");
        exit(2);
    }
    return found;
}

/* Memory between guard pages. Those behind it have the addresses of the rest of a buffer of LONG_OUT bytes. */
static void *between_guards(size_t bytes, int protection, int flags, int memory)
{
    uint8_t *guard = mapped(NULL, GUARD + LONG_OUT + GUARD, PROT_NONE, MAP_PRIVATE | MAP_ANONYMOUS | MAP_NORESERVE, -1);
    return mapped(guard + GUARD, bytes, protection, flags | MAP_FIXED, memory);
}

/* ---- How many images were held, and what was answered, since a run of refusals alone would show little */

static unsigned long images, accepted, refused[MONTEBEECH_FILE_NUMBER + 1];

static void count_image(const Answers *answers)
{
    images++;
    if (answers->read < 0)
        refused[-answers->read]++;
    else
        accepted++;
}

static void print_counts(void)
{
    fprintf(stderr, "held %lu images: read accepted %lu", images, accepted);
    for (unsigned r = 1; r < COUNT(refused); r++)
        fprintf(stderr, ", refused %u %lu times", r, refused[r]);
    fprintf(stderr, "\n");
}

/* ---- The target */

int LLVMFuzzerInitialize(int *argc, char ***argv)
{
    (void)argc, (void)argv;
    int memory = memfd_create("image", 0);
    if (memory < 0 || ftruncate(memory, IMAGE_ROOM) != 0) {
        perror("memory for the image");
        exit(2);
    }
    image_store = mapped(NULL, IMAGE_ROOM, PROT_READ | PROT_WRITE, MAP_SHARED, memory);
    image_lent = between_guards(IMAGE_ROOM, PROT_READ, MAP_SHARED, memory);
    out_lent = between_guards(OUT_ROOM, PROT_READ | PROT_WRITE, MAP_PRIVATE | MAP_ANONYMOUS, -1);
    atexit(print_counts);
    return 0;
}

/* The image at a place of its memory, the buffer at a place of its own. */
static void hold_at(const Request *asked, const Answers *wanted, size_t image_at, size_t out_at, size_t out_len,
                    uint8_t fill)
{
    if (asked->image_len > 0)
        memcpy(image_store + image_at, asked->image, asked->image_len);
    hold(asked, wanted, image_lent + image_at, out_lent + out_at, out_len, fill);
}

int LLVMFuzzerTestOneInput(const uint8_t *data, size_t size)
{
    static Answers wanted;
    if (size < REQUEST_BYTES || size - REQUEST_BYTES > IMAGE_ROOM)
        return 0;
    Request asked = request_of(data, size);
    answer_plainly(&asked, &wanted);
    /* Two fills, since a byte that is read can equal what the buffer held. */
    hold_at(&asked, &wanted, 0, 0, asked.out_len, 0x5a);
    hold_at(&asked, &wanted, IMAGE_ROOM - asked.image_len, OUT_ROOM - out_bytes(&asked), out_bytes(&asked), 0xa5);
    count_image(&wanted);
    return 0;
}
